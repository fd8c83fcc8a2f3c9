//! The stored calls for pages: they are what is made here, and reach every answer.

use second::page_calls::{
    answers, read, stored, PageCall, MOST_LEVELS, MOST_PATTERN, MOST_ROOM, MOST_TABLE,
};
use second::pages::{print_pages, PAGE_LENGTH};
use std::collections::BTreeMap;

/// Limits of this repository's own.
const MOST_WORDS: usize = 32_768;
const MOST_BYTES: usize = 700_000;

fn stored_file(path: &str) -> Vec<u8> {
    let path = format!("{}/../{path}", env!("CARGO_MANIFEST_DIR"));
    std::fs::read(path).unwrap()
}

fn stored_calls() -> Vec<u8> {
    stored_file("crates/page_examples/stdin")
}

fn stored_answers() -> Vec<u8> {
    stored_file("crates/page_examples/stdout")
}

/// As the texts are too long to be shown whole.
fn assert_same(stored: &[u8], made: &[u8]) {
    let differing = stored.iter().zip(made).position(|(old, new)| old != new);
    assert_eq!(differing, None);
    assert_eq!(stored.len(), made.len());
}

#[test]
fn stored_calls_are_those_made() {
    assert_same(&stored_calls(), stored().as_bytes());
}

#[test]
fn stored_answers_are_those_of_the_calls() {
    assert_same(&stored_answers(), &answers(&stored_calls()));
}

#[test]
fn calls_are_a_line_each_in_plain_numbers() {
    let text = String::from_utf8(stored_calls()).unwrap();
    assert!(text.split_whitespace().count() <= MOST_WORDS);
    let calls = read(text.as_bytes());
    let lines: Vec<&str> = text.lines().collect();
    assert_eq!(lines.len(), calls.len());
    for (line, call) in lines.iter().zip(&calls) {
        assert_eq!(read(line.as_bytes()), std::slice::from_ref(call));
        for word in line.split(' ') {
            assert_eq!(word.parse::<u16>().unwrap().to_string(), word);
        }
    }
}

#[test]
fn calls_are_within_the_programs_limits() {
    for call in read(&stored_calls()) {
        assert!(call.room <= MOST_ROOM);
        assert!(call.levels.len() <= MOST_LEVELS);
        assert!(call.table_len() <= MOST_TABLE);
        assert!(call.pattern.len() <= MOST_PATTERN);
    }
}

/// The answers of a text of them, which has a page after each 0.
fn numbers(text: &[u8]) -> Vec<usize> {
    assert!(text.len() < MOST_BYTES);
    let mut numbers = Vec::new();
    let mut rest = text;
    while let Some(end) = rest.iter().position(|byte| *byte == b'\n') {
        let line = std::str::from_utf8(&rest[..end]).unwrap();
        let (number, not_zero) = line.split_once(' ').unwrap();
        assert_eq!(not_zero, "0");
        let number = number.parse().unwrap();
        let page = if number == 0 { PAGE_LENGTH } else { 0 };
        rest = &rest[end + 1 + page..];
        numbers.push(number);
    }
    assert!(rest.is_empty());
    numbers
}

/// How many things are wrong with a call, beside the entries.
fn faults(call: &PageCall) -> usize {
    let no_size = [
        !(1..=512).contains(&call.runs),
        !(1..=128).contains(&call.columns),
    ];
    let others = [
        call.table_len() < call.runs.saturating_mul(call.columns),
        call.levels.len() < call.columns,
        call.room < PAGE_LENGTH,
        call.number == 0,
    ];
    no_size.iter().chain(&others).filter(|is| **is).count()
}

#[test]
fn every_answer_is_reached_often() {
    let calls = read(&stored_calls());
    let answers = numbers(&stored_answers());
    assert_eq!(calls.len(), answers.len());
    let mut times: BTreeMap<usize, usize> = BTreeMap::new();
    let mut several = 0;
    for (call, answer) in calls.iter().zip(answers) {
        *times.entry(answer).or_default() += 1;
        several += usize::from(faults(call) > 1);
    }
    assert_eq!(times.keys().copied().collect::<Vec<_>>(), [0, 1, 12, 13]);
    assert!(times.values().all(|&times| times > 40), "{times:?}");
    assert!(several > 40, "{several}");
}

/// The order of the program `pages` in the gate: pages both ways, and levels of two digits.
#[test]
fn stored_pages_are_those_made() {
    let order = stored_file("crates/pages/stdin");
    assert_same(&order, &stored_file("orders/L80_20x4-3x2-51.txt"));
    let pages = stored_file("crates/pages/stdout");
    assert_same(&pages, print_pages(&order, None).as_bytes());
    assert_eq!(pages.len(), 6 * PAGE_LENGTH);
}
