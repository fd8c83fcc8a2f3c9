//! The stored calls for the check of a table: they are what is made here, and reach every answer.

mod common;
use common::*;
use second::checker::{check_list, print_check};
use second::order::read_table;
use second::pair_tables::pair_tables;
use second::table_calls::{answers, numbers as numbers_of, read, stored};
use second::{level_pairs, LevelPair};
use std::collections::{BTreeMap, BTreeSet};

/// A limit of the program that reads them.
const MOST_WORDS: usize = 32_768;

fn stored_file(path: &str) -> String {
    let path = format!("{}/../{path}", env!("CARGO_MANIFEST_DIR"));
    std::fs::read_to_string(path).unwrap()
}

fn stored_calls() -> String {
    stored_file("crates/table_examples/stdin")
}

fn stored_answers() -> String {
    stored_file("crates/table_examples/stdout")
}

/// Line by line, as the texts are too long to be shown whole.
fn assert_same(stored: &str, made: &str) {
    for (index, (old, new)) in stored.split('\n').zip(made.split('\n')).enumerate() {
        assert_eq!(old, new, "line {}", index + 1);
    }
    assert_eq!(stored.len(), made.len());
}

#[test]
fn stored_calls_are_those_made() {
    assert_same(&stored_calls(), &stored());
}

#[test]
fn stored_answers_are_those_of_the_calls() {
    assert_same(&stored_answers(), &answers(stored_calls().as_bytes()));
}

#[test]
fn calls_are_a_line_each_in_plain_numbers() {
    let text = stored_calls();
    assert!(text.split_whitespace().count() <= MOST_WORDS);
    let calls = read(text.as_bytes());
    let lines: Vec<&str> = text.lines().collect();
    assert_eq!(lines.len(), calls.len());
    for (line, call) in lines.iter().zip(&calls) {
        assert_eq!(read(line.as_bytes()), std::slice::from_ref(call));
        for word in line.split(' ') {
            assert_eq!(word.parse::<u16>().unwrap().to_string(), word);
        }
    }
}

/// The nine numbers of each answer, as a reader of the text takes them.
fn numbers_of_answers() -> Vec<[i64; 9]> {
    let number = |word: &str| {
        let number: i64 = word.parse().unwrap();
        assert_eq!(number.to_string(), word);
        number
    };
    let line = |line: &str| {
        let numbers: Vec<i64> = line.split(' ').map(number).collect();
        <[i64; 9]>::try_from(numbers).expect("nine numbers to a line")
    };
    let text = stored_answers();
    assert!(text.ends_with('\n'));
    text.lines().map(line).collect()
}

#[test]
fn answers_are_nine_numbers_each() {
    let calls = read(stored_calls().as_bytes());
    let answers = numbers_of_answers();
    assert_eq!(calls.len(), answers.len());
    for (call, answer) in calls.iter().zip(answers) {
        assert_eq!(numbers_of(&check_list(call)), answer);
    }
}

#[test]
fn every_answer_is_reached_often() {
    let mut times: BTreeMap<i64, usize> = BTreeMap::new();
    for answer in numbers_of_answers() {
        *times.entry(answer[0]).or_default() += 1;
    }
    assert_eq!(Vec::from_iter(times.keys().copied()), [0, 2, 3, 4, 5]);
    assert!(times.values().all(|&times| times >= 15), "{times:?}");
    assert!(times[&5] > 100, "{times:?}");
}

#[test]
fn the_tables_with_names_are_among_them() {
    let answers = numbers_of_answers();
    for (name, wanted) in GAPS {
        assert!(answers.contains(&wanted), "{name}");
    }
}

/// Each with the answer that was counted by hand for it.
#[test]
fn tables_that_show_the_pairs_counted_are_among_them() {
    let calls = read(stored_calls().as_bytes());
    let answers = numbers_of_answers();
    for ((name, table), (_, wanted)) in pair_tables().iter().zip(PAIRS) {
        let list = list_of(table);
        let place = calls.iter().position(|call| *call == list).expect(name);
        assert_eq!(answers[place], wanted, "{name}");
    }
}

/// The pairs counted: those of a pass and of refusal 5 with few columns and with many, the failing pair
/// first, in between and last, and none after the other refusals.
#[test]
fn pairs_counted_of_every_kind_are_among_them() {
    let calls = read(stored_calls().as_bytes());
    let mut times: BTreeMap<&str, usize> = BTreeMap::new();
    let mut passing_columns = BTreeSet::new();
    for (call, answer) in calls.iter().zip(numbers_of_answers()) {
        let [number, _, a, b, .., pairs] = answer;
        assert!((0..=8_128).contains(&pairs));
        if number != 0 && number != 5 {
            assert_eq!(pairs, 0);
            continue;
        }
        let m = i64::from(call[2]);
        if number == 0 {
            assert_eq!(2 * pairs, m * (m - 1));
            passing_columns.insert(m);
            continue;
        }
        assert_eq!(pairs, position_of_pair(m as usize, a as usize, b as usize));
        let place = match (a, b) {
            _ if m == 2 => "the only pair",
            (1, 2) => "the first pair",
            _ if a + 1 == m => "the last pair",
            _ if b == m => "the last with its first column",
            _ if b == a + 1 => "the first with its first column",
            _ => "another pair",
        };
        *times.entry(place).or_default() += 1;
    }
    assert_eq!(Vec::from_iter(passing_columns), [1, 2, 3, 4, 5, 63]);
    assert_eq!(times.len(), 6, "{times:?}");
    assert!(times.values().all(|&times| times >= 3), "{times:?}");
}

/// Short and over, the lowest uneven pair and another, alone and with one as far off of either sign.
#[test]
fn refusal_5_names_every_kind_of_pair() {
    let calls = read(stored_calls().as_bytes());
    let mut times: BTreeMap<(&str, &str), usize> = BTreeMap::new();
    for (call, answer) in calls.iter().zip(numbers_of_answers()) {
        let [5, _, a, b, x, y, _, gap, _] = answer else {
            continue;
        };
        let (table, _) = read_table(call).unwrap();
        let uneven: Vec<LevelPair> = level_pairs(&table, a as usize - 1, b as usize - 1)
            .filter(|pair| pair.gap != 0)
            .collect();
        let lowest = (uneven[0].x as i64, uneven[0].y as i64) == (x, y);
        let with = |gap: i64| uneven.iter().filter(|pair| pair.gap == gap).count();
        let sign = if gap < 0 { "short" } else { "over" };
        let turn = if lowest { "lowest" } else { "not the lowest" };
        let equals = match (with(gap), with(-gap)) {
            (1, 0) => "alone",
            (_, 0) => "equals of one sign",
            _ => "equals of both signs",
        };
        for kind in [turn, equals] {
            *times.entry((sign, kind)).or_default() += 1;
        }
    }
    assert_eq!(times.len(), 10, "{times:?}");
    assert!(times.values().all(|&times| times >= 3), "{times:?}");
}

/// Both sides of each limit of 01 on a table, in lists that are otherwise right or nearly.
#[test]
fn both_sides_of_the_limits_are_among_them() {
    let calls = read(stored_calls().as_bytes());
    let has = |place: usize, number: u16, refused_there: bool| {
        calls.iter().any(|call| {
            let answer = numbers_of(&check_list(call));
            let there = answer[..2] == [2, place as i64];
            call.get(place) == Some(&number) && there == refused_there
        })
    };
    for (place, within, outside) in [
        (0, vec![1], vec![0, 2, 3]),
        (1, vec![1, 512], vec![0, 513]),
        (2, vec![1, 128], vec![0, 129]),
        (3, vec![2, 64], vec![0, 1, 65]),
        (5, vec![2, 64], vec![0, 1, 65]),
    ] {
        for number in within {
            assert!(has(place, number, false), "{number} at {place}");
        }
        for number in outside {
            assert!(has(place, number, true), "{number} at {place}");
        }
    }
}

/// The table of the program `checker` in the gate: a copy of an array with a slip, in which the
/// farthest pair is short and not the lowest uneven one, so that a sign is printed.
#[test]
fn stored_check_is_that_made() {
    let text = stored_file("crates/checker/stdin");
    let printed = stored_file("crates/checker/stdout");
    assert_same(&printed, &print_check(text.as_bytes()));
    assert!(printed.starts_with("refused 5 1 ") && printed.contains("\ngap -"));
    // Of 8 columns 2 and 8 are uneven: 1-2 to 1-8 are 7 pairs, and 2-3 to 2-8 are 6.
    assert!(printed.ends_with("\npairs 13\n"));
    let list = numbers(&text);
    let [_, _, a, b, x, y, _, _, _] = numbers_of(&check_list(&list));
    let (table, _) = read_table(&list).unwrap();
    let uneven = level_pairs(&table, a as usize - 1, b as usize - 1).find(|pair| pair.gap != 0);
    let lowest = uneven.map(|pair| (pair.x as i64, pair.y as i64));
    assert_ne!(lowest, Some((x, y)));
}
