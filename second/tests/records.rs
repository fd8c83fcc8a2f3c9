//! The stored texts of records: they are what is made here, and they are well formed.

mod common;
use common::GAPS;
use second::maker::MOST;
use second::order::{self, Ingredient, Step};
use second::{level_pairs, plan_text, print, records, scan, Lengths, LevelPair, LEAST};
use std::collections::{BTreeMap, BTreeSet};
use std::path::Path;

/// A limit of this repository's own: the comparing program reads texts of any length.
const MOST_BYTES: usize = 2_000_000;

fn stored(program: &str) -> String {
    let path = format!("{}/../crates/{program}/stdin", env!("CARGO_MANIFEST_DIR"));
    std::fs::read_to_string(path).unwrap()
}

/// Compares line by line, as the texts are too long to be shown whole.
fn assert_same(stored: &str, made: &str) {
    for (index, (old, new)) in stored.split('\n').zip(made.split('\n')).enumerate() {
        assert_eq!(old, new, "line {}", index + 1);
    }
    assert_eq!(stored.len(), made.len());
}

#[test]
fn stored_vectors_are_those_made() {
    assert_same(&stored("vectors"), &records::vectors(|_, _| {}));
}

#[test]
fn stored_examples_are_those_made() {
    assert_same(&stored("examples"), &records::examples());
}

#[test]
fn stored_catalogue_is_that_made() {
    let orders = format!("{}/../orders", env!("CARGO_MANIFEST_DIR"));
    assert_same(
        &stored("catalogue"),
        &records::catalogue(Path::new(&orders)).unwrap(),
    );
}

/// A record as it stands in a text, and the remark before it, if there is one.
struct Record<'a> {
    name: Option<&'a str>,
    lengths: Lengths,
    order: &'a str,
    answer: Vec<&'a str>,
}

/// The records that stand after the remark on the first line.
fn read(text: &str) -> Vec<Record<'_>> {
    assert!(text.is_ascii() && text.len() < MOST_BYTES);
    assert!(text.starts_with("# ") && text.ends_with("\n;\n"));
    let mut lines = text.split_terminator('\n').skip(1);
    let mut records = Vec::new();
    let mut name = None;
    let mut lengths = LEAST;
    while let Some(line) = lines.next() {
        if let Some(words) = line.strip_prefix("# ") {
            assert_eq!(name.replace(words), None, "two remarks: {words}");
        } else if let Some(words) = line.strip_prefix("@ ") {
            lengths = lengths_of(&numbers(words));
        } else {
            records.push(Record {
                name: name.take(),
                lengths,
                order: line.strip_suffix(" =").expect(line),
                answer: lines.by_ref().take_while(|line| *line != ";").collect(),
            });
        }
    }
    records
}

/// Decimal numbers without leading zeros, single spaces between.
fn numbers(line: &str) -> Vec<usize> {
    let number = |word: &str| {
        let value: usize = word.parse().expect(line);
        assert_eq!(value.to_string(), word);
        value
    };
    line.split(' ').map(number).collect()
}

fn lengths_of(halves: &[usize]) -> Lengths {
    assert_eq!(halves.len(), 6);
    assert!(halves.iter().all(|half| *half < 65_536));
    let lengths = [0, 2, 4].map(|half| 65_536 * halves[half] + halves[half + 1]);
    assert!((0..3).all(|buffer| lengths[buffer] <= MOST[buffer]));
    lengths
}

fn assert_printed(answer: &[&str]) {
    let Some(refusal) = answer[0].strip_prefix("refused ") else {
        return assert_filled(answer);
    };
    assert_eq!(answer.len(), 1);
    let refusal = numbers(refusal);
    assert_eq!(refusal.len(), 7);
    assert!((1..=11).contains(&refusal[0]) || refusal[0] == 14);
}

fn assert_filled(answer: &[&str]) {
    let header = numbers(answer[0]);
    let levels = numbers(answer[1]);
    let runs = answer.len() - 2;
    let held: usize = levels.iter().map(|level| level - 1).sum();
    assert_eq!(header, [runs, levels.len(), runs - 1 - held]);
    for run in &answer[2..] {
        let run = numbers(run);
        assert_eq!(run.len(), levels.len());
        assert!(run.iter().zip(&levels).all(|(cell, level)| cell < level));
    }
}

/// Where a record's lengths are not those of the record before it.
fn changes_of_lengths(records: &[Record]) -> usize {
    let mut before = LEAST;
    let mut changes = 0;
    for record in records {
        changes += usize::from(record.lengths != before);
        before = record.lengths;
    }
    changes
}

fn assert_well_formed(text: &str) {
    let records = read(text);
    for record in &records {
        assert_printed(&record.answer);
    }
    let lines = text.lines().filter(|line| line.starts_with('@'));
    assert_eq!(lines.count(), changes_of_lengths(&records));
}

#[test]
fn texts_are_well_formed() {
    assert_well_formed(&stored("vectors"));
    assert_well_formed(&stored("examples"));
}

/// The stored texts as another program reads them: order and lengths give the answer.
fn assert_answers(text: &str) {
    for record in read(text) {
        let answer = plan_text(record.order.as_bytes(), record.lengths);
        let printed = record.answer.join("\n") + "\n";
        assert_eq!(print(&answer), printed, "{}", record.order);
    }
}

#[test]
fn answers_are_those_of_the_orders() {
    assert_answers(&stored("vectors"));
    assert_answers(&stored("examples"));
}

#[test]
fn vectors_are_numbers_alone() {
    let text = stored("vectors");
    for record in read(&text) {
        assert_eq!(record.name, None);
        // An order of no numbers has no words either.
        if !record.order.is_empty() {
            numbers(record.order);
        }
    }
}

#[test]
fn examples_have_names_of_their_own() {
    let text = stored("examples");
    let mut names = BTreeSet::new();
    for record in read(&text) {
        let name = record.name.expect(record.order);
        assert!(names.insert(name), "{name} twice");
    }
}

/// "filled", or "refused" and the number.
fn kind_of_answer(record: &Record) -> String {
    match record.answer[0].strip_prefix("refused ") {
        Some(refusal) => format!("refused {}", numbers(refusal)[0]),
        None => "filled".to_string(),
    }
}

/// Of a filled order.
fn kind_of_spare(record: &Record) -> String {
    match numbers(record.answer[0])[2] {
        0 => "spare 0".to_string(),
        _ => "spare above 0".to_string(),
    }
}

fn order_of(record: &Record) -> order::Order {
    order::read(&scan(record.order.as_bytes()).unwrap()).unwrap()
}

/// The steps of a filled order: the kind of each, FIELD with its s and MERGE with its p. A SUM is there
/// again for each of its matrices with 3 columns or more, with p.
fn kinds_of_steps(order: &order::Order) -> Vec<String> {
    let wide = |d: &usize| match &order.ingredients[d - 1] {
        Ingredient::Matrix(matrix) if matrix.columns > 2 => Some(format!("SUM {}", matrix.p)),
        _ => None,
    };
    let kinds = |step: &Step| match step {
        Step::Take { .. } => vec!["TAKE".to_string()],
        Step::Field { generator } => match &order.ingredients[generator - 1] {
            Ingredient::Generator(generator) => vec![format!("FIELD {}", generator.s)],
            other => panic!("{other:?}"),
        },
        Step::Sum { matrices, .. } => {
            let wide = matrices.iter().filter_map(wide);
            ["SUM".to_string()].into_iter().chain(wide).collect()
        }
        Step::Cross { k: 0, .. } => vec!["CROSS without k".to_string()],
        Step::Cross { .. } => vec!["CROSS with k".to_string()],
        Step::Merge { p, .. } => vec![format!("MERGE {p}")],
        Step::Split { .. } => vec!["SPLIT".to_string()],
    };
    order.steps.iter().flat_map(kinds).collect()
}

/// Of an order that is refused as 6: the p of the matrix.
fn kind_of_matrix(record: &Record) -> String {
    let refusal = numbers(record.answer[0].strip_prefix("refused ").unwrap());
    match &order_of(record).ingredients[refusal[1] - 1] {
        Ingredient::Matrix(matrix) => format!("refused 6 with p = {}", matrix.p),
        other => panic!("{other:?}"),
    }
}

/// Of an order that is refused as 5: whether the pair is short or over, whether it is the lowest
/// uneven one of its columns, and whether another is as far off.
fn kinds_of_pair(record: &Record) -> Vec<String> {
    let refusal = numbers(record.answer[0].strip_prefix("refused ").unwrap());
    let &[_, i, a, b, x, y, _] = refusal.as_slice() else {
        panic!("{refusal:?}")
    };
    let Ingredient::Table(table) = &order_of(record).ingredients[i - 1] else {
        panic!("{}", record.order)
    };
    let uneven: Vec<LevelPair> = level_pairs(table, a - 1, b - 1)
        .filter(|pair| pair.gap != 0)
        .collect();
    let is_named = |pair: &LevelPair| (pair.x, pair.y) == (x, y);
    let named = uneven.iter().position(is_named).unwrap();
    let gap = uneven[named].gap;
    let others = |gap: i64| uneven.iter().filter(|pair| pair.gap == gap).count();
    let sign = if gap < 0 { "short" } else { "over" };
    let turn = if named == 0 { "lowest" } else { "not lowest" };
    let equals = match (others(gap), others(-gap)) {
        (1, 0) => "alone",
        (_, 0) => "equals of one sign",
        _ => "equals of both signs",
    };
    let mut kinds = vec![format!("5 {sign} {turn}"), format!("5 {sign} {equals}")];
    if (a, b) != (1, 2) {
        kinds.push("5 not of columns 1 and 2".to_string());
    }
    if refusal[6] == 0 {
        kinds.push("5 times 0".to_string());
    }
    kinds
}

/// Of an order that is refused as 8, 9, 11 or 14 at a CROSS: the number, and for 14 where it is not the
/// lowest of all, and p.
fn kinds_at_cross(record: &Record) -> Vec<String> {
    let Some(refusal) = record.answer[0].strip_prefix("refused ").map(numbers) else {
        return vec![];
    };
    let &[number, step, ingredient, column, value, ..] = refusal.as_slice() else {
        panic!("{refusal:?}")
    };
    if ![8, 9, 11, 14].contains(&number) {
        return vec![];
    }
    let order = order_of(record);
    let Step::Cross { matrices, .. } = &order.steps[step - 1] else {
        return vec![];
    };
    let mut kinds = vec![format!("{number} at CROSS")];
    if number == 14 {
        match &order.ingredients[ingredient - 1] {
            Ingredient::Matrix(matrix) => kinds.push(format!("14 with p = {}", matrix.p)),
            other => panic!("{other:?}"),
        }
        if matrices[0] != ingredient {
            kinds.push("14 not of the list's first".to_string());
        }
        if column > 1 {
            kinds.push("14 not of column 1".to_string());
        }
        if value > 0 {
            kinds.push("14 not of value 0".to_string());
        }
    }
    kinds
}

fn refusals() -> impl Iterator<Item = String> {
    (1..=11)
        .chain([14])
        .map(|number| format!("refused {number}"))
}

#[test]
fn examples_reach_every_refusal() {
    let text = stored("examples");
    let kinds: Vec<String> = read(&text).iter().map(kind_of_answer).collect();
    for refusal in refusals() {
        assert!(kinds.contains(&refusal), "{refusal}");
    }
}

/// The orders are made of runs that are wrong in a way; the names say which, and the answers must too.
#[test]
fn merges_are_answered_as_their_names_say() {
    let text = stored("examples");
    let records = read(&text);
    let answer = |name: String| {
        let named = |record: &&Record| record.name == Some(&format!("members: {name}"));
        records.iter().find(named).expect(&name).answer[0]
    };
    let refused_at = |run: usize, member: usize| format!("refused 10 2 {run} {member} 0 0 0");
    for p in [2, 3, 5, 7] {
        let (n, wrong, last) = (2 * p * p, 2 * p, p + 1);
        assert_eq!(
            answer(format!("p = {p}, wrong in none of {n} runs")),
            format!("{n} 1 {}", n - p * p)
        );
        assert_eq!(
            answer(format!("p = {p}, wrong in the first {wrong} of {n} runs")),
            refused_at(0, last)
        );
        assert_eq!(
            answer(format!("p = {p}, wrong in the last {wrong} of {n} runs")),
            refused_at(n - wrong, last)
        );
    }
    for (p, member, run) in [(3, 3, 9), (5, 4, 25), (7, 5, 49)] {
        let last = p + 1;
        assert_eq!(
            answer(format!(
                "p = {p}, members {member} and {last} wrong in run {run}"
            )),
            refused_at(run, member)
        );
    }
    for (p, lower, higher) in [(3, 3, 9), (5, 15, 25), (7, 35, 49)] {
        let last = p + 1;
        assert_eq!(
            answer(format!(
                "p = {p}, member {last} wrong in run {lower}, member 3 in run {higher}"
            )),
            refused_at(lower, last)
        );
    }
}

/// Each table is the only ingredient, or the last of three.
#[test]
fn uneven_tables_are_answered_as_they_are_checked() {
    let text = stored("examples");
    let records = read(&text);
    let answer = |name: &str| {
        let named = |record: &&Record| record.name == Some(&format!("gaps: {name}"));
        records.iter().find(named).expect(name).answer[0]
    };
    for (name, [number, details @ .., _gap, _pairs]) in GAPS {
        let details: Vec<String> = details.iter().map(i64::to_string).collect();
        let refused = format!("refused {number} {}", details.join(" "));
        assert_eq!(answer(name), refused, "{name}");
    }
    assert_eq!(
        answer("2 runs, equal columns, as ingredient 3"),
        "refused 5 3 1 2 0 0 1"
    );
    assert_eq!(
        answer("512 runs of 63 columns, the last two equal"),
        "refused 5 1 62 63 0 0 256"
    );
}

#[test]
fn vectors_reach_everything_often() {
    let text = stored("vectors");
    let vectors = read(&text);
    let mut times: BTreeMap<String, usize> = BTreeMap::new();
    for record in &vectors {
        let kind = kind_of_answer(record);
        if kind == "filled" {
            *times.entry(kind_of_spare(record)).or_default() += 1;
            for step in kinds_of_steps(&order_of(record)) {
                *times.entry(step).or_default() += 1;
            }
        }
        for kind in kinds_at_cross(record) {
            *times.entry(kind).or_default() += 1;
        }
        if kind == "refused 5" {
            for kind in kinds_of_pair(record) {
                *times.entry(kind).or_default() += 1;
            }
        }
        if kind == "refused 6" {
            *times.entry(kind_of_matrix(record)).or_default() += 1;
        }
        *times.entry(kind).or_default() += 1;
    }

    let others = [
        "TAKE",
        "SUM",
        "SPLIT",
        "CROSS without k",
        "spare 0",
        "spare above 0",
        "8 at CROSS",
        "9 at CROSS",
    ];
    let mut wanted: Vec<String> = others.map(str::to_string).to_vec();
    wanted.extend(refusals());
    wanted.extend([2, 3, 4, 5, 7, 8, 9].map(|s| format!("FIELD {s}")));
    wanted.extend([2, 3, 5, 7].map(|p| format!("MERGE {p}")));
    wanted.extend([4, 8, 9].map(|p| format!("SUM {p}")));
    for sign in ["short", "over"] {
        wanted.push(format!("5 {sign} lowest"));
        wanted.push(format!("5 {sign} not lowest"));
        wanted.push(format!("5 {sign} equals of both signs"));
    }
    wanted.push("5 not of columns 1 and 2".to_string());
    wanted.push("5 times 0".to_string());
    for kind in wanted {
        assert!(times.get(&kind) > Some(&40), "{kind}: {times:?}");
    }
    let alone = ["short", "over"].map(|sign| format!("5 {sign} alone"));
    let with_p = [4, 8, 9].map(|p| format!("refused 6 with p = {p}"));
    let at_cross = [
        "CROSS with k",
        "14 not of the list's first",
        "14 not of column 1",
        "14 not of value 0",
        "14 with p = 2",
        "14 with p = 3",
        "14 with p = 4",
    ]
    .map(str::to_string);
    for kind in alone.iter().chain(&with_p).chain(&at_cross) {
        assert!(times.get(kind) > Some(&10), "{kind}: {times:?}");
    }
    assert!(vectors.len() > 2_000);
    assert!(times["filled"] > vectors.len() / 4);
}
