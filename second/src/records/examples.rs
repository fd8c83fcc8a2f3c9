//! The examples of 01, each refusal, orders at both sides of each limit, the spare after each kind of
//! step, the sums and differences that go with each p, where the check of a MERGE ends, which pair refusal
//! 5 names, and CROSS. The orders alone are written here; `plan_text` gives the answers.

mod crossing;
mod gaps;
mod members;
mod short;

use super::Records;
use crate::field::product;
use crate::text::spaced;
use crate::{Lengths, LEAST};
use crossing::crossing;
use gaps::gaps;
use members::members;
use short::*;

const ABOUT: &str =
    "Examples by name, and what the second implementation answers; made in second/ \
    by: cargo run --offline --release --bin example_records";

/// The text of the examples, with a remark before each that names it.
pub fn examples() -> String {
    let mut records = Records::headed(ABOUT);
    put(&mut records, "reading", READING);
    put(&mut records, "reading", &beginnings());
    put(&mut records, "reading", &long_columns());
    put(&mut records, "counted", COUNTED);
    put_buffers(&mut records);
    put(&mut records, "refusals", REFUSALS);
    put(&mut records, "limits", &both_sides());
    put(&mut records, "five kinds", FIVE_KINDS);
    put(&mut records, "spare", SPARE);
    put(&mut records, "spare", &sixteen_steps());
    put(&mut records, "fields", FIELDS);
    put(&mut records, "fields", &products_and_sums());
    put(&mut records, "fields", &no_fields());
    put(&mut records, "members", &members());
    put(&mut records, "gaps", &gaps());
    put(&mut records, "crossing", &crossing());
    put(&mut records, "words", WORDS);
    records.text
}

/// Adds orders of one group, with buffers just long enough.
fn put(records: &mut Records, group: &str, orders: &[(impl AsRef<str>, impl AsRef<str>)]) {
    for (name, order) in orders {
        put_one(records, group, name.as_ref(), order.as_ref(), LEAST);
    }
}

fn put_one(records: &mut Records, group: &str, name: &str, order: &str, lengths: Lengths) {
    records.remark(&format!("{group}: {name}"));
    records.record(order, lengths);
}

/// Question 1. It comes before any look at the list, so that a list that does not read is 1 too.
fn put_buffers(records: &mut Records) {
    let right = "0 1 1 101";
    for (name, order, lengths) in [
        ("run table one byte short", right, [65_535, 128, 65_536]),
        ("level list one byte short", right, [65_536, 127, 65_536]),
        ("scratch one byte short", right, [65_536, 128, 65_535]),
        (
            "buffers of one byte, and a list that does not read",
            "0 1 1",
            [1, 1, 1],
        ),
        ("buffers just long enough", right, LEAST),
        ("buffers longer than that", right, [65_540, 130, 65_538]),
    ] {
        put_one(records, "refusals", name, order, lengths);
    }
}

/// The beginnings of the printed order, but that of no numbers, which is a counted example.
fn beginnings() -> Vec<(String, String)> {
    let words: Vec<&str> = PRINTED.split(' ').collect();
    let beginning = |length: usize| {
        let name = format!("the printed order, cut off at length {length}");
        (name, words[..length].join(" "))
    };
    (1..words.len()).map(beginning).collect()
}

/// A part of an order so many times.
fn times(part: &str, count: usize) -> String {
    vec![part; count].join(" ")
}

/// TAKE of a table of one column with 2 levels.
fn column(rows: usize, entry: impl Fn(usize) -> usize) -> String {
    let entries: Vec<usize> = (0..rows).map(entry).collect();
    format!("1 1 {rows} 1 2 {} 1 1 1", spaced(&entries))
}

/// Tables that read or do not, and are uneven.
fn long_columns() -> Vec<(&'static str, String)> {
    vec![
        ("table of 512 rows", column(512, |_| 0)),
        ("table of 513 rows", column(513, |_| 0)),
    ]
}

fn both_sides() -> Vec<(&'static str, String)> {
    vec![
        ("512 rows", column(512, |run| run % 2)),
        ("513 rows", column(513, |run| run % 2)),
        ("SUM to 512 runs", runs_by_sum(256)),
        ("SUM to 514 runs", runs_by_sum(257)),
        ("SUM to 1024 runs", runs_by_sum(512)),
        ("SUM to 128 columns", columns_by_sum(0)),
        ("SUM to 129 columns", columns_by_sum(1)),
        (
            "SPLIT to 128 columns of 512 runs",
            columns_by_split(0, "1 7"),
        ),
        (
            "SPLIT to 129 columns of 512 runs",
            columns_by_split(6, "1 7"),
        ),
        (
            "SPLIT of 128 columns to as many",
            columns_by_split(6, "2 6"),
        ),
        ("16 steps", steps(16)),
        ("17 steps", steps(17)),
        ("32 ingredients", ingredients(32)),
        ("33 ingredients", ingredients(33)),
        ("32,768 numbers", most_numbers()),
        ("32,769 numbers", most_numbers() + " 0"),
    ]
}

/// SUM makes 2 runs into twice as many as the matrix has rows.
fn runs_by_sum(rows: usize) -> String {
    let entries = times("1", rows);
    format!("2 1 2 1 2 0 1 2 {rows} 1 2 {entries} 2 1 1 3 1 2 0")
}

/// Matrices for 2 levels with as many columns as rows.
const FOUR_ROWS: &str = "2 4 4 2 0 0 0 0 0 1 0 1 0 0 1 1 0 1 1 0";
const TWO_ROWS: &str = "2 2 2 2 0 0 0 1";

/// From a column of 2 runs by SUM to 4, 16, 64 and 128 columns; k has one column more, if it is
/// not 0.
fn columns_by_sum(k: usize) -> String {
    let sums = times("3 1 2 0", 3);
    format!("3 1 2 1 2 0 1 {FOUR_ROWS} {TWO_ROWS} 5 1 1 {sums} 3 1 3 {k}")
}

/// From 4 runs of one column with 4 levels by SUM to 256 runs of that column and 63 columns with 2
/// levels, and then to 512 runs of 126 or, with a k, 127 such columns beside the first. Last comes
/// SPLIT: table 7 gives two columns for one of 4 levels, table 6 one for one of 2 levels.
fn columns_by_split(k: usize, column_and_table: &str) -> String {
    let four_levels = "1 4 1 4 0 1 2 3";
    let matrices = format!("{FOUR_ROWS} 2 4 1 4 0 1 2 3 {TWO_ROWS} 2 2 1 4 0 2");
    let tables = "1 2 1 2 0 1 1 4 2 2 2 0 0 0 1 1 0 1 1";
    let sums = times("3 2 2 3 101", 3);
    format!("7 {four_levels} {matrices} {tables} 6 1 1 {sums} 3 2 4 5 {k} 5 {column_and_table}")
}

/// TAKE, and then SPLIT of a column by the table of one column whose runs are 1 and 0, so that an
/// odd number of them turns the column.
fn steps(count: usize) -> String {
    let splits = times("5 1 1", count - 1);
    format!("1 1 2 1 2 1 0 {count} 1 101 {splits}")
}

/// As many steps as an order may have, for a spare that is kept from step to step.
fn sixteen_steps() -> Vec<(&'static str, String)> {
    vec![
        ("16 steps, spare 4 after each", constant_spare()),
        ("16 steps, spare 0 to 8 by five of them", rising_spare()),
    ]
}

/// TAKE of 101 with each run twice; MERGE of its columns and SPLIT by 101 in turn.
fn constant_spare() -> String {
    let table = format!("1 8 3 2 2 2 {}", times("0 0 0 0 1 1 1 0 1 1 1 0", 2));
    let merge = "4 2 1 2 3";
    let both = times(&format!("{merge} 5 1 101"), 7);
    format!("1 {table} 16 1 1 {both} {merge}")
}

/// FIELD to five columns with 4 levels. Each of them has SPLIT by 101, MERGE of the three columns
/// to one again, and SPLIT by table 2, of one column, or by table 3, of two. Those have the spares
/// 2 and 1.
fn rising_spare() -> String {
    let generator = "3 2 5 4 1 1 1 1 1 1 0 1 1 1 0 1 1 2 3";
    let tables = "1 4 1 2 0 0 1 1 1 4 2 2 2 0 0 0 1 1 0 1 1";
    let mut steps = "2 1".to_string();
    let mut c = 1;
    for (table, columns) in [(2, 1), (3, 2), (2, 1), (3, 2), (2, 1)] {
        steps += &format!(" 5 {c} 101 4 2 {c} {} {} 5 {c} {table}", c + 1, c + 2);
        c += columns;
    }
    format!("3 {generator} {tables} 16 {steps}")
}

/// A table of one column with each of p levels once.
fn each_level(p: usize) -> String {
    format!("1 {p} 1 {p} {}", spaced(&Vec::from_iter(0..p)))
}

/// The products of a field as a matrix, and all sums of two numbers below p, of which those below 4
/// are among the short orders; 02, K2.
fn products_and_sums() -> Vec<(String, String)> {
    let mut orders = Vec::new();
    for p in [8, 9] {
        let entries: Vec<usize> = (0..p * p).map(|n| product(p, n / p, n % p)).collect();
        orders.push((
            format!("p = {p}, the products of GF({p})"),
            format!(
                "2 {} 2 {p} {p} {p} {} 2 1 1 3 1 2 1",
                each_level(p),
                spaced(&entries)
            ),
        ));
    }
    for p in [8, 9, 16] {
        let column = spaced(&Vec::from_iter(0..p));
        orders.push((
            format!("p = {p}, all sums"),
            format!("2 {} 2 {p} 1 {p} {column} 2 1 1 3 1 2 0", each_level(p)),
        ));
    }
    orders
}

/// The other powers of a prime q stay modulo p. Rows 0 y for each y but 1, and a row in its place whose
/// difference is that of 0 and 1, in one case modulo p and in the other digit by digit in base q.
fn no_fields() -> Vec<(String, String)> {
    let mut orders = Vec::new();
    for (p, q) in [(16, 2), (25, 5), (27, 3), (32, 2), (49, 7), (64, 2)] {
        let matrix = |in_place: &str| {
            let rows: Vec<String> = (2..p).map(|y| format!("0 {y}")).collect();
            let rows = rows.join(" ");
            format!("1 2 {p} 2 {p} 0 0 {in_place} {rows} 1 1 101")
        };
        orders.push((
            format!("p = {p}, even modulo {p} alone"),
            matrix(&format!("{} {q}", q - 1)),
        ));
        orders.push((
            format!("p = {p}, even digit by digit alone"),
            matrix(&format!("{} 0", q - 1)),
        ));
        let last = p - 1;
        orders.push((
            format!("p = {p}, plus 1 and plus {last}"),
            format!("2 {} 2 2 1 {p} 1 {last} 2 1 1 3 1 2 0", each_level(p)),
        ));
    }
    orders
}

/// Tables of two runs, and TAKE of the 32nd.
fn ingredients(count: usize) -> String {
    let tables = times("1 2 1 2 0 1", count);
    format!("{count} {tables} 1 1 32")
}

/// TAKE of a table of 512 rows and 63 columns, and a matrix of 438 rows to make up 32,768 numbers.
/// Column c from 1 has the parity of the ones that c and the run's number have in common.
fn most_numbers() -> String {
    let levels = times("2", 63);
    let mut entries = Vec::new();
    for run in 0..512u32 {
        entries.extend((1..64).map(|column| (run & column).count_ones() % 2));
    }
    let matrix = times("0", 438);
    let entries = spaced(&entries);
    format!("2 1 512 63 {levels} {entries} 2 438 1 2 {matrix} 1 1 1")
}
