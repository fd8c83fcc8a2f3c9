//! Calls at both sides of each limit of a table, each refusal, the tables that show which pair refusal 5
//! names, and those that show how many pairs of columns are counted.

use crate::gap_tables::gap_tables;
use crate::maker::{plain, table_numbers};
use crate::order::Table;
use crate::pair_tables::pair_tables;

/// All examples, in the order in which they are stored.
pub fn examples() -> Vec<Vec<u16>> {
    [
        passing_tables(),
        uneven_columns(),
        listed(gap_tables().into_iter().map(|(_, table)| table)),
        kinds(),
        rows_at_their_limits(),
        columns_at_their_limits(),
        levels_at_their_limits(),
        lengths(),
        entries_at_their_levels(),
        turn_of_refusals(),
        listed(pair_tables().into_iter().map(|(_, table)| table)),
    ]
    .concat()
}

/// The lists that write tables.
fn listed(tables: impl IntoIterator<Item = Table>) -> Vec<Vec<u16>> {
    let tables = tables.into_iter();
    tables.map(|table| plain(&table_numbers(&table))).collect()
}

/// A table from its level counts and its runs, all written as digits.
fn of_digits(levels: &str, runs: &str) -> Table {
    let digits = |word: &str| word.bytes().map(|byte| usize::from(byte - b'0')).collect();
    Table {
        levels: digits(levels),
        runs: runs.split(' ').map(digits).collect(),
    }
}

/// The list of a table of one column in which the levels follow one another.
fn column(rows: u16, level: u16) -> Vec<u16> {
    let mut list = vec![1, rows, 1, level];
    list.extend((0..rows).map(|run| run % level));
    list
}

/// House tables of 01, one column, and 64 levels.
fn passing_tables() -> Vec<Vec<u16>> {
    let mut calls = listed([
        of_digits("222", "000 011 101 110"),
        of_digits("3333", "0000 0111 0222 1012 1120 1201 2021 2102 2210"),
        of_digits(
            "32222",
            "00000 01110 00101 01011 10001 11100 10110 11011 20010 21101 20111 21000",
        ),
        of_digits("622", "000 011 101 110 200 211 301 310 400 411 501 510"),
        of_digits("2", "1 0"),
    ]);
    calls.push(column(64, 64));
    calls
}

/// Refused as 4, with a gap of 0 whatever the pairs are.
fn uneven_columns() -> Vec<Vec<u16>> {
    let mut calls = listed([
        of_digits("22", "00 01 10 10"),
        of_digits("2", "0"),
        of_digits("2", "0 1 1"),
        of_digits("3", "2 1 2 0 2 2"),
        // Columns 1 and 2 are equal, and column 2 is uneven.
        of_digits("22", "00 00 11"),
        // Neither the first column nor the first level.
        of_digits("24", "00 01 02 03 10 11 12 12"),
    ]);
    calls.push(vec![1, 1, 1, 64, 63]);
    calls
}

fn kinds() -> Vec<Vec<u16>> {
    vec![
        vec![0, 2, 1, 2, 0, 1],
        vec![1, 2, 1, 2, 0, 1],
        // A matrix and a generator that would pass in an order.
        vec![2, 2, 1, 2, 0, 1],
        vec![3, 1, 1, 2, 1, 1],
        vec![4, 2, 1, 2, 0, 1],
        vec![257, 2, 1, 2, 0, 1],
        vec![65_535, 2, 1, 2, 0, 1],
        vec![2],
        // An order with the table for its one ingredient.
        vec![1, 1, 2, 1, 2, 0, 1, 1, 1, 1],
    ]
}

/// Whole tables, so that one of 0 or 513 rows that is read nevertheless is seen.
fn rows_at_their_limits() -> Vec<Vec<u16>> {
    let mut calls = vec![vec![1, 0, 1, 2]];
    calls.extend([1, 2, 511, 512, 513].map(|rows| column(rows, 2)));
    calls.push(vec![1, 65_535, 1, 2, 0, 1]);
    calls
}

fn columns_at_their_limits() -> Vec<Vec<u16>> {
    let zeros_and_ones = |columns: u16| {
        let count = usize::from(columns);
        let mut list = vec![1, 2, columns];
        list.extend(vec![2; count]);
        list.extend(vec![0; count]);
        list.extend(vec![1; count]);
        list
    };
    let mut calls = vec![vec![1, 2, 0]];
    calls.extend([1, 2, 127, 128, 129].map(zeros_and_ones));
    calls.push(vec![1, 2, 65_535, 2, 0, 1]);
    calls
}

/// Of the first, the middle and the last of three columns, the others having 3 levels, and all entries
/// 0.
fn levels_at_their_limits() -> Vec<Vec<u16>> {
    let mut calls = Vec::new();
    for place in 0..3 {
        for level in [0, 1, 2, 64, 65, 65_535] {
            let mut levels = [3; 3];
            levels[place] = level;
            calls.push([vec![1, 2, 3], levels.to_vec(), vec![0; 6]].concat());
        }
    }
    calls
}

/// A table cut off at every length, and with numbers left over.
fn lengths() -> Vec<Vec<u16>> {
    let whole = plain(&table_numbers(&of_digits("32", "00 01 10 11 20 21")));
    let mut calls: Vec<Vec<u16>> = (0..=whole.len())
        .map(|length| whole[..length].to_vec())
        .collect();
    for left_over in [vec![0], vec![1], vec![65_535], vec![1, 2, 1, 2, 0, 1]] {
        calls.push([whole.clone(), left_over].concat());
    }
    calls
}

fn entries_at_their_levels() -> Vec<Vec<u16>> {
    let right = plain(&table_numbers(&of_digits("32", "00 01 10 11 20 21")));
    let with = |place: usize, entry: u16| {
        let mut list = right.clone();
        list[place] = entry;
        list
    };
    vec![
        // The first entry, one in the middle, and the last.
        with(5, 3),
        with(5, 65_535),
        with(10, 2),
        with(16, 2),
        with(16, 256),
        // Below the level count of the other column.
        with(6, 2),
        // Below its own, and so refused as 4.
        with(5, 2),
    ]
}

/// Of two faults, the one that is asked for first.
fn turn_of_refusals() -> Vec<Vec<u16>> {
    vec![
        // A level count out of its limits before a list that runs out.
        vec![1, 4, 2, 2, 1],
        vec![1, 4, 2, 65, 1],
        // A list that runs out, or has a number left over, before an entry out of range.
        vec![1, 2, 1, 2, 9],
        vec![1, 2, 1, 2, 9, 9, 0],
        // Two entries out of range.
        vec![1, 2, 2, 2, 2, 0, 5, 7, 0],
        // An entry out of range before an uneven column.
        vec![1, 4, 1, 2, 0, 0, 0, 2],
        // A number left over before an uneven pair.
        vec![1, 2, 2, 2, 2, 0, 0, 1, 1, 0],
    ]
}
