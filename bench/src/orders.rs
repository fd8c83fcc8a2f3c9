//! The orders that are timed. Most are as large as the limits of 01 let them be.

mod merges;
mod over_fields;

use crate::planners::{plain, Buffers};
pub use merges::{merge_cases, MergeCase};
use over_fields::Sequences;
use second::maker::make;
use second::{plan, Answer, LEAST};

pub const MOST_NUMBERS: usize = 32_768;

/// One order, or several that are timed together.
pub struct Case {
    pub name: String,
    pub lists: Vec<Vec<u16>>,
    /// Whether `fast` is written for it.
    pub fast: bool,
}

impl Case {
    fn of(name: &str, list: Vec<u16>) -> Case {
        Case {
            name: name.to_string(),
            lists: vec![list],
            fast: true,
        }
    }

    /// Of an order of which it is not plain that it is filled.
    fn filled(name: &str, list: Vec<u16>) -> Case {
        let [table_len, levels_len, scratch_len] = LEAST;
        let answer = plan(&list, table_len, levels_len, scratch_len);
        assert!(matches!(answer, Answer::Filled { .. }), "{name}");
        Case::of(name, list)
    }

    fn merge(case: MergeCase) -> Case {
        let numbers = |list: &[u16]| plain(list, &mut Buffers::zeros(LEAST)).numbers;
        assert_eq!(numbers(&case.list), case.answer, "{}", case.name);
        assert_eq!(numbers(&case.wrong_at_once)[..3], [10, 2, 0]);
        Case::of(&case.name, case.list)
    }
}

/// All cases, in the order in which they are printed.
pub fn cases() -> Vec<Case> {
    let mut cases = vec![
        Case::of("table of 512 runs and 63 columns", table_order(512, 63)),
        Case::of("table of 256 runs and 127 columns", table_order(256, 127)),
        Case::of("FIELD to 512 runs and 128 columns", field_order()),
        Case::of("SUM to 512 runs and 128 columns", sum_order()),
        Case::filled("CROSS to 512 runs and 128 columns", cross_order()),
        Case::of("sixteen steps on 512 runs", sixteen_steps()),
        Case::of("sixteen steps on 4 runs", sixteen_small_steps()),
        Case::filled("SUM with p = 4 to 512 runs, 84 columns", sum_of_4()),
        Case::filled("SUM with p = 8 to 512 runs, 18 columns", sum_of_8()),
        Case::filled("SUM with p = 9 to 486 runs, 8 columns", sum_of_9()),
        Case::of("matrix of 252 rows and 128 columns", matrix_order()),
        Case::filled("matrix, p = 4, 256 rows and 127 columns", matrix_of_4()),
        Case::filled("matrix, p = 8, 512 rows and 63 columns", matrix_of_8()),
        Case::filled("matrix, p = 9, 486 rows and 67 columns", matrix_of_9()),
        Case::of("refused: the last number", last_number_refused()),
        Case::of("refused: the last entry", last_entry_refused()),
        Case::of("refused: the last pair", last_pair_refused()),
    ];
    cases.extend(merge_cases().into_iter().map(Case::merge));
    cases.push(small_orders());
    cases
}

/// TAKE of a table of parities.
pub fn table_order(runs: usize, columns: usize) -> Vec<u16> {
    order(&[parity_table(runs, 1..=columns)], &[&[1, 1]])
}

/// FIELD of nine coordinates over the field of two elements. Factor f from 1 has the digits of f as
/// its column, so that all columns are different and none is zero.
fn field_order() -> Vec<u16> {
    let (t, n) = (9, 128);
    let digit = |coordinate: usize, factor: usize| (factor + 1) >> (t - 1 - coordinate) & 1;
    let mut generator = vec![3, t as u16, n as u16, 2];
    generator.extend(vec![1; n]);
    generator.extend(cells(t, n, |row, column| digit(row, column) as u16));
    order(&[generator], &[&[2, 1]])
}

/// A small sheet with a small matrix, so that the SUM itself is most of the work.
fn sum_order() -> Vec<u16> {
    order(&parts_of_sum(), &[&[1, 1], &[3, 1, 2, 0]])
}

/// 64 runs of 16 columns, and a matrix that makes eight of each.
fn parts_of_sum() -> [Vec<u16>; 2] {
    [parity_table(64, 1..=16), matrix(2, 8, 8, parity)]
}

/// The same sheet, which is the table on the other side too, and seven columns for each of its own: 8 rows
/// have no more that are even. So 112 columns are sums, and 16 follow the old runs.
fn cross_order() -> Vec<u16> {
    let seven = matrix(2, 8, 7, |row, column| parity(row, column + 1));
    order(
        &[parity_table(64, 1..=16), seven],
        &[&[1, 1], &[6, 1, 2, 0, 1]],
    )
}

/// The same SUM, then MERGE of three columns and SPLIT to three again, in turn. After SUM, columns 1,
/// 9 and 17 are those of parities 1, 2 and 3 in the small sheet, so that the third is the sum of the
/// others; SPLIT by table 101 leaves such columns at 1, 2 and 3.
fn sixteen_steps() -> Vec<u16> {
    order(
        &parts_of_sum(),
        &merged_and_split(&[&[1, 1], &[3, 1, 2, 0], &[4, 2, 1, 9, 17], &[5, 1, 101]]),
    )
}

/// The same MERGE and SPLIT on table 101 itself: what a step costs beside its runs, the spare that it
/// hands on among it.
fn sixteen_small_steps() -> Vec<u16> {
    order(&[], &merged_and_split(&[&[1, 101]]))
}

/// Sixteen steps: these, which leave columns 1, 2 and 3 as table 101 has them, then MERGE of the three
/// and SPLIT to three again, in turn.
fn merged_and_split(first: &[&'static [u16]]) -> Vec<&'static [u16]> {
    let in_turn: [&[u16]; 2] = [&[4, 2, 1, 2, 3], &[5, 1, 101]];
    let later = in_turn.into_iter().cycle();
    first.iter().copied().chain(later).take(16).collect()
}

/// A matrix for two levels with 128 columns, and TAKE of a house table. The differences of three
/// columns are even only if four divides the number of rows; 256 rows are more than a list holds.
fn matrix_order() -> Vec<u16> {
    order(&[matrix(2, 252, 128, paley)], &[&[1, 101]])
}

/// The most columns with 256 rows that a list holds.
fn matrix_of_4() -> Vec<u16> {
    let matrix = Sequences {
        q: 2,
        recurrence: &[1, 0, 1, 1, 1, 0, 0, 0],
        digits: 2,
        gap: 15,
    };
    order(&[matrix.matrix(127, 1)], &[&[1, 101]])
}

/// The most columns with 512 rows that a list holds.
fn matrix_of_8() -> Vec<u16> {
    let matrix = Sequences {
        q: 2,
        recurrence: &[1, 0, 0, 0, 1, 0, 0, 0, 0],
        digits: 3,
        gap: 1,
    };
    order(&[matrix.matrix(63, 1)], &[&[1, 101]])
}

/// The most columns with 486 rows that a list holds; each row stands twice.
fn matrix_of_9() -> Vec<u16> {
    let matrix = Sequences {
        q: 3,
        recurrence: &[2, 1, 0, 0, 0],
        digits: 2,
        gap: 19,
    };
    order(&[matrix.matrix(67, 2)], &[&[1, 101]])
}

/// All columns that 64 runs have, and a matrix of 8 rows. It has 4 columns, as modulo 4 none has more;
/// over the field alone one has 8, but refused before K2 it would say nothing.
fn sum_of_4() -> Vec<u16> {
    let sheet = Sequences {
        q: 2,
        recurrence: &[1, 1, 0, 0, 0, 0],
        digits: 2,
        gap: 21,
    };
    let matrix = Sequences {
        q: 2,
        recurrence: &[1, 1, 0],
        digits: 2,
        gap: 1,
    };
    let parts = [sheet.table(21), matrix.matrix(4, 1)];
    order(&parts, &[&[1, 1], &[3, 1, 2, 0]])
}

/// The same for 8 levels, where modulo 8 no matrix of 8 rows has more than 2 columns.
fn sum_of_8() -> Vec<u16> {
    let sheet = Sequences {
        q: 2,
        recurrence: &[1, 1, 0, 0, 0, 0],
        digits: 3,
        gap: 9,
    };
    let matrix = Sequences {
        q: 2,
        recurrence: &[1, 1, 0],
        digits: 3,
        gap: 1,
    };
    let parts = [sheet.table(9), matrix.matrix(2, 1)];
    order(&parts, &[&[1, 1], &[3, 1, 2, 0]])
}

/// One column with 9 levels: 81 runs, which have ten, would leave room for 6 rows alone.
fn sum_of_9() -> Vec<u16> {
    let mut sheet = vec![1, 9, 1, 9];
    sheet.extend(0..9);
    let matrix = Sequences {
        q: 3,
        recurrence: &[2, 1, 0],
        digits: 2,
        gap: 2,
    };
    let parts = [sheet, matrix.matrix(8, 2)];
    order(&parts, &[&[1, 1], &[3, 1, 2, 0]])
}

/// A matrix of one column, to make up the length, and then the largest table.
fn full_list(columns: impl IntoIterator<Item = usize>) -> Vec<u16> {
    let table = parity_table(512, columns);
    let other_numbers = 1 + 4 + table.len() + 1 + 2;
    let matrix = matrix(2, MOST_NUMBERS - other_numbers, 1, |_, _| 0);
    let list = order(&[matrix, table], &[&[1, 2]]);
    assert_eq!(list.len(), MOST_NUMBERS);
    list
}

/// Refused as 2 at its last number: there is no ingredient 0.
fn last_number_refused() -> Vec<u16> {
    let mut list = full_list(1..=63);
    list[MOST_NUMBERS - 1] = 0;
    list
}

/// Refused as 3 at its last entry.
fn last_entry_refused() -> Vec<u16> {
    let mut list = full_list(1..=63);
    list[MOST_NUMBERS - 4] = 2;
    list
}

/// Refused as 5 for the last two columns of the last ingredient, which are equal.
fn last_pair_refused() -> Vec<u16> {
    full_list((1..=62).chain([62]))
}

/// The first thousand of the made orders that are short, with buffers just long enough.
fn small_orders() -> Case {
    let lists = (7_000_000..)
        .map(make)
        .filter(|call| call.list.len() <= 128 && call.lengths == LEAST)
        .map(|call| call.list)
        .take(1_000)
        .collect();
    Case {
        name: "1,000 small orders".to_string(),
        lists,
        fast: false,
    }
}

/// TAKE of a house table, which is hardly more than the clearing of the buffers.
pub fn least_order() -> Vec<u16> {
    order(&[], &[&[1, 101]])
}

fn order(ingredients: &[Vec<u16>], steps: &[&[u16]]) -> Vec<u16> {
    let mut list = vec![ingredients.len() as u16];
    list.extend(ingredients.concat());
    list.push(steps.len() as u16);
    list.extend(steps.concat());
    list
}

/// A table of two-level columns; each is the parity of the ones that its number and the run's have
/// in common. Columns of different numbers above 0 are even together.
pub(crate) fn parity_table(runs: usize, columns: impl IntoIterator<Item = usize>) -> Vec<u16> {
    let columns: Vec<usize> = columns.into_iter().collect();
    let mut table = vec![1, runs as u16, columns.len() as u16];
    table.extend(vec![2; columns.len()]);
    table.extend(cells(runs, columns.len(), |run, place| {
        parity(run, columns[place])
    }));
    table
}

fn matrix(p: u16, rows: usize, columns: usize, entry: impl Fn(usize, usize) -> u16) -> Vec<u16> {
    let mut matrix = vec![2, rows as u16, columns as u16, p];
    matrix.extend(cells(rows, columns, entry));
    matrix
}

fn cells(rows: usize, columns: usize, cell: impl Fn(usize, usize) -> u16) -> Vec<u16> {
    let places = (0..rows).flat_map(|row| (0..columns).map(move |column| (row, column)));
    places.map(|(row, column)| cell(row, column)).collect()
}

fn parity(a: usize, b: usize) -> u16 {
    (a & b).count_ones() as u16 % 2
}

/// Paley's matrix of 252 rows, by the squares modulo the prime 251: any two of its columns agree in
/// half of the rows.
fn paley(row: usize, column: usize) -> u16 {
    const PRIME: usize = 251;
    if row == 0 || row == column {
        return 0;
    }
    let difference = row + PRIME - column;
    let is_square = |number| (1..PRIME).any(|root| root * root % PRIME == number % PRIME);
    u16::from(column == 0 || !is_square(difference))
}
