//! CROSS: what it reads, what it wants, and what it leaves; 02, K6.

use super::times;
use crate::field::product;
use crate::text::spaced;

/// Orders with their names.
pub fn crossing() -> Vec<(String, String)> {
    let mut orders: Vec<(String, String)> = [READING, FITTING, EVEN, FILLED, AMONG_OTHERS]
        .concat()
        .iter()
        .map(|&(name, order)| (name.to_string(), order.to_string()))
        .collect();
    orders.extend(cut_off());
    orders.extend(over_fields());
    orders.extend(large());
    orders
}

// Most have the matrix 0, 1 for 2 levels as ingredient 1, 2 2 1 2 0 1, and TAKE 101, 1 101.

/// Questions 2 and 5.
const READING: &[(&str, &str)] = &[
    ("h = 0", "1 2 2 1 2 0 1 2 1 101 6 1 1 0 0"),
    ("h = 1, a matrix", "1 2 2 1 2 0 1 2 1 101 6 1 1 0 1"),
    ("h = 2, missing", "1 2 2 1 2 0 1 2 1 101 6 1 1 0 2"),
    ("h = 32, missing", "1 2 2 1 2 0 1 2 1 101 6 1 1 0 32"),
    ("h = 33", "1 2 2 1 2 0 1 2 1 101 6 1 1 0 33"),
    ("h = 100", "1 2 2 1 2 0 1 2 1 101 6 1 1 0 100"),
    ("h = 101", "1 2 2 1 2 0 1 2 1 101 6 1 1 0 101"),
    ("h = 104, of 12 runs", "1 2 2 1 2 0 1 2 1 101 6 1 1 0 104"),
    ("h = 105", "1 2 2 1 2 0 1 2 1 101 6 1 1 0 105"),
    ("h = 65535", "1 2 2 1 2 0 1 2 1 101 6 1 1 0 65535"),
    ("k = 105", "1 2 2 1 2 0 1 2 1 101 6 1 1 105 101"),
    ("d = 0", "1 2 2 1 2 0 1 2 1 101 6 1 0 0 101"),
    ("no matrix", "1 2 2 1 2 0 1 2 1 101 6 0 0 101"),
    (
        "16 matrices, all the same",
        "1 2 2 1 2 0 1 2 1 101 6 16 1 1 1 1 1 1 1 1 1 1 1 1 1 1 1 1 0 101",
    ),
    (
        "17 matrices",
        "1 2 2 1 2 0 1 2 1 101 6 17 1 1 1 1 1 1 1 1 1 1 1 1 1 1 1 1 1 0 101",
    ),
    ("step kind 7", "1 2 2 1 2 0 1 2 1 101 7 1 1 0 101"),
    (
        "a number left over",
        "1 2 2 1 2 0 1 2 1 101 6 1 1 0 101 101",
    ),
    (
        "an h for SUM, left over",
        "1 2 2 1 2 0 1 2 1 101 3 1 1 0 101",
    ),
    (
        "h = 0 after an entry out of range",
        "1 2 2 1 2 0 2 2 1 101 6 1 1 0 0",
    ),
    ("first", "1 2 2 1 2 0 1 1 6 1 1 0 101"),
    ("TAKE after it", "1 2 2 1 2 0 1 3 1 101 6 1 1 0 101 1 101"),
    ("FIELD after it", "1 2 2 1 2 0 1 3 1 101 6 1 1 0 101 2 1"),
    (
        "h a generator",
        "2 2 2 1 2 0 1 3 2 1 2 1 1 0 2 1 101 6 1 1 0 2",
    ),
    ("d a house table", "0 2 1 101 6 1 101 0 101"),
    (
        "d a table of its own",
        "1 1 4 1 2 0 0 1 1 2 1 101 6 1 1 0 101",
    ),
    ("d a generator", "1 3 2 1 2 1 1 0 2 1 101 6 1 1 0 101"),
    ("d missing", "1 2 2 1 2 0 1 2 1 101 6 2 1 2 0 101"),
    ("k a matrix", "1 2 2 1 2 0 1 2 1 101 6 1 1 1 101"),
    ("k missing", "1 2 2 1 2 0 1 2 1 101 6 1 1 2 101"),
    (
        "h missing, and matrices that do not fit",
        "1 2 2 1 2 0 1 2 1 102 6 1 1 0 32",
    ),
    (
        "h missing, and an uneven matrix",
        "1 2 2 1 2 0 0 2 1 101 6 1 1 0 32",
    ),
];

/// Question 6. The sheet has 4 runs, and the matrix 2 rows, if nothing else is said.
const FITTING: &[(&str, &str)] = &[
    (
        "h of 3 runs for 4",
        "2 2 2 1 2 0 1 1 3 1 3 0 1 2 2 1 101 6 1 1 0 2",
    ),
    (
        "h of 4 runs for 4",
        "2 2 2 1 2 0 1 1 4 1 4 3 2 1 0 2 1 101 6 1 1 0 2",
    ),
    (
        "h of 5 runs for 4",
        "2 2 2 1 2 0 1 1 5 1 5 0 1 2 3 4 2 1 101 6 1 1 0 2",
    ),
    (
        "h of N x M runs",
        "2 2 2 1 2 0 1 1 8 1 2 0 1 0 1 0 1 0 1 2 1 101 6 1 1 0 2",
    ),
    ("h of M runs", "2 2 2 1 2 0 1 1 2 1 2 0 1 2 1 101 6 1 1 0 2"),
    ("k of N runs", "1 2 2 1 2 0 1 2 1 101 6 1 1 101 101"),
    (
        "k of N x M runs",
        "2 2 2 1 2 0 1 1 8 1 2 0 1 0 1 0 1 0 1 2 1 101 6 1 1 2 101",
    ),
    // The sheet has 2 runs, and the matrix 4 rows.
    (
        "k of M runs and h of N",
        "2 1 2 1 2 0 1 2 4 1 2 0 1 1 0 2 1 1 6 1 2 101 1",
    ),
    (
        "k of N runs and h of M",
        "2 1 2 1 2 0 1 2 4 1 2 0 1 1 0 2 1 1 6 1 2 1 101",
    ),
    (
        "k and h of M runs",
        "2 1 2 1 2 0 1 2 4 1 2 0 1 1 0 2 1 1 6 1 2 101 101",
    ),
    ("levels not served", "1 2 2 1 2 0 1 2 1 102 6 1 1 0 102"),
    (
        "two matrices of one p",
        "2 2 2 1 2 0 1 2 2 1 2 1 0 2 1 101 6 2 1 2 0 101",
    ),
    ("a matrix twice", "1 2 2 1 2 0 1 2 1 101 6 2 1 1 0 101"),
    (
        "matrices of 2 and 3 rows",
        "2 2 2 1 2 0 1 2 3 1 3 0 1 2 2 1 101 6 2 1 2 0 101",
    ),
    (
        "h of other runs, and an uneven matrix",
        "1 2 2 1 2 0 0 2 1 101 6 1 1 0 102",
    ),
    (
        "k of other runs, and an uneven matrix",
        "1 2 2 1 2 0 0 2 1 101 6 1 1 102 101",
    ),
    (
        "levels not served, and an uneven matrix",
        "1 2 2 1 2 0 0 2 1 103 6 1 1 0 103",
    ),
    (
        "two matrices of one p, the first uneven",
        "2 2 2 1 2 0 0 2 2 1 2 1 0 2 1 101 6 2 1 2 0 101",
    ),
];

/// Does each column of each serving matrix hold each value M / p times?
const EVEN: &[(&str, &str)] = &[
    (
        "SUM with zeros in column 1",
        "1 2 2 2 2 0 0 0 1 2 1 101 3 1 1 0",
    ),
    ("zeros in column 1", "1 2 2 2 2 0 0 0 1 2 1 101 6 1 1 0 101"),
    ("zeros in column 2", "1 2 2 2 2 0 0 1 0 2 1 101 6 1 1 0 101"),
    ("ones in column 2", "1 2 2 2 2 0 1 1 1 2 1 101 6 1 1 0 101"),
    (
        "zeros in column 3",
        "1 2 4 3 2 0 0 0 0 1 0 1 0 0 1 1 0 2 1 101 6 1 1 0 101",
    ),
    (
        "three even columns",
        "1 2 4 3 2 0 0 0 0 1 1 1 0 1 1 1 0 2 1 101 6 1 1 0 101",
    ),
    (
        "SUM with one column of zeros",
        "1 2 2 1 2 0 0 2 1 101 3 1 1 0",
    ),
    ("one column of zeros", "1 2 2 1 2 0 0 2 1 101 6 1 1 0 101"),
    ("one column of ones", "1 2 2 1 2 1 1 2 1 101 6 1 1 0 101"),
    // A column of 3 levels, and matrices of one column.
    (
        "p = 3, 0 0 1 1 1 2",
        "2 1 3 1 3 0 1 2 2 6 1 3 0 0 1 1 1 2 2 1 1 6 1 2 0 1",
    ),
    (
        "p = 3, 0 0 1 2 2 2",
        "2 1 3 1 3 0 1 2 2 6 1 3 0 0 1 2 2 2 2 1 1 6 1 2 0 1",
    ),
    (
        "p = 3, 0 1 1 2 2 2",
        "2 1 3 1 3 0 1 2 2 6 1 3 0 1 1 2 2 2 2 1 1 6 1 2 0 1",
    ),
    (
        "p = 3, 0 0 0 1 2 2",
        "2 1 3 1 3 0 1 2 2 6 1 3 0 0 0 1 2 2 2 1 1 6 1 2 0 1",
    ),
    (
        "p = 3, 0 0 1 1 2 2",
        "2 1 3 1 3 0 1 2 2 6 1 3 0 0 1 1 2 2 2 1 1 6 1 2 0 1",
    ),
    (
        "p = 4, 0 1 3 3",
        "2 1 4 1 4 0 1 2 3 2 4 1 4 0 1 3 3 2 1 1 6 1 2 0 1",
    ),
    (
        "p = 5, 0 1 2 3 3",
        "2 1 5 1 5 0 1 2 3 4 2 5 1 5 0 1 2 3 3 2 1 1 6 1 2 0 1",
    ),
    (
        "p = 5, 0 1 2 4 4",
        "2 1 5 1 5 0 1 2 3 4 2 5 1 5 0 1 2 4 4 2 1 1 6 1 2 0 1",
    ),
    // Columns 0 0 0 1 and 0 1 0 0, and columns 0 0 1 1 1 2 and 0 0 0 0 2 0; the differences are even.
    (
        "p = 2, both columns uneven",
        "1 2 4 2 2 0 0 0 1 0 0 1 0 2 1 101 6 1 1 0 101",
    ),
    (
        "p = 3, value 1 of column 1 and value 0 of column 2 uneven",
        "2 1 3 1 3 0 1 2 2 6 2 3 0 0 0 0 1 0 1 0 1 2 2 0 2 1 1 6 1 2 0 1",
    ),
    // p does not divide M.
    ("p = 2, 3 rows", "1 2 3 1 2 0 1 1 2 1 101 6 1 1 0 101"),
    ("p = 2, 1 row", "1 2 1 1 2 1 2 1 101 6 1 1 0 101"),
    (
        "p = 3, 4 rows",
        "2 1 3 1 3 0 1 2 2 4 1 3 0 1 1 2 2 1 1 6 1 2 0 1",
    ),
    (
        "p = 5, 3 rows",
        "2 1 5 1 5 0 1 2 3 4 2 3 1 5 1 2 3 2 1 1 6 1 2 0 1",
    ),
    // 6 runs of 2 and 3 levels; a matrix of 6 rows for 2 levels, and one for 3.
    (
        "two uneven matrices, 2 and 3 in the list",
        "3 1 6 2 2 3 0 0 0 1 0 2 1 0 1 1 1 2 2 6 1 2 0 0 0 0 1 1 2 6 1 3 0 0 1 1 1 2 \
         2 1 1 6 2 2 3 0 1",
    ),
    (
        "two uneven matrices, 3 and 2 in the list",
        "3 1 6 2 2 3 0 0 0 1 0 2 1 0 1 1 1 2 2 6 1 2 0 0 0 0 1 1 2 6 1 3 0 0 1 1 1 2 \
         2 1 1 6 2 3 2 0 1",
    ),
    (
        "the first of two uneven",
        "3 1 6 2 2 3 0 0 0 1 0 2 1 0 1 1 1 2 2 6 1 2 0 0 0 1 0 1 2 6 1 3 0 0 1 1 2 2 \
         2 1 1 6 2 2 3 0 1",
    ),
    (
        "the second of two uneven",
        "3 1 6 2 2 3 0 0 0 1 0 2 1 0 1 1 1 2 2 6 1 2 0 0 0 1 1 1 2 6 1 3 0 0 1 1 1 2 \
         2 1 1 6 2 2 3 0 1",
    ),
    (
        "neither of two uneven",
        "3 1 6 2 2 3 0 0 0 1 0 2 1 0 1 1 1 2 2 6 1 2 0 0 0 1 1 1 2 6 1 3 0 0 1 1 2 2 \
         2 1 1 6 2 2 3 0 1",
    ),
    // The step's list decides before the columns: column 2 of the first, column 1 of the second.
    (
        "column 2 of the first and column 1 of the second uneven",
        "3 1 6 2 2 3 0 0 0 1 0 2 1 0 1 1 1 2 2 6 2 2 0 0 0 0 0 0 1 0 1 0 1 0 2 6 1 3 1 1 1 1 1 1 \
         2 1 1 6 2 2 3 0 1",
    ),
    // A matrix for 3 levels, of which the sheet has none.
    (
        "an uneven matrix that serves no column, last",
        "2 2 2 1 2 0 1 2 2 1 3 0 0 2 1 101 6 2 1 2 0 101",
    ),
    (
        "an uneven matrix that serves no column, first",
        "2 2 2 1 2 0 1 2 2 1 3 0 0 2 1 101 6 2 2 1 0 101",
    ),
    (
        "a matrix that serves no column before an uneven one that does",
        "2 2 2 1 2 1 1 2 2 1 3 0 0 2 1 101 6 2 2 1 0 101",
    ),
];

/// Where nothing says No.
const FILLED: &[(&str, &str)] = &[
    // The sums 0, 1 and 1, 0; k is 1, 0 at the row, and h 0, 1 at the old run.
    (
        "2 runs, 2 rows, k and h",
        "3 1 2 1 2 0 1 2 2 1 2 0 1 1 2 1 2 1 0 2 1 1 6 1 2 3 1",
    ),
    (
        "2 runs, 2 rows, h alone",
        "2 1 2 1 2 0 1 2 2 1 2 0 1 2 1 1 6 1 2 0 1",
    ),
    (
        "101, k and h",
        "2 2 2 1 2 0 1 1 2 1 2 1 0 2 1 101 6 1 1 2 101",
    ),
    (
        "101 for the sheet, k and h",
        "1 2 4 1 2 0 1 0 1 2 1 101 6 1 1 101 101",
    ),
    (
        "102 for the sheet and h",
        "1 2 3 1 3 0 1 2 2 1 102 6 1 1 0 102",
    ),
    (
        "104 for the sheet, 103 for h",
        "2 2 6 1 6 0 1 2 3 4 5 2 6 1 2 0 1 0 1 0 1 2 1 104 6 2 1 2 0 103",
    ),
    (
        "103 for the sheet, 104 for h",
        "2 2 6 1 3 0 0 1 1 2 2 2 6 1 2 0 1 0 1 0 1 2 1 103 6 2 1 2 0 104",
    ),
    (
        "FIELD and h = 101",
        "2 3 2 2 2 1 1 1 0 0 1 2 2 1 2 1 0 2 2 1 6 1 2 0 101",
    ),
    // 6 runs of 3 and 2 levels; the matrices have two columns and one, k 6 levels, h 2 and 3.
    (
        "levels 2, 3 and 6",
        "5 1 6 2 3 2 0 0 0 1 1 0 1 1 2 0 2 1 2 6 1 2 0 0 0 1 1 1 \
         2 6 2 3 0 0 1 2 2 1 0 2 1 1 2 0 1 6 1 6 5 4 3 2 1 0 1 6 2 2 3 0 0 0 1 0 2 1 0 1 1 1 2 \
         2 1 1 6 2 2 3 4 5",
    ),
    // Sums modulo 6, which is no field.
    (
        "p = 6",
        "2 1 6 1 6 0 1 2 3 4 5 2 6 1 6 1 0 3 2 5 4 2 1 1 6 1 2 0 1",
    ),
];

/// Beside the other kinds of step.
const AMONG_OTHERS: &[(&str, &str)] = &[
    (
        "and MERGE of h's columns",
        "1 2 2 1 2 0 1 3 1 101 6 1 1 0 101 4 2 4 5 6",
    ),
    (
        "and MERGE of columns that are no sums",
        "1 2 2 1 2 0 1 3 1 101 6 1 1 0 101 4 2 1 2 3",
    ),
    // 4 runs of 4 levels, a matrix of 4 rows, and h the same 4 levels.
    (
        "and SPLIT of h's column",
        "2 1 4 1 4 0 1 2 3 2 4 1 4 0 1 2 3 3 1 1 6 1 2 0 1 5 2 101",
    ),
    (
        "and SUM with the same matrix",
        "1 2 2 1 2 0 1 3 1 101 6 1 1 0 101 3 1 1 0",
    ),
    // The second has 8 runs before it.
    (
        "and CROSS with an h of 8 runs",
        "2 2 2 1 2 0 1 1 8 1 8 0 1 2 3 4 5 6 7 3 1 101 6 1 1 0 101 6 1 1 0 2",
    ),
    (
        "and CROSS with an h of 4 runs",
        "1 2 2 1 2 0 1 3 1 101 6 1 1 0 101 6 1 1 0 101",
    ),
    (
        "and CROSS with an uneven matrix",
        "3 2 2 1 2 0 1 2 2 1 2 0 0 1 8 1 8 0 1 2 3 4 5 6 7 3 1 101 6 1 1 0 101 6 1 2 0 3",
    ),
    (
        "after SUM with the same matrix, uneven",
        "2 2 2 2 2 0 0 0 1 1 8 1 8 0 1 2 3 4 5 6 7 3 1 101 3 1 1 0 6 1 1 0 2",
    ),
    (
        "after MERGE to 4 levels",
        "1 2 4 1 4 0 1 2 3 3 1 101 4 2 1 2 3 6 1 1 0 101",
    ),
    (
        "after MERGE to 4 levels, which are not served",
        "1 2 2 1 2 0 1 3 1 101 4 2 1 2 3 6 1 1 0 101",
    ),
    (
        "after SPLIT of 4 levels",
        "2 1 4 1 4 0 1 2 3 2 2 1 2 0 1 3 1 1 5 1 101 6 1 2 0 1",
    ),
    (
        "FIELD, SUM, SPLIT, MERGE, CROSS and SPLIT",
        "4 3 1 1 4 1 1 2 4 1 4 0 1 2 3 1 16 1 16 0 1 2 3 4 5 6 7 8 9 10 11 12 13 14 15 \
         2 4 1 2 0 0 1 1 6 2 1 3 1 2 101 5 1 101 4 2 1 2 3 6 2 2 4 0 3 5 1 101",
    ),
    // Columns 2, 3 and 4 are those of 101 with 0 0 1 1 added to each, so that the sum ends at row 2.
    (
        "FIELD, SUM, SPLIT, MERGE, CROSS and MERGE",
        "4 3 1 1 4 1 1 2 4 1 4 0 1 2 3 1 16 1 16 0 1 2 3 4 5 6 7 8 9 10 11 12 13 14 15 \
         2 4 1 2 0 0 1 1 6 2 1 3 1 2 101 5 1 101 4 2 1 2 3 6 2 2 4 0 3 4 2 2 3 4",
    ),
];

/// An order cut off at each number of its CROSS.
fn cut_off() -> Vec<(String, String)> {
    let whole = "2 2 2 1 2 0 1 2 2 1 3 0 0 2 1 101 6 2 1 2 0 101";
    let words: Vec<&str> = whole.split(' ').collect();
    let lengths = words.len() - 6..words.len();
    let beginning = |length: usize| {
        let name = format!("cut off at length {length}");
        (name, words[..length].join(" "))
    };
    lengths.map(beginning).collect()
}

/// A column of p levels, 0 to p - 1.
fn each_level(p: usize) -> String {
    format!("1 {p} 1 {p} {}", spaced(&Vec::from_iter(0..p)))
}

/// For 4, 8 and 9 levels, the multiples by all elements but 0, which are even; and by 0 too.
fn over_fields() -> Vec<(String, String)> {
    let mut orders = Vec::new();
    for p in [4, 8, 9] {
        for least in [1, 0] {
            let columns = p - least;
            let multiples = (0..p).flat_map(|y| (least..p).map(move |c| product(p, y, c)));
            let multiples = spaced(&multiples.collect::<Vec<usize>>());
            let name = match least {
                1 => format!("p = {p}, multiples by all elements but 0"),
                _ => format!("p = {p}, multiples by all elements"),
            };
            let order = format!(
                "2 {} 2 {p} {columns} {p} {multiples} 2 1 1 6 1 2 0 1",
                each_level(p)
            );
            orders.push((name, order));
        }
    }
    orders
}

/// At both sides of the limits of size, and an array of 144 runs.
fn large() -> Vec<(String, String)> {
    let in_turn = |count: usize| times("0 1", count / 2);
    let by_rows = |rows: usize, entries: String| {
        format!("2 1 2 1 2 0 1 2 {rows} 1 2 {entries} 2 1 1 6 1 2 0 1")
    };
    let all_but_two: Vec<usize> = (0..62).chain([62, 62]).collect();
    let last_value = spaced(&all_but_two);
    let named = |name: &str, order: String| (name.to_string(), order);
    vec![
        named("to 512 runs", by_rows(256, in_turn(256))),
        named("to 516 runs", by_rows(258, in_turn(258))),
        named("to 516 runs, uneven", by_rows(258, times("1", 258))),
        named("to 514 runs of odd rows", by_rows(257, in_turn(256) + " 0")),
        named(
            "to 262,144 runs",
            format!(
                "3 3 9 1 2 1 1 0 0 0 0 0 0 0 0 2 512 1 2 {0} 1 512 1 2 {0} 2 2 1 6 1 2 0 3",
                in_turn(512)
            ),
        ),
        named(
            "p = 64, the last but one value twice, to 4,096 runs",
            format!(
                "2 {} 2 64 1 64 {last_value} 2 1 1 6 1 2 0 1",
                each_level(64)
            ),
        ),
        named("to 512 runs and 128 columns", to_columns(6, 0, 8)),
        named("to 129 columns, 9 of them h's", to_columns(6, 0, 9)),
        named("to 129 columns, 7 of them k's", to_columns(6, 7, 2)),
        named("to 129 columns, uneven", to_columns_uneven()),
        named("103 to 144 runs and 57 columns", to_144_runs()),
    ]
}

/// Column c from 1 has the parity of the ones that c and the row's number have in common, so that it is
/// even, and so are any two.
fn parities(rows: usize, columns: std::ops::RangeInclusive<usize>) -> String {
    let parity = |y: usize, c: usize| (y & c).count_ones() % 2;
    let rows = (0..rows).flat_map(|y| columns.clone().map(move |c| parity(y, c)));
    spaced(&rows.collect::<Vec<u32>>())
}

/// 64 runs of 20 columns, a matrix of 8 rows and so many columns, a k of 8 runs or none, and an h of
/// 64 runs.
fn to_columns(of_matrix: usize, of_k: usize, of_h: usize) -> String {
    let table = |runs: usize, columns: usize| {
        let levels = times("2", columns);
        format!(
            "1 {runs} {columns} {levels} {}",
            parities(runs, 1..=columns)
        )
    };
    let matrix = format!("2 8 {of_matrix} 2 {}", parities(8, 1..=of_matrix));
    let (sheet, h) = (table(64, 20), table(64, of_h));
    match of_k {
        0 => format!("3 {sheet} {matrix} {h} 2 1 1 6 1 2 0 3"),
        _ => format!("4 {sheet} {matrix} {h} {} 2 1 1 6 1 2 4 3", table(8, of_k)),
    }
}

/// The same with 6 columns for each, the first of them zeros.
fn to_columns_uneven() -> String {
    let even = format!("2 8 6 2 {}", parities(8, 1..=6));
    let uneven = format!("2 8 6 2 {}", parities(8, 0..=5));
    to_columns(6, 0, 9).replace(&even, &uneven)
}

/// For 3 levels the difference matrix of 6 rows twice, for 2 levels that of 12 rows, each without its
/// column of zeros; 104 is k and 103 h.
fn to_144_runs() -> String {
    let threes = "0 0 0 0 0 1 2 0 1 2 2 1 1 0 2 0 2 1 2 1 2 0 2 1 1 1 1 2 2 0";
    let rows = [
        "00000000000",
        "11100010101",
        "01011110001",
        "10111010010",
        "00010011111",
        "11001001011",
        "01100111010",
        "10110101001",
        "00101100111",
        "11010100110",
        "01111001100",
        "10001111100",
    ];
    let digits: Vec<char> = rows.iter().flat_map(|row| row.chars()).collect();
    let twos = spaced(&digits);
    format!("2 2 12 5 3 {threes} {threes} 2 12 11 2 {twos} 2 1 103 6 2 1 2 104 103")
}
