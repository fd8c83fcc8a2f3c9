//! CROSS, the step with a table on the other side (02, K6), by examples worked out by hand and on random
//! orders.

mod common;
use common::*;
use second::maker::{crossing_edge_calls, make_crossing, Call, ANY, STORED};
use second::order::{self, Ingredient, Matrix, Order, Step};
use second::{records, Answer};
use std::collections::BTreeMap;
use std::sync::OnceLock;

/// The first lines of the answers to the examples of that name, worked out by hand.
const EXAMPLES: &[(&str, &str)] = &[
    ("h = 0", "refused 2 14 0 0 0 0 0"),
    ("h = 1, a matrix", "refused 8 2 0 0 0 0 0"),
    ("h = 2, missing", "refused 8 2 0 0 0 0 0"),
    ("h = 32, missing", "refused 8 2 0 0 0 0 0"),
    ("h = 33", "refused 2 14 0 0 0 0 0"),
    ("h = 100", "refused 2 14 0 0 0 0 0"),
    ("h = 101", "8 6 1"),
    ("h = 104, of 12 runs", "refused 9 2 0 0 0 0 0"),
    ("h = 105", "refused 2 14 0 0 0 0 0"),
    ("h = 65535", "refused 2 14 0 0 0 0 0"),
    ("k = 105", "refused 2 13 0 0 0 0 0"),
    ("d = 0", "refused 2 12 0 0 0 0 0"),
    ("no matrix", "refused 2 11 0 0 0 0 0"),
    ("16 matrices, all the same", "refused 9 2 0 0 0 0 0"),
    ("17 matrices", "refused 2 11 0 0 0 0 0"),
    ("step kind 7", "refused 2 10 0 0 0 0 0"),
    ("a number left over", "refused 2 15 0 0 0 0 0"),
    ("an h for SUM, left over", "refused 2 14 0 0 0 0 0"),
    (
        "h = 0 after an entry out of range",
        "refused 2 14 0 0 0 0 0",
    ),
    ("first", "refused 8 1 0 0 0 0 0"),
    ("TAKE after it", "refused 8 3 0 0 0 0 0"),
    ("FIELD after it", "refused 8 3 0 0 0 0 0"),
    ("h a generator", "refused 8 2 0 0 0 0 0"),
    ("d a house table", "refused 8 2 0 0 0 0 0"),
    ("d a table of its own", "refused 8 2 0 0 0 0 0"),
    ("d a generator", "refused 8 2 0 0 0 0 0"),
    ("d missing", "refused 8 2 0 0 0 0 0"),
    ("k a matrix", "refused 8 2 0 0 0 0 0"),
    ("k missing", "refused 8 2 0 0 0 0 0"),
    (
        "h missing, and matrices that do not fit",
        "refused 8 2 0 0 0 0 0",
    ),
    ("h missing, and an uneven matrix", "refused 8 2 0 0 0 0 0"),
    ("h of 3 runs for 4", "refused 9 2 0 0 0 0 0"),
    ("h of 4 runs for 4", "8 4 1"),
    ("h of 5 runs for 4", "refused 9 2 0 0 0 0 0"),
    ("h of N x M runs", "refused 9 2 0 0 0 0 0"),
    ("h of M runs", "refused 9 2 0 0 0 0 0"),
    ("k of N runs", "refused 9 2 0 0 0 0 0"),
    ("k of N x M runs", "refused 9 2 0 0 0 0 0"),
    ("k of M runs and h of N", "8 5 2"),
    ("k of N runs and h of M", "refused 9 2 0 0 0 0 0"),
    ("k and h of M runs", "refused 9 2 0 0 0 0 0"),
    ("levels not served", "refused 9 2 0 0 0 0 0"),
    ("two matrices of one p", "refused 9 2 0 0 0 0 0"),
    ("a matrix twice", "refused 9 2 0 0 0 0 0"),
    ("matrices of 2 and 3 rows", "refused 9 2 0 0 0 0 0"),
    (
        "h of other runs, and an uneven matrix",
        "refused 9 2 0 0 0 0 0",
    ),
    (
        "k of other runs, and an uneven matrix",
        "refused 9 2 0 0 0 0 0",
    ),
    (
        "levels not served, and an uneven matrix",
        "refused 9 2 0 0 0 0 0",
    ),
    (
        "two matrices of one p, the first uneven",
        "refused 9 2 0 0 0 0 0",
    ),
    ("SUM with zeros in column 1", "8 6 1"),
    ("zeros in column 1", "refused 14 2 1 1 0 0 0"),
    ("zeros in column 2", "refused 14 2 1 2 0 0 0"),
    ("ones in column 2", "refused 14 2 1 2 0 0 0"),
    ("zeros in column 3", "refused 14 2 1 3 0 0 0"),
    ("three even columns", "16 12 3"),
    ("SUM with one column of zeros", "8 3 4"),
    ("one column of zeros", "refused 14 2 1 1 0 0 0"),
    ("one column of ones", "refused 14 2 1 1 0 0 0"),
    ("p = 3, 0 0 1 1 1 2", "refused 14 2 2 1 1 0 0"),
    ("p = 3, 0 0 1 2 2 2", "refused 14 2 2 1 1 0 0"),
    ("p = 3, 0 1 1 2 2 2", "refused 14 2 2 1 0 0 0"),
    ("p = 3, 0 0 0 1 2 2", "refused 14 2 2 1 0 0 0"),
    ("p = 3, 0 0 1 1 2 2", "18 2 13"),
    ("p = 4, 0 1 3 3", "refused 14 2 2 1 2 0 0"),
    ("p = 5, 0 1 2 3 3", "refused 14 2 2 1 3 0 0"),
    ("p = 5, 0 1 2 4 4", "refused 14 2 2 1 3 0 0"),
    ("p = 2, both columns uneven", "refused 14 2 1 1 0 0 0"),
    (
        "p = 3, value 1 of column 1 and value 0 of column 2 uneven",
        "refused 14 2 2 1 1 0 0",
    ),
    ("p = 2, 3 rows", "refused 14 2 1 1 0 0 0"),
    ("p = 2, 1 row", "refused 14 2 1 1 0 0 0"),
    ("p = 3, 4 rows", "refused 14 2 2 1 0 0 0"),
    ("p = 5, 3 rows", "refused 14 2 2 1 0 0 0"),
    (
        "two uneven matrices, 2 and 3 in the list",
        "refused 14 2 2 1 0 0 0",
    ),
    (
        "two uneven matrices, 3 and 2 in the list",
        "refused 14 2 3 1 1 0 0",
    ),
    ("the first of two uneven", "refused 14 2 2 1 0 0 0"),
    ("the second of two uneven", "refused 14 2 3 1 1 0 0"),
    ("neither of two uneven", "36 4 29"),
    (
        "column 2 of the first and column 1 of the second uneven",
        "refused 14 2 2 2 0 0 0",
    ),
    ("an uneven matrix that serves no column, last", "8 6 1"),
    ("an uneven matrix that serves no column, first", "8 6 1"),
    (
        "a matrix that serves no column before an uneven one that does",
        "refused 14 2 1 1 0 0 0",
    ),
    ("2 runs, 2 rows, k and h", "4 3 0"),
    ("2 runs, 2 rows, h alone", "4 2 1"),
    ("101, k and h", "8 7 0"),
    ("101 for the sheet, k and h", "16 9 6"),
    ("102 for the sheet and h", "27 8 10"),
    ("104 for the sheet, 103 for h", "72 8 58"),
    ("103 for the sheet, 104 for h", "72 8 58"),
    ("FIELD and h = 101", "8 5 2"),
    ("levels 2, 3 and 6", "36 6 22"),
    ("p = 6", "36 2 25"),
    ("and MERGE of h's columns", "8 4 1"),
    (
        "and MERGE of columns that are no sums",
        "refused 10 3 1 3 0 0 0",
    ),
    ("and SPLIT of h's column", "16 4 9"),
    ("and SUM with the same matrix", "16 6 9"),
    ("and CROSS with an h of 8 runs", "16 7 2"),
    ("and CROSS with an h of 4 runs", "refused 9 3 0 0 0 0 0"),
    ("and CROSS with an uneven matrix", "refused 14 3 2 1 0 0 0"),
    (
        "after SUM with the same matrix, uneven",
        "refused 14 3 1 1 0 0 0",
    ),
    ("after MERGE to 4 levels", "16 4 9"),
    (
        "after MERGE to 4 levels, which are not served",
        "refused 9 3 0 0 0 0 0",
    ),
    ("after SPLIT of 4 levels", "8 4 1"),
    ("FIELD, SUM, SPLIT, MERGE, CROSS and SPLIT", "64 7 42"),
    (
        "FIELD, SUM, SPLIT, MERGE, CROSS and MERGE",
        "refused 10 6 2 3 0 0 0",
    ),
    ("cut off at length 16", "refused 2 16 0 0 0 0 0"),
    ("cut off at length 17", "refused 2 17 0 0 0 0 0"),
    ("cut off at length 18", "refused 2 18 0 0 0 0 0"),
    ("cut off at length 19", "refused 2 19 0 0 0 0 0"),
    ("cut off at length 20", "refused 2 20 0 0 0 0 0"),
    ("cut off at length 21", "refused 2 21 0 0 0 0 0"),
    ("p = 4, multiples by all elements but 0", "16 4 3"),
    ("p = 4, multiples by all elements", "refused 14 2 2 1 0 0 0"),
    ("p = 8, multiples by all elements but 0", "64 8 7"),
    ("p = 8, multiples by all elements", "refused 14 2 2 1 0 0 0"),
    ("p = 9, multiples by all elements but 0", "81 9 8"),
    ("p = 9, multiples by all elements", "refused 14 2 2 1 0 0 0"),
    ("to 512 runs", "512 2 509"),
    ("to 516 runs", "refused 11 2 516 2 0 0 0"),
    ("to 516 runs, uneven", "refused 14 2 2 1 0 0 0"),
    ("to 514 runs of odd rows", "refused 14 2 2 1 0 0 0"),
    ("to 262,144 runs", "refused 11 2 262144 2 0 0 0"),
    (
        "p = 64, the last but one value twice, to 4,096 runs",
        "refused 14 2 2 1 62 0 0",
    ),
    ("to 512 runs and 128 columns", "512 128 383"),
    (
        "to 129 columns, 9 of them h's",
        "refused 11 2 512 129 0 0 0",
    ),
    (
        "to 129 columns, 7 of them k's",
        "refused 11 2 512 129 0 0 0",
    ),
    ("to 129 columns, uneven", "refused 14 2 2 1 0 0 0"),
    ("103 to 144 runs and 57 columns", "144 57 76"),
];

#[test]
fn examples_are_answered_as_worked_out() {
    let text = records::examples();
    let lines: Vec<&str> = text.lines().collect();
    let mut found = Vec::new();
    for three in lines.windows(3) {
        if let Some(name) = three[0].strip_prefix("# crossing: ") {
            found.push((name, three[2]));
        }
    }
    for (found, wanted) in found.iter().zip(EXAMPLES) {
        assert_eq!(found, wanted);
    }
    assert_eq!(found.len(), EXAMPLES.len());
}

#[test]
fn sums_then_k_by_the_row_then_h_by_the_old_run() {
    // Sheet 0, 1; matrix 0, 1; k 1, 0; h 0, 1.
    assert_eq!(
        answer("3 1 2 1 2 0 1 2 2 1 2 0 1 1 2 1 2 1 0 2 1 1 6 1 2 3 1"),
        filled(&[2, 2, 2], "010 100 111 001")
    );
    // Sheet 0, 1, 2; matrix of two columns 12, 00, 21; k 2, 1, 0; h 1, 2, 0.
    assert_eq!(
        answer("4 1 3 1 3 0 1 2 2 3 2 3 1 2 0 0 2 1 1 3 1 3 2 1 0 1 3 1 3 1 2 0 2 1 1 6 1 2 3 4"),
        filled(
            &[3, 3, 3, 3],
            "1221 0011 2101 2022 1112 0202 0120 2210 1000"
        )
    );
    // 101 with h of 4 levels, without k.
    assert_eq!(
        answer("2 2 2 1 2 0 1 1 4 1 4 3 1 0 2 2 1 101 6 1 1 0 2"),
        filled(&[2, 2, 2, 4], "0003 1113 0111 1001 1010 0100 1102 0012")
    );
}

#[test]
fn question_2_places() {
    let place = |text: &str| match answer(text) {
        Answer::Refused {
            number: 2,
            details: [place, 0, 0, 0, 0, 0],
        } => place,
        other => panic!("{text}: {other:?}"),
    };
    // h is never 0, though k may be.
    assert_eq!(place("0 2 1 101 6 1 1 0 0"), 8);
    for h in [33, 99, 100, 105, 65_535] {
        assert_eq!(place(&format!("0 2 1 101 6 1 1 0 {h}")), 8);
    }
    for h in [1, 32, 101, 104] {
        assert_eq!(
            answer(&format!("0 2 1 101 6 1 1 0 {h}")),
            refusal(8, &[2]),
            "{h}"
        );
    }
    assert_eq!(place("0 2 1 101 6 1 1 0"), 8);
    assert_eq!(place("0 2 1 101 6 1 1 0 101 101"), 9);
    assert_eq!(place("0 2 1 101 6 0 1 0 101"), 5);
    assert_eq!(place("0 2 1 101 6 17"), 5);
    assert_eq!(place("0 2 1 101 6 2 1 0 0 101"), 7);
    assert_eq!(place("0 2 1 101 6 1 1 33 101"), 7);
    for kind in [0, 7, 8, 65_535] {
        assert_eq!(place(&format!("0 2 1 101 {kind} 1 1 0 101")), 4);
        assert_eq!(place(&format!("0 1 {kind} 1 1 0 101")), 2);
    }
}

/// Question 5 before question 6, this before the even columns, and these before question 8.
#[test]
fn which_of_two_faults_is_named() {
    let cross = |ingredients: &[Vec<u16>], k: u16, h: u16| {
        planned(&order(ingredients, &[&[1, 101], &[6, 1, 1, k, h]]))
    };
    let column = |rows: usize, entry: fn(usize) -> u16| {
        let rows: Vec<Vec<u16>> = (0..rows).map(|y| vec![entry(y)]).collect();
        matrix(2, &rows)
    };
    let even = |y: usize| (y % 2) as u16;
    // 130 rows make 520 runs.
    let (small, small_zeros) = (column(2, even), column(2, |_| 0));
    let (large, large_zeros) = (column(130, even), column(130, |_| 0));
    assert_eq!(cross(&[small_zeros.clone()], 102, 2), refusal(8, &[2]));
    assert_eq!(cross(&[small_zeros.clone()], 2, 102), refusal(8, &[2]));
    assert_eq!(cross(&[small_zeros.clone()], 0, 102), refusal(9, &[2]));
    assert_eq!(cross(&[small_zeros.clone()], 102, 101), refusal(9, &[2]));
    assert_eq!(cross(&[small_zeros], 0, 101), refusal(14, &[2, 1, 1, 0]));
    assert_eq!(cross(&[large.clone()], 0, 102), refusal(9, &[2]));
    assert_eq!(cross(&[large_zeros], 0, 101), refusal(14, &[2, 1, 1, 0]));
    assert_eq!(cross(&[large], 0, 101), refusal(11, &[2, 520, 6]));
    assert_eq!(shape(&cross(&[small], 0, 101)), (8, vec![2; 6]));
}

/// An earlier step's questions come before a later one's 14, and 14 before a later step's 8.
#[test]
fn an_uneven_matrix_has_its_step() {
    let zeros = "2 2 1 2 0 0";
    assert_eq!(
        answer(&format!("1 {zeros} 3 1 101 6 1 1 0 101 1 101")),
        refusal(14, &[2, 1, 1, 0])
    );
    assert_eq!(
        answer(&format!("1 {zeros} 3 1 101 5 4 101 6 1 1 0 101")),
        refusal(9, &[2])
    );
    assert_eq!(
        answer(&format!("1 {zeros} 3 1 101 1 101 6 1 1 0 101")),
        refusal(8, &[2])
    );
    // Question 4 before all steps: two columns of zeros are no difference matrix.
    assert_eq!(
        answer("1 2 2 2 2 0 0 0 0 2 1 101 6 1 1 0 101"),
        refusal(6, &[1, 1, 2, 0, 2])
    );
}

/// Every value of a column of each p but the last can be the lowest that fails; where it is, the last
/// fails too.
#[test]
fn each_value_can_be_named() {
    for p in 2..=22u16 {
        let sheet = table(&[p], &(0..p).map(|x| vec![x]).collect::<Vec<_>>());
        for value in 0..p - 1 {
            // The last level stands in the place of this one.
            let entry = |y: u16| if y == value { p - 1 } else { y };
            let column: Vec<Vec<u16>> = (0..p).rev().map(|y| vec![entry(y)]).collect();
            let list = order(
                &[sheet.clone(), matrix(p, &column)],
                &[&[1, 1], &[6, 1, 2, 0, 1]],
            );
            assert_eq!(planned(&list), refusal(14, &[2, 2, 1, value.into()]));
        }
    }
}

/// SUM is as it was: a matrix with uneven columns still serves.
#[test]
fn sum_does_not_ask() {
    for (entries, wanted) in [
        ("0 0", "000 000 011 011 101 101 110 110"),
        ("0 1", "000 111 011 100 101 010 110 001"),
    ] {
        let list = format!("1 2 2 1 2 {entries} 2 1 101 3 1 1 0");
        assert_eq!(answer(&list), filled(&[2, 2, 2], wanted));
    }
}

/// Random orders, other ones than those of the vectors, with their answers.
fn tried() -> &'static [(Call, Answer)] {
    static TRIED: OnceLock<Vec<(Call, Answer)>> = OnceLock::new();
    TRIED.get_or_init(|| {
        let small = (0..2_500).map(|index| make_crossing(11_000_000 + index, &STORED));
        let any = (0..1_500).map(|index| make_crossing(12_000_000 + index, &ANY));
        let calls = small.chain(any).chain(crossing_edge_calls());
        calls.map(|call| (call.clone(), call.answer())).collect()
    })
}

fn number(answer: &Answer) -> u8 {
    match answer {
        Answer::Filled { .. } => 0,
        Answer::Refused { number, .. } => *number,
    }
}

#[test]
fn every_answer_is_reached() {
    let mut times: BTreeMap<u8, usize> = BTreeMap::new();
    for (_, answer) in tried() {
        *times.entry(number(answer)).or_default() += 1;
    }
    for number in [0, 2, 8, 9, 11, 14] {
        assert!(times.get(&number) > Some(&100), "{number}: {times:?}");
    }
}

#[test]
fn filled_tables_are_even_and_spare_is_not_below_zero() {
    for (_, answer) in tried() {
        assert_even(answer);
        if number(answer) == 0 {
            assert!(spare(answer) >= 0);
        }
    }
}

fn matrix_of(order: &Order, number: usize) -> &Matrix {
    match &order.ingredients[number - 1] {
        Ingredient::Matrix(matrix) => matrix,
        other => panic!("{other:?}"),
    }
}

fn times_of(matrix: &Matrix, column: usize, value: usize) -> usize {
    matrix.rows.iter().filter(|y| y[column] == value).count()
}

/// The order up to the step with this number, from 1, which is made a SUM: without h.
fn up_to_a_sum(call: &Call, order: &Order, step: usize) -> Vec<u16> {
    let Step::Cross { matrices, k, .. } = &order.steps[step - 1] else {
        panic!("{:?}", order.steps)
    };
    let beginning = beginning(&call.list, step);
    let length = 3 + matrices.len();
    let mut list = beginning[..beginning.len() - length - 1].to_vec();
    list.push(3);
    list.push(matrices.len() as u16);
    list.extend(matrices.iter().map(|&d| d as u16));
    list.push(*k as u16);
    list
}

/// The columns of a CROSS are those of the SUM, and then h's, of the run that the new one is of.
#[test]
fn columns_are_those_of_sum_and_then_h() {
    let (mut with_k, mut without_k) = (0, 0);
    for (call, answer) in tried() {
        if number(answer) != 0 {
            continue;
        }
        let order = order::read(&call.list).unwrap();
        let answers = answers_by_step(&call.list);
        for (index, step) in order.steps.iter().enumerate() {
            let Step::Cross { matrices, k, h } = step else {
                continue;
            };
            let summed = planned(&up_to_a_sum(call, &order, index + 1));
            let taken = planned(&table_taken(&call.list, &order, *h));
            let rows = matrix_of(&order, matrices[0]).rows.len();
            assert_crossed(&summed, &taken, rows, &answers[index]);
            match k {
                0 => without_k += 1,
                _ => with_k += 1,
            }
        }
    }
    assert!(with_k > 200 && without_k > 200, "{with_k} {without_k}");
}

/// The ingredients, and TAKE of one of them.
fn table_taken(list: &[u16], order: &Order, h: usize) -> Vec<u16> {
    let mut taken = beginning(list, 1);
    let first = match &order.steps[0] {
        Step::Take { .. } | Step::Field { .. } => 2,
        other => panic!("{other:?}"),
    };
    taken.truncate(taken.len() - first);
    taken.extend([1, h as u16]);
    taken
}

fn assert_crossed(summed: &Answer, taken: &Answer, rows: usize, crossed: &Answer) {
    let ((n, sum_levels), (old, h_levels)) = (shape(summed), shape(taken));
    assert_eq!(n, old * rows);
    let levels = [sum_levels.clone(), h_levels.clone()].concat();
    assert_eq!(shape(crossed), (n, levels.clone()));
    let cells = |answer: &Answer, width: usize, run: usize| match answer {
        Answer::Filled { table, .. } => table[run * width..(run + 1) * width].to_vec(),
        refusal => panic!("{refusal:?}"),
    };
    for run in 0..n {
        let sums = cells(summed, sum_levels.len(), run);
        let on_the_other_side = cells(taken, h_levels.len(), run / rows);
        assert_eq!(
            cells(crossed, levels.len(), run),
            [sums, on_the_other_side].concat()
        );
    }
}

/// All uneven values of all serving matrices are gathered here and put in order, and the SUM of the
/// same parts is never refused as 8 or 9.
#[test]
fn refusal_14_names_the_first() {
    let mut times: BTreeMap<&str, usize> = BTreeMap::new();
    for (call, answer) in tried() {
        let Answer::Refused {
            number: 14,
            details: [step, ingredient, column, value, 0, 0],
        } = answer
        else {
            continue;
        };
        let order = order::read(&call.list).unwrap();
        let step = *step as usize;
        let Step::Cross { matrices, .. } = &order.steps[step - 1] else {
            panic!("{answer:?}")
        };
        let (_, levels) = shape(&planned(&beginning(&call.list, step - 1)));
        let mut uneven = Vec::new();
        for (place, &d) in matrices.iter().enumerate() {
            let matrix = matrix_of(&order, d);
            let serves = levels.iter().any(|&level| usize::from(level) == matrix.p);
            for column in (0..matrix.columns).filter(|_| serves) {
                for value in 0..matrix.p {
                    if times_of(matrix, column, value) * matrix.p != matrix.rows.len() {
                        uneven.push((place, column, value));
                    }
                }
            }
        }
        uneven.sort();
        let named = (
            matrices
                .iter()
                .position(|&d| d == *ingredient as usize)
                .unwrap(),
            *column as usize - 1,
            *value as usize,
        );
        assert_eq!(uneven.first(), Some(&named));

        let as_sum = number(&planned(&up_to_a_sum(call, &order, step)));
        assert!([0, 11].contains(&as_sum), "{as_sum}");
        for (kind, is_so) in [
            ("14", true),
            ("later in the list", named.0 > 0),
            ("later column", named.1 > 0),
            ("later value", named.2 > 0),
            (
                "several matrices",
                uneven.iter().any(|other| other.0 > named.0),
            ),
            ("too large as well", as_sum == 11),
            (
                "a number lower than an earlier one's",
                named.0 > 0 && matrices[named.0] < matrices[0],
            ),
        ] {
            *times.entry(kind).or_default() += usize::from(is_so);
        }
    }
    assert!(times.values().all(|&count| count > 20), "{times:?}");
}

/// A filled order with a CROSS has even matrices for every column that it serves.
#[test]
fn no_uneven_matrix_serves_in_a_filled_order() {
    let mut idle = 0;
    for (call, answer) in tried() {
        if number(answer) != 0 {
            continue;
        }
        let order = order::read(&call.list).unwrap();
        for (index, step) in order.steps.iter().enumerate() {
            let Step::Cross { matrices, .. } = step else {
                continue;
            };
            let (_, levels) = shape(&planned(&beginning(&call.list, index)));
            for &d in matrices {
                let matrix = matrix_of(&order, d);
                let is_even = (0..matrix.columns).all(|column| {
                    (0..matrix.p).all(|value| {
                        times_of(matrix, column, value) * matrix.p == matrix.rows.len()
                    })
                });
                let serves = levels.iter().any(|&level| usize::from(level) == matrix.p);
                assert!(is_even || !serves);
                idle += usize::from(!is_even);
            }
        }
    }
    assert!(idle > 50, "{idle}");
}
