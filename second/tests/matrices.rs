//! Fields of 4, 8 and 9 in the matrices, 02's request K2.

mod common;
use common::*;
use second::field::{matrix_sum, product};
use second::maker::make;
use second::order::{self, Ingredient, Matrix, Step};
use second::{records, Answer};
use std::collections::BTreeMap;

/// 02's sum, worked out apart from the planner: for 4, 8 and 9 digits in base 2 or 3 are added, each
/// for itself.
fn wanted_sum(p: usize, a: usize, b: usize) -> usize {
    let base = match p {
        4 | 8 => 2,
        9 => 3,
        _ => return (a + b) % p,
    };
    let mut total = 0;
    let mut place = 1;
    while place < p {
        total += (a / place + b / place) % base * place;
        place *= base;
    }
    total
}

#[test]
fn sums_for_every_p() {
    for p in 2..=64 {
        for a in 0..p {
            for b in 0..p {
                assert_eq!(matrix_sum(p, a, b), wanted_sum(p, a, b), "{p}: {a} + {b}");
            }
        }
    }
    assert_eq!(matrix_sum(4, 1, 3), 2);
    assert_eq!(matrix_sum(8, 5, 7), 2);
    assert_eq!(matrix_sum(9, 5, 8), 1);
    assert_eq!(matrix_sum(16, 9, 9), 2);
    assert_eq!(matrix_sum(25, 4, 4), 8);
    assert_eq!(matrix_sum(27, 2, 2), 4);
}

/// The difference of a and b as refusal 6 names it: they are the last row of a matrix whose other rows
/// have each difference but p - 1 once, so that theirs is the only one that stands there twice.
fn named_difference(p: usize, a: usize, b: usize) -> usize {
    let second = |difference: usize| (5 * difference + 3) % p;
    let mut rows: Vec<Vec<u16>> = (0..p - 1)
        .map(|d| vec![wanted_sum(p, second(d), d) as u16, second(d) as u16])
        .collect();
    rows.push(vec![a as u16, b as u16]);
    match planned(&order(&[matrix(p as u16, &rows)], &[&[1, 101]])) {
        Answer::Filled { .. } => p - 1,
        Answer::Refused {
            number: 6,
            details: [1, 1, 2, difference, 2, 0],
        } => difference as usize,
        other => panic!("{p}: {a} - {b}: {other:?}"),
    }
}

#[test]
fn a_difference_and_the_second_make_the_first_for_every_p() {
    for p in 2..=64 {
        for a in 0..p {
            for b in 0..p {
                let difference = named_difference(p, a, b);
                assert_eq!(wanted_sum(p, b, difference), a, "{p}: {a} - {b}");
            }
        }
    }
    // For 4 and 8 the difference is the sum; for 9 it is not, nor the one the other way about.
    assert_eq!((named_difference(4, 1, 3), matrix_sum(4, 1, 3)), (2, 2));
    assert_eq!((named_difference(9, 1, 3), matrix_sum(9, 1, 3)), (7, 4));
    assert_eq!(named_difference(9, 3, 1), 5);
}

/// Runs and columns of a filled order, or the details of refusal 6.
enum Wanted {
    Filled(usize, usize),
    Refused([u32; 5]),
}
use Wanted::*;

/// What the short examples of that name come to.
const EXAMPLES: &[(&str, Wanted)] = &[
    ("p = 4, rows 0000 0123 0231 0312", Filled(16, 5)),
    ("p = 4, rows 00 01 02 03, even modulo 4 too", Filled(16, 2)),
    (
        "p = 4, rows 00 12 02 03, even modulo 4 alone",
        Refused([1, 1, 2, 1, 0]),
    ),
    (
        "p = 4, 8 rows of 4 columns, even modulo 4 too",
        Filled(32, 4),
    ),
    (
        "p = 4, 8 rows of 3 columns, even modulo 4 alone",
        Refused([1, 2, 3, 1, 4]),
    ),
    ("p = 8, even modulo 8 alone", Refused([1, 1, 2, 1, 0])),
    ("p = 9, even modulo 9 alone", Refused([1, 1, 2, 2, 0])),
    ("p = 9, first minus second", Refused([1, 1, 2, 2, 0])),
    ("SUM on 2, 4 and 2 levels", Filled(32, 12)),
    ("SUM on 8 and 4 levels", Filled(32, 2)),
    ("SUM on 9 and 3 levels", Filled(27, 2)),
    ("SUM on 16 and 4 levels", Filled(64, 2)),
    ("MERGE modulo 2, then SUM over GF(4)", Filled(16, 7)),
    ("MERGE modulo 3, then SUM over GF(9)", Filled(81, 7)),
    (
        "SUM over GF(4), then SPLIT and MERGE modulo 2",
        Filled(16, 7),
    ),
    (
        "SUM over GF(9), then SPLIT and MERGE modulo 3",
        Filled(81, 13),
    ),
    ("p = 8, the products of GF(8)", Filled(64, 9)),
    ("p = 9, the products of GF(9)", Filled(81, 10)),
    ("p = 8, all sums", Filled(64, 1)),
    ("p = 9, all sums", Filled(81, 1)),
    ("p = 16, all sums", Filled(256, 1)),
];

/// The stored examples of the group "fields", by name.
fn examples() -> BTreeMap<String, Answer> {
    let text = records::examples();
    let lines: Vec<&str> = text.lines().collect();
    let mut found = BTreeMap::new();
    for two in lines.windows(2) {
        if let Some(name) = two[0].strip_prefix("# fields: ") {
            let order = two[1].strip_suffix(" =").unwrap();
            found.insert(name.to_string(), answer(order));
        }
    }
    found
}

#[test]
fn examples_come_to_what_they_should() {
    let mut found = examples();
    for (name, wanted) in EXAMPLES {
        let answer = found.remove(*name).expect(name);
        match wanted {
            Filled(runs, columns) => {
                let (n, levels) = shape(&answer);
                assert_eq!((n, levels.len()), (*runs, *columns), "{name}");
            }
            Refused(details) => assert_eq!(answer, refusal(6, details), "{name}"),
        }
    }
    // The powers of primes that stay modulo p.
    for (p, q) in [(16u8, 2), (25, 5), (27, 3), (32, 2), (49, 7), (64, 2)] {
        let mut take = |what: &str| found.remove(&format!("p = {p}, {what}")).unwrap();
        let modulo = take(&format!("even modulo {p} alone"));
        assert_eq!(modulo, answer("0 1 1 101"));
        let by_digits = take("even digit by digit alone");
        assert_eq!(by_digits, refusal(6, &[1, 1, 2, q - 1, 2]));
        let Answer::Filled { table, .. } = take(&format!("plus 1 and plus {}", p - 1)) else {
            panic!("p = {p}")
        };
        let wanted = (0..p).flat_map(|x| [(x + 1) % p, (x + p - 1) % p]);
        assert_eq!(table, wanted.collect::<Vec<u8>>());
    }
    assert!(found.is_empty(), "{:?}", found.keys());
}

#[test]
fn sums_run_by_run() {
    // x, x + y, x + 2y, x + 3y and y over GF(4).
    assert_eq!(
        examples()["p = 4, rows 0000 0123 0231 0312"],
        filled(
            &[4; 5],
            "00000 01231 02312 03123 11110 10321 13202 12033 \
             22220 23011 20132 21303 33330 32101 31022 30213"
        )
    );
    assert_eq!(
        examples()["p = 4, rows 00 01 02 03, even modulo 4 too"],
        filled(&[4; 2], "00 01 02 03 11 10 13 12 22 23 20 21 33 32 31 30")
    );
    // x + 5 over GF(9), beside x + 2 modulo 3: 0 + 5 = 5, 1 + 5 = 3, 2 + 5 = 4, and then 3 more.
    let Answer::Filled { table, .. } = &examples()["SUM on 9 and 3 levels"] else {
        panic!()
    };
    let nines: Vec<u8> = table.iter().step_by(6).copied().collect();
    assert_eq!(nines, [5, 3, 4, 8, 6, 7, 2, 0, 1]);
    assert_eq!(table[..6], [5, 2, 5, 0, 5, 1]);
    // x + 7 modulo 16, beside x + 3 over GF(4).
    let Answer::Filled { table, .. } = &examples()["SUM on 16 and 4 levels"] else {
        panic!()
    };
    assert_eq!(table[..8], [7, 3, 7, 2, 7, 1, 7, 0]);
    assert_eq!(table[9 * 8..][..2], [0, 3]);
}

/// The first columns of the products of a field, each row so many times.
fn products(p: u16, columns: u16, times: usize) -> Vec<Vec<u16>> {
    let row = |y: u16| (0..columns).map(move |c| product(p.into(), y.into(), c.into()) as u16);
    let rows: Vec<Vec<u16>> = (0..p).map(|y| row(y).collect()).collect();
    vec![rows; times].concat()
}

#[test]
fn products_of_a_field_fill() {
    for p in [4u16, 8, 9] {
        let sheet = table(&[p], &(0..p).map(|x| vec![x]).collect::<Vec<_>>());
        for columns in 1..=p {
            for times in [1, 2] {
                let list = order(
                    &[sheet.clone(), matrix(p, &products(p, columns, times))],
                    &[&[1, 1], &[3, 1, 2, 0]],
                );
                let runs = (p * p) as usize * times;
                let levels = vec![p as u8; columns as usize];
                assert_eq!(shape(&planned(&list)), (runs, levels));
            }
        }
        // A column more is the second again.
        let mut rows = products(p, p, 1);
        for row in &mut rows {
            row.push(row[1]);
        }
        assert_eq!(
            planned(&order(&[matrix(p, &rows)], &[&[1, 101]])),
            refusal(6, &[1, 2, u32::from(p) + 1, 0, u32::from(p)])
        );
    }
}

#[test]
fn products_less_their_highest_digits_fill() {
    // Bose and Bush: 8 rows for 4 levels from GF(8), 9 rows for 3 levels from GF(9).
    for (from, p) in [(8u16, 4u16), (9, 3)] {
        let mut rows = products(from, from, 1);
        rows.iter_mut().flatten().for_each(|entry| *entry %= p);
        let sheet = table(&[p], &(0..p).map(|x| vec![x]).collect::<Vec<_>>());
        let list = order(&[sheet, matrix(p, &rows)], &[&[1, 1], &[3, 1, 2, 0]]);
        let levels = vec![p as u8; from as usize];
        assert_eq!(shape(&planned(&list)), ((p * from) as usize, levels));
    }
}

#[test]
fn each_column_has_the_sum_of_its_own_level_count() {
    // 4, 9 and 8 levels in one sheet of 288 runs; the matrices are named in another order.
    let levels = [4u16, 9, 8];
    let runs = (0..288).map(|i| vec![i % 4, i / 4 % 9, i / 36]);
    let sheet = table(&levels, &runs.clone().collect::<Vec<_>>());
    let shifts = [3u16, 7, 6];
    let mut ingredients = vec![sheet];
    for (&p, &shift) in levels.iter().zip(&shifts) {
        ingredients.push(matrix(p, &[vec![shift]]));
    }
    let Answer::Filled { table: cells, .. } =
        planned(&order(&ingredients, &[&[1, 1], &[3, 3, 4, 2, 3, 0]]))
    else {
        panic!()
    };
    for (run, new) in runs.zip(cells.chunks(3)) {
        for column in 0..3 {
            let [p, x, shift] = [levels[column], run[column], shifts[column]].map(usize::from);
            assert_eq!(usize::from(new[column]), wanted_sum(p, x, shift));
        }
    }
}

/// The matrices of the order that a SUM names.
fn matrices<'a>(order: &'a order::Order, named: &[usize]) -> Vec<&'a Matrix> {
    let matrix = |&d: &usize| match &order.ingredients[d - 1] {
        Ingredient::Matrix(matrix) => matrix,
        other => panic!("{other:?}"),
    };
    named.iter().map(matrix).collect()
}

/// Every cell that a SUM makes in random orders, and how often a matrix over each field made some.
#[test]
fn sums_of_random_orders() {
    let mut wide: BTreeMap<usize, usize> = BTreeMap::new();
    for index in 0..3_000 {
        let call = make(8_000_000 + index);
        if matches!(call.answer(), Answer::Refused { .. }) {
            continue;
        }
        let order = order::read(&call.list).unwrap();
        let answers = answers_by_step(&call.list);
        for (place, step) in order.steps.iter().enumerate() {
            let Step::Sum {
                matrices: named, ..
            } = step
            else {
                continue;
            };
            let matrices = matrices(&order, named);
            assert_summed(&answers[place - 1], &matrices, &answers[place]);
            for matrix in matrices.iter().filter(|matrix| matrix.columns > 2) {
                *wide.entry(matrix.p).or_default() += 1;
            }
        }
    }
    for p in [4, 8, 9] {
        assert!(wide.get(&p) > Some(&20), "{p}: {wide:?}");
    }
}

fn assert_summed(before: &Answer, matrices: &[&Matrix], after: &Answer) {
    let (
        Answer::Filled { levels, table, .. },
        Answer::Filled {
            levels: new_levels,
            table: new_table,
            ..
        },
    ) = (before, after)
    else {
        panic!("{before:?}")
    };
    let rows = matrices[0].rows.len();
    for (number, new_run) in new_table.chunks(new_levels.len()).enumerate() {
        let run = &table[number / rows * levels.len()..][..levels.len()];
        let mut wanted = Vec::new();
        for (&x, &level) in run.iter().zip(levels) {
            let server = matrices.iter().find(|matrix| matrix.p == level.into());
            let row = &server.unwrap().rows[number % rows];
            wanted.extend(row.iter().map(|&y| wanted_sum(level.into(), x.into(), y)));
        }
        let cells: Vec<usize> = new_run.iter().map(|&cell| cell.into()).collect();
        assert_eq!(cells[..wanted.len()], wanted);
    }
}
