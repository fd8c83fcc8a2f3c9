//! What holds of every order, tried on random ones.

mod common;
use common::*;
use second::maker::{large_calls, make, make_crossing, Call, ANY};
use second::order::{Ingredient, Matrix, Order, Step};
use second::{order, plan, print, scan, Answer};
use std::collections::BTreeMap;
use std::sync::OnceLock;

/// Random orders, other ones than those of the vectors, with their answers.
fn tried() -> &'static [(Call, Answer)] {
    static TRIED: OnceLock<Vec<(Call, Answer)>> = OnceLock::new();
    TRIED.get_or_init(|| {
        let calls = (0..3_000).map(|index| make(7_000_000 + index));
        let crossing = (0..1_500).map(|index| make_crossing(7_500_000 + index, &ANY));
        let calls = calls.chain(crossing);
        calls.map(|call| (call.clone(), call.answer())).collect()
    })
}

#[test]
fn filled_tables_are_even() {
    let mut filled = 0;
    for (_, answer) in tried() {
        assert_even(answer);
        filled += usize::from(matches!(answer, Answer::Filled { .. }));
    }
    assert!(filled > tried().len() / 4);
    for call in large_calls() {
        assert_even(&call.answer());
    }
}

#[test]
fn no_filled_order_has_a_spare_below_zero() {
    let large: Vec<Answer> = large_calls().iter().map(Call::answer).collect();
    let mut saturated = 0;
    let mut others = 0;
    for answer in tried().iter().map(|(_, answer)| answer).chain(&large) {
        if let Answer::Filled { spare, .. } = answer {
            assert!(*spare >= 0, "{spare}");
            saturated += usize::from(*spare == 0);
            others += usize::from(*spare > 0);
        }
    }
    assert!(saturated > 100 && others > 100, "{saturated} {others}");
}

/// 02's rules for the spare after each kind of step. Each is worked out here from the sheet before
/// the step and from the ingredients, and never from the sheet that the step leaves.
#[test]
fn the_spare_follows_from_the_steps() {
    let mut times: BTreeMap<&str, usize> = BTreeMap::new();
    for (call, answer) in tried() {
        if matches!(answer, Answer::Refused { .. }) {
            continue;
        }
        let order = order::read(&call.list).unwrap();
        let answers = answers_by_step(&call.list);
        assert_eq!(answers.last(), Some(answer));
        for (index, step) in order.steps.iter().enumerate() {
            let before = index.checked_sub(1).map(|earlier| &answers[earlier]);
            let (rule, wanted) = spare_after(&order, step, before);
            assert_eq!(spare(&answers[index]), wanted, "{rule} in {:?}", call.list);
            *times.entry(rule).or_default() += 1;
        }
    }
    assert_eq!(times.len(), 9, "{times:?}");
    assert!(times.values().all(|&count| count > 100), "{times:?}");
}

/// The name of the rule that a step falls under, and the spare that it wants after the step.
fn spare_after(order: &Order, step: &Step, before: Option<&Answer>) -> (&'static str, i64) {
    match step {
        Step::Take { table } => ("TAKE", spare_of_table(order, *table)),
        Step::Field { generator } => {
            let Ingredient::Generator(generator) = &order.ingredients[generator - 1] else {
                panic!("{step:?}")
            };
            let power = |exponent: usize| (generator.s as i64).pow(exponent as u32);
            let levels: Vec<i64> = generator.factors.iter().map(|f| power(f.len())).collect();
            ("FIELD", power(generator.t) - 1 - held(&levels))
        }
        Step::Sum { matrices, k } | Step::Cross { matrices, k, .. } => {
            let matrices: Vec<&Matrix> = matrices.iter().map(|&d| matrix_of(order, d)).collect();
            let (n, sheet_levels) = shape(before.unwrap());
            let n_times_m = (n * matrices[0].rows.len()) as i64;
            let new_levels: Vec<i64> = sheet_levels
                .iter()
                .flat_map(|&level| {
                    let server = matrices.iter().find(|matrix| matrix.p == level.into());
                    vec![level.into(); server.unwrap().columns]
                })
                .collect();
            let without_k = n_times_m - 1 - held(&new_levels);
            match (step, k) {
                (Step::Cross { h, .. }, 0) => {
                    ("CROSS without k", without_k - held_by_table(order, *h))
                }
                (Step::Cross { h, .. }, _) => {
                    let by_both = held_by_table(order, *k) + held_by_table(order, *h);
                    ("CROSS with k", without_k - by_both)
                }
                (_, 0) => ("SUM without k", without_k),
                _ => ("SUM with k", without_k - held_by_table(order, *k)),
            }
        }
        Step::Merge { .. } => ("MERGE", spare(before.unwrap())),
        Step::Split { table, .. } => match spare_of_table(order, *table) {
            0 => ("SPLIT by a saturated table", spare(before.unwrap())),
            more => ("SPLIT by another table", spare(before.unwrap()) + more),
        },
    }
}

fn matrix_of(order: &Order, number: usize) -> &Matrix {
    match &order.ingredients[number - 1] {
        Ingredient::Matrix(matrix) => matrix,
        other => panic!("{other:?}"),
    }
}

/// Runs, and the sum over columns of (levels - 1), of a table that an order names.
fn size_of_table(order: &Order, number: usize) -> (i64, i64) {
    match number {
        101 => (4, 3),
        102 => (9, 8),
        103 => (12, 6),
        104 => (12, 7),
        _ => match &order.ingredients[number - 1] {
            Ingredient::Table(table) => {
                let levels: Vec<i64> = table.levels.iter().map(|&level| level as i64).collect();
                (table.runs.len() as i64, held(&levels))
            }
            other => panic!("{other:?}"),
        },
    }
}

fn held_by_table(order: &Order, number: usize) -> i64 {
    size_of_table(order, number).1
}

fn spare_of_table(order: &Order, number: usize) -> i64 {
    let (runs, held) = size_of_table(order, number);
    runs - 1 - held
}

#[test]
fn every_refusal_is_reached() {
    let mut times = [0; 15];
    for (_, answer) in tried() {
        let number = match answer {
            Answer::Filled { .. } => 0,
            Answer::Refused { number, .. } => *number,
        };
        times[number as usize] += 1;
    }
    // 12 and 13 are a page's.
    let (to_11, others) = times.split_at(12);
    assert!(to_11.iter().all(|&count| count > 30), "{times:?}");
    assert!(others[..2] == [0, 0] && others[2] > 100, "{times:?}");
}

#[test]
fn details_are_in_their_ranges() {
    for (call, answer) in tried() {
        let Answer::Refused { number, details: d } = answer else {
            continue;
        };
        let number = *number;
        let length = call.list.len() as u32;
        let used = match number {
            1 => 0,
            2 | 3 | 8 | 9 => 1,
            10 | 11 => 3,
            4 | 7 | 14 => 4,
            6 => 5,
            5 => 6,
            other => panic!("{other}"),
        };
        assert!(
            d[used..].iter().all(|&detail| detail == 0),
            "{number} {d:?}"
        );
        match number {
            2 => assert!(d[0] <= length),
            3 => assert!(d[0] < length && call.list[d[0] as usize] > 1),
            4..=7 => assert!((1..=u32::from(call.list[0])).contains(&d[0])),
            _ => assert!(d[0] <= 16),
        }
        match number {
            5 | 6 => assert!(1 <= d[1] && d[1] < d[2]),
            7 => assert!(d[2] == 0 && d[1] == 1 || 1 <= d[1] && d[1] < d[2]),
            10 => assert!(d[1] < 512 && (3..=8).contains(&d[2])),
            11 => assert!(d[1] > 512 || d[2] > 128),
            14 => {
                assert!((1..=u32::from(call.list[0])).contains(&d[1]));
                assert!((1..=128).contains(&d[2]) && d[3] < 63);
            }
            _ => {}
        }
    }
}

#[test]
fn a_list_cut_anywhere_is_refused_at_its_length() {
    for (call, _) in &tried()[..500] {
        let list = &call.list;
        if order::read(list).is_ok() && list.len() < 200 {
            for length in 0..list.len() {
                assert_eq!(planned(&list[..length]), refusal(2, &[length as u32]));
            }
            let longer = [&list[..], &[1]].concat();
            assert_eq!(planned(&longer), refusal(2, &[list.len() as u32]));
        }
    }
}

#[test]
fn printed_words_are_read_again() {
    for (call, answer) in &tried()[..500] {
        let words: Vec<String> = call
            .list
            .iter()
            .map(|number| format!("{number:03}"))
            .collect();
        assert_eq!(scan(words.join(" \n\t").as_bytes()), Ok(call.list.clone()));

        let text = print(answer);
        assert!(text.ends_with('\n') && !text.contains("  ") && !text.contains(" \n"));
        match answer {
            Answer::Filled {
                runs,
                levels,
                spare,
                table,
            } => {
                assert_eq!(text.lines().count(), runs + 2);
                let mut numbers = vec![*runs as u16, levels.len() as u16, *spare as u16];
                numbers.extend(levels.iter().map(|&level| u16::from(level)));
                numbers.extend(table.iter().map(|&cell| u16::from(cell)));
                assert_eq!(scan(text.as_bytes()), Ok(numbers));
            }
            Answer::Refused { number, details } => {
                let [a, b, c, d, e, f] = details;
                assert_eq!(text, format!("refused {number} {a} {b} {c} {d} {e} {f}\n"));
            }
        }
    }
}

#[test]
fn longer_buffers_change_nothing() {
    for (call, _) in &tried()[..500] {
        assert_eq!(
            planned(&call.list),
            plan(&call.list, 1_000_000, 1_000, 65_600)
        );
    }
}
