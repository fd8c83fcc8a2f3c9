//! What the tests share.

#![allow(dead_code)]

use second::order::{read, Step, Table};
use second::{plan, Answer};

/// What the tables of `gap_tables` come to, counted by hand: number, six details, gap and pairs. Of 63
/// columns the last two are pair 63 × 62 ÷ 2, and of 29 columns pair 29 × 28 ÷ 2.
pub const GAPS: [(&str, [i64; 9]); 26] = [
    ("2 runs, equal columns", [5, 1, 1, 2, 0, 0, 1, 2, 1]),
    ("4 runs, equal columns", [5, 1, 1, 2, 0, 0, 2, 4, 1]),
    ("4 runs, opposite columns", [5, 1, 1, 2, 0, 0, 0, -4, 1]),
    (
        "6 runs, 2 levels each, short by half a run",
        [5, 1, 1, 2, 0, 0, 1, -2, 1],
    ),
    (
        "6 runs, 2 levels each, over by half a run",
        [5, 1, 1, 2, 0, 0, 2, 2, 1],
    ),
    (
        "27 runs, a short pair before an over one as far off",
        [5, 1, 1, 2, 1, 0, 1, -18, 1],
    ),
    (
        "27 runs, an over pair before a short one as far off",
        [5, 1, 1, 2, 1, 0, 5, 18, 1],
    ),
    (
        "27 runs, three short pairs as far off, the first column's level leading",
        [5, 1, 1, 2, 0, 2, 1, -18, 1],
    ),
    (
        "27 runs, the last pair short and farthest off",
        [5, 1, 1, 2, 2, 2, 1, -18, 1],
    ),
    (
        "18 runs, the last pair over and farthest off",
        [5, 1, 1, 2, 2, 2, 4, 18, 1],
    ),
    (
        "18 runs, times 0 farthest off",
        [5, 1, 1, 2, 2, 1, 0, -18, 1],
    ),
    (
        "9 runs, times 0 before an over pair as far off",
        [5, 1, 1, 2, 0, 1, 0, -9, 1],
    ),
    (
        "9 runs, an over pair before times 0 as far off",
        [5, 1, 1, 2, 0, 1, 2, 9, 1],
    ),
    ("12 runs, 2 and 3 levels", [5, 1, 1, 2, 0, 2, 4, 12, 1]),
    ("12 runs, 3 and 2 levels", [5, 1, 1, 2, 2, 0, 0, -12, 1]),
    (
        "12 runs, 4 and 6 levels, one pair twice",
        [5, 1, 1, 2, 2, 3, 2, 36, 1],
    ),
    (
        "12 runs, 4 and 6 levels, no pair twice",
        [5, 1, 1, 2, 0, 0, 0, -12, 1],
    ),
    (
        "512 runs, 64 levels each, equal columns",
        [5, 1, 1, 2, 0, 0, 8, 32_256, 1],
    ),
    (
        "512 runs, 64 levels each, each pair once or never",
        [5, 1, 1, 2, 0, 1, 1, 3_584, 1],
    ),
    (
        "512 runs, 64 levels each, the last pair farthest off",
        [5, 1, 1, 2, 63, 63, 8, 32_256, 1],
    ),
    (
        "512 runs, 2 levels each, opposite columns",
        [5, 1, 1, 2, 0, 0, 0, -512, 1],
    ),
    (
        "18 runs, columns 1 and 2 a little, 1 and 3 much",
        [5, 1, 1, 2, 0, 1, 3, 9, 1],
    ),
    (
        "18 runs, columns 1 and 2 even, 1 and 3 a little, 2 and 3 much",
        [5, 1, 1, 3, 1, 0, 0, -18, 2],
    ),
    (
        "4 runs, columns 1 and 2 equal, column 3 uneven",
        [4, 1, 3, 0, 1, 0, 0, 0, 0],
    ),
    (
        "64 runs of 63 columns, the last two equal",
        [5, 1, 62, 63, 0, 0, 32, 64, 1_953],
    ),
    (
        "81 runs of 29 columns, the last two uneven",
        [5, 1, 28, 29, 1, 0, 18, 81, 406],
    ),
];

/// What the tables of `pair_tables` come to, counted by hand: number, six details, gap and pairs. Two
/// equal columns of 2 levels have levels 0 and 0 in half of the runs, where a quarter would be even.
pub const PAIRS: [(&str, [i64; 9]); 30] = [
    ("1 column", [0, 0, 0, 0, 0, 0, 0, 0, 0]),
    ("2 columns, all even", [0, 0, 0, 0, 0, 0, 0, 0, 1]),
    ("3 columns, all even", [0, 0, 0, 0, 0, 0, 0, 0, 3]),
    ("4 columns, all even", [0, 0, 0, 0, 0, 0, 0, 0, 6]),
    ("5 columns, all even", [0, 0, 0, 0, 0, 0, 0, 0, 10]),
    ("63 columns, all even", [0, 0, 0, 0, 0, 0, 0, 0, 1_953]),
    ("2 columns, 1-2 uneven", [5, 1, 1, 2, 0, 0, 1, 2, 1]),
    ("3 columns, 1-2 uneven", [5, 1, 1, 2, 0, 0, 2, 4, 1]),
    ("3 columns, 1-3 uneven", [5, 1, 1, 3, 0, 0, 2, 4, 2]),
    ("3 columns, 2-3 uneven", [5, 1, 2, 3, 0, 0, 2, 4, 3]),
    ("4 columns, 1-2 uneven", [5, 1, 1, 2, 0, 0, 2, 4, 1]),
    ("4 columns, 1-3 uneven", [5, 1, 1, 3, 0, 0, 2, 4, 2]),
    ("4 columns, 1-4 uneven", [5, 1, 1, 4, 0, 0, 2, 4, 3]),
    ("4 columns, 2-3 uneven", [5, 1, 2, 3, 0, 0, 2, 4, 4]),
    ("4 columns, 2-4 uneven", [5, 1, 2, 4, 0, 0, 2, 4, 5]),
    ("4 columns, 3-4 uneven", [5, 1, 3, 4, 0, 0, 2, 4, 6]),
    ("5 columns, 1-2 uneven", [5, 1, 1, 2, 0, 0, 4, 8, 1]),
    ("5 columns, 1-3 uneven", [5, 1, 1, 3, 0, 0, 4, 8, 2]),
    ("5 columns, 1-4 uneven", [5, 1, 1, 4, 0, 0, 4, 8, 3]),
    ("5 columns, 1-5 uneven", [5, 1, 1, 5, 0, 0, 4, 8, 4]),
    ("5 columns, 2-3 uneven", [5, 1, 2, 3, 0, 0, 4, 8, 5]),
    ("5 columns, 2-4 uneven", [5, 1, 2, 4, 0, 0, 4, 8, 6]),
    ("5 columns, 2-5 uneven", [5, 1, 2, 5, 0, 0, 4, 8, 7]),
    ("5 columns, 3-4 uneven", [5, 1, 3, 4, 0, 0, 4, 8, 8]),
    ("5 columns, 3-5 uneven", [5, 1, 3, 5, 0, 0, 4, 8, 9]),
    ("5 columns, 4-5 uneven", [5, 1, 4, 5, 0, 0, 4, 8, 10]),
    ("4 columns, 1-4 and 2-3 uneven", [5, 1, 1, 4, 0, 0, 2, 4, 3]),
    ("5 columns, 2-5 and 3-4 uneven", [5, 1, 2, 5, 0, 0, 2, 4, 7]),
    // 1-2 to 1-128 are 127 pairs, and 2-3 is the next.
    (
        "128 columns, all equal but column 1",
        [5, 1, 2, 3, 0, 0, 2, 4, 128],
    ),
    (
        "128 columns, all equal but column 128, which is uneven",
        [4, 1, 128, 0, 2, 0, 0, 0, 0],
    ),
];

/// All pairs of m columns, which count from 1, as they are written down: 1-2, 1-3, .., then 2-3, and so
/// on.
pub fn pairs_in_order(m: usize) -> Vec<(usize, usize)> {
    let mut written = Vec::new();
    for first in 1..=m {
        for second in first + 1..=m {
            written.push((first, second));
        }
    }
    written
}

/// Where two of m columns stand among all pairs as they are written down, from 1.
pub fn position_of_pair(m: usize, first: usize, second: usize) -> i64 {
    let written = pairs_in_order(m);
    let place = written.iter().position(|&pair| pair == (first, second));
    place.unwrap() as i64 + 1
}

/// The numbers of a text.
pub fn numbers(text: &str) -> Vec<u16> {
    text.split_whitespace()
        .map(|word| word.parse().unwrap())
        .collect()
}

/// The answer to a list, with buffers just long enough.
pub fn planned(list: &[u16]) -> Answer {
    plan(list, 65_536, 128, 65_536)
}

/// The answer to the list that a text holds.
pub fn answer(text: &str) -> Answer {
    planned(&numbers(text))
}

pub fn refusal(number: u8, given: &[u32]) -> Answer {
    let mut details = [0; 6];
    details[..given.len()].copy_from_slice(given);
    Answer::Refused { number, details }
}

/// A filled answer from its level counts and its runs, each written as digits.
pub fn filled(levels: &[u8], runs: &str) -> Answer {
    let words: Vec<&str> = runs.split_whitespace().collect();
    let table = words.concat().bytes().map(|byte| byte - b'0').collect();
    Answer::Filled {
        runs: words.len(),
        levels: levels.to_vec(),
        spare: words.len() as i64 - 1 - held(levels),
        table,
    }
}

/// The sum over columns of (levels - 1): what 02's K1 takes from the runs.
pub fn held<Level: Copy + Into<i64>>(levels: &[Level]) -> i64 {
    levels.iter().map(|&level| level.into() - 1).sum()
}

/// The spare of a filled answer.
pub fn spare(answer: &Answer) -> i64 {
    match answer {
        Answer::Filled { spare, .. } => *spare,
        refusal => panic!("{refusal:?}"),
    }
}

/// The size and the level counts of a filled answer, which must be even.
pub fn shape(answer: &Answer) -> (usize, Vec<u8>) {
    assert_even(answer);
    match answer {
        Answer::Filled { runs, levels, .. } => (*runs, levels.clone()),
        refusal => panic!("{refusal:?}"),
    }
}

/// Counts every level and every pair of levels of a filled answer, over all of its runs, with a
/// counter for each; a refusal has nothing to count.
pub fn assert_even(answer: &Answer) {
    let Answer::Filled {
        runs,
        levels,
        table,
        ..
    } = answer
    else {
        return;
    };
    let (n, m) = (*runs, levels.len());
    assert!((1..=512).contains(&n) && (1..=128).contains(&m));
    assert_eq!(table.len(), n * m);
    for (place, cell) in table.iter().enumerate() {
        assert!(*cell < levels[place % m]);
    }
    for a in 0..m {
        let mut times = [0; 64];
        for run in table.chunks(m) {
            times[run[a] as usize] += 1;
        }
        let s = levels[a] as usize;
        assert!(times[..s].iter().all(|count| s * count == n), "column {a}");
        for b in a + 1..m {
            let mut times = [[0; 64]; 64];
            for run in table.chunks(m) {
                times[run[a] as usize][run[b] as usize] += 1;
            }
            let t = levels[b] as usize;
            for row in &times[..s] {
                assert!(
                    row[..t].iter().all(|count| s * t * count == n),
                    "columns {a} {b}"
                );
            }
        }
    }
}

/// Sylvester's matrix: two levels, as many columns as rows, a power of two.
pub fn sylvester(size: usize) -> Vec<Vec<u16>> {
    let entry = |y: usize, c: usize| ((y & c).count_ones() % 2) as u16;
    (0..size)
        .map(|y| (0..size).map(|c| entry(y, c)).collect())
        .collect()
}

/// A matrix ingredient.
pub fn matrix(p: u16, rows: &[Vec<u16>]) -> Vec<u16> {
    let mut list = vec![2, rows.len() as u16, rows[0].len() as u16, p];
    list.extend(rows.concat());
    list
}

/// A table ingredient.
pub fn table(levels: &[u16], runs: &[Vec<u16>]) -> Vec<u16> {
    let mut list = vec![1, runs.len() as u16, levels.len() as u16];
    list.extend(levels);
    list.extend(runs.concat());
    list
}

/// The list that writes a table.
pub fn list_of(sheet: &Table) -> Vec<u16> {
    let numbers = |list: &[usize]| -> Vec<u16> { list.iter().map(|&n| n as u16).collect() };
    let runs: Vec<Vec<u16>> = sheet.runs.iter().map(|run| numbers(run)).collect();
    table(&numbers(&sheet.levels), &runs)
}

/// A generator over two elements whose factors are the points 1 to n, in base 2, first coordinate
/// highest.
pub fn points(t: u16, n: u16) -> Vec<u16> {
    let mut list = vec![3, t, n, 2];
    list.extend(vec![1; n as usize]);
    for coordinate in (0..t).rev() {
        list.extend((1..=n).map(|point| point >> coordinate & 1));
    }
    list
}

/// The answers to the beginnings of an order: its ingredients with the first step, the first two, and
/// so on to all of them.
pub fn answers_by_step(list: &[u16]) -> Vec<Answer> {
    let count = read(list).unwrap().steps.len();
    (1..=count)
        .map(|steps| planned(&beginning(list, steps)))
        .collect()
}

/// The list of an order's ingredients with its first steps, so many.
pub fn beginning(list: &[u16], steps: usize) -> Vec<u16> {
    let lengths: Vec<usize> = read(list).unwrap().steps.iter().map(step_length).collect();
    let start = list.len() - lengths.iter().sum::<usize>();
    let end = start + lengths[..steps].iter().sum::<usize>();
    [&list[..start - 1], &[steps as u16], &list[start..end]].concat()
}

/// How many numbers of a list are a step's.
fn step_length(step: &Step) -> usize {
    match step {
        Step::Take { .. } | Step::Field { .. } => 2,
        Step::Sum { matrices, .. } => 3 + matrices.len(),
        Step::Merge { members, .. } => 2 + members.len(),
        Step::Split { .. } => 3,
        Step::Cross { matrices, .. } => 4 + matrices.len(),
    }
}

/// The list of an order.
pub fn order(ingredients: &[Vec<u16>], steps: &[&[u16]]) -> Vec<u16> {
    let mut list = vec![ingredients.len() as u16];
    list.extend(ingredients.concat());
    list.push(steps.len() as u16);
    list.extend(steps.concat());
    list
}
