//! Tables whose columns are even, and whose pairs mostly are not; 02, K5.

use super::draft::*;
use super::right::unused_ingredient;
use super::{Call, Random};
use crate::order::Table;

const RUNS: [usize; 24] = [
    4, 6, 8, 9, 12, 16, 18, 20, 24, 27, 30, 32, 36, 36, 45, 48, 54, 64, 81, 100, 144, 243, 256, 512,
];

/// An order with such a table, which a step may use or not; the same for the same seed.
pub fn make_uneven(seed: u64) -> Call {
    let random = &mut Random::new(seed);
    let mut draft = Draft::default();
    if random.percent(25) {
        let before = unused_ingredient(random);
        draft.add(before);
    }
    let table = uneven_table(random, 110);
    let i = draft.add(table_numbers(&table));
    draft.steps.push(take(random.pick(&[i, 101])));
    Call::of(plain(&draft.numbers()))
}

/// A table of two columns or some more, and of at most so many entries, which must be 8 or more.
pub fn uneven_table(random: &mut Random, most_entries: usize) -> Table {
    let fitting: Vec<usize> = RUNS.into_iter().filter(|n| 2 * n <= most_entries).collect();
    let runs = random.pick(&fitting);
    let columns = random.between(2, (most_entries / runs).min(5));
    let mut table = even_columns(random, runs, columns);
    if random.percent(60) {
        crowd_a_pair(random, &mut table);
    } else {
        for _ in 0..random.between(1, 3) {
            disturb_a_column(random, &mut table);
        }
    }
    table
}

/// Each column goes through its levels at a stride, and that of the next is as many times longer, so
/// that all are even together. Where the runs do not allow a further one, it has its levels in any
/// order.
fn even_columns(random: &mut Random, runs: usize, columns: usize) -> Table {
    let mut table = Table {
        levels: Vec::new(),
        runs: vec![Vec::new(); runs],
    };
    let mut stride = 1;
    for _ in 0..columns {
        let goes_on = runs / stride > 1;
        let s = random_level(random, if goes_on { runs / stride } else { runs });
        let entries = if goes_on {
            let at_stride = (0..runs).map(|run| run / stride % s).collect();
            stride *= s;
            at_stride
        } else {
            let mut in_any_order: Vec<usize> = (0..runs).map(|run| run % s).collect();
            random.shuffle(&mut in_any_order);
            in_any_order
        };
        table.levels.push(s);
        for (run, entry) in table.runs.iter_mut().zip(entries) {
            run.push(entry);
        }
    }
    table
}

/// A level count that goes into the runs: mostly a low one, but 2 only now and then. In a column of 2
/// levels a pair is short by as much as the other is over, so that the first level would be named
/// whenever both are the farthest off.
fn random_level(random: &mut Random, runs: usize) -> usize {
    let fitting: Vec<usize> = (2..=64).filter(|s| runs.is_multiple_of(*s)).collect();
    let above_2 = fitting.iter().position(|&s| s > 2);
    match (above_2, random.below(100)) {
        (Some(first), 0..=74) => random.pick(&fitting[first..fitting.len().min(first + 2)]),
        _ => random.pick(&fitting),
    }
}

/// Changes a column, mostly the last, and leaves the count of each of its levels as it was.
fn disturb_a_column(random: &mut Random, table: &mut Table) {
    let (runs, last) = (table.runs.len(), table.levels.len() - 1);
    let column = match random.percent(60) {
        true => last,
        false => random.below(last + 1),
    };
    let mut entries: Vec<usize> = table.runs.iter().map(|run| run[column]).collect();
    match random.below(6) {
        // Some entries change places.
        0..=2 => {
            for _ in 0..random.between(1, 6) {
                let (a, b) = (random.below(runs), random.below(runs));
                entries.swap(a, b);
            }
        }
        // A stretch slips by a line, and its last entry comes first.
        3 => {
            let length = random.between(2, runs.min(12));
            let start = random.below(runs - length + 1);
            entries[start..start + length].rotate_right(1);
        }
        // All in any order.
        4 => random.shuffle(&mut entries),
        // A stretch in the order of the levels.
        _ => {
            let length = random.between(2, runs);
            let start = random.below(runs - length + 1);
            entries[start..start + length].sort();
        }
    }
    for (run, entry) in table.runs.iter_mut().zip(entries) {
        run[column] = entry;
    }
}

/// Makes a pair of levels of two columns stand in more runs, or in fewer, by exchanges within the
/// second.
fn crowd_a_pair(random: &mut Random, table: &mut Table) {
    let mut columns = Vec::from_iter(0..table.levels.len());
    random.shuffle(&mut columns);
    let (first, second) = (columns[0], columns[1]);
    let x = random.below(table.levels[first]);
    let y = random.below(table.levels[second]);
    let more = random.percent(30);
    for _ in 0..random.between(2, 3) {
        let choose = |random: &mut Random, has_x: bool, has_y: bool| {
            let fits = |run: &&usize| {
                let run = &table.runs[**run];
                (run[first] == x) == has_x && (run[second] == y) == has_y
            };
            let all = Vec::from_iter(0..table.runs.len());
            let fitting: Vec<usize> = all.iter().filter(fits).copied().collect();
            (!fitting.is_empty()).then(|| random.pick(&fitting))
        };
        let (Some(a), Some(b)) = (choose(random, true, !more), choose(random, false, more)) else {
            return;
        };
        let of_a = table.runs[a][second];
        table.runs[a][second] = table.runs[b][second];
        table.runs[b][second] = of_a;
    }
}
