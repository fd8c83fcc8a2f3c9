//! MERGE of all columns of a table, for each p that it has.

use super::{cells, order};
use crate::planners::Numbers;

pub struct MergeCase {
    pub name: String,
    pub list: Vec<u16>,
    pub answer: Numbers,
    /// The same order, but with a member wrong in run 0.
    pub wrong_at_once: Vec<u16>,
}

/// p, and the most runs of an even table whose columns have p levels: p * p divides them.
const SIZES: [(usize, usize); 4] = [(2, 512), (3, 486), (5, 500), (7, 490)];

/// For each p one that is filled, and one whose last member is no sum in the last 2 * p runs.
pub fn merge_cases() -> Vec<MergeCase> {
    let both = |(p, runs)| [filled(p, runs), refused(p, runs)];
    SIZES.into_iter().flat_map(both).collect()
}

fn filled(p: usize, runs: usize) -> MergeCase {
    MergeCase {
        name: format!("MERGE of {p} on {runs} runs"),
        list: merge_order(p, runs, |run, member| sum(p, run, member)),
        answer: [0, runs, 1, 0, 0, 0, 0],
        wrong_at_once: wrong_at_once(p, runs),
    }
}

fn refused(p: usize, runs: usize) -> MergeCase {
    let first_wrong = runs - 2 * p;
    MergeCase {
        name: format!("MERGE of {p}, wrong from run {first_wrong} on"),
        list: merge_order(p, runs, |run, member| {
            wrong_at_the_end(p, runs, run, member)
        }),
        answer: [10, 2, first_wrong, p + 1, 0, 0, 0],
        wrong_at_once: wrong_at_once(p, runs),
    }
}

/// The table that is wrong at the end, with its runs from the last to the first.
fn wrong_at_once(p: usize, runs: usize) -> Vec<u16> {
    merge_order(p, runs, |run, member| {
        wrong_at_the_end(p, runs, runs - 1 - run, member)
    })
}

/// The members, from 1, are a, b, a + b, .., a + (p - 1) * b, for all a and b over and over. The runs go by
/// the last member, which is a - b, from its highest level down.
fn sum(p: usize, run: usize, member: usize) -> usize {
    let (last, b) = (p - 1 - run / p % p, run % p);
    let a = (last + b) % p;
    match member {
        1 => a,
        2 => b,
        h => (a + (h - 2) * b) % p,
    }
}

/// In the last 2 * p runs the last member is 1, and then 0. With these two exchanged it stands beside each
/// level of the other columns as often as before.
fn wrong_at_the_end(p: usize, runs: usize, run: usize, member: usize) -> usize {
    match sum(p, run, member) {
        level if member == p + 1 && run >= runs - 2 * p => 1 - level,
        level => level,
    }
}

/// TAKE of a table with p + 1 columns, and MERGE of these.
fn merge_order(p: usize, runs: usize, entry: impl Fn(usize, usize) -> usize) -> Vec<u16> {
    let columns = p + 1;
    let mut table = vec![1, runs as u16, columns as u16];
    table.extend(vec![p as u16; columns]);
    table.extend(cells(runs, columns, |run, column| {
        entry(run, column + 1) as u16
    }));
    let mut merge = vec![4, p as u16];
    merge.extend(1..=columns as u16);
    order(&[table], &[&[1, 1], &merge])
}
