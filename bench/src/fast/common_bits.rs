//! What a later request could gain: the pairs of two-level columns counted by the ones in the two
//! columns' common bits. All else is as in `fast`.

use super::count::{pairs, NotWritten};
use crate::checkers::Checked;
use crate::planners::{Buffers, Outcome};

pub fn plan(list: &[u16], buffers: &mut Buffers) -> Option<Outcome> {
    super::plan_with(check_table, list, buffers)
}

/// In a column with as many ones as zeros, and in two such columns, the lowest levels fail if any do.
/// In two columns all four pairs are as far off then (02, K5).
fn check_table(number: usize, levels: &[u16], columns: &[&[u8]]) -> Result<Checked, NotWritten> {
    if levels.iter().any(|&level| level != 2) {
        return Err(NotWritten);
    }
    let runs = columns[0].len();
    let packed: Vec<Vec<u64>> = columns.iter().map(|column| pack(column)).collect();
    for (a, column) in packed.iter().enumerate() {
        let ones = common_ones(column, column);
        if 2 * ones != runs {
            return Ok(Checked::refused([4, number, a + 1, 0, runs - ones, 0, 0]));
        }
    }
    let mut counted_pairs = 0;
    for (a, b) in pairs(packed.len()) {
        counted_pairs += 1;
        let ones = common_ones(&packed[a], &packed[b]);
        if 4 * ones != runs {
            return Ok(Checked {
                numbers: [5, number, a + 1, b + 1, 0, 0, ones],
                gap: 4 * ones as i64 - runs as i64,
                pairs: counted_pairs,
            });
        }
    }
    Ok(Checked::passes(counted_pairs))
}

/// Sixty-four runs to a word.
fn pack(column: &[u8]) -> Vec<u64> {
    let word = |runs: &[u8]| {
        runs.iter()
            .rev()
            .fold(0, |word, &level| 2 * word + u64::from(level))
    };
    column.chunks(64).map(word).collect()
}

fn common_ones(a: &[u64], b: &[u64]) -> usize {
    let common = a.iter().zip(b).map(|(a, b)| (a & b).count_ones());
    common.sum::<u32>() as usize
}
