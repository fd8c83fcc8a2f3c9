//! The fastest safe Rust for what a sheet that is handed in costs; 02, K7.
//!
//! The table is gone through once, with so many columns at a time as the compiler keeps in vectors. Two
//! things are kept of each column: its highest entry, which tells whether all are below its level, and
//! how many runs have the level of the run before, which tells how many changes it has.

use super::handed_in::{each_below, is_a_sheet, is_within_limits};
use second::charges::Quote;

/// How many columns are taken at a time.
const FEW: usize = 16;
const MANY: usize = 64;

/// As many runs as a byte counts.
const COUNTED: usize = 255;

pub fn charge(
    table: &[u8],
    levels: &[u8],
    runs: usize,
    columns: usize,
    run_price: u32,
    prices: &[u32],
    discount: u32,
) -> Quote {
    if discount > 100 || prices.len() != columns {
        return match is_a_sheet(table, levels, runs, columns) {
            true => refused(15),
            false => refused(1),
        };
    }
    if !is_within_limits(table, levels, runs, columns) {
        return refused(1);
    }
    match change_pence(&table[..runs * columns], &levels[..columns], runs, prices) {
        Some(pence) => Quote {
            answer: 0,
            charge: less(runs as u64 * u64::from(run_price) + pence, discount),
        },
        None => refused(1),
    }
}

fn refused(answer: usize) -> Quote {
    Quote { answer, charge: 0 }
}

fn less(sum: u64, discount: u32) -> u64 {
    (sum * u64::from(100 - discount) + 50) / 100
}

/// What the changes of all columns cost, if each entry is below its level.
fn change_pence(table: &[u8], levels: &[u8], runs: usize, prices: &[u32]) -> Option<u64> {
    match levels.len() {
        0..FEW => all_together(table, levels, runs, prices),
        FEW..MANY => in_turn::<FEW>(table, levels, runs, prices),
        _ => in_turn::<MANY>(table, levels, runs, prices),
    }
}

/// For fewer columns than are taken at a time: what is taken beyond the last is not looked at. The
/// last runs, after which not so much is left, are copied to where zeros are after them.
fn all_together(table: &[u8], levels: &[u8], runs: usize, prices: &[u32]) -> Option<u64> {
    let columns = levels.len();
    let whole = match table.len().checked_sub(FEW) {
        Some(beyond) => (beyond / columns + 1).min(runs),
        None => 0,
    };
    let rest = &table[whole * columns..];
    let mut last_runs = [0; 2 * FEW];
    last_runs[..rest.len()].copy_from_slice(rest);
    let mut kept = Kept::<FEW>::of(match whole {
        0 => &last_runs,
        _ => table,
    });
    kept.take(table, columns, whole);
    kept.take(&last_runs, columns, runs - whole);
    kept.change_pence(levels, runs, prices)
}

/// The last columns are taken together with some that were taken before, and cost nothing now.
fn in_turn<const W: usize>(
    table: &[u8],
    levels: &[u8],
    runs: usize,
    prices: &[u32],
) -> Option<u64> {
    let columns = levels.len();
    let mut pence = 0;
    let mut done = 0;
    while done < columns {
        let first = done.min(columns - W);
        let mut prices_here = [0; W];
        prices_here[done - first..].copy_from_slice(&prices[done..first + W]);
        let mut kept = Kept::<W>::of(&table[first..]);
        kept.take(&table[first..], columns, runs);
        pence += kept.change_pence(&levels[first..], runs, &prices_here)?;
        done = first + W;
    }
    Some(pence)
}

/// What is kept of so many columns.
struct Kept<const W: usize> {
    run_before: [u8; W],
    highest: [u8; W],
    unchanged: [u16; W],
}

impl<const W: usize> Kept<W> {
    /// With run 0 before itself, so that it counts as unchanged.
    fn of(run_0: &[u8]) -> Kept<W> {
        Kept {
            run_before: *run_0.first_chunk().expect("so many columns are taken"),
            highest: [0; W],
            unchanged: [0; W],
        }
    }

    /// So many runs, each with its first column so far after that of the run before.
    #[inline(always)]
    fn take(&mut self, table: &[u8], stride: usize, runs: usize) {
        let mut taken = 0;
        while taken < runs {
            let count = COUNTED.min(runs - taken);
            let starts = table[taken * stride..].windows(W).step_by(stride);
            let unchanged = self.take_counted(starts.take(count));
            for (all, here) in self.unchanged.iter_mut().zip(unchanged) {
                *all += u16::from(here);
            }
            taken += count;
        }
    }

    /// Up to as many runs as are counted in a byte. All is in local arrays meanwhile, which the compiler
    /// keeps in registers.
    #[inline(always)]
    fn take_counted<'a>(&mut self, runs: impl Iterator<Item = &'a [u8]>) -> [u8; W] {
        let (mut run_before, mut highest) = (self.run_before, self.highest);
        let mut unchanged = [0; W];
        for run in runs {
            let run: &[u8; W] = run.try_into().expect("so many columns are taken");
            for column in 0..W {
                unchanged[column] += u8::from(run[column] == run_before[column]);
                highest[column] = highest[column].max(run[column]);
            }
            run_before = *run;
        }
        (self.run_before, self.highest) = (run_before, highest);
        unchanged
    }

    fn change_pence(&self, levels: &[u8], runs: usize, prices: &[u32]) -> Option<u64> {
        if !each_below(&self.highest, levels) {
            return None;
        }
        let mut pence = 0;
        for (&unchanged, &price) in self.unchanged.iter().zip(prices) {
            let changes = runs as u64 - u64::from(unchanged);
            pence += changes * u64::from(price);
        }
        Some(pence)
    }
}
