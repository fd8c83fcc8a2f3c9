//! Sheets that are handed in, as request K3 of 02 has them "here and in later requests".

use crate::order::Table;

/// A sheet handed in, if it is one: its size and its level counts within the limits of 01, table and
/// level list long enough, each entry below its level. What they hold beyond that is not looked at.
pub fn handed_in(table: &[u8], levels: &[u8], runs: usize, columns: usize) -> Option<Table> {
    if !(1..=512).contains(&runs) || !(1..=128).contains(&columns) {
        return None;
    }
    let levels = levels.get(..columns)?;
    let table = table.get(..runs * columns)?;
    if levels.iter().any(|level| !(2..=64).contains(level)) {
        return None;
    }
    let runs = table.chunks(columns);
    if runs.clone().any(|run| !all_below(run, levels)) {
        return None;
    }
    Some(Table {
        levels: numbers(levels),
        runs: runs.map(numbers).collect(),
    })
}

fn all_below(run: &[u8], levels: &[u8]) -> bool {
    run.iter().zip(levels).all(|(entry, level)| entry < level)
}

fn numbers(bytes: &[u8]) -> Vec<usize> {
    bytes.iter().map(|&byte| byte.into()).collect()
}
