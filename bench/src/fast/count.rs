//! Question 4: a flat array of counters is filled once for each two columns. The columns are first
//! laid out one after the other, as bytes.

use super::nine;
use super::read::{Ingredient, Shape};
use super::Stop;
use crate::checkers::Checked;
use std::mem::take;

/// Counters by key, zeros between uses.
type Counters = [u16; 4_096];

/// The check of an ingredient's table by its number, level counts and columns. It may be written for
/// some tables alone.
pub type TableCheck = fn(usize, &[u16], &[&[u8]]) -> Result<Checked, NotWritten>;

pub struct NotWritten;

pub fn check(
    check_table: TableCheck,
    number: usize,
    ingredient: &Ingredient,
    scratch: &mut [u8],
) -> Result<(), Stop> {
    let entries = ingredient.entries;
    match ingredient.shape {
        Shape::Table { levels } => {
            let columns = laid_out(entries, levels.len(), scratch);
            match check_table(number, levels, &columns) {
                Ok(checked) if checked.numbers[0] == 0 => Ok(()),
                Ok(checked) => Err(Stop::Refused(checked.numbers)),
                Err(NotWritten) => Err(Stop::NotWritten),
            }
        }
        Shape::Matrix { columns, p } => {
            check_matrix(number, p as u8, &laid_out(entries, columns, scratch))
        }
        Shape::Generator { factors } => check_generator(entries, factors),
    }
}

/// The columns of entries that stand row by row.
pub fn laid_out<'a>(entries: &[u16], columns: usize, scratch: &'a mut [u8]) -> Vec<&'a [u8]> {
    let rows = entries.len() / columns;
    let mut cells = scratch.chunks_exact_mut(rows);
    let lay_out = |column: usize| {
        let cells = cells.next().expect("the scratch holds any ingredient");
        for (cell, row) in cells.iter_mut().zip(entries.chunks_exact(columns)) {
            *cell = row[column] as u8;
        }
        &*cells
    };
    (0..columns).map(lay_out).collect()
}

/// 02, K8: the pairs of columns are counted as they are gone through.
pub fn check_table(number: usize, levels: &[u16], columns: &[&[u8]]) -> Checked {
    let mut counters = [0; 4_096];
    for (a, column) in columns.iter().enumerate() {
        let keys = column.iter().map(|&x| usize::from(x));
        if let Some((x, times)) = deviation(keys, levels[a].into(), column.len(), &mut counters) {
            return Checked::refused([4, number, a + 1, x, times, 0, 0]);
        }
    }
    let mut counted_pairs = 0;
    for (a, b) in pairs(columns.len()) {
        counted_pairs += 1;
        let (s, t) = (usize::from(levels[a]), usize::from(levels[b]));
        let runs = columns[a].iter().zip(columns[b]);
        let keys = runs.map(|(&x, &y)| usize::from(x) * t + usize::from(y));
        if let Some(lowest) = deviation(keys, s * t, columns[a].len(), &mut counters) {
            let (key, times, gap) = farthest(lowest, s * t, columns[a].len(), &counters);
            return Checked {
                numbers: [5, number, a + 1, b + 1, key / t, key % t, times],
                gap,
                pairs: counted_pairs,
            };
        }
    }
    Checked::passes(counted_pairs)
}

/// 02, K2: the differences are those of the field for 4, 8 and 9, and modulo p for every other p.
fn check_matrix(number: usize, p: u8, columns: &[&[u8]]) -> Result<(), Stop> {
    let modulo_p = |x: u8, y: u8| if x < y { x + p - y } else { x - y };
    match p {
        4 | 8 => check_differences(number, p, columns, |x, y| x ^ y),
        9 => check_differences(number, p, columns, nine::difference),
        _ => check_differences(number, p, columns, modulo_p),
    }
}

fn check_differences(
    number: usize,
    p: u8,
    columns: &[&[u8]],
    difference: impl Fn(u8, u8) -> u8,
) -> Result<(), Stop> {
    let p = usize::from(p);
    let mut counters = [0; 4_096];
    for (a, b) in pairs(columns.len()) {
        let rows = columns[a].iter().zip(columns[b]);
        let keys = rows.map(|(&x, &y)| usize::from(difference(x, y)));
        if let Some((difference, times)) = deviation(keys, p, columns[a].len(), &mut counters) {
            let numbers = [6, number, a + 1, b + 1, difference, times, 0];
            return Err(Stop::Refused(numbers));
        }
    }
    Ok(())
}

/// Over two elements, two factors of one column are dependent if a column is zero or both are equal.
fn check_generator(entries: &[u16], factors: usize) -> Result<(), Stop> {
    let mut columns = vec![0; factors];
    for row in entries.chunks_exact(factors) {
        for (column, &digit) in columns.iter_mut().zip(row) {
            *column = 2 * *column + digit;
        }
    }
    let equal = || pairs(factors).any(|(a, b)| columns[a] == columns[b]);
    if columns.contains(&0) || equal() {
        return Err(Stop::NotWritten);
    }
    Ok(())
}

/// 0-1, 0-2, .., then 1-2, and so on.
pub fn pairs(count: usize) -> impl Iterator<Item = (usize, usize)> {
    (0..count).flat_map(move |a| (a + 1..count).map(move |b| (a, b)))
}

/// The lowest of n keys that is not the key of the n-th part of the runs, and its times.
fn deviation(
    keys: impl Iterator<Item = usize>,
    n: usize,
    runs: usize,
    counters: &mut Counters,
) -> Option<(usize, usize)> {
    for key in keys {
        // No key is so large; the remainder spares the test of the index.
        counters[key % 4_096] += 1;
    }
    counters[..n]
        .iter_mut()
        .enumerate()
        .find_map(|(key, times)| {
            let times = usize::from(take(times));
            (n * times != runs).then_some((key, times))
        })
}

/// 02, K5: of n keys the one whose times are farthest from the n-th part of the runs, the lowest among
/// equals, with its times and its gap. No key before the lowest that fails does, and the counters of
/// those after it are still as they were counted.
fn farthest(
    lowest: (usize, usize),
    n: usize,
    runs: usize,
    counters: &Counters,
) -> (usize, usize, i64) {
    let gap = |times: usize| (n * times) as i64 - runs as i64;
    let (mut key, mut times) = lowest;
    let mut size = gap(times).abs();
    for (other, &counted) in counters[..n].iter().enumerate().skip(key + 1) {
        let counted = usize::from(counted);
        if gap(counted).abs() > size {
            size = gap(counted).abs();
            (key, times) = (other, counted);
        }
    }
    (key, times, gap(times))
}
