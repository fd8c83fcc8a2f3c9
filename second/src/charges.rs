//! The price list applied: what a sheet costs, as request K7 of 02 has it.

use crate::order::Table;
use crate::sheets::handed_in;
use crate::{print, refused, sheet_of_text, Answer};

/// What comes of a sheet and a price list: 0 and the charge in pence, or the number of the refusal and
/// a charge of 0.
#[derive(Clone, Copy, Debug, PartialEq, Eq)]
pub struct Quote {
    pub answer: usize,
    pub charge: u64,
}

/// Charges a sheet that is handed in, its runs one after the other in the table. The prices are in
/// pence, for a run and for a changed level in each column, and the discount in percent.
pub fn charge(
    table: &[u8],
    levels: &[u8],
    runs: usize,
    columns: usize,
    run_price: u32,
    prices: &[u32],
    discount: u32,
) -> Quote {
    let Some(sheet) = handed_in(table, levels, runs, columns) else {
        return refusal(1);
    };
    match charge_of(&sheet, run_price, prices, discount) {
        Some(charge) => Quote { answer: 0, charge },
        None => refusal(15),
    }
}

fn refusal(answer: usize) -> Quote {
    Quote { answer, charge: 0 }
}

/// The charge, if the discount is one and each column has its price.
fn charge_of(sheet: &Table, run_price: u32, prices: &[u32], discount: u32) -> Option<u64> {
    if discount > 100 || prices.len() != sheet.levels.len() {
        return None;
    }
    let sum = run_sum(sheet, run_price) + change_sum(sheet, prices);
    Some(nearest_penny(sum * u128::from(100 - discount)))
}

/// Runs × the run price.
fn run_sum(sheet: &Table, run_price: u32) -> u128 {
    sheet.runs.len() as u128 * u128::from(run_price)
}

/// For each run after the first and each column whose level differs from the run before, that column's
/// price.
fn change_sum(sheet: &Table, prices: &[u32]) -> u128 {
    let mut sum = 0;
    for run in 1..sheet.runs.len() {
        for (column, &price) in prices.iter().enumerate() {
            if sheet.runs[run][column] != sheet.runs[run - 1][column] {
                sum += u128::from(price);
            }
        }
    }
    sum
}

/// Hundredths of a penny as pence, halves up. A sheet has at most 512 runs and 511 × 128 changes, which
/// is 65,920 prices below 2^32, so that no charge is near 2^64.
fn nearest_penny(hundredths: u128) -> u64 {
    let whole = (hundredths / 100) as u64;
    let rest = hundredths % 100;
    match 2 * rest >= 100 {
        true => whole + 1,
        false => whole,
    }
}

/// What the program `pricer` writes for an order's text and its arguments: the charge of the sheet, or
/// the refusal, the order's own before that of the arguments.
pub fn print_charge(order: &[u8], arguments: &[Vec<u8>]) -> String {
    match charge_of_order(order, arguments) {
        Ok(charge) => format!("{charge}\n"),
        Err(refusal) => print(&refusal),
    }
}

fn charge_of_order(order: &[u8], arguments: &[Vec<u8>]) -> Result<u64, Answer> {
    let sheet = sheet_of_text(order)?;
    charge_by_arguments(&sheet, arguments).ok_or(refused(15, &[]))
}

/// The arguments are the run price, the price of each column, and the discount.
fn charge_by_arguments(sheet: &Table, arguments: &[Vec<u8>]) -> Option<u64> {
    let numbers: Option<Vec<u32>> = arguments.iter().map(|word| decimal(word)).collect();
    match numbers?.as_slice() {
        [run_price, prices @ .., discount] => charge_of(sheet, *run_price, prices, *discount),
        _ => None,
    }
}

/// The number of 32 bits that a word of decimal digits is, one digit at least. Leading zeros are
/// allowed.
fn decimal(word: &[u8]) -> Option<u32> {
    if !word.iter().all(u8::is_ascii_digit) {
        return None;
    }
    // `parse` takes neither the empty word nor a number that is too large.
    std::str::from_utf8(word).ok()?.parse().ok()
}
