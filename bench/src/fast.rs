//! The fastest safe Rust for the large orders, for which the second implementation is plain and slow.
//!
//! It asks every question of 01 within the same limits, and counts pair by pair with a flat array of
//! counters, as the proved planner does. But it is written for those orders alone: generators over
//! the field of two elements with factors of one column, SUM and CROSS without a k and with one kind of
//! sum for all columns, SPLIT by house table 101, no other house table, no refusal of a generator, and of
//! a step no other than 10 and 14. For an order that needs more the answer is None.
//!
//! `pages` is apart from that, and whole: any page of any sheet. So are `tables`, the check of any table,
//! and `charges`, what any sheet costs by any price list.

mod build;
pub mod charges;
pub mod common_bits;
mod count;
mod handed_in;
mod merge;
mod nine;
pub mod pages;
mod read;
pub mod tables;

use crate::planners::{refused, Buffers, Numbers, Outcome};
use count::TableCheck;

/// Why an order is not filled.
enum Stop {
    Refused(Numbers),
    NotWritten,
}

pub fn plan(list: &[u16], buffers: &mut Buffers) -> Option<Outcome> {
    let check_table =
        |number, levels: &[u16], columns: &[&[u8]]| Ok(count::check_table(number, levels, columns));
    plan_with(check_table, list, buffers)
}

fn plan_with(check_table: TableCheck, list: &[u16], buffers: &mut Buffers) -> Option<Outcome> {
    match fill(check_table, list, buffers) {
        Ok(outcome) => Some(outcome),
        Err(Stop::Refused(numbers)) => {
            buffers.clear();
            Some(refused(numbers))
        }
        Err(Stop::NotWritten) => None,
    }
}

fn fill(check_table: TableCheck, list: &[u16], buffers: &mut Buffers) -> Result<Outcome, Stop> {
    let order = read::order(list)?;
    for ingredient in &order.ingredients {
        ingredient.in_range()?;
    }
    for (index, ingredient) in order.ingredients.iter().enumerate() {
        count::check(check_table, index + 1, ingredient, &mut buffers.scratch)?;
    }
    build::carry_out(&order, buffers)
}
