//! Calls of `checker::check_list`: stored ones, for a program that tries them on the proved function,
//! and random ones.
//!
//! A text of calls has a call to a line, in decimal numbers of sixteen bits with single spaces
//! between: how many numbers are handed in, and these numbers. A text of answers has a line for each
//! call: 0 and six zeros for a table that passes, or the number of the refusal and its six details;
//! then the gap, and how many pairs of columns were counted.

mod examples;
mod random;

pub use random::{make, Limits, ANY, STORED};

use crate::checker::check_list;
use crate::counting::TableCheck;
use crate::scan;
use crate::text::spaced;
use crate::Answer;

/// The seed of the first random call; each of the others has the next number.
const SEED: u64 = 20_260_901;
const RANDOM: u64 = 200;

/// The text of the stored calls: examples, then random ones.
pub fn stored() -> String {
    let random = (SEED..SEED + RANDOM).map(|seed| make(seed, &STORED));
    let calls = examples::examples().into_iter().chain(random);
    calls.map(|list| line_of_call(&list)).collect()
}

fn line_of_call(list: &[u16]) -> String {
    let mut numbers = vec![list.len()];
    numbers.extend(list.iter().map(|&number| usize::from(number)));
    spaced(&numbers) + "\n"
}

/// The text of the answers to a text of calls.
pub fn answers(text: &[u8]) -> String {
    let line = |list: &Vec<u16>| spaced(&numbers(&check_list(list))) + "\n";
    read(text).iter().map(line).collect()
}

/// The seven numbers of an answer, the gap, and how many pairs of columns were counted.
pub fn numbers(check: &TableCheck) -> [i64; 9] {
    let mut numbers = [0; 9];
    match &check.verdict {
        Ok(()) => {}
        Err(Answer::Refused { number, details }) => {
            numbers[0] = i64::from(*number);
            for (place, &detail) in details.iter().enumerate() {
                numbers[1 + place] = i64::from(detail);
            }
        }
        Err(Answer::Filled { .. }) => unreachable!("no refusal is an order that is filled"),
    }
    numbers[7] = check.gap;
    numbers[8] = check.pairs as i64;
    numbers
}

/// The lists of a text of calls.
pub fn read(text: &[u8]) -> Vec<Vec<u16>> {
    let list = scan(text).expect("a text of calls has decimal numbers alone, and not too many");
    let mut rest = list.as_slice();
    let mut calls = Vec::new();
    while let Some((&length, numbers)) = rest.split_first() {
        let (call, after) = numbers.split_at(length.into());
        calls.push(call.to_vec());
        rest = after;
    }
    calls
}
