//! Calls of `charges::charge`: stored ones, for a program that tries them on the proved function, and
//! random ones.
//!
//! A text of calls has a call to a line, in decimal numbers of sixteen bits with single spaces
//! between:
//!
//! - runs and columns;
//! - the run price and the discount, each as two numbers: 65,536 times the first plus the second;
//! - the number of column prices, and these prices, each as two numbers;
//! - the length of the level list, and its bytes;
//! - two numbers whose product is the length of the table;
//! - a number of bytes, and these bytes, which are the table over and over; it is zeros if there are
//!   none.
//!
//! A text of answers has a line for each call, with the answer and the charge.

mod examples;
mod random;

pub use examples::examples;
pub use random::make;
// A sheet goes as far as one whose pages are asked for.
pub use crate::page_calls::{Limits, ANY, MOST_LEVELS, MOST_PATTERN, MOST_TABLE, STORED};

use crate::call_texts::{counted, over_and_over, read_calls, read_counted};
use crate::charges::{charge, Quote};
use crate::text::spaced;

/// The most column prices that the program that tries stored calls has room for.
pub const MOST_PRICES: usize = 255;

#[derive(Clone, Debug, PartialEq, Eq)]
pub struct ChargeCall {
    pub runs: usize,
    pub columns: usize,
    pub run_price: u32,
    pub discount: u32,
    pub prices: Vec<u32>,
    pub levels: Vec<u8>,
    /// The length of the table is their product, which a number of sixteen bits need not hold.
    pub table_size: [usize; 2],
    /// The table is these bytes over and over, and zeros if there are none.
    pub pattern: Vec<u8>,
}

impl ChargeCall {
    /// The same sheet with another price list.
    pub fn priced(self, run_price: u32, prices: &[u32], discount: u32) -> ChargeCall {
        ChargeCall {
            run_price,
            discount,
            prices: prices.to_vec(),
            ..self
        }
    }

    pub fn table_len(&self) -> usize {
        self.table_size[0] * self.table_size[1]
    }

    pub fn table(&self) -> Vec<u8> {
        over_and_over(&self.pattern, self.table_len())
    }

    pub fn quote(&self) -> Quote {
        charge(
            &self.table(),
            &self.levels,
            self.runs,
            self.columns,
            self.run_price,
            &self.prices,
            self.discount,
        )
    }

    fn numbers(&self) -> Vec<usize> {
        let mut all = vec![self.runs, self.columns];
        all.extend(halves(self.run_price));
        all.extend(halves(self.discount));
        all.push(self.prices.len());
        all.extend(self.prices.iter().copied().flat_map(halves));
        all.extend(counted(&self.levels));
        all.extend(self.table_size);
        all.extend(counted(&self.pattern));
        all
    }
}

/// The two numbers of sixteen bits that a number of 32 is written as.
fn halves(number: u32) -> [usize; 2] {
    [number / 65_536, number % 65_536].map(|half| half as usize)
}

/// The seed of the first random call; each of the others has the next number.
const SEED: u64 = 20_261_201;
const RANDOM: u64 = 150;

/// The text of the stored calls: examples, then random ones.
pub fn stored() -> String {
    let examples = examples().into_iter().map(|(_, call)| call);
    let random = (SEED..SEED + RANDOM).map(|seed| make(seed, &STORED));
    let calls = examples.chain(random);
    calls.map(|call| spaced(&call.numbers()) + "\n").collect()
}

/// The text of the answers to a text of calls.
pub fn answers(text: &[u8]) -> String {
    let quotes = read(text).into_iter().map(|call| call.quote());
    let line = |Quote { answer, charge }| format!("{answer} {charge}\n");
    quotes.map(line).collect()
}

/// The calls of a text.
pub fn read(text: &[u8]) -> Vec<ChargeCall> {
    read_calls(text, read_call)
}

fn read_call(next: &mut dyn FnMut() -> usize) -> ChargeCall {
    let [runs, columns] = [next(), next()];
    let [run_price, discount] = [read_halves(next), read_halves(next)];
    let count = next();
    let prices = (0..count).map(|_| read_halves(next)).collect();
    let levels = read_counted(next);
    let table_size = [next(), next()];
    let pattern = read_counted(next);
    ChargeCall {
        runs,
        columns,
        run_price,
        discount,
        prices,
        levels,
        table_size,
        pattern,
    }
}

fn read_halves(next: &mut dyn FnMut() -> usize) -> u32 {
    let [high, low] = [next(), next()];
    (65_536 * high + low) as u32
}
