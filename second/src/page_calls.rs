//! Calls of `pages::page`: stored ones, for a program that tries them on the proved function, and
//! random ones.
//!
//! A text of calls has a call to a line, in decimal numbers of sixteen bits with single spaces
//! between:
//!
//! - runs, columns, page number, and the length of the page buffer;
//! - the length of the level list, and its bytes;
//! - two numbers whose product is the length of the table;
//! - a number of bytes, and these bytes, which are the table over and over; it is zeros if there are
//!   none.
//!
//! A text of answers has a line for each call, with the answer and how many bytes of the buffer that
//! should be zero are not. Where the answer is 0, the page follows.

mod examples;
mod random;

pub use random::{make, Limits, ANY, STORED};

use crate::call_texts::{counted, over_and_over, read_calls, read_counted};
use crate::pages::{page, PAGE_LENGTH};
use crate::text::spaced;

/// The limits of the program that tries stored calls: its buffers have a fixed size, and it lends the
/// beginnings of these.
pub const MOST_ROOM: usize = 8_192;
pub const MOST_LEVELS: usize = 255;
pub const MOST_TABLE: usize = 65_536;
pub const MOST_PATTERN: usize = 4_096;

#[derive(Clone, Debug, PartialEq, Eq)]
pub struct PageCall {
    pub runs: usize,
    pub columns: usize,
    pub number: usize,
    /// The length of the page buffer.
    pub room: usize,
    pub levels: Vec<u8>,
    /// The length of the table is their product, which a number of sixteen bits need not hold.
    pub table_size: [usize; 2],
    /// The table is these bytes over and over, and zeros if there are none.
    pub pattern: Vec<u8>,
}

impl PageCall {
    pub fn table_len(&self) -> usize {
        self.table_size[0] * self.table_size[1]
    }

    pub fn table(&self) -> Vec<u8> {
        over_and_over(&self.pattern, self.table_len())
    }

    /// The answer, with the page in a buffer that the caller lends.
    pub fn answer_into(&self, buffer: &mut [u8]) -> usize {
        page(
            &self.table(),
            &self.levels,
            self.runs,
            self.columns,
            self.number,
            buffer,
        )
    }

    fn numbers(&self) -> Vec<usize> {
        let mut all = vec![self.runs, self.columns, self.number, self.room];
        all.extend(counted(&self.levels));
        all.extend(self.table_size);
        all.extend(counted(&self.pattern));
        all
    }

    /// The lines of the answer, and the page if there is one.
    fn answer(&self) -> Vec<u8> {
        let mut buffer = vec![255; self.room];
        let number = self.answer_into(&mut buffer);
        let printed = if number == 0 { PAGE_LENGTH } else { 0 };
        let (page, beyond) = buffer.split_at(printed);
        let not_zero = beyond.iter().filter(|byte| **byte != 0).count();
        let mut text = format!("{number} {not_zero}\n").into_bytes();
        text.extend(page);
        text
    }
}

/// The seed of the first random call; each of the others has the next number.
const SEED: u64 = 20_261_116;
const RANDOM: u64 = 300;

/// The text of the stored calls: examples, then random ones.
pub fn stored() -> String {
    let random = (SEED..SEED + RANDOM).map(|seed| make(seed, &STORED));
    let calls = examples::examples().into_iter().chain(random);
    calls.map(|call| spaced(&call.numbers()) + "\n").collect()
}

/// The text of the answers to a text of calls.
pub fn answers(text: &[u8]) -> Vec<u8> {
    read(text).iter().flat_map(PageCall::answer).collect()
}

/// The calls of a text.
pub fn read(text: &[u8]) -> Vec<PageCall> {
    read_calls(text, read_call)
}

fn read_call(next: &mut dyn FnMut() -> usize) -> PageCall {
    let [runs, columns, number, room] = [next(), next(), next(), next()];
    let levels = read_counted(next);
    let table_size = [next(), next()];
    let pattern = read_counted(next);
    PageCall {
        runs,
        columns,
        number,
        room,
        levels,
        table_size,
        pattern,
    }
}
