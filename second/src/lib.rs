//! A second implementation of the planner of document 01 with requests K1 to K8 of document 02,
//! written from these documents alone and as plainly as possible, to be compared with the proved one.
//! "01" and "02" in comments are those documents.
//!
//! - `order`: question 2, from numbers to an order;
//! - `counting`: question 4, does an ingredient pass;
//! - `steps`: questions 5 to 8 and what each step leaves;
//! - `field`: sums and products of the seven fields, and the sum that goes with a matrix;
//! - `text`: words in, printed runs out;
//! - `sheets`: sheets that are handed in;
//! - `pages`: a sheet's pages on paper;
//! - `charges`: what a sheet costs;
//! - `checker`: the check of one table by itself;
//! - `maker`: random orders for the vectors and the tests; the planner does not use it;
//! - `records`: orders with their answers as stored texts; the planner does not use it;
//! - `gap_tables`: tables that show which pair refusal 5 names; the planner does not use it;
//! - `pair_tables`: tables that show how many pairs of columns are counted; the planner does not use
//!   it;
//! - `page_calls`: calls for pages with their answers, stored and random; the planner does not use it;
//! - `table_calls`: the same for the check of a table;
//! - `charge_calls`: the same for charges;
//! - `call_texts`: what texts of calls share in which a sheet is handed in.

#![forbid(unsafe_code)]

mod call_texts;
pub mod charge_calls;
pub mod charges;
pub mod checker;
mod counting;
pub mod field;
pub mod gap_tables;
pub mod maker;
pub mod order;
pub mod page_calls;
pub mod pages;
pub mod pair_tables;
pub mod records;
mod sheets;
mod steps;
pub mod table_calls;
mod text;

pub use counting::{check_table, level_pairs, LevelPair, TableCheck};
pub use steps::{check_members, MemberCheck};
pub use text::{print, scan};

/// The lengths of run table, level list and scratch, in bytes.
pub type Lengths = [usize; 3];

/// The least lengths that question 1 lets through.
pub const LEAST: Lengths = [65_536, 128, 65_536];

/// What an order comes to.
#[derive(Clone, Debug, PartialEq, Eq)]
pub enum Answer {
    /// The number of runs, the level count of each column, the spare, and the cells run by run.
    Filled {
        runs: usize,
        levels: Vec<u8>,
        spare: i64,
        table: Vec<u8>,
    },
    /// The number of the refusal and its six details, unused ones 0.
    Refused { number: u8, details: [u32; 6] },
}

/// A refusal; the details that are not given are 0.
fn refused(number: u8, given: &[usize]) -> Answer {
    let mut details = [0; 6];
    for (place, &detail) in given.iter().enumerate() {
        details[place] = detail as u32;
    }
    Answer::Refused { number, details }
}

/// Asks the questions of 01 in turn, of an order and the lengths of the three buffers.
pub fn plan(list: &[u16], table_len: usize, levels_len: usize, scratch_len: usize) -> Answer {
    match last_sheet(list, table_len, levels_len, scratch_len) {
        Ok(sheet) => Answer::Filled {
            runs: sheet.runs.len(),
            levels: sheet.levels.iter().map(|&level| level as u8).collect(),
            spare: spare(&sheet),
            table: sheet.runs.concat().iter().map(|&cell| cell as u8).collect(),
        },
        Err(refusal) => refusal,
    }
}

/// How much a table could still hold: runs - 1 less the sum over the columns of (levels - 1); 02,
/// K1. It is worked out from the finished sheet and goes through no step, so that a planner that
/// keeps it from step to step can be held to it.
fn spare(sheet: &order::Table) -> i64 {
    let held: i64 = sheet.levels.iter().map(|&level| level as i64 - 1).sum();
    sheet.runs.len() as i64 - 1 - held
}

/// The answer to an order's text: the refusal of a word of it, or what the list of its words comes
/// to.
pub fn plan_text(text: &[u8], [table_len, levels_len, scratch_len]: Lengths) -> Answer {
    match scan(text) {
        Ok(list) => plan(&list, table_len, levels_len, scratch_len),
        Err(refusal) => refusal,
    }
}

/// The sheet of an order's text, or its refusal.
fn sheet_of_text(text: &[u8]) -> Result<order::Table, Answer> {
    let [table_len, levels_len, scratch_len] = LEAST;
    last_sheet(&scan(text)?, table_len, levels_len, scratch_len)
}

/// The sheet that the last step leaves, or the refusal of the first question answered No.
fn last_sheet(
    list: &[u16],
    table_len: usize,
    levels_len: usize,
    scratch_len: usize,
) -> Result<order::Table, Answer> {
    // Question 1.
    if table_len < 65_536 || scratch_len < 65_536 || levels_len < 128 {
        return Err(refused(1, &[]));
    }
    // Question 2.
    let order = match order::read(list) {
        Ok(order) => order,
        Err(place) => return Err(refused(2, &[place])),
    };
    // Question 3. The entries are in the order of their places.
    for entry in &order.entries {
        if entry.value >= entry.limit {
            return Err(refused(3, &[entry.place]));
        }
    }
    // Question 4.
    for (index, ingredient) in order.ingredients.iter().enumerate() {
        counting::check(index + 1, ingredient)?;
    }
    // Questions 5 to 8, step by step.
    let mut sheet = None;
    for (index, step) in order.steps.iter().enumerate() {
        sheet = Some(steps::carry_out(
            index + 1,
            step,
            sheet,
            &order.ingredients,
        )?);
    }
    Ok(sheet.expect("question 2 lets no order without a step through"))
}
