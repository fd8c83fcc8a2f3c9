//! What the programs of this package share.
//!
//! - `planners`: the proved planner and the second implementation, on the same lent buffers;
//! - `printers`: the same for a page;
//! - `checkers`: the same for the check of a table by itself;
//! - `pricers`: the same for a charge;
//! - `fast`: the fastest safe Rust for the large orders, for which the second implementation is slow,
//!   for a page, for the check of a table, and for a charge;
//! - `orders`: the orders that are timed;
//! - `sheets`: the sheets whose pages and charges are timed;
//! - `tables`: the tables whose check is timed;
//! - `timing`: least times, taken in turn.

#![forbid(unsafe_code)]

pub mod checkers;
pub mod fast;
pub mod orders;
pub mod planners;
pub mod pricers;
pub mod printers;
pub mod sheets;
pub mod tables;
pub mod timing;
