//! The proved page, called as the second implementation's and the fastest one are: a sheet, a page
//! number and a lent buffer in, a number out, and in the buffer the bytes that 02's K3 wants there.

use crate::fast;
use second::pages;

/// By table, level list, runs, columns, page number and page buffer. The answer is 0 for a page that is
/// printed, and otherwise the number of the refusal.
pub type Printer = fn(&[u8], &[u8], usize, usize, usize, &mut [u8]) -> usize;

/// The proved page first, then the second implementation's and the fastest.
pub const ALL: [Printer; 3] = [proved, pages::page, fast::pages::page];

/// The proved page, through the static library.
pub fn proved(
    table: &[u8],
    levels: &[u8],
    runs: usize,
    columns: usize,
    number: usize,
    buffer: &mut [u8],
) -> usize {
    match yurbantze::page(table, levels, runs, columns, number, buffer) {
        Ok(()) => 0,
        Err(refusal) => refusal.number(),
    }
}
