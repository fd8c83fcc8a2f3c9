//! The proved charge, called as the second implementation's and the fastest one are: a sheet and a
//! price list in, a number and the pence out, as 02's K7 has them.

use crate::fast;
use second::charges::{self, Quote};

/// By table, level list, runs, columns, run price, column prices and discount.
pub type Pricer = fn(&[u8], &[u8], usize, usize, u32, &[u32], u32) -> Quote;

/// The proved charge first, then the second implementation's and the fastest.
pub const ALL: [Pricer; 3] = [proved, charges::charge, fast::charges::charge];

/// The proved charge, through the static library. The package hands out no charge after a refusal; its
/// own tests see that it is 0.
pub fn proved(
    table: &[u8],
    levels: &[u8],
    runs: usize,
    columns: usize,
    run_price: u32,
    prices: &[u32],
    discount: u32,
) -> Quote {
    match yurbantze::charge(table, levels, runs, columns, run_price, prices, discount) {
        Ok(charge) => Quote { answer: 0, charge },
        Err(refusal) => Quote {
            answer: refusal.number(),
            charge: 0,
        },
    }
}
