//! The proved check of a table, called as the second implementation's and the fastest one are: a list
//! in, and seven numbers, the gap and the pairs of columns out, as 02's K5 and K8 have them.

use crate::fast;
use crate::planners::Numbers;
use second::checker::check_list;
use second::table_calls;

/// Seven zeros for a table that passes; otherwise the number of the refusal and its six details, and
/// after refusal 5 the gap. The pairs are those of columns that were counted.
#[derive(Clone, Copy, Debug, PartialEq, Eq)]
pub struct Checked {
    pub numbers: Numbers,
    pub gap: i64,
    pub pairs: usize,
}

impl Checked {
    /// Of a table with so many pairs of columns.
    pub fn passes(pairs: usize) -> Checked {
        Checked {
            numbers: [0; 7],
            gap: 0,
            pairs,
        }
    }

    /// By 2, 3 or 4, before any pair of columns is counted.
    pub fn refused(numbers: Numbers) -> Checked {
        Checked {
            numbers,
            gap: 0,
            pairs: 0,
        }
    }
}

pub type Checker = fn(&[u16]) -> Checked;

/// The proved check first, then the second implementation's and the fastest.
pub const ALL: [Checker; 3] = [proved, plain, fast::tables::check];

/// The proved check, through the static library.
pub fn proved(list: &[u16]) -> Checked {
    let check = yurbantze::check_table(list);
    Checked {
        numbers: match check.verdict {
            Ok(()) => [0; 7],
            Err(refusal) => refusal.numbers(),
        },
        gap: check.gap,
        pairs: check.pairs,
    }
}

pub fn plain(list: &[u16]) -> Checked {
    let [number, a, b, c, d, e, f, gap, pairs] = table_calls::numbers(&check_list(list));
    Checked {
        numbers: [number, a, b, c, d, e, f].map(|number| number as usize),
        gap,
        pairs: pairs as usize,
    }
}
