//! The proved planner and the second implementation, called alike: a list and three lent buffers in,
//! seven numbers and the spare out, and in the buffers the bytes that 01 wants there.

use second::{Answer, Lengths};

/// The buffers that a caller lends.
#[derive(Clone, Debug, PartialEq, Eq)]
pub struct Buffers {
    pub table: Vec<u8>,
    pub levels: Vec<u8>,
    pub scratch: Vec<u8>,
}

impl Buffers {
    pub fn zeros(lengths: Lengths) -> Buffers {
        let [table, levels, scratch] = lengths.map(|length| vec![0; length]);
        Buffers {
            table,
            levels,
            scratch,
        }
    }

    pub fn clear(&mut self) {
        self.table.fill(0);
        self.levels.fill(0);
        self.scratch.fill(0);
    }
}

/// 0, runs, columns and four zeros for a filled order; otherwise the number of the refusal and its
/// six details.
pub type Numbers = [usize; 7];

/// What a planner hands back beside the bytes. A refusal's spare is 0.
#[derive(Clone, Copy, Debug, PartialEq, Eq)]
pub struct Outcome {
    pub numbers: Numbers,
    pub spare: i64,
}

pub fn filled(runs: usize, columns: usize, spare: i64) -> Outcome {
    Outcome {
        numbers: [0, runs, columns, 0, 0, 0, 0],
        spare,
    }
}

pub fn refused(numbers: Numbers) -> Outcome {
    Outcome { numbers, spare: 0 }
}

/// The proved planner, through the static library.
pub fn proved(list: &[u16], buffers: &mut Buffers) -> Outcome {
    let Buffers {
        table,
        levels,
        scratch,
    } = buffers;
    match yurbantze::plan_into(list, table, levels, scratch) {
        Ok(size) => filled(size.runs, size.columns, size.spare),
        Err(refusal) => refused(refusal.numbers()),
    }
}

/// The second implementation. It has no buffers of its own kind, so they are cleared here and the
/// table is put into them: 01 asks the same bytes of every planner.
pub fn plain(list: &[u16], buffers: &mut Buffers) -> Outcome {
    buffers.clear();
    let Buffers {
        table,
        levels,
        scratch,
    } = buffers;
    match second::plan(list, table.len(), levels.len(), scratch.len()) {
        Answer::Filled {
            runs,
            levels: counts,
            spare,
            table: cells,
        } => {
            table[..cells.len()].copy_from_slice(&cells);
            levels[..counts.len()].copy_from_slice(&counts);
            filled(runs, counts.len(), spare)
        }
        Answer::Refused { number, details } => {
            let [a, b, c, d, e, f] = details.map(|detail| detail as usize);
            refused([number.into(), a, b, c, d, e, f])
        }
    }
}
