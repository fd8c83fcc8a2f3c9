//! The vectors: random orders, two orders with each number at the edges of its limits, random orders with
//! an uneven table, and both kinds with a CROSS.

use super::Records;
use crate::maker::{
    crossing_edge_calls, edge_calls, make, make_crossing, make_uneven, Call, STORED,
};
use crate::text::spaced;
use crate::Answer;

const ABOUT: &str = "Random orders, most of them nearly right, and what the second implementation \
    answers; made in second/ by: cargo run --offline --release --bin vectors";

/// The seed of the first random order; each of the others has the next number.
const SEED: u64 = 20_260_101;
const RANDOM: u64 = 3_000;

/// The same for those with an uneven table. They came later, and stand at the end.
const UNEVEN_SEED: u64 = 20_260_501;
const UNEVEN: u64 = 400;

/// The same for those with a CROSS, which came later still.
const CROSSING_SEED: u64 = 20_261_117;
const CROSSING: u64 = 255;

/// The text of the vectors. Each call is given to `note` with its answer, so that a summary need
/// not plan it again.
pub fn vectors(mut note: impl FnMut(&Call, &Answer)) -> String {
    let mut records = Records::headed(ABOUT);
    let random = (SEED..SEED + RANDOM).map(make);
    let uneven = (UNEVEN_SEED..UNEVEN_SEED + UNEVEN).map(make_uneven);
    let crossing = (CROSSING_SEED..CROSSING_SEED + CROSSING)
        .map(|seed| make_crossing(seed, &STORED))
        .chain(crossing_edge_calls());
    let older = random.chain(edge_calls()).chain(uneven);
    for call in older.chain(crossing) {
        let answer = records.record(&spaced(&call.list), call.lengths);
        note(&call, &answer);
    }
    records.text
}
