//! Random calls: sheets and price lists that are right, and such as are wrong.

use super::{ChargeCall, Limits, MOST_PRICES};
use crate::maker::Random;
use crate::page_calls::{self, PageCall};

/// A call, the same for the same seed.
pub fn make(seed: u64, limits: &Limits) -> ChargeCall {
    let random = &mut Random::new(seed);
    let sheet = match random.percent(65) {
        true => changing_sheet(random, limits),
        false => sheet_of(page_calls::make(random.word(), limits)),
    };
    with_a_price_list(random, sheet)
}

fn with_a_price_list(random: &mut Random, sheet: ChargeCall) -> ChargeCall {
    let (wrong_discount, wrong_count) = match random.below(100) {
        0..=9 => (true, false),
        10..=19 => (false, true),
        20..=23 => (true, true),
        _ => (false, false),
    };
    let discount = match wrong_discount {
        true => discount_over_100(random),
        false => discount_up_to_100(random),
    };
    let count = match wrong_count {
        true => other_count(random, &sheet),
        false => sheet.columns.min(MOST_PRICES),
    };
    let most_pence = random.pick(&[1, 99, 9_999, 9_999, 65_536, u32::MAX, u32::MAX]);
    let prices: Vec<u32> = (0..count).map(|_| price(random, most_pence)).collect();
    let run_price = price(random, most_pence);
    sheet.priced(run_price, &prices, discount)
}

/// Right or wrong, with no price list: the sheet of a call for a page, which may be wrong in one way or
/// in several.
fn sheet_of(call: PageCall) -> ChargeCall {
    ChargeCall {
        runs: call.runs,
        columns: call.columns,
        run_price: 0,
        discount: 0,
        prices: vec![],
        levels: call.levels,
        table_size: call.table_size,
        pattern: call.pattern,
    }
}

/// A right sheet whose levels change often or seldom from run to run, with no price list.
fn changing_sheet(random: &mut Random, limits: &Limits) -> ChargeCall {
    let runs = match random.below(10) {
        0 => 1,
        1 => 2,
        2..=7 => random.between(2, 16),
        _ => random.between(1, 512),
    };
    let columns = match random.below(20) {
        0..=1 => 1,
        2..=17 => random.between(1, 8),
        18 => random.between(1, 24),
        _ => random.between(1, 128),
    };
    let most_levels = random.pick(&[2, 2, 3, 9, 64]);
    let levels: Vec<u8> = (0..columns)
        .map(|_| random.between(2, most_levels) as u8)
        .collect();
    // Whole runs, one at least.
    let written = runs.min(limits.most_pattern / columns).max(1);
    ChargeCall {
        runs,
        columns,
        run_price: 0,
        discount: 0,
        prices: vec![],
        pattern: changing_runs(random, &levels, written),
        levels,
        table_size: [runs, columns],
    }
}

/// So many runs. Of the levels of the run before, some are kept.
fn changing_runs(random: &mut Random, levels: &[u8], runs: usize) -> Vec<u8> {
    let percent_kept = random.pick(&[0, 30, 50, 50, 80, 95]);
    let mut entries: Vec<u8> = Vec::new();
    for place in 0..runs * levels.len() {
        let entry = match place.checked_sub(levels.len()) {
            Some(above) if random.percent(percent_kept) => entries[above],
            _ => random.below(levels[place % levels.len()].into()) as u8,
        };
        entries.push(entry);
    }
    entries
}

fn discount_up_to_100(random: &mut Random) -> u32 {
    let any = random.between(0, 100) as u32;
    let fives = 5 * random.between(0, 20) as u32;
    random.pick(&[0, 1, 50, 50, 99, 100, fives, fives, any, any, any, any])
}

/// The last bits of some are a discount.
fn discount_over_100(random: &mut Random) -> u32 {
    let right = random.between(0, 100) as u32;
    let any = random.between(101, u32::MAX as usize) as u32;
    let edges = [101, 101, 102, 200, u32::MAX];
    let others = [256 + right, 65_536 + right, 0x8000_0000 + right, any];
    random.pick(&[&edges[..], &others].concat())
}

/// A number of prices that is not the sheet's number of columns.
fn other_count(random: &mut Random, sheet: &ChargeCall) -> usize {
    let columns = sheet.columns;
    let mut counts = vec![columns.saturating_sub(1), columns.saturating_add(1)];
    counts.extend([0, 1, sheet.runs, sheet.levels.len()]);
    counts.retain(|&count| count != columns && count <= MOST_PRICES);
    random.pick(&counts)
}

/// Any price up to the most, and now and then nothing or the most.
fn price(random: &mut Random, most_pence: u32) -> u32 {
    let any = random.between(0, most_pence as usize) as u32;
    random.pick(&[0, most_pence, any, any, any, any, any, any, any, any])
}
