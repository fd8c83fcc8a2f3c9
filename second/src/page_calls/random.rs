//! Random calls: sheets that are right, even or not, and such as are wrong in one way or in several.

use super::{PageCall, MOST_LEVELS, MOST_ROOM, MOST_TABLE};
use crate::maker::Random;
use crate::pages::{page_count, PAGE_LENGTH};

/// How far a random call may go.
pub struct Limits {
    /// The largest number of runs, columns or page.
    pub most_number: usize,
    /// The most bytes that a right table has over and over.
    pub most_pattern: usize,
}

/// For calls that are stored: numbers of sixteen bits, and not too many of them.
pub const STORED: Limits = Limits {
    most_number: 65_535,
    most_pattern: 50,
};

/// For calls that a function is given.
pub const ANY: Limits = Limits {
    most_number: usize::MAX,
    most_pattern: MOST_TABLE,
};

const MOST_RUNS: usize = 512;
const MOST_COLUMNS: usize = 128;

/// What is wrong with a call.
#[derive(Clone, Copy, PartialEq, Eq, PartialOrd, Ord)]
enum Fault {
    Runs,
    Columns,
    Level,
    Entry,
    ShortTable,
    ShortLevels,
    Room,
    Number,
}

use Fault::*;

const FAULTS: [Fault; 8] = [
    Runs,
    Columns,
    Level,
    Entry,
    ShortTable,
    ShortLevels,
    Room,
    Number,
];

/// Those of a call that is wrong in one way: six are refused as 1, one as 12 and one as 13.
const ONE_FAULT: [Fault; 11] = [
    Runs,
    Columns,
    Level,
    Entry,
    ShortTable,
    ShortLevels,
    Room,
    Room,
    Number,
    Number,
    Number,
];

/// A call, the same for the same seed.
pub fn make(seed: u64, limits: &Limits) -> PageCall {
    let random = &mut Random::new(seed);
    let mut call = right_call(random, limits);
    for fault in faults(random) {
        spoil(random, &mut call, fault, limits);
    }
    call
}

/// In the order in which they are made, so that a later one counts with the size that an earlier one
/// leaves.
fn faults(random: &mut Random) -> Vec<Fault> {
    match random.below(100) {
        0..=31 => vec![],
        32..=79 => vec![random.pick(&ONE_FAULT)],
        80..=86 => vec![Room, Number],
        _ => {
            let mut faults = FAULTS;
            random.shuffle(&mut faults);
            let several = &mut faults[..random.between(2, 3)];
            several.sort();
            several.to_vec()
        }
    }
}

fn right_call(random: &mut Random, limits: &Limits) -> PageCall {
    let runs = right_size(random, MOST_RUNS, 58);
    let columns = right_size(random, MOST_COLUMNS, 25);
    let levels = right_levels(random, columns);
    let last = page_count(runs, columns);
    let any = random.between(1, last);
    let mut call = PageCall {
        runs,
        columns,
        number: random.pick(&[1, last, any, any]),
        room: random.pick(&[PAGE_LENGTH, PAGE_LENGTH, PAGE_LENGTH + 1, MOST_ROOM]),
        pattern: right_pattern(random, &levels, runs, limits),
        levels,
        table_size: [runs, columns],
    };
    if random.percent(20) {
        lengthen_levels(random, &mut call);
    }
    if random.percent(20) {
        lengthen_table(random, &mut call);
    }
    call
}

/// A number of runs or columns: a small one, one near to what fills some pages, the most, or any.
fn right_size(random: &mut Random, most: usize, on_a_page: usize) -> usize {
    match random.below(10) {
        0..=5 => random.between(1, 12),
        6..=7 => {
            let full_pages = random.between(1, most / on_a_page);
            random.between(full_pages * on_a_page - 1, full_pages * on_a_page + 1)
        }
        8 => most,
        _ => random.between(1, most),
    }
}

fn right_levels(random: &mut Random, columns: usize) -> Vec<u8> {
    let (least, most) = random.pick(&[(2, 2), (2, 9), (2, 9), (2, 64), (2, 64), (60, 64)]);
    let level = |_| random.between(least, most) as u8;
    (0..columns).map(level).collect()
}

/// Whole runs where there is room for them, and otherwise, or now and then, entries that are below
/// every level.
fn right_pattern(random: &mut Random, levels: &[u8], runs: usize, limits: &Limits) -> Vec<u8> {
    let most_runs = runs.min(limits.most_pattern / levels.len());
    let length = match most_runs {
        0 => 0,
        _ if random.percent(15) => 0,
        _ if random.percent(50) => most_runs,
        _ => random.between(1, most_runs),
    };
    if length > 0 {
        let in_runs = levels.repeat(length);
        return in_runs.iter().map(|&level| entry(random, level)).collect();
    }
    let lowest = *levels.iter().min().expect("a sheet has a column");
    let most = limits.most_pattern.min(50);
    (0..random.between(0, most))
        .map(|_| entry(random, lowest))
        .collect()
}

/// Below the level, and now and then just below.
fn entry(random: &mut Random, level: u8) -> u8 {
    match random.percent(20) {
        true => level - 1,
        false => random.below(level.into()) as u8,
    }
}

/// Bytes that no column has, whatever they are.
fn lengthen_levels(random: &mut Random, call: &mut PageCall) {
    let most = MOST_LEVELS - call.levels.len();
    for _ in 0..random.between(1, most.min(5)) {
        let byte = random.pick(&[0, 1, 2, 64, 65, 255]);
        call.levels.push(byte);
    }
}

/// Bytes that no run has: if all of the table is written out, such as would be no entries, and
/// otherwise further runs.
fn lengthen_table(random: &mut Random, call: &mut PageCall) {
    let length = call.table_len();
    let more = random.between(1, 3);
    if call.pattern.len() == length && length + more < MOST_TABLE {
        call.pattern.extend(vec![255; more]);
        call.table_size = [length + more, 1];
    } else if (call.runs + more) * call.columns <= MOST_TABLE {
        call.table_size = [call.runs + more, call.columns];
    }
}

fn spoil(random: &mut Random, call: &mut PageCall, fault: Fault, limits: &Limits) {
    match fault {
        Runs => {
            call.runs = wrong_size(random, MOST_RUNS, call.columns, limits);
            fit_table(call);
        }
        Columns => {
            call.columns = wrong_size(random, MOST_COLUMNS, call.runs, limits);
            fit_levels(call);
            fit_table(call);
        }
        Level => wrong_level(random, call),
        Entry => wrong_entry(random, call),
        ShortTable => shorten_table(random, call),
        ShortLevels => {
            let needed = call.columns.min(call.levels.len());
            let fewer = random.below(needed.max(1));
            let one_fewer = needed.saturating_sub(1);
            let left = random.pick(&[one_fewer, one_fewer, fewer, 0]);
            call.levels.truncate(left);
        }
        Room => {
            let any = random.below(PAGE_LENGTH);
            call.room = random.pick(&[PAGE_LENGTH - 1, PAGE_LENGTH - 1, any, any, 80, 1, 0]);
        }
        Number => call.number = wrong_number(random, call, limits),
    }
}

/// 0, or a number beyond the most. Times the other number it may be a small one modulo the numbers
/// that there are.
fn wrong_size(random: &mut Random, most: usize, other: usize, limits: &Limits) -> usize {
    let wrapping = limits.most_number / other.max(1);
    match random.below(8) {
        0 => 0,
        1..=3 => most + 1,
        4 => random.between(most + 2, 2 * most),
        5 => limits.most_number - random.below(3),
        6 if wrapping > most => wrapping.saturating_add(1).min(limits.most_number),
        _ => random.between(most + 1, limits.most_number),
    }
}

/// Level counts for all columns, if there is room for them, and entries that are right whatever they
/// are.
fn fit_levels(call: &mut PageCall) {
    if call.columns <= MOST_LEVELS {
        let length = call.levels.len().max(call.columns);
        call.levels.resize(length, 2);
    }
    call.pattern.clear();
}

/// A table that is long enough, if there is room for it.
fn fit_table(call: &mut PageCall) {
    if let Some(needed) = call.runs.checked_mul(call.columns) {
        if call.table_len() < needed && needed <= MOST_TABLE {
            call.table_size = [call.runs, call.columns];
        }
    }
}

fn wrong_level(random: &mut Random, call: &mut PageCall) {
    let counted = call.columns.min(call.levels.len());
    if counted == 0 {
        return;
    }
    let level = random.pick(&[0, 1, 1, 65, 65, 66, 128, 255]);
    let column = random.below(counted);
    call.levels[random.pick(&[0, column, column, counted - 1])] = level;
    if level == 1 {
        // Only 0 is below it.
        call.pattern.clear();
    }
}

/// An entry that is not below its level, in the first of the table's places that it is given to.
fn wrong_entry(random: &mut Random, call: &mut PageCall) {
    if call.pattern.is_empty() {
        call.pattern.push(0);
    }
    let places = call.runs.saturating_mul(call.columns);
    let places = places.min(call.pattern.len());
    if places == 0 || call.levels.is_empty() {
        return;
    }
    let any = random.below(places);
    let place = random.pick(&[0, any, any, places - 1]);
    let column = place % call.columns;
    let level = call.levels.get(column).copied().unwrap_or(64);
    call.pattern[place] = random.pick(&[level, level, level.saturating_add(1), 255]);
}

fn shorten_table(random: &mut Random, call: &mut PageCall) {
    let needed = call.runs.saturating_mul(call.columns).min(MOST_TABLE);
    if needed == 0 {
        return;
    }
    let fewer = random.below(needed);
    let one_fewer = needed - 1;
    let left = random.pick(&[one_fewer, one_fewer, one_fewer, fewer, fewer, 0]);
    call.table_size = [left, 1];
}

/// 0, or a number past the last page.
fn wrong_number(random: &mut Random, call: &PageCall, limits: &Limits) -> usize {
    let is_a_size = call.runs <= MOST_RUNS && call.columns <= MOST_COLUMNS;
    let last = match is_a_size {
        true => page_count(call.runs, call.columns),
        false => 1,
    };
    let any = random.between(last + 1, limits.most_number);
    random.pick(&[0, 0, last + 1, last + 1, last + 2, any, limits.most_number])
}
