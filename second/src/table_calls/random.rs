//! Random calls: tables that pass, such as do not, and such as are no tables.

use crate::gap_tables::parities;
use crate::maker::{damage, passing_table, plain, table_numbers, uneven_table, Random};
use crate::order::Table;

/// How far a random call may go.
pub struct Limits {
    /// The most entries of most tables.
    pub most_entries: usize,
    /// Whether there are tables of as many columns as a list has room for, or nearly.
    pub wide: bool,
}

/// For calls that are stored: not too many numbers.
pub const STORED: Limits = Limits {
    most_entries: 76,
    wide: false,
};

/// For calls that a function is given.
pub const ANY: Limits = Limits {
    most_entries: 1_500,
    wide: true,
};

/// The list of a call, the same for the same seed.
pub fn make(seed: u64, limits: &Limits) -> Vec<u16> {
    let random = &mut Random::new(seed);
    let table = match random.below(100) {
        0..=19 => even_table(random, limits),
        20 if limits.wide => wide_table(random),
        _ => uneven_table(random, limits.most_entries),
    };
    let mut numbers = table_numbers(&table);
    if random.percent(35) {
        damage(random, &mut numbers);
        // A second one now and then, to see which of two faults is named.
        if random.percent(20) {
            damage(random, &mut numbers);
        }
    }
    let mut list = plain(&numbers);
    if limits.wide && random.below(500) == 0 {
        // A list that is too long, or as long as it may be.
        list.resize(random.pick(&[32_768, 32_769, 32_770, 40_000]), 1);
    }
    list
}

fn even_table(random: &mut Random, limits: &Limits) -> Table {
    let runs = random.between(2, limits.most_entries.min(64));
    let most_columns = random.between(1, (limits.most_entries / runs).min(4));
    passing_table(random, runs, most_columns)
}

/// Columns of two levels, with different numbers (`parities`). In one column, perhaps, two entries change
/// places, or it has the number of another.
fn wide_table(random: &mut Random) -> Table {
    let (runs, most) = random.pick(&[(32, 31), (64, 63), (128, 127), (256, 127), (512, 63)]);
    let columns = random.between(most / 2, most);
    let mut numbers = Vec::from_iter(1..=most);
    random.shuffle(&mut numbers);
    numbers.truncate(columns);
    let place = random.below(columns);
    let change = random.below(3);
    if change == 1 {
        numbers[place] = random.pick(&numbers);
    }
    let mut table = parities(runs, &numbers);
    if change == 2 {
        let (a, b) = (random.below(runs), random.below(runs));
        let of_a = table.runs[a][place];
        table.runs[a][place] = table.runs[b][place];
        table.runs[b][place] = of_a;
    }
    table
}
