//! The tables whose check by itself is timed.

use crate::checkers::{plain, Checked};
use crate::orders::parity_table;
use second::table_calls::{make, STORED};

/// One table, or several that are timed together.
pub struct TableCase {
    pub name: String,
    pub lists: Vec<Vec<u16>>,
}

impl TableCase {
    /// A table, with what its check must answer.
    fn of(name: &str, list: Vec<u16>, wanted: Checked) -> TableCase {
        assert_eq!(plain(&list), wanted, "{name}");
        TableCase {
            name: name.to_string(),
            lists: vec![list],
        }
    }
}

/// All cases, in the order in which they are printed.
pub fn table_cases() -> Vec<TableCase> {
    vec![
        TableCase::of(
            "512 runs and 63 columns, passing",
            parity_table(512, 1..=63),
            Checked::passes(1_953),
        ),
        TableCase::of(
            "256 runs and 127 columns, passing",
            parity_table(256, 1..=127),
            Checked::passes(8_001),
        ),
        TableCase::of(
            "512 runs and 63 columns, last pair",
            last_two_equal(512, 63),
            Checked {
                numbers: [5, 1, 62, 63, 0, 0, 256],
                gap: 512,
                pairs: 1_953,
            },
        ),
        TableCase::of(
            "128 runs and 128 columns, last pair",
            last_two_equal(128, 128),
            Checked {
                numbers: [5, 1, 127, 128, 0, 0, 64],
                gap: 128,
                pairs: 8_128,
            },
        ),
        TableCase::of(
            "512 runs, 64 and 64 levels, first pair",
            most_levels(),
            Checked {
                numbers: [5, 1, 1, 2, 63, 63, 8],
                gap: 32_256,
                pairs: 1,
            },
        ),
        small_tables(),
    ]
}

/// Its last two columns are equal, and no others.
fn last_two_equal(runs: usize, columns: usize) -> Vec<u16> {
    parity_table(runs, (1..columns).chain([columns - 1]))
}

/// 512 runs of two columns with 64 levels. Levels 63 and 63 stand together in eight runs, and are the
/// farthest off; most other pairs stand in one or in none. Where another level of the first column
/// would have 63, it has one of those that 63 would have.
fn most_levels() -> Vec<u16> {
    let mut list = vec![1, 512, 2, 64, 64];
    for run in 0..512 {
        let (x, copy) = (run / 8, run % 8);
        let y = match (x + 8 * copy) % 64 {
            _ if x == 63 => 63,
            63 => 8 * copy - 1,
            y => y,
        };
        list.extend([x, y]);
    }
    list
}

/// A thousand of those that the second implementation makes, right and wrong.
fn small_tables() -> TableCase {
    TableCase {
        name: "1,000 small tables".to_string(),
        lists: (6_000_000..6_001_000)
            .map(|seed| make(seed, &STORED))
            .collect(),
    }
}
