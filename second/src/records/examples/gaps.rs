//! Tables whose pairs are uneven, and which pair refusal 5 names; 02, K5.

use crate::gap_tables::{gap_tables, last_two_equal};
use crate::order::Table;
use crate::text::spaced;

/// Orders with their names.
pub fn gaps() -> Vec<(String, String)> {
    let mut orders: Vec<(String, String)> = gap_tables()
        .into_iter()
        .map(|(name, table)| (name, format!("1 {} 1 1 1", ingredient(&table))))
        .collect();
    // A table that passes, a matrix, and the one that fails, which no step uses.
    let (name, table) = &gap_tables()[0];
    orders.push((
        format!("{name}, as ingredient 3"),
        format!("3 1 2 1 2 1 0 2 1 1 2 1 {} 1 1 1", ingredient(table)),
    ));
    // As many columns as a list has room for at 512 runs, and as many pairs before the last.
    orders.push((
        "512 runs of 63 columns, the last two equal".to_string(),
        format!("1 {} 1 1 1", ingredient(&last_two_equal(512))),
    ));
    orders
}

fn ingredient(table: &Table) -> String {
    let Table { levels, runs } = table;
    format!(
        "1 {} {} {} {}",
        runs.len(),
        levels.len(),
        spaced(levels),
        spaced(&runs.concat())
    )
}
