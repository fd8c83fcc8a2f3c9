//! The fastest safe Rust for the check of a table that is handed in as an ingredient is written; 02, K5
//! and K8. It counts as `fast` does in an order.

use super::count::{check_table, laid_out};
use super::read::{self, Ingredient};
use super::Stop;
use crate::checkers::Checked;

pub fn check(list: &[u16]) -> Checked {
    match table_in_range(list) {
        Ok((levels, table)) => {
            let mut cells = vec![0; table.entries.len()];
            let columns = laid_out(table.entries, levels.len(), &mut cells);
            check_table(1, levels, &columns)
        }
        Err(Stop::Refused(numbers)) => Checked::refused(numbers),
        Err(Stop::NotWritten) => unreachable!("all of it is written for tables"),
    }
}

/// Questions 2 and 3.
fn table_in_range(list: &[u16]) -> Result<(&[u16], Ingredient<'_>), Stop> {
    let (levels, table) = read::table(list)?;
    table.in_range()?;
    Ok((levels, table))
}
