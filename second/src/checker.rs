//! The check of one table that is handed in by itself, written as an ingredient of an order is; 02, K5
//! and K8.

use crate::counting::{check_table, TableCheck};
use crate::order::read_table;
use crate::{print, refused, scan};

/// Asks questions 2 to 4 of a list that is one table, as if it were ingredient 1. Places count in the
/// list.
pub fn check_list(list: &[u16]) -> TableCheck {
    let (table, entries) = match read_table(list) {
        Ok(read) => read,
        Err(place) => return TableCheck::refused(refused(2, &[place])),
    };
    for entry in &entries {
        if entry.value >= entry.limit {
            return TableCheck::refused(refused(3, &[entry.place]));
        }
    }
    check_table(1, &table)
}

/// What the program `checker` writes for a table's text, whose words are read as an order's are.
pub fn print_check(text: &[u8]) -> String {
    let check = match scan(text) {
        Ok(list) => check_list(&list),
        Err(refusal) => TableCheck::refused(refusal),
    };
    let first_line = match &check.verdict {
        Ok(()) => "passes\n".to_string(),
        Err(refusal) => print(refusal),
    };
    format!("{first_line}gap {}\npairs {}\n", check.gap, check.pairs)
}
