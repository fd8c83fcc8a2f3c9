//! Tables that show how many pairs of columns are counted; 02, K8. Their columns have 2 levels and are
//! even, but for one of them. What a table comes to is for the check to say; nothing here decides it.

use crate::gap_tables::parities;
use crate::order::Table;

/// All of them, each with its name.
pub fn pair_tables() -> Vec<(String, Table)> {
    [
        no_uneven_pair(),
        one_uneven_pair(),
        more_uneven_pairs(),
        most_columns(),
    ]
    .concat()
}

/// Columns with these numbers, in the fewest runs that `parities` can have: two of them are uneven
/// together where they have the same number.
fn with_numbers(numbers: &[usize]) -> Table {
    let largest = *numbers.iter().max().expect("a table has a column");
    parities((largest + 1).next_power_of_two(), numbers)
}

/// Few columns, and as many as 64 runs can have.
fn no_uneven_pair() -> Vec<(String, Table)> {
    let all_even = |columns: usize| {
        let name = format!("{columns} columns, all even");
        (name, with_numbers(&Vec::from_iter(1..=columns)))
    };
    let mut tables = vec![("1 column".to_string(), with_numbers(&[1]))];
    tables.extend([2, 3, 4, 5, 63].map(all_even));
    tables
}

/// 2 to 5 columns of which two alone are uneven together: each two in their turn, 1-2, 1-3, .., then 2-3,
/// and so on.
fn one_uneven_pair() -> Vec<(String, Table)> {
    let mut tables = Vec::new();
    for columns in 2..=5 {
        for first in 1..columns {
            for second in first + 1..=columns {
                // The numbers from 1 on, but for the second of the two columns, which has the first's.
                let mut numbers = Vec::from_iter(1..columns);
                numbers.insert(second - 1, first);
                tables.push((
                    format!("{columns} columns, {first}-{second} uneven"),
                    with_numbers(&numbers),
                ));
            }
        }
    }
    tables
}

/// Two uneven pairs each: the one with the lower first column comes first, though its second column is
/// the higher.
fn more_uneven_pairs() -> Vec<(String, Table)> {
    let named = |name: &str, numbers: &[usize]| (name.to_string(), with_numbers(numbers));
    vec![
        named("4 columns, 1-4 and 2-3 uneven", &[1, 2, 2, 1]),
        named("5 columns, 2-5 and 3-4 uneven", &[1, 2, 3, 3, 2]),
    ]
}

/// As many columns as a table may have.
fn most_columns() -> Vec<(String, Table)> {
    let first_differs = [vec![1], vec![2; 127]].concat();
    let mut last_is_uneven = with_numbers(&[1; 128]);
    last_is_uneven.runs[1][127] = 0;
    vec![
        (
            "128 columns, all equal but column 1".to_string(),
            with_numbers(&first_differs),
        ),
        (
            "128 columns, all equal but column 128, which is uneven".to_string(),
            last_is_uneven,
        ),
    ]
}
