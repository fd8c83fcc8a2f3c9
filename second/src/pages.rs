//! Run sheets on paper: the pages of a sheet, as request K3 of 02 has them.

use crate::order::Table;
use crate::sheets::handed_in;
use crate::{print, refused, scan, sheet_of_text, Answer};
use std::ops::Range;

/// The bytes of a page: 60 lines of 79 characters and a line feed.
pub const PAGE_LENGTH: usize = 4_800;

const LINES: usize = 60;
const COLUMNS_ON_A_PAGE: usize = 25;
const RUNS_ON_A_PAGE: usize = 58;

/// Prints a page of a sheet that is handed in, its runs one after the other in the table. The answer
/// is 0 for a page that is printed, and otherwise the number of the refusal. All other bytes of the
/// buffer become zero.
pub fn page(
    table: &[u8],
    levels: &[u8],
    runs: usize,
    columns: usize,
    number: usize,
    buffer: &mut [u8],
) -> usize {
    buffer.fill(0);
    match printed(table, levels, runs, columns, number, buffer.len()) {
        Ok(text) => {
            buffer[..PAGE_LENGTH].copy_from_slice(text.as_bytes());
            0
        }
        Err(refusal) => refusal,
    }
}

/// The page as a text, or the number of the first refusal.
fn printed(
    table: &[u8],
    levels: &[u8],
    runs: usize,
    columns: usize,
    number: usize,
    buffer_len: usize,
) -> Result<String, usize> {
    let sheet = handed_in(table, levels, runs, columns).ok_or(1usize)?;
    if buffer_len < PAGE_LENGTH {
        return Err(12);
    }
    if !has_page(&sheet, number) {
        return Err(13);
    }
    Ok(text_of(&sheet, number))
}

/// What stands on a page: columns and runs, both counted from 0 as they stand on the sheet.
struct Part {
    columns: Range<usize>,
    runs: Range<usize>,
}

/// The parts of a sheet that its pages show, in the order of the pages: all runs of the first 25
/// columns before the next 25.
fn parts(runs: usize, columns: usize) -> Vec<Part> {
    let mut parts = Vec::new();
    for first_column in (0..columns).step_by(COLUMNS_ON_A_PAGE) {
        for first_run in (0..runs).step_by(RUNS_ON_A_PAGE) {
            parts.push(Part {
                columns: first_column..columns.min(first_column + COLUMNS_ON_A_PAGE),
                runs: first_run..runs.min(first_run + RUNS_ON_A_PAGE),
            });
        }
    }
    parts
}

/// How many pages a sheet of so many runs and columns has, both within the limits of 01.
pub fn page_count(runs: usize, columns: usize) -> usize {
    parts(runs, columns).len()
}

/// Pages count from 1.
fn has_page(sheet: &Table, number: usize) -> bool {
    (1..=page_count(sheet.runs.len(), sheet.levels.len())).contains(&number)
}

/// A page that the sheet has.
fn text_of(sheet: &Table, number: usize) -> String {
    let part = &parts(sheet.runs.len(), sheet.levels.len())[number - 1];
    let column_numbers: Vec<usize> = part.columns.clone().map(|column| column + 1).collect();
    let mut lines = vec![
        line(&number.to_string(), &column_numbers),
        line("", &sheet.levels[part.columns.clone()]),
    ];
    for run in part.runs.clone() {
        lines.push(line(
            &run.to_string(),
            &sheet.runs[run][part.columns.clone()],
        ));
    }
    lines.resize(LINES, line("", &[]));
    lines.concat()
}

/// A label right-aligned in 4, numbers right-aligned in 3, blanks to 79, and a line feed.
fn line(label: &str, numbers: &[usize]) -> String {
    let cells: String = numbers
        .iter()
        .map(|number| format!("{number:>3}"))
        .collect();
    let filled = format!("{label:>4}{cells}");
    format!("{filled:<79}\n")
}

/// What the program `pages` writes for an order's text and its first argument: all pages of the sheet,
/// or the one that the argument names; or the refusal, the order's own before that of the argument.
pub fn print_pages(order: &[u8], argument: Option<&[u8]>) -> String {
    match pages_of_order(order, argument) {
        Ok(pages) => pages,
        Err(refusal) => print(&refusal),
    }
}

fn pages_of_order(order: &[u8], argument: Option<&[u8]>) -> Result<String, Answer> {
    let sheet = sheet_of_text(order)?;
    let Some(argument) = argument else {
        let last = page_count(sheet.runs.len(), sheet.levels.len());
        return Ok((1..=last).map(|number| text_of(&sheet, number)).collect());
    };
    match only_number(argument) {
        Some(number) if has_page(&sheet, number) => Ok(text_of(&sheet, number)),
        _ => Err(refused(13, &[])),
    }
}

/// The number that an argument is, read as the text of an order is; it must be the only one.
fn only_number(argument: &[u8]) -> Option<usize> {
    match scan(argument).as_deref() {
        Ok(&[number]) => Some(number.into()),
        _ => None,
    }
}
