//! The fastest safe Rust for a page of a sheet that is handed in; 02, K3.

use super::handed_in::{is_a_sheet, MOST_COLUMNS, MOST_RUNS};

const LINE: usize = 80;
const PAGE: usize = 60 * LINE;
const COLUMNS: usize = 25;
const RUNS: usize = 58;

pub fn page(
    table: &[u8],
    levels: &[u8],
    runs: usize,
    columns: usize,
    number: usize,
    buffer: &mut [u8],
) -> usize {
    let refusal = refusal(table, levels, runs, columns, number, buffer.len());
    if refusal == 0 {
        let (page, beyond) = buffer.split_at_mut(PAGE);
        put_page(table, levels, runs, columns, number, page);
        beyond.fill(0);
    } else {
        buffer.fill(0);
    }
    refusal
}

fn refusal(
    table: &[u8],
    levels: &[u8],
    runs: usize,
    columns: usize,
    number: usize,
    room: usize,
) -> usize {
    if !is_a_sheet(table, levels, runs, columns) {
        1
    } else if room < PAGE {
        12
    } else if number == 0 || number > runs.div_ceil(RUNS) * columns.div_ceil(COLUMNS) {
        13
    } else {
        0
    }
}

fn put_page(
    table: &[u8],
    levels: &[u8],
    runs: usize,
    columns: usize,
    number: usize,
    page: &mut [u8],
) {
    let pages_of_runs = runs.div_ceil(RUNS);
    let first_column = (number - 1) / pages_of_runs * COLUMNS;
    let first_run = (number - 1) % pages_of_runs * RUNS;
    let width = COLUMNS.min(columns - first_column);

    let mut lines = page.chunks_exact_mut(LINE);
    let mut next = || lines.next().expect("a page has 60 lines");
    put_line(
        next(),
        &LABELS[number],
        &COLUMN_NUMBERS[first_column..][..width],
    );
    put_line(next(), b"    ", &levels[first_column..][..width]);
    let runs_here = table[..runs * columns].chunks_exact(columns);
    let labels = &LABELS[first_run..];
    let mut used = 2;
    for (run, label) in runs_here.skip(first_run).take(RUNS).zip(labels) {
        put_line(next(), label, &run[first_column..][..width]);
        used += 1;
    }
    page[used * LINE..].copy_from_slice(&BLANK_PAGE[used * LINE..]);
}

/// A label, numbers, and blanks to the line feed. Each number is put with a blank after it, which the
/// next one covers.
fn put_line(line: &mut [u8], label: &[u8; 4], numbers: &[u8]) {
    let line: &mut [u8; LINE] = line.try_into().expect("a line has 80 bytes");
    line[..4].copy_from_slice(label);
    match <&[u8; COLUMNS]>::try_from(numbers) {
        Ok(all) => put_cells(line, all),
        Err(_) => {
            line[4..].copy_from_slice(&BLANK_PAGE[4..LINE]);
            put_cells(line, numbers);
        }
    }
    line[LINE - 1] = b'\n';
}

#[inline(always)]
fn put_cells(line: &mut [u8; LINE], numbers: &[u8]) {
    for (place, &number) in numbers.iter().enumerate().take(COLUMNS) {
        let start = 4 + 3 * place;
        line[start..start + 4].copy_from_slice(&CELLS[usize::from(number)]);
    }
}

/// Each number of eight bits right-aligned in 3, and a blank.
static CELLS: [[u8; 4]; 256] = cells();
/// Each number of a run or a page right-aligned in 4.
static LABELS: [[u8; 4]; MOST_RUNS] = labels();
static COLUMN_NUMBERS: [u8; MOST_COLUMNS] = column_numbers();
static BLANK_PAGE: [u8; PAGE] = blank_page();

const fn cells() -> [[u8; 4]; 256] {
    let mut all = [[b' '; 4]; 256];
    let mut number = 0;
    while number < 256 {
        all[number] = aligned(number, 3);
        number += 1;
    }
    all
}

const fn labels() -> [[u8; 4]; MOST_RUNS] {
    let mut all = [[b' '; 4]; MOST_RUNS];
    let mut number = 0;
    while number < MOST_RUNS {
        all[number] = aligned(number, 4);
        number += 1;
    }
    all
}

/// A number below 1,000 right-aligned in so many of 4 places.
const fn aligned(number: usize, width: usize) -> [u8; 4] {
    let mut text = [b' '; 4];
    text[width - 1] = b'0' + (number % 10) as u8;
    if number >= 10 {
        text[width - 2] = b'0' + (number / 10 % 10) as u8;
    }
    if number >= 100 {
        text[width - 3] = b'0' + (number / 100) as u8;
    }
    text
}

const fn column_numbers() -> [u8; MOST_COLUMNS] {
    let mut all = [0; MOST_COLUMNS];
    let mut column = 0;
    while column < MOST_COLUMNS {
        all[column] = column as u8 + 1;
        column += 1;
    }
    all
}

const fn blank_page() -> [u8; PAGE] {
    let mut page = [b' '; PAGE];
    let mut end = LINE - 1;
    while end < PAGE {
        page[end] = b'\n';
        end += LINE;
    }
    page
}
