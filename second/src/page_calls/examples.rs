//! Calls at both sides of each limit of 02's K3, each with what it shows.

use super::{PageCall, MOST_ROOM};
use crate::pages::PAGE_LENGTH;

/// All examples, in the order in which they are stored.
pub fn examples() -> Vec<PageCall> {
    [
        small_sheets(),
        full_pages_and_one_more(),
        largest_sheet(),
        page_numbers(),
        rooms(),
        sizes_beyond_the_limits(),
        levels_at_their_limits(),
        entries_at_their_levels(),
        table_lengths(),
        level_list_lengths(),
        turn_of_refusals(),
    ]
    .concat()
}

/// Its first page, in a buffer just long enough.
fn sheet(runs: usize, columns: usize, levels: &[u8], pattern: &[u8]) -> PageCall {
    PageCall {
        runs,
        columns,
        number: 1,
        room: PAGE_LENGTH,
        levels: levels.to_vec(),
        table_size: [runs, columns],
        pattern: pattern.to_vec(),
    }
}

/// The table 102 of 01.
fn nine_runs() -> PageCall {
    sheet(
        9,
        4,
        &[3; 4],
        &digits("000001110222101211201201202121022210"),
    )
}

fn digits(text: &str) -> Vec<u8> {
    text.bytes().map(|byte| byte - b'0').collect()
}

/// A sheet of any size whose neighbours differ, along the runs and along the columns, and which is not
/// even: the entries 0 to 30 over and over, and 60 to 64 levels.
fn any_size(runs: usize, columns: usize) -> PageCall {
    let levels: Vec<u8> = (0..columns).map(|column| 60 + column as u8 % 5).collect();
    sheet(runs, columns, &levels, &Vec::from_iter(0..31))
}

/// The same sheet with other pages.
fn pages(sheet: PageCall, numbers: impl IntoIterator<Item = usize>) -> Vec<PageCall> {
    let numbers = numbers.into_iter();
    let call = |number| PageCall {
        number,
        ..sheet.clone()
    };
    numbers.map(call).collect()
}

fn small_sheets() -> Vec<PageCall> {
    vec![
        nine_runs(),
        // Table 104 of 01, of mixed levels.
        sheet(
            12,
            3,
            &[6, 2, 2],
            &digits("000011101110200211301310400411501510"),
        ),
        // One run of one column.
        sheet(1, 1, &[2], &[1]),
        sheet(1, 1, &[64], &[63]),
        // Zeros alone: not even.
        sheet(3, 2, &[2, 64], &[]),
    ]
}

/// 25 columns and 26, 58 runs and 59, and the page past the last.
fn full_pages_and_one_more() -> Vec<PageCall> {
    [
        pages(any_size(1, 25), 1..=2),
        pages(any_size(1, 26), 1..=3),
        pages(any_size(58, 1), 1..=2),
        pages(any_size(59, 1), 1..=3),
        // All runs of the first 25 columns before the next 25.
        pages(any_size(59, 26), 1..=5),
        pages(any_size(116, 50), 4..=5),
        pages(any_size(117, 51), 9..=10),
    ]
    .concat()
}

/// Its 54 pages at the edges.
fn largest_sheet() -> Vec<PageCall> {
    pages(any_size(512, 128), [1, 9, 10, 46, 54, 55, 0, 65_535])
}

fn page_numbers() -> Vec<PageCall> {
    pages(nine_runs(), [0, 2, 3, 54, 256, 257, 65_535])
}

/// Of the page buffer.
fn rooms() -> Vec<PageCall> {
    let call = |room| PageCall {
        room,
        ..nine_runs()
    };
    let rooms = [PAGE_LENGTH - 1, PAGE_LENGTH + 1, MOST_ROOM, 0, 1, 80];
    rooms.map(call).to_vec()
}

/// Runs and columns at and beyond their limits; the table is long enough, if nothing else is said.
fn sizes_beyond_the_limits() -> Vec<PageCall> {
    let zeros = |runs, columns, levels| sheet(runs, columns, &vec![2; levels], &[]);
    let empty = |runs, columns, levels| PageCall {
        table_size: [0, 0],
        ..zeros(runs, columns, levels)
    };
    [
        pages(zeros(512, 1, 1), [9]),
        pages(zeros(1, 128, 128), [6]),
        vec![
            zeros(0, 1, 1),
            zeros(1, 0, 1),
            zeros(0, 0, 0),
            zeros(513, 1, 1),
            zeros(513, 127, 127),
            zeros(65_535, 1, 1),
            zeros(1, 129, 129),
            zeros(508, 129, 129),
            zeros(1, 255, 255),
            // More columns than the level list has level counts.
            zeros(1, 65_535, 255),
            // No table.
            empty(513, 1, 1),
            empty(1, 129, 129),
            empty(512, 128, 128),
            empty(256, 256, 255),
            empty(65_535, 65_535, 0),
            empty(0, 0, 0),
        ],
    ]
    .concat()
}

/// Of each of three columns, the others having 3 levels, and past the columns.
fn levels_at_their_limits() -> Vec<PageCall> {
    let with = |level, column: usize| {
        let mut levels = [3; 3];
        levels[column] = level;
        sheet(2, 3, &levels, &[])
    };
    let mut calls = Vec::new();
    for column in 0..3 {
        for level in [0, 1, 2, 64, 65, 255] {
            calls.push(with(level, column));
        }
    }
    calls.push(sheet(2, 3, &[3, 3, 3, 0, 1, 65, 255], &[]));
    calls
}

fn entries_at_their_levels() -> Vec<PageCall> {
    let levels = [2, 5, 64];
    let with = |place: usize, entry| {
        let mut entries = [1, 4, 63].repeat(4);
        entries[place] = entry;
        sheet(4, 3, &levels, &entries)
    };
    let mut past_the_table = nine_runs();
    past_the_table.table_size = [37, 1];
    past_the_table.pattern.push(255);
    vec![
        // All are just below their levels.
        with(0, 1),
        with(0, 2),
        with(4, 5),
        with(11, 64),
        with(9, 2),
        with(2, 64),
        with(11, 255),
        // Below the level of another column.
        with(3, 4),
        past_the_table,
        last_entry_of_the_largest_sheet(2),
        last_entry_of_the_largest_sheet(3),
    ]
}

/// The last page of a sheet whose last column has so many levels, and the others 3. The entry 2 stands
/// once in 513; 513 being odd and over 511, no two of these are in one column, and the last of the
/// sheet is one of them.
fn last_entry_of_the_largest_sheet(level: u8) -> PageCall {
    let mut levels = [3; 128];
    levels[127] = level;
    let mut pattern = [0; 513];
    pattern[(512 * 128 - 1) % 513] = 2;
    PageCall {
        number: 54,
        ..sheet(512, 128, &levels, &pattern)
    }
}

fn table_lengths() -> Vec<PageCall> {
    let sized = |table_size| PageCall {
        table_size,
        ..nine_runs()
    };
    let largest = |table_size| PageCall {
        table_size,
        ..any_size(512, 128)
    };
    vec![
        sized([36, 1]),
        sized([4, 9]),
        sized([37, 1]),
        sized([10, 4]),
        sized([35, 1]),
        sized([8, 4]),
        sized([1, 1]),
        sized([0, 4]),
        largest([65_535, 1]),
        largest([511, 128]),
        largest([256, 256]),
    ]
}

fn level_list_lengths() -> Vec<PageCall> {
    let with = |levels| PageCall {
        levels: vec![3; levels],
        ..nine_runs()
    };
    let mut calls = [5, 255, 3, 1, 0].map(with).to_vec();
    let mut largest = any_size(512, 128);
    largest.levels.pop();
    calls.push(largest);
    calls
}

/// Sheets that are refused as 1, each in another way, with a short buffer, with a page that there is
/// not, and with both; then 12 with such a page.
fn turn_of_refusals() -> Vec<PageCall> {
    let right = nine_runs();
    let mut wrong_level = right.clone();
    wrong_level.levels[3] = 65;
    let mut wrong_entry = right.clone();
    wrong_entry.pattern[35] = 3;
    let wrong_sheets = [
        PageCall {
            runs: 0,
            ..right.clone()
        },
        PageCall {
            columns: 129,
            ..right.clone()
        },
        wrong_level,
        wrong_entry,
        PageCall {
            table_size: [35, 1],
            ..right.clone()
        },
        PageCall {
            levels: vec![3; 3],
            ..right.clone()
        },
    ];
    let mut calls = Vec::new();
    for sheet in wrong_sheets {
        for (room, number) in [
            (PAGE_LENGTH - 1, 1),
            (PAGE_LENGTH, 0),
            (PAGE_LENGTH, 2),
            (0, 0),
        ] {
            calls.push(PageCall {
                room,
                number,
                ..sheet.clone()
            });
        }
    }
    for (room, number) in [
        (PAGE_LENGTH - 1, 0),
        (PAGE_LENGTH - 1, 2),
        (0, 0),
        (0, 65_535),
        (PAGE_LENGTH, 0),
        (PAGE_LENGTH, 2),
    ] {
        calls.push(PageCall {
            room,
            number,
            ..right.clone()
        });
    }
    calls
}
