//! Run sheets on paper: 02's request K3, written out or read back by places.

mod common;
use common::*;
use second::page_calls::{make, Limits, ANY, STORED};
use second::pages::{page, page_count, print_pages, PAGE_LENGTH};
use second::{plan_text, print, Answer, LEAST};

/// A sheet handed in, with the size that is said of it.
#[derive(Clone)]
struct Sheet {
    table: Vec<u8>,
    levels: Vec<u8>,
    runs: usize,
    columns: usize,
}

impl Sheet {
    fn new(levels: &[u8], runs: &[&[u8]]) -> Sheet {
        Sheet {
            table: runs.concat(),
            levels: levels.to_vec(),
            runs: runs.len(),
            columns: levels.len(),
        }
    }

    /// Of any size, and not even; neighbours differ along the runs and along the columns.
    fn of_size(runs: usize, columns: usize) -> Sheet {
        let levels = (0..columns).map(|column| 60 + column as u8 % 5).collect();
        let entry = |place: usize| (place % 59 + place / columns) as u8 % 60;
        Sheet {
            table: (0..runs * columns).map(entry).collect(),
            levels,
            runs,
            columns,
        }
    }

    /// The answer for a page, in a buffer that holds other bytes before.
    fn answer(&self, number: usize, room: usize) -> (usize, Vec<u8>) {
        let mut buffer = vec![255; room];
        let answer = page(
            &self.table,
            &self.levels,
            self.runs,
            self.columns,
            number,
            &mut buffer,
        );
        (answer, buffer)
    }

    /// A page that is printed.
    fn page(&self, number: usize) -> String {
        let (answer, buffer) = self.answer(number, PAGE_LENGTH);
        assert_eq!(answer, 0);
        String::from_utf8(buffer).unwrap()
    }

    fn pages(&self) -> Vec<String> {
        let numbers = 1..=page_count(self.runs, self.columns);
        numbers.map(|number| self.page(number)).collect()
    }
}

/// A sheet of nine runs and four columns.
fn nine_runs() -> Sheet {
    Sheet::of_size(9, 4)
}

/// The page that has these lines at its top, and blank ones after them.
fn page_of_lines(lines: &[&str]) -> String {
    let mut page = String::new();
    for index in 0..60 {
        let line = lines.get(index).unwrap_or(&"");
        page += &format!("{line:<79}\n");
    }
    page
}

fn assert_blanked(sheet: &Sheet, number: usize, room: usize, refusal: usize) {
    let (answer, buffer) = sheet.answer(number, room);
    assert_eq!(answer, refusal, "page {number} in {room} bytes");
    assert_eq!(buffer, vec![0; room]);
}

/// Refused as 1, for a page that there would be and for others, in a buffer of any length.
fn assert_no_sheet(sheet: &Sheet) {
    for number in [0, 1, 2, 55, usize::MAX] {
        for room in [0, 1, PAGE_LENGTH - 1, PAGE_LENGTH, PAGE_LENGTH + 1] {
            assert_blanked(sheet, number, room, 1);
        }
    }
}

#[test]
fn a_page_written_out() {
    let sheet = Sheet::new(&[6, 2, 64], &[&[0, 0, 0], &[5, 1, 63], &[3, 0, 10]]);
    let lines = [
        "   1  1  2  3",
        "      6  2 64",
        "   0  0  0  0",
        "   1  5  1 63",
        "   2  3  0 10",
    ];
    assert_eq!(sheet.page(1), page_of_lines(&lines));
}

#[test]
fn one_run_of_one_column() {
    let sheet = Sheet::new(&[2], &[&[1]]);
    let lines = ["   1  1", "      2", "   0  1"];
    assert_eq!(sheet.pages(), [page_of_lines(&lines)]);
    assert_blanked(&sheet, 2, PAGE_LENGTH, 13);
}

#[test]
fn every_page_is_60_lines_of_79_characters() {
    for (runs, columns) in [(1, 1), (58, 25), (59, 26), (512, 128)] {
        for page in Sheet::of_size(runs, columns).pages() {
            assert_eq!(page.len(), PAGE_LENGTH);
            let lines: Vec<&str> = page.split_terminator('\n').collect();
            assert_eq!(lines.len(), 60);
            assert!(lines.iter().all(|line| line.len() == 79));
            assert!(page.bytes().all(|byte| b" \n0123456789".contains(&byte)));
        }
    }
}

/// A line of a page, counted from 0.
fn line_of(page: &str, index: usize) -> &str {
    page.split('\n').nth(index).unwrap()
}

#[test]
fn twenty_five_columns_and_one_more() {
    let numbers: String = (1..=25).map(|number| format!("{number:>3}")).collect();
    let full = Sheet::of_size(1, 25);
    assert_eq!(line_of(&full.page(1), 0), format!("   1{numbers}"));
    assert_blanked(&full, 2, PAGE_LENGTH, 13);
    let one_more = Sheet::of_size(1, 26);
    assert_eq!(line_of(&one_more.page(1), 0), format!("   1{numbers}"));
    let entry = one_more.table[25];
    let lines = ["   2 26", "     60", &format!("   0{entry:>3}")];
    assert_eq!(one_more.page(2), page_of_lines(&lines));
    assert_blanked(&one_more, 3, PAGE_LENGTH, 13);
}

#[test]
fn fifty_eight_runs_and_one_more() {
    let full = Sheet::of_size(58, 1);
    assert_eq!(line_of(&full.page(1), 59)[..4], *"  57");
    assert_blanked(&full, 2, PAGE_LENGTH, 13);
    let one_more = Sheet::of_size(59, 1);
    assert_eq!(line_of(&one_more.page(1), 59)[..4], *"  57");
    let entry = one_more.table[58];
    let lines = ["   2  1", "     60", &format!("  58{entry:>3}")];
    assert_eq!(one_more.page(2), page_of_lines(&lines));
    assert_blanked(&one_more, 3, PAGE_LENGTH, 13);
}

#[test]
fn all_runs_of_the_first_columns_come_first() {
    let pages = Sheet::of_size(59, 26).pages();
    let starts: Vec<[usize; 3]> = pages.iter().map(|page| start(page)).collect();
    assert_eq!(starts, [[1, 1, 0], [2, 1, 58], [3, 26, 0], [4, 26, 58]]);
}

/// Page number, first column and first run of a page.
fn start(page: &str) -> [usize; 3] {
    let [above, run] = [line_of(page, 0), line_of(page, 2)];
    [&above[..4], &above[4..7], &run[..4]].map(|words| words.trim().parse().unwrap())
}

#[test]
fn the_largest_sheet_has_54_pages() {
    let sheet = Sheet::of_size(512, 128);
    assert_eq!(page_count(512, 128), 54);
    let page = sheet.page(54);
    assert_eq!(start(&page), [54, 126, 464]);
    assert_eq!(line_of(&page, 0).trim_end(), "  54126127128");
    assert_eq!(line_of(&page, 49)[..4], *" 511");
    assert_eq!(line_of(&page, 50), " ".repeat(79));
    for number in [0, 55, 56, 256, 65_536, usize::MAX] {
        assert_blanked(&sheet, number, PAGE_LENGTH, 13);
    }
}

#[test]
fn page_counts() {
    for (runs, columns, wanted) in [
        (1, 1, 1),
        (58, 25, 1),
        (58, 26, 2),
        (59, 25, 2),
        (59, 26, 4),
        (116, 50, 4),
        (117, 51, 9),
        (512, 25, 9),
        (58, 128, 6),
    ] {
        assert_eq!(page_count(runs, columns), wanted, "{runs} {columns}");
    }
    for runs in 1..=512usize {
        for columns in 1..=128usize {
            let wanted = runs.div_ceil(58) * columns.div_ceil(25);
            assert_eq!(page_count(runs, columns), wanted);
        }
    }
}

/// The number that stands right-aligned in some bytes of a line, or None if they are blank.
fn number_in(bytes: &[u8]) -> Option<usize> {
    let text = std::str::from_utf8(bytes).unwrap();
    let word = text.trim_start();
    match word {
        "" => None,
        _ => {
            let number: usize = word.parse().unwrap();
            assert_eq!(number.to_string(), word);
            Some(number)
        }
    }
}

/// Labels and numbers of the lines of a page, by their places.
fn read_back(page: &str) -> Vec<(Option<usize>, Vec<Option<usize>>)> {
    let lines = page.as_bytes().chunks(80);
    lines
        .map(|line| {
            let cells = line[4..79].chunks(3).map(number_in).collect();
            (number_in(&line[..4]), cells)
        })
        .collect()
}

/// Reads all pages back: every run and every column stands there once, with its entry and its level
/// count, and nothing else does.
fn assert_all_is_there_once(sheet: &Sheet) {
    let mut seen = vec![0; sheet.runs * sheet.columns];
    let pages = sheet.pages();
    for (index, page) in pages.iter().enumerate() {
        let lines = read_back(page);
        assert_eq!(lines[0].0, Some(index + 1));
        assert_eq!(lines[1].0, None);
        let runs = lines[2..].iter().take_while(|line| line.0.is_some());
        let used_lines = 2 + runs.count();
        for (place, column) in lines[0].1.iter().enumerate() {
            let Some(column) = column else {
                assert!(lines.iter().all(|line| line.1[place].is_none()));
                continue;
            };
            let column = column - 1;
            assert_eq!(lines[1].1[place], Some(sheet.levels[column].into()));
            for (run, cells) in &lines[2..used_lines] {
                let cell = run.unwrap() * sheet.columns + column;
                assert_eq!(cells[place], Some(sheet.table[cell].into()));
                seen[cell] += 1;
            }
        }
        for line in &lines[used_lines..] {
            assert!(line.0.is_none() && line.1.iter().all(Option::is_none));
        }
    }
    assert!(seen.iter().all(|&times| times == 1));
    assert_blanked(sheet, pages.len() + 1, PAGE_LENGTH, 13);
}

#[test]
fn everything_is_printed_once() {
    for runs in [1, 2, 57, 58, 59, 115, 116, 117, 463, 464, 465, 512] {
        for columns in [1, 2, 24, 25, 26, 49, 50, 51, 99, 100, 101, 125, 126, 128] {
            assert_all_is_there_once(&Sheet::of_size(runs, columns));
        }
    }
}

#[test]
fn bytes_past_the_page_become_zero() {
    let sheet = nine_runs();
    let page = sheet.page(1);
    for room in [PAGE_LENGTH, PAGE_LENGTH + 1, 5_000, 10_000] {
        let (answer, buffer) = sheet.answer(1, room);
        assert_eq!(answer, 0);
        assert_eq!(buffer[..PAGE_LENGTH], *page.as_bytes());
        assert!(buffer[PAGE_LENGTH..].iter().all(|byte| *byte == 0));
    }
}

#[test]
fn short_page_buffers() {
    for room in [0, 1, 79, 80, PAGE_LENGTH - 1] {
        for number in [0, 1, 2, usize::MAX] {
            assert_blanked(&nine_runs(), number, room, 12);
        }
    }
}

#[test]
fn pages_that_there_are_not() {
    for room in [PAGE_LENGTH, PAGE_LENGTH + 1] {
        for number in [0, 2, 3, 54, 1 << 16, 1 << 32, usize::MAX] {
            assert_blanked(&nine_runs(), number, room, 13);
        }
    }
}

#[test]
fn sizes_beyond_the_limits() {
    let right = Sheet::of_size(512, 128);
    for runs in [0, 513, 514, 65_536, usize::MAX / 128 + 1, usize::MAX] {
        assert_no_sheet(&Sheet {
            runs,
            ..right.clone()
        });
    }
    for columns in [0, 129, 130, 65_536, usize::MAX / 512 + 1, usize::MAX] {
        assert_no_sheet(&Sheet {
            columns,
            ..right.clone()
        });
    }
    // With table and level list long enough.
    assert_no_sheet(&Sheet::of_size(513, 1));
    assert_no_sheet(&Sheet::of_size(513, 128));
    assert_no_sheet(&Sheet::of_size(1, 129));
    assert_no_sheet(&Sheet::of_size(512, 129));
}

#[test]
fn sizes_beyond_the_limits_with_short_buffers() {
    let sizes = [0, 1, 512, 513, 1 << 32, 1 << 63, usize::MAX];
    for runs in sizes {
        for columns in sizes {
            for (table, levels) in [(0, 0), (1, 0), (0, 1), (1, 1)] {
                if (runs, columns, table, levels) == (1, 1, 1, 1) {
                    continue;
                }
                assert_no_sheet(&Sheet {
                    table: vec![0; table],
                    levels: vec![2; levels],
                    runs,
                    columns,
                });
            }
        }
    }
}

#[test]
fn level_counts_at_their_limits() {
    for column in 0..4 {
        for level in [0, 1, 65, 66, 128, 255] {
            let mut sheet = nine_runs();
            sheet.table.fill(0);
            sheet.levels[column] = level;
            assert_no_sheet(&sheet);
        }
        for level in [2, 64] {
            let mut sheet = nine_runs();
            sheet.table.fill(level - 1);
            sheet.levels.fill(64);
            sheet.levels[column] = level;
            assert_all_is_there_once(&sheet);
        }
    }
}

#[test]
fn entries_at_their_levels() {
    for place in 0..36 {
        let level = nine_runs().levels[place % 4];
        for entry in [level, level + 1, 64, 128, 255] {
            let mut sheet = nine_runs();
            sheet.table[place] = entry;
            assert_no_sheet(&sheet);
        }
        let mut sheet = nine_runs();
        sheet.table[place] = level - 1;
        assert_all_is_there_once(&sheet);
    }
}

/// The wrong entry may stand on another page than the one that is asked for.
#[test]
fn an_entry_of_another_page() {
    for place in [0, 65_535, 300 * 128 + 77] {
        let mut sheet = Sheet::of_size(512, 128);
        sheet.table[place] = 64;
        for number in 1..=54 {
            assert_blanked(&sheet, number, PAGE_LENGTH, 1);
        }
    }
}

#[test]
fn tables_and_level_lists_too_short() {
    for (runs, columns) in [(9, 4), (512, 128)] {
        let right = Sheet::of_size(runs, columns);
        for length in [runs * columns - 1, (runs - 1) * columns, 1, 0] {
            let mut sheet = right.clone();
            sheet.table.truncate(length);
            assert_no_sheet(&sheet);
        }
        for length in [columns - 1, 1, 0] {
            let mut sheet = right.clone();
            sheet.levels.truncate(length);
            assert_no_sheet(&sheet);
        }
    }
}

#[test]
fn what_is_longer_is_not_looked_at() {
    let wanted = nine_runs().page(1);
    let mut sheet = nine_runs();
    sheet.table.extend([255, 64, 0]);
    sheet.levels.extend([0, 1, 65, 255]);
    assert_eq!(sheet.page(1), wanted);
    assert_blanked(&sheet, 2, PAGE_LENGTH, 13);
}

/// Every cause of 1 comes before 12, and both before 13.
#[test]
fn refusals_in_turn() {
    let right = nine_runs();
    let mut wrong_entry = right.clone();
    wrong_entry.table[35] = 64;
    let mut wrong_level = right.clone();
    wrong_level.levels[0] = 65;
    for sheet in [wrong_entry, wrong_level] {
        assert_no_sheet(&sheet);
    }
    assert_blanked(&right, 0, PAGE_LENGTH - 1, 12);
    assert_blanked(&right, 2, 0, 12);
    assert_blanked(&right, 0, PAGE_LENGTH, 13);
    assert_blanked(&right, 2, PAGE_LENGTH, 13);
}

/// How often each answer comes, over random calls.
fn times_of_answers(limits: &Limits) -> [usize; 14] {
    let mut times = [0; 14];
    for seed in 0..2_000 {
        let call = make(seed, limits);
        let mut buffer = vec![255; call.room];
        let answer = call.answer_into(&mut buffer);
        times[answer] += 1;
        let beyond = if answer == 0 { PAGE_LENGTH } else { 0 };
        assert!(buffer[beyond..].iter().all(|byte| *byte == 0), "{seed}");
        if answer == 0 {
            let sheet = Sheet {
                table: call.table()[..call.runs * call.columns].to_vec(),
                levels: call.levels,
                runs: call.runs,
                columns: call.columns,
            };
            assert_eq!(buffer[..PAGE_LENGTH], *sheet.page(call.number).as_bytes());
            if seed % 20 == 0 {
                assert_all_is_there_once(&sheet);
            }
        }
    }
    times
}

#[test]
fn random_calls_reach_every_answer() {
    for limits in [STORED, ANY] {
        let times = times_of_answers(&limits);
        assert_eq!(times[2..12], [0; 10]);
        for answer in [0, 1, 12, 13] {
            assert!(times[answer] > 150, "{answer}: {times:?}");
        }
    }
}

/// The pages of a filled order, by its answer's bytes.
fn pages_of(order: &str) -> Vec<String> {
    let Answer::Filled {
        runs,
        levels,
        table,
        ..
    } = plan_text(order.as_bytes(), LEAST)
    else {
        panic!("refused: {order}");
    };
    let sheet = Sheet {
        table,
        columns: levels.len(),
        levels,
        runs,
    };
    assert_all_is_there_once(&sheet);
    sheet.pages()
}

/// 128 runs of 30 columns, six pages.
fn wide_order() -> String {
    let list = order(&[points(7, 30)], &[&[2, 1]]);
    let words: Vec<String> = list.iter().map(u16::to_string).collect();
    words.join(" ")
}

#[test]
fn an_order_prints_all_its_pages() {
    for order in ["0 1 1 104", "0 2 1 101 4 2 1 2 3", &wide_order()] {
        let pages = pages_of(order);
        assert_eq!(print_pages(order.as_bytes(), None), pages.concat());
        for (index, page) in pages.iter().enumerate() {
            let argument = (index + 1).to_string();
            assert_eq!(
                &print_pages(order.as_bytes(), Some(argument.as_bytes())),
                page
            );
        }
    }
    assert_eq!(pages_of(&wide_order()).len(), 6);
}

const NO_SUCH_PAGE: &str = "refused 13 0 0 0 0 0 0\n";

#[test]
fn arguments_that_are_numbers() {
    let order = wide_order();
    let pages = pages_of(&order);
    for argument in ["2", "02", "000000000000000000002", " 2", "2\n", "\t 2 \n"] {
        assert_eq!(
            print_pages(order.as_bytes(), Some(argument.as_bytes())),
            pages[1],
            "{argument:?}"
        );
    }
}

#[test]
fn arguments_that_name_no_page() {
    let order = wide_order();
    let no_pages = [
        "0",
        "000",
        "7",
        "54",
        "65535",
        "65536",
        "65538",
        "4294967298",
    ];
    let not_one_word = ["", " ", "\n", "1 2", "2 2", "2 x"];
    let no_numbers = [
        "x", "2x", "x2", "+2", "-2", "2.", "0x2", "²", "2\r", "\u{b}2",
    ];
    for argument in [&no_pages[..], &not_one_word, &no_numbers].concat() {
        assert_eq!(
            print_pages(order.as_bytes(), Some(argument.as_bytes())),
            NO_SUCH_PAGE,
            "{argument:?}"
        );
    }
    let not_a_text: &[u8] = &[b'2', 255];
    assert_eq!(
        print_pages(order.as_bytes(), Some(not_a_text)),
        NO_SUCH_PAGE
    );
}

#[test]
fn the_orders_own_refusal_comes_first() {
    for order in [
        "",
        "0 1 1 1O1",
        "0 2 1 101 4 2 1 1 2",
        "1 1 2 1 2 0 0 1 1 1",
    ] {
        let refusal = print(&plan_text(order.as_bytes(), LEAST));
        assert!(refusal.starts_with("refused "));
        for argument in [None, Some("1"), Some("0"), Some("x"), Some("")] {
            let argument = argument.map(str::as_bytes);
            assert_eq!(print_pages(order.as_bytes(), argument), refusal);
        }
    }
}
