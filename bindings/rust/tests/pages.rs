//! Pages printed through the static library: document 02, K3.
use yurbantze::{page, plan, PageRefusal, PAGE_LENGTH};

/// The page that has these lines at its top, and blank ones after them.
fn page_of_lines(lines: &[&str]) -> String {
    let line = |index: usize| format!("{:<79}\n", lines.get(index).unwrap_or(&""));
    (0..60).map(line).collect()
}

/// A sheet handed in, with the size that is said of it.
#[derive(Clone)]
struct Sheet {
    table: Vec<u8>,
    levels: Vec<u8>,
    runs: usize,
    columns: usize,
}

impl Sheet {
    /// Of any size, and not even.
    fn of_size(runs: usize, columns: usize) -> Sheet {
        Sheet {
            table: (0..runs * columns).map(|place| (place % 59) as u8).collect(),
            levels: (0..columns).map(|column| 60 + column as u8 % 5).collect(),
            runs,
            columns,
        }
    }

    /// The answer for a page, in a buffer that holds other bytes before.
    fn answer(&self, number: usize, room: usize) -> (Result<(), PageRefusal>, Vec<u8>) {
        let mut buffer = vec![7; room];
        let answer = page(&self.table, &self.levels, self.runs, self.columns, number, &mut buffer);
        (answer, buffer)
    }

    fn assert_refused(&self, number: usize, room: usize, refusal: PageRefusal) {
        assert_eq!(self.answer(number, room), (Err(refusal), vec![0; room]), "page {number} in {room} bytes");
    }

    /// Refused as no sheet, whatever the page and its buffer are.
    fn assert_not_a_sheet(&self) {
        for number in [0, 1, 55, usize::MAX] {
            for room in [0, PAGE_LENGTH - 1, PAGE_LENGTH, PAGE_LENGTH + 1] {
                self.assert_refused(number, room, PageRefusal::NotASheet);
            }
        }
    }

    fn page(&self, number: usize) -> String {
        let (answer, buffer) = self.answer(number, PAGE_LENGTH);
        assert_eq!(answer, Ok(()));
        String::from_utf8(buffer).expect("a page is digits, blanks and line feeds")
    }
}

#[test]
fn the_page_of_a_planned_table() {
    let table = plan(&[0, 1, 1, 104]).expect("the order is filled");
    let lines = [
        "   1  1  2  3",
        "      6  2  2",
        "   0  0  0  0",
        "   1  0  1  1",
        "   2  1  0  1",
        "   3  1  1  0",
        "   4  2  0  0",
        "   5  2  1  1",
        "   6  3  0  1",
        "   7  3  1  0",
        "   8  4  0  0",
        "   9  4  1  1",
        "  10  5  0  1",
        "  11  5  1  0",
    ];
    assert_eq!(table.pages().collect::<Vec<_>>(), [page_of_lines(&lines)]);
    assert_eq!(table.page(0), None);
    assert_eq!(table.page(2), None);
    assert_eq!(table.page(usize::MAX), None);
}

#[test]
fn all_pages_of_a_planned_table() {
    // FIELD over two elements to 64 runs of 30 columns: the points 1 to 30.
    let mut list = vec![1, 3, 6, 30, 2];
    list.extend([1; 30]);
    for coordinate in (0..6).rev() {
        list.extend((1..=30).map(|point: u16| point >> coordinate & 1));
    }
    list.extend([1, 2, 1]);
    let table = plan(&list).expect("the order is filled");
    let pages: Vec<String> = table.pages().collect();
    let heads: Vec<&str> = pages.iter().map(|page| &page[..7]).collect();
    assert_eq!(heads, ["   1  1", "   2  1", "   3 26", "   4 26"]);
    let rest: Vec<Vec<u8>> = table.runs().skip(58).map(|run| run[25..].to_vec()).collect();
    let mut lines = vec!["   4 26 27 28 29 30".to_string(), "    ".to_string() + &"  2".repeat(5)];
    for (place, run) in rest.iter().enumerate() {
        let cells: String = run.iter().map(|level| format!("{level:>3}")).collect();
        lines.push(format!("{:>4}{cells}", 58 + place));
    }
    let lines: Vec<&str> = lines.iter().map(String::as_str).collect();
    assert_eq!(pages[3], page_of_lines(&lines));
}

#[test]
fn one_run_of_one_column() {
    let sheet = Sheet { table: vec![63], levels: vec![64], runs: 1, columns: 1 };
    assert_eq!(sheet.page(1), page_of_lines(&["   1  1", "     64", "   0 63"]));
    sheet.assert_refused(2, PAGE_LENGTH, PageRefusal::NoSuchPage);
}

#[test]
fn columns_and_runs_that_fill_a_page_and_one_more() {
    for (runs, columns, last) in [(1, 25, 1), (1, 26, 2), (58, 1, 1), (59, 1, 2), (59, 26, 4), (117, 51, 9), (512, 128, 54)] {
        let sheet = Sheet::of_size(runs, columns);
        let first_column = (columns - 1) / 25 * 25 + 1;
        assert_eq!(sheet.page(last)[..7], format!("{last:>4}{first_column:>3}"));
        sheet.assert_refused(last + 1, PAGE_LENGTH, PageRefusal::NoSuchPage);
    }
}

#[test]
fn every_byte_is_settled_whatever_the_buffer_held() {
    let sheet = Sheet::of_size(9, 4);
    for room in [PAGE_LENGTH, PAGE_LENGTH + 1, 2 * PAGE_LENGTH] {
        let (answer, buffer) = sheet.answer(1, room);
        assert_eq!(answer, Ok(()));
        assert_eq!(buffer[..PAGE_LENGTH], *sheet.page(1).as_bytes());
        assert!(buffer[PAGE_LENGTH..].iter().all(|byte| *byte == 0));
    }
}

#[test]
fn short_page_buffers_and_pages_that_there_are_not() {
    let sheet = Sheet::of_size(9, 4);
    for number in [0, 1, 2, usize::MAX] {
        for room in [0, 1, PAGE_LENGTH - 1] {
            sheet.assert_refused(number, room, PageRefusal::ShortPage);
        }
    }
    for number in [0, 2, 54, usize::MAX] {
        for room in [PAGE_LENGTH, PAGE_LENGTH + 1] {
            sheet.assert_refused(number, room, PageRefusal::NoSuchPage);
        }
    }
}

#[test]
fn sizes_beyond_the_limits() {
    let right = Sheet::of_size(512, 128);
    for runs in [0, 513, 65536, usize::MAX / 128 + 1, usize::MAX] {
        Sheet { runs, ..right.clone() }.assert_not_a_sheet();
    }
    for columns in [0, 129, 65536, usize::MAX / 512 + 1, usize::MAX] {
        Sheet { columns, ..right.clone() }.assert_not_a_sheet();
    }
    for (runs, columns) in [(0, 0), (513, 1), (1, 129), (1 << 32, 1 << 32), (usize::MAX, usize::MAX)] {
        Sheet { table: vec![], levels: vec![], runs, columns }.assert_not_a_sheet();
    }
    Sheet::of_size(513, 1).assert_not_a_sheet();
    Sheet::of_size(1, 129).assert_not_a_sheet();
}

#[test]
fn level_counts_and_entries_at_their_limits() {
    for level in [0, 1, 65, 255] {
        let mut sheet = Sheet::of_size(9, 4);
        sheet.table.fill(0);
        sheet.levels[3] = level;
        sheet.assert_not_a_sheet();
    }
    for place in [0, 17, 35] {
        let mut sheet = Sheet::of_size(9, 4);
        sheet.table[place] = sheet.levels[place % 4];
        sheet.assert_not_a_sheet();
    }
    // Also on another page than the one that is asked for.
    let mut sheet = Sheet::of_size(512, 128);
    *sheet.table.last_mut().expect("it has entries") = 64;
    sheet.assert_not_a_sheet();
}

#[test]
fn tables_and_level_lists_too_short_and_longer() {
    let right = Sheet::of_size(9, 4);
    for length in [35, 32, 0] {
        Sheet { table: right.table[..length].to_vec(), ..right.clone() }.assert_not_a_sheet();
    }
    for length in [3, 0] {
        Sheet { levels: right.levels[..length].to_vec(), ..right.clone() }.assert_not_a_sheet();
    }
    let longer = Sheet { table: [&right.table[..], &[255]].concat(), levels: [&right.levels[..], &[0]].concat(), ..right };
    assert_eq!(longer.page(1), Sheet::of_size(9, 4).page(1));
}

#[test]
fn refusals_as_lines() {
    assert_eq!(PageRefusal::NotASheet.to_string(), "refused 1 0 0 0 0 0 0");
    assert_eq!(PageRefusal::ShortPage.to_string(), "refused 12 0 0 0 0 0 0");
    assert_eq!(PageRefusal::NoSuchPage.to_string(), "refused 13 0 0 0 0 0 0");
}
