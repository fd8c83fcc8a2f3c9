//! Tables checked through the static library: document 02, K5 and K8.
use yurbantze::{check_table, plan, Refusal, TableCheck};

fn passes(pairs: usize) -> TableCheck {
    TableCheck { verdict: Ok(()), gap: 0, pairs }
}

/// Before any pair of columns is counted.
fn refused(refusal: Refusal) -> TableCheck {
    TableCheck { verdict: Err(refusal), gap: 0, pairs: 0 }
}

fn unreadable(place: usize) -> TableCheck {
    refused(Refusal::Unreadable { place })
}

/// Refusal 5 of columns 1 and 2, the first pair that is counted.
fn pair(first_level: usize, second_level: usize, times: usize, gap: i64) -> TableCheck {
    let refusal = Refusal::UnevenPair { ingredient: 1, first: 1, second: 2, first_level, second_level, times };
    TableCheck { verdict: Err(refusal), gap, pairs: 1 }
}

/// The list of a table.
fn written(levels: &[u16], runs: &[Vec<u16>]) -> Vec<u16> {
    [&[1, runs.len() as u16, levels.len() as u16], levels, &runs.concat()].concat()
}

/// Two columns in which the levels x and y stand together counts[x][y] times.
fn of_counts(counts: &[&[usize]]) -> Vec<u16> {
    let mut runs = Vec::new();
    for (x, row) in counts.iter().enumerate() {
        for (y, &times) in row.iter().enumerate() {
            runs.extend(vec![vec![x as u16, y as u16]; times]);
        }
    }
    written(&[counts.len() as u16, counts[0].len() as u16], &runs)
}

#[test]
fn the_example_of_document_02() {
    let list = [1, 4, 2, 2, 2, 0, 0, 0, 0, 1, 1, 1, 1];
    let check = check_table(&list);
    assert_eq!(check, pair(0, 0, 2, 4));
    // As the one ingredient of an order it has the same refusal.
    let order = [&[1], &list[..], &[1, 1, 1]].concat();
    assert_eq!(check.verdict, plan(&order).map(|_| ()));
}

#[test]
fn tables_that_pass() {
    assert_eq!(check_table(&[1, 2, 1, 2, 1, 0]), passes(0));
    assert_eq!(check_table(&of_counts(&[&[2, 2, 2], &[2, 2, 2]])), passes(1));
    assert_eq!(check_table(&[1, 4, 3, 2, 2, 2, 0, 0, 0, 0, 1, 1, 1, 0, 1, 1, 1, 0]), passes(3));
}

#[test]
fn the_pair_farthest_off() {
    // Two runs have the pair 0 0, which is the first that fails, and three the pair 1 2.
    assert_eq!(check_table(&of_counts(&[&[2, 1, 0], &[0, 0, 3], &[1, 2, 0]])), pair(1, 2, 3, 18));
    // Short and over pairs as far off: the lowest, whatever its sign.
    assert_eq!(check_table(&of_counts(&[&[4, 2, 3], &[1, 5, 3], &[4, 2, 3]])), pair(1, 0, 1, -18));
    assert_eq!(check_table(&of_counts(&[&[2, 4, 3], &[5, 1, 3], &[2, 4, 3]])), pair(1, 0, 5, 18));
    // 0 2 before 1 0.
    assert_eq!(check_table(&of_counts(&[&[4, 4, 1], &[1, 4, 4], &[4, 1, 4]])), pair(0, 2, 1, -18));
    // In no run at all.
    assert_eq!(check_table(&of_counts(&[&[1, 3, 2], &[2, 3, 1], &[3, 0, 3]])), pair(2, 1, 0, -18));
    // 24 pairs in 12 runs: no pair can be even.
    let counts: [&[usize]; 4] = [&[1, 1, 1, 0, 0, 0], &[0, 1, 0, 0, 1, 1], &[1, 0, 0, 2, 0, 0], &[0, 0, 1, 0, 1, 1]];
    assert_eq!(check_table(&of_counts(&counts)), pair(2, 3, 2, 36));
}

#[test]
fn the_largest_gap_and_the_least() {
    let equal: Vec<Vec<u16>> = (0..512).map(|run| vec![run % 64; 2]).collect();
    assert_eq!(check_table(&written(&[64, 64], &equal)), pair(0, 0, 8, 32256));
    let opposite: Vec<Vec<u16>> = (0..512).map(|run| vec![run % 2, 1 - run % 2]).collect();
    assert_eq!(check_table(&written(&[2, 2], &opposite)), pair(0, 0, 0, -512));
}

/// Columns of parities: each has a number, and is even with those of other numbers.
fn parities(runs: u16, numbers: &[u16]) -> Vec<u16> {
    let parity = |run: u16, number: &u16| (run & number).count_ones() as u16 % 2;
    let runs: Vec<Vec<u16>> = (0..runs).map(|run| numbers.iter().map(|number| parity(run, number)).collect()).collect();
    written(&vec![2; numbers.len()], &runs)
}

/// Refusal 5 of two columns of parities that have the same number: levels 0 and 0 stand together in half of the runs, where a quarter would be even.
fn equal(first: usize, second: usize, runs: u16, pairs: usize) -> TableCheck {
    let refusal = Refusal::UnevenPair { ingredient: 1, first, second, first_level: 0, second_level: 0, times: usize::from(runs) / 2 };
    TableCheck { verdict: Err(refusal), gap: runs.into(), pairs }
}

#[test]
fn each_pair_of_four_columns() {
    let checks = |numbers: &[u16]| check_table(&parities(8, numbers));
    assert_eq!(checks(&[1, 1, 2, 3]), equal(1, 2, 8, 1));
    assert_eq!(checks(&[1, 2, 1, 3]), equal(1, 3, 8, 2));
    assert_eq!(checks(&[1, 2, 3, 1]), equal(1, 4, 8, 3));
    assert_eq!(checks(&[1, 2, 2, 3]), equal(2, 3, 8, 4));
    assert_eq!(checks(&[1, 2, 3, 2]), equal(2, 4, 8, 5));
    assert_eq!(checks(&[1, 2, 3, 3]), equal(3, 4, 8, 6));
    assert_eq!(checks(&[1, 2, 3, 4]), passes(6));
    // 1-4 comes before 2-3.
    assert_eq!(checks(&[1, 2, 2, 1]), equal(1, 4, 8, 3));
    // Each further column is one more pair with column 1, before 2-3.
    assert_eq!(checks(&[1, 2, 2]), equal(2, 3, 8, 3));
    assert_eq!(checks(&[1, 2, 2, 3, 4]), equal(2, 3, 8, 5));
}

#[test]
fn the_last_two_of_many_columns() {
    let mut numbers: Vec<u16> = (1..=63).collect();
    // 63 × 62 ÷ 2.
    assert_eq!(check_table(&parities(512, &numbers)), passes(1953));
    numbers[62] = 62;
    assert_eq!(check_table(&parities(512, &numbers)), equal(62, 63, 512, 1953));
}

/// 128 columns that pass, in 132 runs: run 0 has zeros, and in each run after it a 1 stands where run and column add up to a square modulo 131, 0 among
/// them.
fn of_squares() -> Vec<u16> {
    let squares: Vec<u16> = (0..131).map(|root| root * root % 131).collect();
    let entry = |run: u16, column: u16| u16::from(squares.contains(&((run + column) % 131)));
    let mut runs = vec![vec![0; 128]];
    runs.extend((1..=131).map(|run| (1..=128).map(|column| entry(run, column)).collect::<Vec<u16>>()));
    written(&[2; 128], &runs)
}

#[test]
fn the_most_pairs() {
    // 128 × 127 ÷ 2.
    assert_eq!(check_table(&of_squares()), passes(8128));
    // 128 columns in 128 runs, the second of two having the number of the first.
    for (first, second, pairs) in [(1, 2, 1), (1, 128, 127), (2, 3, 128), (2, 128, 253), (126, 127, 8126), (126, 128, 8127), (127, 128, 8128)] {
        let mut numbers: Vec<u16> = (1..=127).collect();
        numbers.insert(second - 1, first as u16);
        assert_eq!(check_table(&parities(128, &numbers)), equal(first, second, 128, pairs));
    }
}

#[test]
fn uneven_columns_and_entries_out_of_range() {
    let list = [1, 4, 2, 2, 2, 0, 0, 0, 1, 1, 0, 1, 0];
    assert_eq!(check_table(&list), refused(Refusal::UnevenLevel { ingredient: 1, column: 2, level: 0, times: 3 }));
    // Columns 1 and 2 are even together, and 3 has no level 1: columns are counted before pairs.
    let list = [1, 4, 3, 2, 2, 2, 0, 0, 0, 0, 1, 0, 1, 0, 0, 1, 1, 0];
    assert_eq!(check_table(&list), refused(Refusal::UnevenLevel { ingredient: 1, column: 3, level: 0, times: 4 }));
    assert_eq!(check_table(&[1, 2, 1, 2, 0, 2]), refused(Refusal::EntryOutOfRange { place: 5 }));
    assert_eq!(check_table(&[1, 2, 1, 2, 65535, 2]), refused(Refusal::EntryOutOfRange { place: 4 }));
}

#[test]
fn lists_that_are_no_table() {
    let whole = [1, 2, 2, 2, 2, 0, 1, 1, 0];
    assert_eq!(check_table(&whole), pair(0, 0, 0, -2));
    for length in 0..whole.len() {
        assert_eq!(check_table(&whole[..length]), unreadable(length));
    }
    assert_eq!(check_table(&[&whole[..], &[0]].concat()), unreadable(9));
    for kind in [0, 2, 3, 4, 65535] {
        assert_eq!(check_table(&[kind, 2, 1, 2, 0, 1]), unreadable(0));
    }
    for rows in [0, 513, 65535] {
        assert_eq!(check_table(&[1, rows, 1, 2, 0, 1]), unreadable(1));
    }
    for columns in [0, 129, 65535] {
        assert_eq!(check_table(&[1, 2, columns, 2, 0, 1]), unreadable(2));
    }
    for level in [0, 1, 65, 65535] {
        assert_eq!(check_table(&[1, 2, 2, 2, level, 0, 1, 1, 0]), unreadable(4));
    }
}

#[test]
fn lists_of_32768_numbers_and_more() {
    assert_eq!(check_table(&vec![7; 32768]), unreadable(0));
    assert_eq!(check_table(&vec![7; 32769]), unreadable(32768));
    assert_eq!(check_table(&vec![1; 100000]), unreadable(32768));
    // The most numbers, of which those from the table's end on are left over.
    let mut list = parities(512, &Vec::from_iter(1..=63));
    let end = list.len();
    list.resize(32768, 0);
    assert_eq!(check_table(&list), unreadable(end));
}

// The exported function itself: whatever answer, gap and pairs held, every number is written.
extern "C" {
    fn yurbantze_check_table(list: *const u16, list_length: usize, answer: *mut [usize; 7], gap: *mut i64, pairs: *mut usize) -> usize;
}

/// What is in answer, gap and pairs after the call.
fn written_by_the_call(list: &[u16]) -> ([usize; 7], i64, usize) {
    let (mut answer, mut gap, mut pairs) = ([7; 7], 7, 7);
    // SAFETY: the first pointer is that of a slice, with its length, the others are those of local variables, and none lies over another.
    let number = unsafe { yurbantze_check_table(list.as_ptr(), list.len(), &mut answer, &mut gap, &mut pairs) };
    assert_eq!(number, answer[0]);
    (answer, gap, pairs)
}

#[test]
fn every_number_is_written_whatever_was_there() {
    assert_eq!(written_by_the_call(&[1, 2, 1, 2, 1, 0]), ([0; 7], 0, 0));
    assert_eq!(written_by_the_call(&parities(8, &[1, 2, 3, 4])), ([0; 7], 0, 6));
    assert_eq!(written_by_the_call(&[]), ([2, 0, 0, 0, 0, 0, 0], 0, 0));
    assert_eq!(written_by_the_call(&[1, 2, 1, 2, 1, 3]), ([3, 5, 0, 0, 0, 0, 0], 0, 0));
    assert_eq!(written_by_the_call(&[1, 2, 1, 2, 1, 1]), ([4, 1, 1, 0, 0, 0, 0], 0, 0));
    assert_eq!(written_by_the_call(&[1, 2, 2, 2, 2, 0, 1, 1, 0]), ([5, 1, 1, 2, 0, 0, 0], -2, 1));
    assert_eq!(written_by_the_call(&parities(8, &[1, 2, 2, 3])), ([5, 1, 2, 3, 0, 0, 4], 8, 4));
}
