//! Orders planned through the static library: those of document 01, "Counted examples" and "Printed runs", and the spare, the sums and the table on the other
//! side of document 02.
use yurbantze::{plan, plan_into, Refusal, Size, Table, LEVELS_LENGTH, SCRATCH_LENGTH, TABLE_LENGTH};

fn runs(table: &Table) -> Vec<Vec<u8>> {
    table.runs().map(|run| run.to_vec()).collect()
}

const NINE_RUNS: [u16; 28] = [2, 1, 3, 1, 3, 0, 1, 2, 2, 3, 3, 3, 0, 0, 0, 0, 1, 2, 0, 2, 1, 2, 1, 1, 3, 1, 2, 1];

#[test]
fn a_sum_of_nine_runs() {
    let table = plan(&NINE_RUNS).expect("the order is filled");
    assert_eq!((table.run_count(), table.column_count()), (9, 4));
    assert_eq!(table.levels(), [3, 3, 3, 3]);
    let wanted: [[u8; 4]; 9] = [
        [0, 0, 0, 0],
        [0, 1, 2, 1],
        [0, 2, 1, 2],
        [1, 1, 1, 0],
        [1, 2, 0, 1],
        [1, 0, 2, 2],
        [2, 2, 2, 0],
        [2, 0, 1, 1],
        [2, 1, 0, 2],
    ];
    assert_eq!(runs(&table), wanted);
}

#[test]
fn the_printed_example() {
    let table = plan(&[0, 2, 1, 101, 4, 2, 1, 2, 3]).expect("the order is filled");
    assert_eq!((table.run_count(), table.column_count()), (4, 1));
    assert_eq!(table.levels(), [4]);
    assert_eq!(table.spare(), 0);
    assert_eq!(runs(&table), [[0], [1], [2], [3]]);
}

#[test]
fn spares() {
    let spare = |list: &[u16]| plan(list).expect("the order is filled").spare();
    assert_eq!(spare(&[0, 1, 1, 101]), 0);
    assert_eq!(spare(&[0, 1, 1, 102]), 0);
    assert_eq!(spare(&[0, 1, 1, 103]), 5);
    assert_eq!(spare(&[0, 1, 1, 104]), 4);
    assert_eq!(spare(&NINE_RUNS), 0);
    // One column of 4 levels, and SPLIT of it by one of 2.
    assert_eq!(spare(&[1, 1, 4, 1, 4, 0, 1, 2, 3, 1, 1, 1]), 0);
    assert_eq!(spare(&[2, 1, 4, 1, 4, 0, 1, 2, 3, 1, 4, 1, 2, 0, 0, 1, 1, 2, 1, 1, 5, 1, 2]), 2);
}

#[test]
fn a_matrix_over_the_field_of_four() {
    // Rows 0000, 0123, 0231, 0312 with p = 4, and the column 0, 1, 2, 3.
    let list = [2, 1, 4, 1, 4, 0, 1, 2, 3, 2, 4, 4, 4, 0, 0, 0, 0, 0, 1, 2, 3, 0, 2, 3, 1, 0, 3, 1, 2, 2, 1, 1, 3, 1, 2, 0];
    let table = plan(&list).expect("the order is filled");
    assert_eq!(table.levels(), [4, 4, 4, 4]);
    assert_eq!(runs(&table)[12..], [[3, 3, 3, 3], [3, 2, 1, 0], [3, 1, 0, 2], [3, 0, 2, 1]]);
    // Rows 00, 12, 02, 03 are a difference matrix modulo 4 alone.
    let list = [1, 2, 4, 2, 4, 0, 0, 1, 2, 0, 2, 0, 3, 1, 1, 101];
    assert_eq!(plan(&list), Err(Refusal::UnevenDifference { ingredient: 1, first: 1, second: 2, difference: 1, times: 0 }));
}

// The exported function itself: a refusal of the package has no spare that could be looked at.
extern "C" {
    fn yurbantze_plan(
        list: *const u16,
        list_length: usize,
        table: *mut u8,
        table_length: usize,
        levels: *mut u8,
        levels_length: usize,
        scratch: *mut u8,
        scratch_length: usize,
        answer: *mut [usize; 7],
        spare: *mut i64,
    ) -> usize;
}

/// Number and spare, of which the latter was another number before the call.
fn number_and_spare(list: &[u16], table_length: usize) -> (usize, i64) {
    let (mut table, mut levels, mut scratch) = (vec![7; table_length], vec![7; LEVELS_LENGTH], vec![7; SCRATCH_LENGTH]);
    let (mut answer, mut spare) = ([7; 7], 7);
    // SAFETY: each pointer is that of a vector or a slice, with its length, or of a local variable, and none lies over another.
    let number = unsafe {
        yurbantze_plan(
            list.as_ptr(),
            list.len(),
            table.as_mut_ptr(),
            table.len(),
            levels.as_mut_ptr(),
            levels.len(),
            scratch.as_mut_ptr(),
            scratch.len(),
            &mut answer,
            &mut spare,
        )
    };
    (number, spare)
}

#[test]
fn a_refusal_leaves_a_spare_of_0() {
    let take_103 = [0, 1, 1, 103];
    assert_eq!(number_and_spare(&take_103, TABLE_LENGTH), (0, 5));
    assert_eq!(number_and_spare(&take_103, TABLE_LENGTH - 1), (1, 0));
    assert_eq!(number_and_spare(&[0, 1, 1], TABLE_LENGTH), (2, 0));
    // The sheet before the step that is refused has spare 5.
    assert_eq!(number_and_spare(&[0, 2, 1, 103, 4, 2, 1, 2, 3], TABLE_LENGTH), (9, 0));
    assert_eq!(number_and_spare(&[0, 2, 1, 103, 4, 2, 2, 3, 4], TABLE_LENGTH), (10, 0));
}

#[test]
fn a_column_named_twice() {
    let refusal = plan(&[0, 2, 1, 101, 4, 2, 1, 1, 2]).expect_err("the order is refused");
    assert_eq!(refusal, Refusal::PartsDoNotFit { step: 2 });
    assert_eq!(refusal.to_string(), "refused 9 2 0 0 0 0 0");
}

#[test]
fn a_table_on_the_other_side() {
    // The levels 0 and 1, crossed with themselves by a matrix of the column 0, 1: i + y, y and i.
    let list = [2, 1, 2, 1, 2, 0, 1, 2, 2, 1, 2, 0, 1, 2, 1, 1, 6, 1, 2, 1, 1];
    let table = plan(&list).expect("the order is filled");
    assert_eq!(table.levels(), [2, 2, 2]);
    assert_eq!(runs(&table), [[0, 0, 0], [1, 1, 0], [1, 0, 1], [0, 1, 1]]);
    assert_eq!(table.spare(), 0);
    // With a column of zeros before it the matrix serves a SUM, but no CROSS.
    let mut list = [2, 1, 2, 1, 2, 0, 1, 2, 2, 2, 2, 0, 0, 0, 1, 2, 1, 1, 6, 1, 2, 1, 1];
    let refusal = Refusal::UnevenValue { step: 2, ingredient: 2, column: 1, value: 0 };
    assert_eq!(plan(&list), Err(refusal));
    assert_eq!(refusal.to_string(), "refused 14 2 2 1 0 0 0");
    let last = list.len() - 1;
    list[last - 4] = 3;
    assert_eq!(plan(&list[..last]).expect("the order is filled").levels(), [2, 2, 2]);
}

#[test]
fn an_uneven_table() {
    let list = [1, 1, 4, 2, 2, 2, 0, 0, 0, 1, 1, 0, 1, 0, 1, 1, 1];
    assert_eq!(plan(&list), Err(Refusal::UnevenLevel { ingredient: 1, column: 2, level: 0, times: 3 }));
    let list = [1, 1, 4, 2, 2, 2, 0, 0, 0, 0, 1, 1, 1, 1, 1, 1, 1];
    let pair = Refusal::UnevenPair { ingredient: 1, first: 1, second: 2, first_level: 0, second_level: 0, times: 2 };
    assert_eq!(plan(&list), Err(pair));
    assert_eq!(pair.numbers(), [5, 1, 1, 2, 0, 0, 2]);
}

#[test]
fn dependent_factors() {
    let list = [1, 3, 2, 2, 2, 1, 1, 1, 1, 0, 0, 1, 2, 1];
    assert_eq!(plan(&list), Err(Refusal::Dependent { ingredient: 1, first: 1, second: 2, coefficients: 3 }));
}

#[test]
fn lists_that_do_not_read() {
    assert_eq!(plan(&[]), Err(Refusal::Unreadable { place: 0 }));
    assert_eq!(plan(&vec![0; 32769]), Err(Refusal::Unreadable { place: 32768 }));
}

#[test]
fn every_byte_is_settled_whatever_the_buffers_held() {
    let (mut table, mut levels, mut scratch) = (vec![7; TABLE_LENGTH + 3], vec![7; LEVELS_LENGTH + 3], vec![7; SCRATCH_LENGTH + 3]);
    let size = plan_into(&NINE_RUNS, &mut table, &mut levels, &mut scratch);
    assert_eq!(size, Ok(Size { runs: 9, columns: 4, spare: 0 }));
    assert_eq!(table[..8], [0, 0, 0, 0, 0, 1, 2, 1]);
    assert!(table[36..].iter().all(|byte| *byte == 0));
    assert_eq!(levels[..4], [3, 3, 3, 3]);
    assert!(levels[4..].iter().all(|byte| *byte == 0));
    assert!(scratch.iter().all(|byte| *byte == 0));
}

#[test]
fn short_buffers() {
    let lengths = [
        (TABLE_LENGTH - 1, LEVELS_LENGTH, SCRATCH_LENGTH),
        (TABLE_LENGTH, LEVELS_LENGTH - 1, SCRATCH_LENGTH),
        (TABLE_LENGTH, LEVELS_LENGTH, SCRATCH_LENGTH - 1),
        (0, 0, 0),
    ];
    for (n, m, k) in lengths {
        let (mut table, mut levels, mut scratch) = (vec![7; n], vec![7; m], vec![7; k]);
        assert_eq!(plan_into(&NINE_RUNS, &mut table, &mut levels, &mut scratch), Err(Refusal::ShortBuffers));
        assert!(table.iter().chain(&levels).chain(&scratch).all(|byte| *byte == 0));
    }
}
