//! The spare of 02's request K1, on orders worked out by hand. Random orders are in properties.rs.

mod common;
use common::*;
use second::{print, records, Answer};

/// The spare after each step of an order.
fn spares(list: &[u16]) -> Vec<i64> {
    answers_by_step(list).iter().map(spare).collect()
}

/// The spare after each step of the examples of that name.
const EXAMPLES: &[(&str, &[i64])] = &[
    ("TAKE of 102, which is saturated", &[0]),
    ("TAKE of 103, spare 5", &[5]),
    ("FIELD of one factor, spare 2", &[2]),
    ("SUM without k, spare 2 to 5", &[2, 5]),
    ("SUM with a k of one column, spare 2 to 4", &[2, 4]),
    ("SUM on two level counts, spare 2 to 8", &[2, 8]),
    ("MERGE with p = 2, spare 4 as before", &[4, 4]),
    ("MERGE with p = 3, spare 18 as before", &[18, 18]),
    ("SPLIT by a table of one column, spare 0 to 2", &[0, 2]),
    ("SPLIT by 101, spare 4 as before", &[4, 4]),
    ("SPLIT by 103, spare 0 to 5", &[0, 5]),
    ("SPLIT by 104, spare 0 to 4", &[0, 4]),
    (
        "FIELD, SUM, MERGE, SPLIT, spare 4, 9, 9, 11",
        &[4, 9, 9, 11],
    ),
    ("CROSS without k, spare 0 to 1", &[0, 1]),
    ("CROSS with a k of one column, spare 0 as before", &[0, 0]),
    ("CROSS with an h of one column, spare 2 to 5", &[2, 5]),
    ("16 steps, spare 4 after each", &[4; 16]),
    (
        "16 steps, spare 0 to 8 by five of them",
        &[0, 0, 0, 2, 2, 2, 3, 3, 3, 5, 5, 5, 6, 6, 6, 8],
    ),
];

#[test]
fn examples() {
    let text = records::examples();
    let lines: Vec<&str> = text.lines().collect();
    let mut found = Vec::new();
    for two in lines.windows(2) {
        if let Some(name) = two[0].strip_prefix("# spare: ") {
            let order = two[1].strip_suffix(" =").unwrap();
            found.push((name, spares(&numbers(order))));
        }
    }
    let wanted = EXAMPLES.iter().map(|&(name, all)| (name, all.to_vec()));
    assert_eq!(found, wanted.collect::<Vec<_>>());
}

#[test]
fn house_tables() {
    for (number, wanted) in [(101, 0), (102, 0), (103, 5), (104, 4)] {
        assert_eq!(spares(&[0, 1, 1, number]), [wanted]);
    }
}

#[test]
fn the_header_has_it_third() {
    let header = |text: &str| print(&answer(text)).lines().next().unwrap().to_string();
    assert_eq!(header("0 2 1 101 4 2 1 2 3"), "4 1 0");
    assert_eq!(header("0 1 1 103"), "12 5 5");
    assert_eq!(header("0 2 1 101 4 2 1 1 2"), "refused 9 2 0 0 0 0 0");
    // It is a signed number, though no order comes to such a table.
    let no_order = Answer::Filled {
        runs: 2,
        levels: vec![2, 3],
        spare: -2,
        table: vec![0, 0, 1, 2],
    };
    assert_eq!(print(&no_order), "2 2 -2\n2 3\n0 0\n1 2\n");
}

#[test]
fn merge_leaves_it_as_it_is_for_every_p() {
    for p in [2u16, 3, 5, 7] {
        // FIELD to p^3 runs of (1,0,0), (0,1,0), and (1,h,0) for each h but 0.
        let mut generator = vec![3, 3, p + 1, p];
        generator.extend(vec![1; p as usize + 1]);
        generator.extend([1, 0]);
        generator.extend(vec![1; p as usize - 1]);
        generator.extend([0, 1]);
        generator.extend(1..p);
        generator.extend(vec![0; p as usize + 1]);
        let merge: Vec<u16> = [4, p].into_iter().chain(1..=p + 1).collect();
        let p = i64::from(p);
        assert_eq!(
            spares(&order(&[generator], &[&[2, 1], &merge])),
            [p * p * p - p * p; 2]
        );
    }
}

#[test]
fn split_adds_that_of_the_table_put_in() {
    // 24 runs of 12 and 2 levels.
    let sheet = table(
        &[12, 2],
        &(0..24).map(|i| vec![i / 2, i % 2]).collect::<Vec<_>>(),
    );
    let one_column = |levels: u16| {
        let runs: Vec<Vec<u16>> = (0..12).map(|i| vec![i % levels]).collect();
        table(&[levels], &runs)
    };
    let two_columns: Vec<Vec<u16>> = (0..12).map(|i| vec![i / 3, i % 3]).collect();
    for (put_in, more) in [
        (one_column(12), 0),
        (one_column(6), 6),
        (one_column(4), 8),
        (one_column(3), 9),
        (one_column(2), 10),
        (table(&[4, 3], &two_columns), 6),
    ] {
        let list = order(&[sheet.clone(), put_in], &[&[1, 1], &[5, 1, 2]]);
        assert_eq!(spares(&list), [11, 11 + more]);
    }
    for (house_table, more) in [(103, 5), (104, 4)] {
        let steps: &[&[u16]] = &[&[1, 1], &[5, 1, house_table]];
        let list = order(std::slice::from_ref(&sheet), steps);
        assert_eq!(spares(&list), [11, 11 + more]);
    }
}

#[test]
fn sum_counts_the_new_columns() {
    // 101 with a matrix of 4 rows: 16 runs. Of k, 2 is a column of 2 levels and 3 one of 4.
    let two = table(&[2], &(0..4).map(|y| vec![y % 2]).collect::<Vec<_>>());
    let four = table(&[4], &(0..4).map(|y| vec![y]).collect::<Vec<_>>());
    for columns in 1..=4 {
        let rows: Vec<Vec<u16>> = sylvester(4)
            .iter()
            .map(|row| row[..columns].to_vec())
            .collect();
        for (k, held_by_k) in [(0, 0), (2, 1), (3, 3), (101, 3)] {
            let list = order(
                &[matrix(2, &rows), two.clone(), four.clone()],
                &[&[1, 101], &[3, 1, 1, k]],
            );
            let wanted = 16 - 1 - 3 * columns as i64 - held_by_k;
            assert_eq!(spares(&list), [0, wanted], "{columns} {k}");
        }
    }
}

#[test]
fn largest_sheets() {
    let column = table(&[2], &(0..512).map(|y| vec![y % 2]).collect::<Vec<_>>());
    assert_eq!(spares(&order(&[column], &[&[1, 1]])), [510]);
    assert_eq!(spares(&order(&[points(9, 128)], &[&[2, 1]])), [383]);
    assert_eq!(spares(&order(&[points(7, 127)], &[&[2, 1]])), [0]);
}
