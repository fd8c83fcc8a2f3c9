//! Every refusal, what its details count, and which of two faults is named.

mod common;
use common::*;
use second::{plan, Answer};

fn place(text: &str) -> u32 {
    match answer(text) {
        Answer::Refused {
            number: 2,
            details: [place, 0, 0, 0, 0, 0],
        } => place,
        other => panic!("{text}: {other:?}"),
    }
}

#[test]
fn question_1_comes_first_and_looks_at_lengths_alone() {
    let right = numbers("0 1 1 101");
    for list in [vec![], right.clone()] {
        assert_eq!(plan(&list, 65_535, 128, 65_536), refusal(1, &[]));
        assert_eq!(plan(&list, 65_536, 127, 65_536), refusal(1, &[]));
        assert_eq!(plan(&list, 65_536, 128, 65_535), refusal(1, &[]));
        assert_eq!(plan(&list, 0, 0, 0), refusal(1, &[]));
    }
    assert_eq!(
        plan(&right, 65_536, 128, 65_536),
        plan(&right, 99_999, 500, 70_000)
    );
    assert_eq!(plan(&[9; 40_000], 65_536, 0, 65_536), refusal(1, &[]));
}

#[test]
fn question_2_places() {
    // The list runs out: its length.
    let whole = "2 1 2 1 2 0 1 2 2 1 2 0 1 2 1 1 3 1 2 0";
    let words: Vec<&str> = whole.split(' ').collect();
    for length in 0..words.len() {
        assert_eq!(place(&words[..length].join(" ")), length as u32);
    }
    assert_eq!(shape(&answer(whole)), (4, vec![2]));
    // A number left over.
    assert_eq!(place(&format!("{whole} 0")), 20);
    assert_eq!(place(&format!("{whole} 7 7 7")), 20);

    assert_eq!(place("33 1 2"), 0); // q
    assert_eq!(place("1 0 2 1"), 1); // ingredient kind
    assert_eq!(place("1 4 2 1"), 1);
    assert_eq!(place("1 1 0 1"), 2); // rows
    assert_eq!(place("1 2 513 1"), 2);
    assert_eq!(place("1 3 10 1"), 2);
    assert_eq!(place("1 3 0 1"), 2);
    assert_eq!(place("1 1 2 0"), 3); // columns
    assert_eq!(place("1 2 2 129"), 3);
    assert_eq!(place("1 3 2 129"), 3);
    assert_eq!(place("1 3 2 0"), 3);
    assert_eq!(place("1 1 2 3 2 1 2"), 5); // level counts
    assert_eq!(place("1 1 2 3 2 64 65"), 6);
    assert_eq!(place("1 2 2 3 1"), 4); // p
    assert_eq!(place("1 2 2 3 65"), 4);
    assert_eq!(place("1 3 1 1 6"), 4); // s
    assert_eq!(place("1 3 1 1 11"), 4);
    assert_eq!(place("1 3 4 1 5"), 4); // s^t = 625
    assert_eq!(place("1 3 2 3 2 1 0 1"), 6); // u
    assert_eq!(place("1 3 2 3 2 1 6 7"), 7);
    assert_eq!(place("0 0"), 1); // z
    assert_eq!(place("0 17"), 1);
    assert_eq!(place("0 1 0 101"), 2); // step kind
    assert_eq!(place("0 1 7 101"), 2);
    assert_eq!(place("0 1 1 0"), 3); // ingredient numbers
    assert_eq!(place("0 1 2 33"), 3);
    assert_eq!(place("0 2 1 101 3 0"), 5); // r
    assert_eq!(place("0 2 1 101 3 17"), 5);
    assert_eq!(place("0 2 1 101 3 2 1 0 0"), 7); // d
    assert_eq!(place("0 2 1 101 3 2 1 2 100"), 8); // k
    assert_eq!(place("0 2 1 101 4 4 1 2 3"), 5); // p of MERGE
    assert_eq!(place("0 2 1 101 4 2 1 2 0"), 8); // members
    assert_eq!(place("0 2 1 101 4 2 129 2 3"), 6);
    assert_eq!(place("0 2 1 101 5 0 101"), 5); // column of SPLIT
    assert_eq!(place("0 2 1 101 5 129 101"), 5);
    assert_eq!(place("0 2 1 101 5 1 105"), 6); // its table

    // The first of two faults, and question 2 before question 3.
    assert_eq!(place("1 1 2 1 2 9 9 1 1 0"), 9);
    // An entry may be any number here.
    assert_eq!(answer("1 1 2 1 2 0 65535 1 1 1"), refusal(3, &[6]));
}

#[test]
fn question_3_names_the_first_entry_not_below_its_limit() {
    assert_eq!(answer("1 1 2 2 3 2 2 1 2 2 1 1 101"), refusal(3, &[9]));
    assert_eq!(answer("1 1 2 2 3 2 3 1 2 2 1 1 101"), refusal(3, &[6]));
    assert_eq!(answer("1 2 2 1 7 6 7 1 1 101"), refusal(3, &[6]));
    assert_eq!(answer("1 3 1 1 4 1 4 1 1 101"), refusal(3, &[6]));
    // Of the second ingredient, though the first does not pass.
    assert_eq!(
        answer("2 1 2 1 2 0 0 1 2 1 2 0 2 1 1 101"),
        refusal(3, &[12])
    );
}

#[test]
fn question_4_tables() {
    // The lowest level that fails, which is not the first run's.
    assert_eq!(
        answer("1 1 6 1 3 2 2 1 1 1 0 1 1 1"),
        refusal(4, &[1, 1, 0, 1])
    );
    assert_eq!(
        answer("1 1 6 1 3 0 0 2 2 2 1 1 1 1"),
        refusal(4, &[1, 1, 1, 1])
    );
    assert_eq!(
        answer("1 1 6 1 3 2 1 2 0 2 2 1 1 1"),
        refusal(4, &[1, 1, 0, 1])
    );
    // Runs that the level count does not divide: level 0, however often.
    assert_eq!(answer("1 1 3 1 2 1 0 1 1 1 1"), refusal(4, &[1, 1, 0, 1]));
    assert_eq!(answer("1 1 1 1 2 1 1 1 1"), refusal(4, &[1, 1, 0, 0]));
    // All columns before any pair: columns 1 and 2 are equal, column 3 is uneven.
    assert_eq!(
        answer("1 1 4 3 2 2 2 0 0 1 0 0 1 1 1 0 1 1 1 1 1 1"),
        refusal(4, &[1, 3, 0, 1])
    );
    // Pairs 1-2 and 1-3 are even, 2-3 is not: column 3 is the opposite of column 2.
    assert_eq!(
        answer("1 1 4 3 2 2 2 0 0 1 0 1 0 1 0 1 1 1 0 1 1 1"),
        refusal(5, &[1, 2, 3, 0, 0, 0])
    );
    // Four pairs are as far off: 1-0 is the lowest, and the first column's level leads.
    assert_eq!(
        answer("1 1 6 2 3 2 0 0 0 1 1 1 1 1 2 0 2 0 1 1 1"),
        refusal(5, &[1, 1, 2, 1, 0, 0])
    );
    // Both columns even, but six level pairs into three runs do not go.
    assert_eq!(
        answer("1 1 6 2 2 6 0 0 0 1 0 2 1 3 1 4 1 5 1 1 1"),
        refusal(5, &[1, 1, 2, 0, 0, 1])
    );
    // 0-0 is the first that fails, and 1-2 is farther off (02, K5): 2, 1, 0, then 0, 0, 3, then 1, 2, 0.
    assert_eq!(
        answer("1 1 9 2 3 3 0 0 0 0 0 1 1 2 1 2 1 2 2 0 2 1 2 1 1 1 1"),
        refusal(5, &[1, 1, 2, 1, 2, 3])
    );
    // Ingredients in turn, used or not.
    assert_eq!(
        answer("3 1 2 1 2 0 1 1 2 1 2 1 1 1 2 1 2 0 0 1 1 1"),
        refusal(4, &[2, 1, 0, 0])
    );
}

#[test]
fn question_4_matrices() {
    // One column passes, whatever it holds and whatever p is.
    assert_eq!(
        shape(&answer("1 2 3 1 2 1 1 1 2 1 101 3 1 1 0")),
        (12, vec![2; 3])
    );
    // Columns 1-2 and 1-3 pass, 2-3 does not.
    assert_eq!(
        answer("1 2 3 3 3 0 0 0 0 1 1 0 2 2 1 1 101"),
        refusal(6, &[1, 2, 3, 0, 3])
    );
    // First minus second: 0 - 1 is 2 modulo 3, 0 - 2 is 1.
    assert_eq!(
        answer("1 2 3 2 3 0 0 0 1 0 1 1 1 101"),
        refusal(6, &[1, 1, 2, 1, 0])
    );
    assert_eq!(
        answer("1 2 6 2 3 0 0 0 0 0 2 0 2 0 2 0 1 1 1 101"),
        refusal(6, &[1, 1, 2, 1, 3])
    );
    // Rows that p does not divide.
    assert_eq!(
        answer("1 2 3 2 2 0 1 0 1 0 0 1 1 101"),
        refusal(6, &[1, 1, 2, 0, 1])
    );
}

#[test]
fn question_4_generators() {
    // An only factor: zero, and one with dependent columns.
    assert_eq!(answer("1 3 2 1 3 1 0 0 1 2 1"), refusal(7, &[1, 1, 0, 1]));
    // Over three elements, columns (1,2) and (2,1): (1,1) is the least list.
    assert_eq!(
        answer("1 3 2 1 3 2 1 2 2 1 1 2 1"),
        refusal(7, &[1, 1, 0, 4])
    );
    // The same with (1,2) twice: 1 and 2 make zero, 1 × 3 + 2 = 5.
    assert_eq!(
        answer("1 3 2 1 3 2 1 1 2 2 1 2 1"),
        refusal(7, &[1, 1, 0, 5])
    );
    // Factors 1-2 and 1-3 are independent, 2-3 are not: over four elements, (2,1) is 2 × (1,3), so
    // 1 and 3 make zero, as 3 × 2 = 1; 1 × 4 + 3 = 7.
    assert_eq!(
        answer("1 3 2 3 4 1 1 1 0 1 2 1 3 1 1 2 1"),
        refusal(7, &[1, 2, 3, 7])
    );
    // A zero factor shows in the first pair it is in.
    assert_eq!(
        answer("1 3 2 2 2 1 1 1 0 0 0 1 2 1"),
        refusal(7, &[1, 1, 2, 1])
    );
    assert_eq!(
        answer("1 3 2 2 2 1 1 0 1 0 0 1 2 1"),
        refusal(7, &[1, 1, 2, 2])
    );
    // More columns than coordinates.
    assert_eq!(answer("1 3 1 1 2 2 1 1 1 2 1"), refusal(7, &[1, 1, 0, 3]));
    // The second ingredient.
    assert_eq!(
        answer("2 3 1 1 5 1 2 3 1 1 5 1 0 1 2 1"),
        refusal(7, &[2, 1, 0, 1])
    );
}

#[test]
fn question_5() {
    // Steps out of turn.
    assert_eq!(answer("0 1 4 2 1 2 3"), refusal(8, &[1]));
    assert_eq!(answer("0 1 5 1 101"), refusal(8, &[1]));
    assert_eq!(answer("1 2 1 1 2 0 1 3 1 1 0"), refusal(8, &[1]));
    assert_eq!(answer("0 2 1 101 1 101"), refusal(8, &[2]));
    assert_eq!(answer("1 3 1 1 2 1 1 2 2 1 2 1"), refusal(8, &[2]));
    // Ingredients that are not there.
    assert_eq!(answer("0 1 1 1"), refusal(8, &[1]));
    assert_eq!(answer("0 1 1 32"), refusal(8, &[1]));
    assert_eq!(answer("0 1 2 1"), refusal(8, &[1]));
    assert_eq!(answer("0 2 1 101 3 1 1 0"), refusal(8, &[2]));
    assert_eq!(answer("1 2 1 1 2 0 2 1 101 3 1 1 2"), refusal(8, &[2]));
    assert_eq!(answer("0 2 1 101 5 1 1"), refusal(8, &[2]));
    // Ingredients of another kind; house tables are tables.
    let three = "3 1 2 1 2 0 1 2 2 1 2 0 1 3 1 1 2 1 1";
    assert_eq!(answer(&format!("{three} 1 1 2")), refusal(8, &[1]));
    assert_eq!(answer(&format!("{three} 1 1 3")), refusal(8, &[1]));
    assert_eq!(answer(&format!("{three} 1 2 1")), refusal(8, &[1]));
    assert_eq!(answer(&format!("{three} 1 2 2")), refusal(8, &[1]));
    assert_eq!(answer(&format!("{three} 1 2 101")), refusal(8, &[1]));
    assert_eq!(answer(&format!("{three} 2 1 1 3 1 1 0")), refusal(8, &[2]));
    assert_eq!(answer(&format!("{three} 2 1 1 3 1 3 0")), refusal(8, &[2]));
    assert_eq!(
        answer(&format!("{three} 2 1 1 3 1 101 0")),
        refusal(8, &[2])
    );
    assert_eq!(answer(&format!("{three} 2 1 1 3 1 2 2")), refusal(8, &[2]));
    assert_eq!(answer(&format!("{three} 2 1 1 3 1 2 3")), refusal(8, &[2]));
    assert_eq!(answer(&format!("{three} 2 1 1 5 1 2")), refusal(8, &[2]));
    assert_eq!(answer(&format!("{three} 2 1 1 5 1 3")), refusal(8, &[2]));
    assert_eq!(
        shape(&answer(&format!("{three} 2 1 1 3 1 2 1"))),
        (4, vec![2, 2])
    );
    // Question 5 of a step before its question 6: two matrices of one p, and no such k.
    assert_eq!(
        answer(&format!("{three} 2 1 1 3 2 2 2 7")),
        refusal(8, &[2])
    );
    // A step's questions 6 to 8 before the next step's question 5.
    assert_eq!(answer("0 3 1 101 4 2 1 1 2 1 101"), refusal(9, &[2]));
}

#[test]
fn question_6_sum() {
    // 1: p 2, two rows. 2: p 3, two rows. 3: p 2, three rows. 4: p 3, three rows. 5: two runs.
    let all = "5 2 2 1 2 0 1 2 2 1 3 0 1 2 3 1 2 0 1 1 2 3 1 3 0 1 1 1 2 1 2 0 1";
    let sum = |sheet: u16, step: &str| answer(&format!("{all} 2 1 {sheet} {step}"));
    assert_eq!(shape(&sum(101, "3 1 1 0")), (8, vec![2; 3]));
    assert_eq!(shape(&sum(101, "3 2 1 2 5")), (8, vec![2; 4])); // 2 serves no column
    assert_eq!(shape(&sum(103, "3 2 2 1 0")), (24, vec![3, 2, 2, 2, 2]));
    assert_eq!(sum(103, "3 1 1 0"), refusal(9, &[2])); // the column of 3 levels not served
    assert_eq!(sum(103, "3 1 2 0"), refusal(9, &[2])); // those of 2 not
    assert_eq!(sum(104, "3 2 1 2 0"), refusal(9, &[2])); // that of 6 not
    assert_eq!(sum(101, "3 2 1 1 0"), refusal(9, &[2])); // one p twice
    assert_eq!(sum(101, "3 3 1 2 2 0"), refusal(9, &[2])); // even of one that serves nothing
    assert_eq!(sum(101, "3 2 1 4 0"), refusal(9, &[2])); // rows not equal
    assert_eq!(sum(101, "3 2 1 3 0"), refusal(9, &[2]));
    assert_eq!(sum(101, "3 1 3 5"), refusal(9, &[2])); // k of two runs, M is three
    assert_eq!(sum(101, "3 1 1 101"), refusal(9, &[2])); // k of four runs, M is two
}

#[test]
fn question_6_merge_and_split() {
    assert_eq!(answer("0 2 1 101 4 2 1 2 4"), refusal(9, &[2])); // no column 4
    assert_eq!(answer("0 2 1 101 4 2 1 2 128"), refusal(9, &[2]));
    assert_eq!(answer("0 2 1 101 4 2 3 2 3"), refusal(9, &[2])); // column 3 twice
    assert_eq!(answer("0 2 1 103 4 2 1 2 3"), refusal(9, &[2])); // column 1 has 3 levels
    assert_eq!(answer("0 2 1 103 4 3 1 2 3 4"), refusal(9, &[2])); // the others 2
    assert_eq!(answer("0 3 1 101 4 2 1 2 3 4 2 1 2 3"), refusal(9, &[3])); // one column is left
    assert_eq!(answer("0 2 1 101 5 4 101"), refusal(9, &[2])); // no column 4
    assert_eq!(answer("0 2 1 101 5 1 101"), refusal(9, &[2])); // 2 levels, 4 runs
    assert_eq!(answer("0 2 1 104 5 1 103"), refusal(9, &[2])); // 6 levels, 12 runs
}

#[test]
fn question_7() {
    // Columns 2, 3, 4 of table 103: 1 1 1 in run 1, where 1 + 1 is 0.
    assert_eq!(answer("0 2 1 103 4 2 2 3 4"), refusal(10, &[2, 1, 3]));
    // Table 102 in order: run 1 is 0 1 1 1, member 3 is 0 + 1, but member 4 should be 0 + 2.
    assert_eq!(answer("0 2 1 102 4 3 1 2 3 4"), refusal(10, &[2, 1, 4]));
    // Column 2 first: the columns are b, a, b + a, b + 2a.
    assert_eq!(shape(&answer("0 2 1 102 4 3 2 1 3 4")), (9, vec![9]));
    // The last two the other way about: run 3 is 1 0 1 2, with both members wrong.
    assert_eq!(
        answer("0 3 1 102 4 3 2 1 4 3 5 1 102"),
        refusal(10, &[2, 3, 3])
    );
}

#[test]
fn question_8() {
    // 4 × 128 runs fit, 4 × 129 do not; 9 × 57 are 513.
    let column = |p: u16, rows: usize| matrix(p, &vec![vec![1]; rows]);
    let steps: &[&[u16]] = &[&[1, 101], &[3, 1, 1, 0]];
    assert_eq!(
        shape(&planned(&order(&[column(2, 128)], steps))),
        (512, vec![2; 3])
    );
    assert_eq!(
        planned(&order(&[column(2, 129)], steps)),
        refusal(11, &[2, 516, 3])
    );
    let steps: &[&[u16]] = &[&[1, 102], &[3, 1, 1, 0]];
    assert_eq!(
        planned(&order(&[column(3, 57)], steps)),
        refusal(11, &[2, 513, 4])
    );
    // Question 6 before question 8: table 101 does not have 129 runs.
    let steps: &[&[u16]] = &[&[1, 101], &[3, 1, 1, 101]];
    assert_eq!(planned(&order(&[column(2, 129)], steps)), refusal(9, &[2]));
    // More than sixteen bits tell: 512 × 512 runs; and 128 × 128 columns, with a k of one more.
    let steps: &[&[u16]] = &[&[2, 1], &[3, 1, 2, 0]];
    assert_eq!(
        planned(&order(&[points(9, 128), column(2, 512)], steps)),
        refusal(11, &[2, 262_144, 128])
    );
    let square = matrix(2, &sylvester(128));
    let k = table(&[2], &(0..128).map(|y| vec![y % 2]).collect::<Vec<_>>());
    let steps: &[&[u16]] = &[&[2, 1], &[3, 1, 2, 3]];
    assert_eq!(
        planned(&order(&[points(9, 128), square, k], steps)),
        refusal(11, &[2, 65_536, 16_385])
    );
}
