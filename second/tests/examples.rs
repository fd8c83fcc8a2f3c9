//! Every example of 01, and that of 02's request K1.

mod common;
use common::*;
use second::{field, plan, print, scan};

#[test]
fn printed_runs() {
    let list = scan(b"0 2 1 101 4 2 1 2 3").unwrap();
    assert_eq!(print(&planned(&list)), "4 1 0\n4\n0\n1\n2\n3\n");
}

#[test]
fn nine_runs() {
    assert_eq!(
        answer("2 1 3 1 3 0 1 2 2 3 3 3 0 0 0 0 1 2 0 2 1 2 1 1 3 1 2 1"),
        filled(
            &[3, 3, 3, 3],
            "0000 0121 0212 1110 1201 1022 2220 2011 2102"
        )
    );
}

#[test]
fn uneven_column() {
    assert_eq!(
        answer("1 1 4 2 2 2 0 0 0 1 1 0 1 0 1 1 1"),
        refusal(4, &[1, 2, 0, 3, 0, 0])
    );
}

#[test]
fn uneven_pair() {
    assert_eq!(
        answer("1 1 4 2 2 2 0 0 0 0 1 1 1 1 1 1 1"),
        refusal(5, &[1, 1, 2, 0, 0, 2])
    );
}

#[test]
fn field_of_two() {
    let runs = "000 011 101 110";
    assert_eq!(
        answer("1 3 2 3 2 1 1 1 1 0 1 0 1 1 1 2 1"),
        filled(&[2, 2, 2], runs)
    );
    assert_eq!(answer("0 1 1 101"), filled(&[2, 2, 2], runs));
}

#[test]
fn dependent_factors() {
    assert_eq!(
        answer("1 3 2 2 2 1 1 1 1 0 0 1 2 1"),
        refusal(7, &[1, 1, 2, 3, 0, 0])
    );
}

#[test]
fn field_of_four() {
    let answer = answer("1 3 2 5 4 1 1 1 1 1 1 0 1 1 1 0 1 1 2 3 1 2 1");
    assert_eq!(shape(&answer), (16, vec![4; 5]));
    assert!(print(&answer).ends_with("\n3 3 0 2 1\n"));
}

#[test]
fn products() {
    assert_eq!(field::product(4, 2, 3), 1);
    assert_eq!(field::product(8, 4, 4), 6);
    assert_eq!(field::product(9, 4, 4), 6);
}

#[test]
fn member_twice() {
    assert_eq!(answer("0 2 1 101 4 2 1 1 2"), refusal(9, &[2]));
}

#[test]
fn empty_list() {
    assert_eq!(planned(&[]), refusal(2, &[0]));
    assert_eq!(
        print(&plan(&[], 65_536, 128, 65_536)),
        "refused 2 0 0 0 0 0 0\n"
    );
}

#[test]
fn rows_512_read_and_513_not() {
    let column = |rows: u16| table(&[2], &(0..rows).map(|y| vec![y % 2]).collect::<Vec<_>>());
    assert_eq!(
        shape(&planned(&order(&[column(512)], &[&[1, 1]]))),
        (512, vec![2])
    );
    assert_eq!(
        planned(&order(&[column(513)], &[&[1, 1]])),
        refusal(2, &[2])
    );
    // 511 rows read too, but cannot be even.
    assert_eq!(
        planned(&order(&[column(511)], &[&[1, 1]])),
        refusal(4, &[1, 1, 0, 256])
    );
}

#[test]
fn columns_128_fill_and_129_on_a_sheet_not() {
    // 64 runs of 32 columns and of 43, summed with 4 and with 3 columns.
    let four = matrix(2, &sylvester(4));
    let three: Vec<Vec<u16>> = sylvester(4).iter().map(|row| row[1..].to_vec()).collect();
    let steps: &[&[u16]] = &[&[2, 1], &[3, 1, 2, 0]];
    assert_eq!(
        shape(&planned(&order(&[points(6, 32), four], steps))),
        (256, vec![2; 128])
    );
    let three = matrix(2, &three);
    assert_eq!(
        planned(&order(&[points(6, 43), three], steps)),
        refusal(11, &[2, 256, 129])
    );
}
