//! What the steps leave, on small sheets worked out by hand.

mod common;
use common::*;

#[test]
fn house_tables() {
    assert_eq!(answer("0 1 1 101"), filled(&[2; 3], "000 011 101 110"));
    assert_eq!(
        answer("0 1 1 102"),
        filled(&[3; 4], "0000 0111 0222 1012 1120 1201 2021 2102 2210")
    );
    assert_eq!(
        answer("0 1 1 103"),
        filled(
            &[3, 2, 2, 2, 2],
            "00000 01110 00101 01011 10001 11100 10110 11011 20010 21101 20111 21000"
        )
    );
    assert_eq!(
        answer("0 1 1 104"),
        filled(
            &[6, 2, 2],
            "000 011 101 110 200 211 301 310 400 411 501 510"
        )
    );
    for number in 101..=104 {
        assert_even(&answer(&format!("0 1 1 {number}")));
    }
}

#[test]
fn sum_puts_the_matrix_row_inside_the_sheet_run() {
    // Sheet 0, 1; matrix rows 00, 01; k 0, 1.
    assert_eq!(
        answer("2 1 2 1 2 0 1 2 2 2 2 0 0 0 1 2 1 1 3 1 2 1"),
        filled(&[2, 2, 2], "000 011 110 101")
    );
    assert_eq!(
        answer("2 1 2 1 2 0 1 2 2 2 2 0 0 0 1 2 1 1 3 1 2 0"),
        filled(&[2, 2], "00 01 11 10")
    );
}

#[test]
fn sum_on_a_mixed_sheet() {
    // Sheet of six runs, 2 and 3 levels. Matrices of 6 rows: p = 3 of two columns, p = 2 of two.
    let sheet = table(
        &[2, 3],
        &(0..6).map(|i| vec![i / 3, i % 3]).collect::<Vec<_>>(),
    );
    let three = matrix(3, &(0..6).map(|y| vec![0, y % 3]).collect::<Vec<_>>());
    let two = matrix(2, &(0..6).map(|y| vec![y % 2, 0]).collect::<Vec<_>>());
    let k = table(&[6], &(0..6).map(|y| vec![5 - y]).collect::<Vec<_>>());
    let ingredients = [sheet, three, two, k];
    let answer = planned(&order(&ingredients, &[&[1, 1], &[3, 2, 2, 3, 4]]));
    assert_eq!(shape(&answer), (36, vec![2, 2, 3, 3, 6]));
    let text = second::print(&answer);
    let lines: Vec<&str> = text.lines().collect();
    // Sheet run 4 is 1 1, matrix rows 5 are 0 2 and 1 0: run 29 is 1+1 1+0, 1+0 1+2, 0.
    assert_eq!(lines[2 + 29], "0 1 1 0 0");
    // Sheet run 2 is 0 2, matrix rows 1 are 0 1 and 1 0: run 13 is 0+1 0+0, 2+0 2+1, 4.
    assert_eq!(lines[2 + 13], "1 0 2 0 4");
    // The order in which the matrices are named makes no difference.
    assert_eq!(
        planned(&order(&ingredients, &[&[1, 1], &[3, 2, 3, 2, 4]])),
        answer
    );
}

#[test]
fn merge_takes_the_place_of_its_first_member() {
    // Eight runs, columns a, c, b, a + b of a, b, c in counting order.
    let runs: Vec<Vec<u16>> = (0..8u16)
        .map(|i| {
            let (a, b, c) = (i >> 2, i >> 1 & 1, i & 1);
            vec![a, c, b, a ^ b]
        })
        .collect();
    let merged = |members: [u16; 3]| {
        let step = [vec![4, 2], members.to_vec()].concat();
        planned(&order(&[table(&[2; 4], &runs)], &[&[1, 1], &step]))
    };
    assert_eq!(
        merged([1, 3, 4]),
        filled(&[4, 2], "00 01 10 11 20 21 30 31")
    );
    assert_eq!(
        merged([3, 1, 4]),
        filled(&[2, 4], "00 10 02 12 01 11 03 13")
    );
    assert_eq!(
        merged([4, 3, 1]),
        filled(&[2, 4], "00 10 03 13 02 12 01 11")
    );
    assert_eq!(merged([1, 2, 3]), refusal(10, &[2, 1, 3]));
}

#[test]
fn merge_for_every_p() {
    for p in [2u16, 3, 5, 7] {
        let mut runs = Vec::new();
        for x in 0..p {
            for y in 0..p {
                let mut run = vec![x, y];
                run.extend((1..p).map(|h| (x + h * y) % p));
                runs.push(run);
            }
        }
        let pencil = table(&vec![p; p as usize + 1], &runs);
        let members: Vec<u16> = (1..=p + 1).collect();
        let step = [vec![4, p], members.clone()].concat();
        let answer = planned(&order(std::slice::from_ref(&pencil), &[&[1, 1], &step]));
        let size = (p * p) as usize;
        assert_eq!(shape(&answer), (size, vec![size as u8]));
        let second::Answer::Filled { table, .. } = answer else {
            unreachable!()
        };
        assert_eq!(table, (0..size as u8).collect::<Vec<_>>());
        if p > 2 {
            // The last two members changed about: run 1 is 0 1 1 2 .., and its member p is wrong.
            let mut step = step;
            step.swap(p as usize + 1, p as usize + 2);
            let answer = planned(&order(&[pencil], &[&[1, 1], &step]));
            assert_eq!(answer, refusal(10, &[2, 1, p as u32]));
        }
    }
}

#[test]
fn split_gives_way_in_its_place() {
    assert_eq!(
        answer("2 1 8 2 2 4 0 0 0 1 0 2 0 3 1 0 1 1 1 2 1 3 1 4 2 2 2 1 0 0 0 1 1 0 1 2 1 1 5 2 2"),
        filled(&[2, 2, 2], "010 000 011 001 110 100 111 101")
    );
    // First column, and another behind it.
    assert_eq!(
        answer("1 1 8 2 4 2 0 0 0 1 1 0 1 1 2 0 2 1 3 0 3 1 2 1 1 5 1 101"),
        filled(&[2; 4], "0000 0001 0110 0111 1010 1011 1100 1101")
    );
    // One column for one: levels renamed.
    assert_eq!(
        answer("2 1 3 1 3 0 1 2 1 3 1 3 2 0 1 2 1 1 5 1 2"),
        filled(&[3], "2 0 1")
    );
}
