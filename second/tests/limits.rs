//! The limits of 01, at both sides.

mod common;
use common::*;
use second::{plan, scan, Answer};

/// How question 2 takes one number: allowed, or refused at its place. Nothing may follow it.
fn allowed(before: &str, number: u16) -> bool {
    let mut list = numbers(before);
    let place = list.len() as u32;
    list.push(number);
    match planned(&list) {
        Answer::Refused { number: 2, details } => {
            assert!(details[0] == place || details[0] == place + 1);
            details[0] == place + 1
        }
        other => panic!("{other:?}"),
    }
}

fn assert_limits(before: &str, least: u16, most: u16) {
    for number in [least, least + 1, most - 1, most] {
        assert!(allowed(before, number), "{before}, then {number}");
    }
    for number in [least.wrapping_sub(1), most + 1, 32_768, 65_535] {
        assert!(!allowed(before, number), "{before}, then {number}");
    }
}

#[test]
fn numbers_in_their_limits() {
    assert!(allowed("", 0) && allowed("", 32) && !allowed("", 33) && !allowed("", 65_535)); // q
    assert_limits("1", 1, 3); // ingredient kind
    for kind in 1..=2 {
        assert_limits(&format!("1 {kind}"), 1, 512); // rows
        assert_limits(&format!("1 {kind} 1"), 1, 128); // columns
    }
    assert_limits("1 1 1 9", 2, 64); // level counts
    assert_limits("1 1 1 9 2 2 64 2", 2, 64);
    assert_limits("1 2 1 9", 2, 64); // p
    assert_limits("1 3", 1, 9); // t
    assert_limits("1 3 1", 1, 128); // n
    assert_limits("0", 1, 16); // z
    assert_limits("0 1", 1, 6); // step kind
    assert_limits("0 1 3", 1, 16); // r
    assert_limits("0 1 6", 1, 16);
    assert_limits("0 2 4 2 1 2", 1, 128); // columns of MERGE
    assert_limits("0 2 5", 1, 128); // column of SPLIT
                                    // The last two are h, which unlike k is never 0.
    for before in [
        "0 2 1",
        "0 2 2",
        "0 2 5 1",
        "0 2 3 1",
        "0 2 6 1",
        "0 2 6 1 1 0",
        "0 2 6 2 1 2 101",
    ] {
        for number in 0..=65_535 {
            let named = (1..=32).contains(&number) || (101..=104).contains(&number);
            assert_eq!(allowed(before, number), named, "{before}, then {number}");
        }
    }
    for number in 0..=65_535 {
        let named = number <= 32 || (101..=104).contains(&number);
        assert_eq!(allowed("0 2 3 1 1", number), named, "k {number}");
        assert_eq!(allowed("0 2 6 1 1", number), named, "k {number}");
        assert_eq!(
            allowed("0 2 4", number),
            [2, 3, 5, 7].contains(&number),
            "p {number}"
        );
    }
}

#[test]
fn fields_and_their_powers() {
    let largest_t = [(2, 9), (3, 5), (4, 4), (5, 3), (7, 3), (8, 3), (9, 2)];
    let largest_u = [(2, 6), (3, 3), (4, 3), (5, 2), (7, 2), (8, 2), (9, 1)];
    for t in 1..=9 {
        for s in 0..=65_535 {
            let fits = largest_t
                .iter()
                .any(|&(field, most)| field == s && t <= most);
            assert_eq!(allowed(&format!("1 3 {t} 1"), s), fits, "s {s}, t {t}");
        }
    }
    for (s, most) in largest_u {
        for u in 0..=65_535 {
            assert_eq!(
                allowed(&format!("1 3 1 1 {s}"), u),
                (1..=most).contains(&u),
                "s {s}, u {u}"
            );
        }
    }
}

#[test]
fn largest_generators_fill() {
    // An only factor of u unit columns in t coordinates.
    for (s, t, u) in [
        (2u16, 9, 6),
        (3, 5, 3),
        (4, 4, 3),
        (5, 3, 2),
        (7, 3, 2),
        (8, 3, 2),
        (9, 2, 1),
    ] {
        let mut generator = vec![3, t, 1, s, u];
        for coordinate in 0..t {
            generator.extend((0..u).map(|column| u16::from(column == coordinate)));
        }
        let answer = planned(&order(&[generator], &[&[2, 1]]));
        let power = |exponent: u16| (s as usize).pow(exponent.into());
        assert_eq!(shape(&answer), (power(t), vec![power(u) as u8]));
    }
}

#[test]
fn buffers() {
    let list = numbers("0 1 1 101");
    let right = planned(&list);
    assert_eq!(shape(&right), (4, vec![2; 3]));
    assert_eq!(plan(&list, 65_537, 129, 65_537), right);
    for (table, levels, scratch) in [
        (65_535, 128, 65_536),
        (65_536, 127, 65_536),
        (65_536, 128, 65_535),
    ] {
        assert_eq!(plan(&list, table, levels, scratch), refusal(1, &[]));
    }
}

#[test]
fn ingredients_32_and_33() {
    let column = matrix(2, &[vec![0], vec![1]]);
    let steps: &[&[u16]] = &[&[1, 101], &[3, 1, 32, 0]];
    assert_eq!(
        shape(&planned(&order(&vec![column.clone(); 32], steps))),
        (8, vec![2; 3])
    );
    assert_eq!(
        planned(&order(&vec![column.clone(); 31], steps)),
        refusal(8, &[2])
    );
    assert_eq!(planned(&order(&vec![column; 33], steps)), refusal(2, &[0]));
}

#[test]
fn steps_16_and_17() {
    let steps = |count: usize| {
        let mut steps: Vec<&[u16]> = vec![&[1, 101]];
        for index in 1..count {
            steps.push(if index % 2 == 1 {
                &[4, 2, 2, 3, 1]
            } else {
                &[5, 1, 101]
            });
        }
        steps
    };
    assert_eq!(shape(&planned(&order(&[], &steps(16)))), (4, vec![4]));
    assert_eq!(shape(&planned(&order(&[], &steps(15)))), (4, vec![2; 3]));
    assert_eq!(planned(&order(&[], &steps(17))), refusal(2, &[1]));
}

#[test]
fn matrices_16_and_17_in_one_sum() {
    let all: Vec<Vec<u16>> = (2..19).map(|p| matrix(p, &[vec![p - 1]])).collect();
    let step = |r: u16| [vec![3, r], (1..=r).collect(), vec![0]].concat();
    let sixteen = planned(&order(&all, &[&[1, 101], &step(16)]));
    assert_eq!(sixteen, filled(&[2; 3], "111 100 010 001"));
    let list = order(&all, &[&[1, 101], &step(17)]);
    let place = list.len() - 19;
    assert_eq!(planned(&list), refusal(2, &[place as u32]));
}

#[test]
fn rows_512_and_513() {
    let steps: &[&[u16]] = &[&[1, 101]];
    for rows in [512, 513] {
        let column: Vec<Vec<u16>> = (0..rows).map(|y| vec![y % 2]).collect();
        for ingredient in [table(&[2], &column), matrix(2, &column)] {
            let answer = planned(&order(&[ingredient], steps));
            let expected = if rows == 512 {
                filled(&[2; 3], "000 011 101 110")
            } else {
                refusal(2, &[2])
            };
            assert_eq!(answer, expected);
        }
    }
}

#[test]
fn columns_128_and_129() {
    // Read with 128 columns, though equal columns do not pass.
    for columns in [128, 129] {
        let rows = vec![vec![0; columns], vec![1; columns]];
        let over = refusal(2, &[3]);
        let answer = planned(&order(&[table(&vec![2; columns], &rows)], &[&[1, 1]]));
        let uneven = refusal(5, &[1, 1, 2, 0, 0, 1]);
        assert_eq!(answer, if columns == 128 { uneven } else { over.clone() });
        let answer = planned(&order(&[matrix(2, &rows)], &[&[1, 101]]));
        let uneven = refusal(6, &[1, 1, 2, 0, 2]);
        assert_eq!(answer, if columns == 128 { uneven } else { over.clone() });
        let answer = planned(&order(&[points(8, columns as u16)], &[&[2, 1]]));
        if columns == 128 {
            assert_eq!(shape(&answer), (256, vec![2; 128]));
        } else {
            assert_eq!(answer, over);
        }
    }
    // A matrix of 128 columns that passes.
    let square = matrix(2, &sylvester(128));
    let one = table(&[2], &[vec![0], vec![1]]);
    let answer = planned(&order(&[square.clone(), one], &[&[1, 2], &[3, 1, 1, 0]]));
    assert_eq!(shape(&answer), (256, vec![2; 128]));
    // With a k of one column, 129.
    let one = table(&[2], &[vec![0], vec![1]]);
    let k = table(&[4], &(0..128).map(|y| vec![y % 4]).collect::<Vec<_>>());
    let answer = planned(&order(&[square, one, k], &[&[1, 2], &[3, 1, 1, 3]]));
    assert_eq!(answer, refusal(11, &[2, 256, 129]));
}

#[test]
fn columns_128_and_129_by_split() {
    // One factor of four levels, the others points outside of it.
    for others in [125, 126] {
        let n = 1 + others;
        let mut generator = vec![3, 8, n, 2, 2];
        generator.extend(vec![1; others as usize]);
        for coordinate in 0..8 {
            generator.extend([u16::from(coordinate == 0), u16::from(coordinate == 1)]);
            generator.extend((0..others).map(|index| {
                let point = index + index / 63 + 1; // not a multiple of 64
                point >> (7 - coordinate) & 1
            }));
        }
        let answer = planned(&order(&[generator], &[&[2, 1], &[5, 1, 101]]));
        if others == 125 {
            assert_eq!(shape(&answer), (256, vec![2; 128]));
        } else {
            assert_eq!(answer, refusal(11, &[2, 256, 129]));
        }
    }
}

/// A table of 256 runs and 127 columns, and a matrix of so many rows, which is used for nothing.
fn long_list(rows: usize) -> Vec<u16> {
    let runs: Vec<Vec<u16>> = (0..256u16)
        .map(|x| {
            (1..128u16)
                .map(|c| (x & c).count_ones() as u16 % 2)
                .collect()
        })
        .collect();
    // 127 points of seven coordinates, in 256 runs each twice.
    order(
        &[table(&[2; 127], &runs), matrix(3, &vec![vec![2]; rows])],
        &[&[1, 1]],
    )
}

#[test]
fn numbers_32768_and_32769() {
    let list = long_list(118);
    assert_eq!(list.len(), 32_768);
    assert_eq!(shape(&planned(&list)), (256, vec![2; 127]));

    let mut longer = long_list(119);
    assert_eq!(longer.len(), 32_769);
    assert_eq!(planned(&longer), refusal(2, &[32_768]));
    // Before any reading.
    longer[0] = 40;
    assert_eq!(planned(&longer), refusal(2, &[32_768]));
    assert_eq!(planned(&[40; 32_768]), refusal(2, &[0]));
    assert_eq!(planned(&vec![0; 100_000]), refusal(2, &[32_768]));

    // A number left over at the last place that a list can have.
    let mut list = long_list(117);
    list.push(1);
    assert_eq!(list.len(), 32_768);
    assert_eq!(planned(&list), refusal(2, &[32_767]));
}

#[test]
fn words() {
    assert_eq!(scan(b""), Ok(vec![]));
    assert_eq!(scan(b" \t\n\n  "), Ok(vec![]));
    assert_eq!(scan(b"1"), Ok(vec![1]));
    assert_eq!(scan(b"\n\t 1\t2\n3 4  \n"), Ok(vec![1, 2, 3, 4]));
    assert_eq!(
        scan(b"0 65535 00065535 000"),
        Ok(vec![0, 65_535, 65_535, 0])
    );
    assert_eq!(scan(b"1 65536 x"), Err(refusal(2, &[1])));
    assert_eq!(
        scan(b"99999999999999999999999999999999"),
        Err(refusal(2, &[0]))
    );
    for word in [
        "x", "-1", "+1", "1.0", "1,2", "0x1", "1\r", "\r", "1\0", "\u{b}", "\u{a0}", "²", "1e3",
    ] {
        assert_eq!(
            scan(format!("7 {word} 8").as_bytes()),
            Err(refusal(2, &[1])),
            "{word:?}"
        );
    }
    assert_eq!(scan(b"1 2 \xff"), Err(refusal(2, &[2])));

    let zeros = "0".repeat(100_000);
    assert_eq!(
        scan(format!("{zeros} {zeros}65535").as_bytes()),
        Ok(vec![0, 65_535])
    );
    assert_eq!(
        scan(format!("{zeros} {zeros}65536").as_bytes()),
        Err(refusal(2, &[1]))
    );
}

#[test]
fn words_32768_and_32769() {
    let most = "7 ".repeat(32_768);
    assert_eq!(scan(most.as_bytes()), Ok(vec![7; 32_768]));
    assert_eq!(
        scan(format!("{most}7").as_bytes()),
        Err(refusal(2, &[32_768]))
    );
    assert_eq!(
        scan(format!("{most}x").as_bytes()),
        Err(refusal(2, &[32_768]))
    );
    assert_eq!(
        scan(format!("{most}7 x").as_bytes()),
        Err(refusal(2, &[32_768]))
    );
    assert_eq!(
        scan(format!("7 x {most}").as_bytes()),
        Err(refusal(2, &[1]))
    );
    let less = "7 ".repeat(32_767);
    assert_eq!(
        scan(format!("{less}x").as_bytes()),
        Err(refusal(2, &[32_767]))
    );
}
