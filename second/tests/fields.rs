//! The fields, and tables over GF(4), GF(8) and GF(9).

mod common;
use common::*;
use second::field::{product, sum};

const FIELDS: [usize; 7] = [2, 3, 4, 5, 7, 8, 9];

#[test]
fn they_are_fields() {
    for s in FIELDS {
        for a in 0..s {
            assert_eq!(sum(s, a, 0), a);
            assert_eq!(product(s, a, 1), a);
            assert_eq!(product(s, a, 0), 0);
            assert_eq!((0..s).filter(|&b| sum(s, a, b) == 0).count(), 1);
            assert_eq!(
                (0..s).filter(|&b| product(s, a, b) == 1).count(),
                usize::from(a > 0)
            );
            for b in 0..s {
                assert!(sum(s, a, b) < s && product(s, a, b) < s);
                assert_eq!(sum(s, a, b), sum(s, b, a));
                assert_eq!(product(s, a, b), product(s, b, a));
                for c in 0..s {
                    assert_eq!(sum(s, sum(s, a, b), c), sum(s, a, sum(s, b, c)));
                    assert_eq!(
                        product(s, product(s, a, b), c),
                        product(s, a, product(s, b, c))
                    );
                    let apart = sum(s, product(s, a, b), product(s, a, c));
                    assert_eq!(product(s, a, sum(s, b, c)), apart);
                }
            }
        }
    }
}

#[test]
fn elements_stand_for_what_01_says() {
    for s in [2, 3, 5, 7] {
        for a in 0..s {
            for b in 0..s {
                assert_eq!((sum(s, a, b), product(s, a, b)), ((a + b) % s, a * b % s));
            }
        }
    }
    // GF(4), w is 2: w² = w + 1. GF(8), w is 2: w² is 4, w³ = w + 1.
    assert_eq!(product(4, 2, 2), 3);
    assert_eq!(product(8, 2, 2), 4);
    assert_eq!(product(8, 2, 4), 3);
    for s in [4, 8] {
        for a in 0..s {
            for b in 0..s {
                assert_eq!(sum(s, a, b), a ^ b);
            }
        }
    }
    // GF(9), w is 3: w² = 2, 1 + 2w is 7, and digits are added modulo 3.
    assert_eq!(product(9, 3, 3), 2);
    assert_eq!(sum(9, 1, product(9, 2, 3)), 7);
    assert_eq!(sum(9, 5, 7), 0);
    assert_eq!(sum(9, 8, 8), 4);
    // (2 + w)² = 4 + 4w + 2 = w; (1 + 2w)(2 + 2w) = 2 + 6w + 8 = 1.
    assert_eq!(product(9, 5, 5), 3);
    assert_eq!(product(9, 7, 8), 1);
}

/// All points of the line: (1,0), (0,1), (1,1), (1,2) ..
fn line(s: u16) -> Vec<u16> {
    let mut list = vec![3, 2, s + 1, s];
    list.extend(vec![1; s as usize + 1]);
    list.extend([1, 0]);
    list.extend(vec![1; s as usize - 1]);
    list.extend([0, 1]);
    list.extend(1..s);
    list
}

#[test]
fn every_line_fills() {
    for s in [2, 3, 4, 5, 7, 8, 9] {
        let answer = planned(&order(&[line(s)], &[&[2, 1]]));
        assert_eq!(
            shape(&answer),
            ((s * s) as usize, vec![s as u8; s as usize + 1])
        );
    }
}

#[test]
fn lines_run_by_run() {
    // Run 2 × 4 + 3 of GF(4): 2 3, 2 + 3 = 1, 2 + 2 × 3 = 3, 2 + 3 × 3 = 0.
    let text = second::print(&planned(&order(&[line(4)], &[&[2, 1]])));
    assert_eq!(text.lines().nth(2 + 11), Some("2 3 1 3 0"));
    // Run 5 × 8 + 6 of GF(8), with 6 × h = 6 7 1 5 3 2 4 for h = 1 to 7.
    let text = second::print(&planned(&order(&[line(8)], &[&[2, 1]])));
    assert_eq!(text.lines().nth(2 + 46), Some("5 6 3 2 4 0 6 7 1"));
    // Run 4 × 9 + 7 of GF(9). With h = a + bw, (1 + 2w)h = (a + 4b) + (2a + b)w, which for h = 1
    // to 8 is 7 5 4 2 6 8 3 1; to each of these 1 + w is added.
    let text = second::print(&planned(&order(&[line(9)], &[&[2, 1]])));
    assert_eq!(text.lines().nth(2 + 43), Some("4 7 2 6 8 3 1 0 7 5"));
}

#[test]
fn wide_factors() {
    // Over two elements, t = 3: columns (1,0,0) and (0,1,1) as one factor, (0,0,1) as another.
    assert_eq!(
        answer("1 3 3 2 2 2 1 1 0 0 0 1 0 0 1 1 1 2 1"),
        filled(&[4, 2], "00 11 10 01 20 31 30 21")
    );
    // Over three, t = 2, an only factor of two columns: the first value is the highest.
    assert_eq!(
        answer("1 3 2 1 3 2 0 1 1 0 1 2 1"),
        filled(&[9], "0 3 6 1 4 7 2 5 8")
    );
    // GF(8), t = 3, a factor of 64 levels and one of 8.
    let answer = answer("1 3 3 2 8 2 1 1 0 0 0 1 0 0 0 1 1 2 1");
    assert_eq!(shape(&answer), (512, vec![64, 8]));
}
