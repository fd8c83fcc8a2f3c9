//! The arrays of the papers, from tests/data/arrays.txt.

mod common;
use common::*;
use second::Answer;

struct Array {
    name: String,
    is_table: bool,
    /// Level counts, or p.
    limits: Vec<u16>,
    rows: Vec<Vec<u16>>,
}

/// Blocks parted by empty lines: comments, "table" or "matrix" with a name, rows, columns and the
/// limits, then the rows.
fn arrays() -> Vec<Array> {
    let text = include_str!("data/arrays.txt");
    let mut found = Vec::new();
    for block in text.trim().split("\n\n") {
        let mut lines = block.lines().filter(|line| !line.starts_with('#'));
        let head: Vec<&str> = lines.next().unwrap().split(' ').collect();
        let sizes = numbers(&head[2..].join(" "));
        let rows: Vec<Vec<u16>> = lines.map(numbers).collect();
        assert_eq!(rows.len(), sizes[0] as usize, "{}", head[1]);
        assert!(
            rows.iter().all(|row| row.len() == sizes[1] as usize),
            "{}",
            head[1]
        );
        found.push(Array {
            name: head[1].to_string(),
            is_table: head[0] == "table",
            limits: sizes[2..].to_vec(),
            rows,
        });
    }
    found
}

#[test]
fn tables_are_taken_as_they_are() {
    let tables: Vec<Array> = arrays()
        .into_iter()
        .filter(|array| array.is_table)
        .collect();
    assert_eq!(tables.len(), 13);
    for array in tables {
        let answer = planned(&order(&[table(&array.limits, &array.rows)], &[&[1, 1]]));
        assert_even(&answer);
        let Answer::Filled {
            runs,
            levels,
            spare,
            table,
        } = answer
        else {
            panic!("{}: {answer:?}", array.name)
        };
        assert_eq!(runs, array.rows.len());
        assert_eq!(spare, runs as i64 - 1 - held(&array.limits));
        assert_eq!(
            levels,
            array
                .limits
                .iter()
                .map(|&limit| limit as u8)
                .collect::<Vec<_>>()
        );
        assert_eq!(
            table,
            array
                .rows
                .concat()
                .iter()
                .map(|&cell| cell as u8)
                .collect::<Vec<_>>()
        );
    }
}

#[test]
fn house_tables_are_those_of_the_paper() {
    let house = [
        ("L4(2^3)", 101),
        ("L9(3^4)", 102),
        ("L12(3x2^4)", 103),
        ("L12(6x2^2)", 104),
    ];
    for (name, number) in house {
        let array = arrays()
            .into_iter()
            .find(|array| array.name == name)
            .unwrap();
        let taken = planned(&order(&[table(&array.limits, &array.rows)], &[&[1, 1]]));
        assert_eq!(taken, planned(&order(&[], &[&[1, number]])));
    }
}

#[test]
fn matrices_pass_and_sum() {
    let matrices: Vec<Array> = arrays()
        .into_iter()
        .filter(|array| !array.is_table)
        .collect();
    assert_eq!(matrices.len(), 13);
    for array in matrices {
        let p = array.limits[0];
        let one_column = table(&[p], &(0..p).map(|level| vec![level]).collect::<Vec<_>>());
        let list = order(
            &[matrix(p, &array.rows), one_column],
            &[&[1, 2], &[3, 1, 1, 0]],
        );
        let runs = p as usize * array.rows.len();
        assert_eq!(
            shape(&planned(&list)),
            (runs, vec![p as u8; array.rows[0].len()]),
            "{}",
            array.name
        );
    }
}

#[test]
fn every_changed_entry_is_found() {
    for array in arrays() {
        if array.rows.len() * array.rows[0].len() > 400 {
            continue;
        }
        for row in 0..array.rows.len() {
            for column in 0..array.rows[0].len() {
                let mut rows = array.rows.clone();
                let limit = if array.is_table {
                    array.limits[column]
                } else {
                    array.limits[0]
                };
                rows[row][column] = (rows[row][column] + 1) % limit;
                let (ingredient, number) = if array.is_table {
                    (table(&array.limits, &rows), 4)
                } else {
                    (matrix(limit, &rows), 6)
                };
                match planned(&order(&[ingredient], &[&[1, 101]])) {
                    Answer::Refused { number: found, .. } => assert_eq!(found, number),
                    other => panic!("{}: {other:?}", array.name),
                }
            }
        }
    }
}

#[test]
fn larger_arrays_of_section_5() {
    let find = |name: &str| {
        arrays()
            .into_iter()
            .find(|array| array.name == name)
            .unwrap()
    };
    let as_matrix = |name: &str| {
        let array = find(name);
        matrix(array.limits[0], &array.rows)
    };
    let as_table = |name: &str| {
        let array = find(name);
        table(&array.limits, &array.rows)
    };
    let three = table(&[3], &[vec![0], vec![1], vec![2]]);
    let two = table(&[2], &[vec![0], vec![1]]);

    // L36(3^12 × 2^11).
    let steps: &[&[u16]] = &[&[1, 1], &[3, 1, 2, 3]];
    let ingredients = [three, as_matrix("D_12_12_3"), as_table("L12(2^11)")];
    let levels = [vec![3; 12], vec![2; 11]].concat();
    assert_eq!(shape(&planned(&order(&ingredients, steps))), (36, levels));

    // L48(4^12 × 2^11), over GF(4).
    let four = table(&[4], &(0..4).map(|level| vec![level]).collect::<Vec<_>>());
    let ingredients = [four, as_matrix("D_12_12_4"), as_table("L12(2^11)")];
    let levels = [vec![4; 12], vec![2; 11]].concat();
    assert_eq!(shape(&planned(&order(&ingredients, steps))), (48, levels));

    // L24(3 × 4 × 2^13): columns 1 and 2 of the sum and the first of k's two-level columns.
    let steps: &[&[u16]] = &[&[1, 1], &[3, 1, 2, 103], &[4, 2, 1, 2, 14]];
    let ingredients = [two, as_matrix("H_12_002")];
    let levels = [vec![4], vec![2; 10], vec![3], vec![2; 3]].concat();
    assert_eq!(shape(&planned(&order(&ingredients, steps))), (24, levels));

    // L54(9 × 3^20 × 6): the nine-level column stands where column 7 stood, behind five others.
    let six = table(&[6], &(0..6).map(|level| vec![level]).collect::<Vec<_>>());
    let steps: &[&[u16]] = &[&[1, 102], &[3, 1, 1, 2], &[4, 3, 7, 1, 13, 19]];
    let ingredients = [as_matrix("D_6_6_3"), six];
    let levels = [vec![3; 5], vec![9], vec![3; 15], vec![6]].concat();
    assert_eq!(shape(&planned(&order(&ingredients, steps))), (54, levels));
}
