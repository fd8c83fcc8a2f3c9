//! Tables that show which pair of levels refusal 5 names, and its gap; 02, K5. Their columns are even,
//! but for one of them. What a table comes to is for the check to say; nothing here decides it.

use crate::order::Table;

/// All of them, each with its name.
pub fn gap_tables() -> Vec<(String, Table)> {
    [
        two_columns(),
        columns_of_most_levels(),
        first_failing_columns(),
        after_many_columns(),
    ]
    .concat()
}

/// Two columns in which the levels x and y stand together counts[x][y] times.
fn of_counts(counts: &[&[usize]]) -> Table {
    let mut runs = Vec::new();
    for (x, row) in counts.iter().enumerate() {
        for (y, &times) in row.iter().enumerate() {
            runs.extend(vec![vec![x, y]; times]);
        }
    }
    Table {
        levels: vec![counts.len(), counts[0].len()],
        runs,
    }
}

fn two_columns() -> Vec<(String, Table)> {
    let named = |name: &str, counts: &[&[usize]]| (name.to_string(), of_counts(counts));
    vec![
        named("2 runs, equal columns", &[&[1, 0], &[0, 1]]),
        named("4 runs, equal columns", &[&[2, 0], &[0, 2]]),
        named("4 runs, opposite columns", &[&[0, 2], &[2, 0]]),
        // Six runs do not go into four pairs.
        named(
            "6 runs, 2 levels each, short by half a run",
            &[&[1, 2], &[2, 1]],
        ),
        named(
            "6 runs, 2 levels each, over by half a run",
            &[&[2, 1], &[1, 2]],
        ),
        named(
            "27 runs, a short pair before an over one as far off",
            &[&[4, 2, 3], &[1, 5, 3], &[4, 2, 3]],
        ),
        named(
            "27 runs, an over pair before a short one as far off",
            &[&[2, 4, 3], &[5, 1, 3], &[2, 4, 3]],
        ),
        named(
            "27 runs, three short pairs as far off, the first column's level leading",
            &[&[4, 4, 1], &[1, 4, 4], &[4, 1, 4]],
        ),
        named(
            "27 runs, the last pair short and farthest off",
            &[&[2, 3, 4], &[3, 2, 4], &[4, 4, 1]],
        ),
        named(
            "18 runs, the last pair over and farthest off",
            &[&[3, 2, 1], &[2, 3, 1], &[1, 1, 4]],
        ),
        named(
            "18 runs, times 0 farthest off",
            &[&[1, 3, 2], &[2, 3, 1], &[3, 0, 3]],
        ),
        named(
            "9 runs, times 0 before an over pair as far off",
            &[&[1, 0, 2], &[1, 1, 1], &[1, 2, 0]],
        ),
        named(
            "9 runs, an over pair before times 0 as far off",
            &[&[1, 2, 0], &[1, 1, 1], &[1, 0, 2]],
        ),
        named("12 runs, 2 and 3 levels", &[&[1, 1, 4], &[3, 3, 0]]),
        named("12 runs, 3 and 2 levels", &[&[3, 1], &[3, 1], &[0, 4]]),
        // Twelve runs do not go into 24 pairs, so that every pair fails.
        named(
            "12 runs, 4 and 6 levels, one pair twice",
            &[
                &[1, 1, 1, 0, 0, 0],
                &[0, 1, 0, 0, 1, 1],
                &[1, 0, 0, 2, 0, 0],
                &[0, 0, 1, 0, 1, 1],
            ],
        ),
        named(
            "12 runs, 4 and 6 levels, no pair twice",
            &[
                &[0, 1, 1, 1, 0, 0],
                &[0, 1, 1, 1, 0, 0],
                &[1, 0, 0, 0, 1, 1],
                &[1, 0, 0, 0, 1, 1],
            ],
        ),
    ]
}

/// The most runs, with the most levels and with the fewest. A level of 64 stands in 8 runs, and so a
/// pair in 8 at most.
fn columns_of_most_levels() -> Vec<(String, Table)> {
    let table = |levels: usize, second: &dyn Fn(usize, usize) -> usize| {
        let times = 512 / levels;
        let run = |number: usize| {
            let (x, copy) = (number / times, number % times);
            vec![x, second(x, copy)]
        };
        Table {
            levels: vec![levels; 2],
            runs: (0..512).map(run).collect(),
        }
    };
    // Levels 63 and 63 stand together in 8 runs. Where another level of the first column had 63, it
    // has one of those that 63 had.
    let last_pair = |x: usize, copy: usize| match (x + 8 * copy) % 64 {
        _ if x == 63 => 63,
        63 => 8 * copy - 1,
        y => y,
    };
    let named = |name: &str, table| (name.to_string(), table);
    vec![
        named(
            "512 runs, 64 levels each, equal columns",
            table(64, &|x, _| x),
        ),
        named(
            "512 runs, 64 levels each, each pair once or never",
            table(64, &|x, copy| (x + 8 * copy + 1) % 64),
        ),
        named(
            "512 runs, 64 levels each, the last pair farthest off",
            table(64, &last_pair),
        ),
        named(
            "512 runs, 2 levels each, opposite columns",
            table(2, &|x, _| 1 - x),
        ),
    ]
}

/// Three columns. The first two that fail are named, though others are farther off; and no two, where a
/// column is uneven.
fn first_failing_columns() -> Vec<(String, Table)> {
    let little = of_counts(&[&[2, 3, 1], &[2, 1, 3], &[2, 2, 2]]);
    let with_third = |table: &Table, third: &dyn Fn(&[usize]) -> usize| {
        let run = |run: &Vec<usize>| [run.as_slice(), &[third(run)]].concat();
        Table {
            levels: vec![3; 3],
            runs: table.runs.iter().map(run).collect(),
        }
    };
    // The third column is the second, but in four runs, whose levels are exchanged: with the first
    // column level 0 is two runs short of level 1, and with the second it is farther off.
    let even = of_counts(&[&[2, 2, 2], &[2, 2, 2], &[2, 2, 2]]);
    let mut exchanged = with_third(&even, &|run| run[1]);
    for (run, level) in [(5, 0), (6, 2), (7, 2), (17, 0)] {
        exchanged.runs[run][2] = level;
    }
    let uneven_column = Table {
        levels: vec![2; 3],
        runs: [[0, 0, 1], [0, 0, 1], [1, 1, 0], [1, 1, 1]]
            .map(Vec::from)
            .to_vec(),
    };
    vec![
        (
            "18 runs, columns 1 and 2 a little, 1 and 3 much".to_string(),
            with_third(&little, &|run| run[0]),
        ),
        (
            "18 runs, columns 1 and 2 even, 1 and 3 a little, 2 and 3 much".to_string(),
            exchanged,
        ),
        (
            "4 runs, columns 1 and 2 equal, column 3 uneven".to_string(),
            uneven_column,
        ),
    ]
}

/// The last two columns alone are uneven.
fn after_many_columns() -> Vec<(String, Table)> {
    vec![
        (
            "64 runs of 63 columns, the last two equal".to_string(),
            last_two_equal(64),
        ),
        (
            "81 runs of 29 columns, the last two uneven".to_string(),
            last_two_uneven(),
        ),
    ]
}

/// 63 columns of 2 levels, with the numbers from 1 up to 62, of which the last two have the same. The
/// runs are 64 or a multiple.
pub fn last_two_equal(runs: usize) -> Table {
    parities(runs, &Vec::from_iter((1..=62).chain([62])))
}

/// Columns of 2 levels. A column has a number, from 1 on, and is the parity of the ones that it has in
/// common with the run's number. The runs are a power of 2 above all of these numbers, or a multiple:
/// then two columns are even together where their numbers differ, and equal where they do not.
pub fn parities(runs: usize, numbers: &[usize]) -> Table {
    let run = |run: usize| {
        let parity = |number: &usize| (run & number).count_ones() as usize % 2;
        numbers.iter().map(parity).collect()
    };
    Table {
        levels: vec![2; numbers.len()],
        runs: (0..runs).map(run).collect(),
    }
}

/// Of four digits in base 3, the first 27 columns are the last digit plus each combination of the
/// others. Then comes the first digit, and a column that goes by the first three: so both are even
/// with each of the 27, and not with each other.
fn last_two_uneven() -> Table {
    // Of the nine numbers that the middle digits make, so many go with each level of the last column.
    let shares = [[2, 3, 4], [6, 1, 2], [1, 5, 3]];
    let run = |number: usize| {
        let [a, b, c, d] = [number / 27, number / 9 % 3, number / 3 % 3, number % 3];
        let form = |f: usize| (f / 9 * a + f / 3 % 3 * b + f % 3 * c + d) % 3;
        let share = shares[a];
        let last = match 3 * b + c {
            middle if middle < share[0] => 0,
            middle if middle < share[0] + share[1] => 1,
            _ => 2,
        };
        (0..27).map(form).chain([a, last]).collect()
    };
    Table {
        levels: vec![3; 29],
        runs: (0..81).map(run).collect(),
    }
}
