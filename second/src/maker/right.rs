//! Passing ingredients and right steps.

use super::draft::*;
use super::Random;
use crate::counting;
use crate::field::{matrix_sum, product};
use crate::order::{Generator, Ingredient, Table};

pub const FIELDS: [usize; 7] = [2, 3, 4, 5, 7, 8, 9];

/// For these p a matrix is over the field; 02, K2.
pub const MATRIX_FIELDS: [usize; 3] = [4, 8, 9];

pub fn largest_exponent(base: usize, most: usize) -> usize {
    let mut exponent = 0;
    while base.pow(exponent + 1) <= most {
        exponent += 1;
    }
    exponent as usize
}

/// Every combination of levels, each as often as the runs allow.
pub fn factorial(runs: usize, levels: &[usize]) -> Table {
    let mut table = Table {
        levels: levels.to_vec(),
        runs: Vec::new(),
    };
    for number in 0..runs {
        let mut rest = number;
        let mut run = Vec::new();
        for &level in levels {
            run.push(rest % level);
            rest /= level;
        }
        table.runs.push(run);
    }
    table
}

/// The p² runs of x, y, x + y, x + 2y .. modulo a prime p; MERGE can take all of its columns.
pub fn pencil(p: usize) -> Table {
    let mut runs = Vec::new();
    for x in 0..p {
        for y in 0..p {
            let mut run = vec![x, y];
            run.extend((1..p).map(|h| (x + h * y) % p));
            runs.push(run);
        }
    }
    Table {
        levels: vec![p; p + 1],
        runs,
    }
}

/// Some of a table's columns, in any order.
pub fn some_columns(random: &mut Random, table: &Table, most: usize) -> Table {
    let mut columns: Vec<usize> = (0..table.levels.len()).collect();
    random.shuffle(&mut columns);
    columns.truncate(random.between(1, most.max(1)));
    let chosen = |row: &Vec<usize>| columns.iter().map(|&column| row[column]).collect();
    Table {
        levels: chosen(&table.levels),
        runs: table.runs.iter().map(chosen).collect(),
    }
}

/// Renames the levels of every column and puts the runs into any order.
pub fn jumble(random: &mut Random, table: &mut Table) {
    for (column, &level_count) in table.levels.iter().enumerate() {
        let mut names: Vec<usize> = (0..level_count).collect();
        random.shuffle(&mut names);
        for run in &mut table.runs {
            run[column] = names[run[column]];
        }
    }
    random.shuffle(&mut table.runs);
}

/// A passing table of so many runs, two or more.
pub fn passing_table(random: &mut Random, runs: usize, most_columns: usize) -> Table {
    let root = (2..8).find(|p| p * p == runs && smallest_factor(*p) == *p);
    if let (Some(p), true) = (root, random.percent(60)) {
        let mut table = some_columns(random, &pencil(p), most_columns);
        if random.percent(30) {
            jumble(random, &mut table);
        }
        return table;
    }
    let mut levels = Vec::new();
    let mut rest = runs;
    while levels.len() < most_columns {
        let fitting: Vec<usize> = (2..=64)
            .filter(|level| rest.is_multiple_of(*level))
            .collect();
        if fitting.is_empty() || (!levels.is_empty() && random.percent(15)) {
            break;
        }
        let level = random.pick(&fitting);
        levels.push(level);
        rest /= level;
    }
    if levels.is_empty() {
        // No column can be even; the nearest thing.
        levels.push(2);
    }
    let mut table = factorial(runs, &levels);
    if random.percent(60) {
        jumble(random, &mut table);
    }
    table
}

pub fn smallest_factor(number: usize) -> usize {
    (2..=number)
        .find(|factor| number.is_multiple_of(*factor))
        .unwrap_or(number)
}

pub const D_6_6_3: [&str; 6] = ["000000", "012012", "021102", "002121", "020211", "011220"];

pub const H_12: [&str; 12] = [
    "000000000000",
    "011100010101",
    "001011110001",
    "010111010010",
    "000010011111",
    "011001001011",
    "001100111010",
    "010110101001",
    "000101100111",
    "011010100110",
    "001111001100",
    "010001111100",
];

/// Passes modulo 4 and over the field of 4.
pub const D_8_4_MODULO_4: [&str; 8] = [
    "0000", "0000", "0123", "0132", "0213", "0231", "0312", "0321",
];

pub fn from_words(words: &[&str]) -> Vec<Vec<usize>> {
    words
        .iter()
        .map(|word| word.bytes().map(|byte| usize::from(byte - b'0')).collect())
        .collect()
}

/// A passing matrix of so many rows.
pub fn passing_matrix(
    random: &mut Random,
    p: usize,
    rows: usize,
    most_columns: usize,
) -> Vec<Vec<usize>> {
    let over_field = MATRIX_FIELDS.contains(&p) && random.percent(85);
    let whole = if (p, rows) == (3, 6) {
        from_words(&D_6_6_3)
    } else if (p, rows) == (2, 12) {
        from_words(&H_12)
    } else if !rows.is_multiple_of(p) {
        // One column passes whatever it holds.
        (0..rows).map(|_| vec![random.below(p)]).collect()
    } else if (p, rows) == (4, 8) && over_field {
        // The products of GF(8), less their highest digit (Bose and Bush).
        (0..8)
            .map(|y| (0..8).map(|c| product(8, y, c) % 4).collect())
            .collect()
    } else if over_field || smallest_factor(p) == p {
        // Row times column over the digits in base p, of as many digits as the rows allow.
        let mut size = p;
        while rows.is_multiple_of(size * p) {
            size *= p;
        }
        let times = |x: usize, y: usize| match over_field {
            true => product(p, x, y),
            false => x * y % p,
        };
        let dot = |mut x: usize, mut y: usize| {
            let mut total = 0;
            while x > 0 && y > 0 {
                total = matrix_sum(p, total, times(x % p, y % p));
                x /= p;
                y /= p;
            }
            total
        };
        (0..rows)
            .map(|y| (0..size.min(40)).map(|c| dot(y % size, c)).collect())
            .collect()
    } else {
        multiples(p, rows)
    };

    let mut columns: Vec<usize> = (0..whole[0].len()).collect();
    if random.percent(40) {
        random.shuffle(&mut columns);
    }
    let most = most_columns.max(1);
    // Two columns over a field can pass modulo p as well; three hardly do.
    let fewest = if over_field { most.min(3) } else { 1 };
    columns.truncate(random.between(fewest, most));
    let mut matrix: Vec<Vec<usize>> = whole
        .iter()
        .map(|row| columns.iter().map(|&column| row[column]).collect())
        .collect();
    if random.percent(30) {
        random.shuffle(&mut matrix);
    }
    if random.percent(30) {
        // A number added to a whole row leaves every difference as it was.
        for row in &mut matrix {
            let added = random.below(p);
            for entry in row {
                *entry = matrix_sum(p, *entry, added);
            }
        }
    }
    matrix
}

/// Multiples of y modulo p, by numbers whose differences have no factor in common with p. For 4, 8 and
/// 9 they pass over the field too: a digit of c × y is c times that of y and what lower digits carry.
pub fn multiples(p: usize, rows: usize) -> Vec<Vec<usize>> {
    (0..rows)
        .map(|y| (0..smallest_factor(p)).map(|c| c * y % p).collect())
        .collect()
}

/// A generator that passes, with up to so many factors; found by trying.
pub fn passing_generator(
    random: &mut Random,
    s: usize,
    t: usize,
    most_factors: usize,
    wide: bool,
) -> Numbers {
    let mut factors: Vec<Vec<Vec<usize>>> = Vec::new();
    for _ in 0..3 * most_factors + 20 {
        if factors.len() == most_factors {
            break;
        }
        let widest = largest_exponent(s, 64).min(t);
        let u = if wide { random.between(1, widest) } else { 1 };
        let column = |random: &mut Random| (0..t).map(|_| random.below(s)).collect();
        let factor: Vec<Vec<usize>> = (0..u).map(|_| column(random)).collect();
        let passes = |factors: Vec<Vec<Vec<usize>>>| {
            counting::check(1, &Ingredient::Generator(Generator { s, t, factors })).is_ok()
        };
        let alone = passes(vec![factor.clone()]);
        if alone
            && factors
                .iter()
                .all(|other| passes(vec![other.clone(), factor.clone()]))
        {
            factors.push(factor);
        }
    }
    if factors.is_empty() {
        // Surely independent.
        factors.push(vec![(0..t)
            .map(|coordinate| usize::from(coordinate == 0))
            .collect()]);
    }
    generator_numbers(s, t, &factors)
}

/// The generator of a pencil in t coordinates, and perhaps of further factors beside it.
pub fn pencil_generator(random: &mut Random, p: usize, t: usize) -> Numbers {
    let mut v: Vec<usize> = (0..t).map(|_| random.below(p)).collect();
    let mut w: Vec<usize> = (0..t).map(|_| random.below(p)).collect();
    v[0] = 1;
    w[0] = 0;
    w[1] = 1;
    let mut factors = vec![vec![v.clone()], vec![w.clone()]];
    for h in 1..p {
        factors.push(vec![(0..t).map(|i| (v[i] + h * w[i]) % p).collect()]);
    }
    if t > 2 && random.percent(60) {
        let last: Vec<usize> = (0..t).map(|i| usize::from(i == 2)).collect();
        factors.insert(random.below(factors.len() + 1), vec![last]);
    }
    generator_numbers(p, t, &factors)
}

// Right steps.

/// A first step that leaves a small sheet with a column of 4, 8 or 9 levels, and often one of another
/// level count.
pub fn first_step_to_a_field(random: &mut Random, draft: &mut Draft) {
    let p = random.pick(&[4, 4, 8, 8, 9]);
    let others = match p {
        4 => vec![2, 2, 3],
        8 => vec![2],
        _ => vec![3, 2],
    };
    let mut levels = vec![p];
    if random.percent(40) {
        let place = random.below(2);
        levels.insert(place, random.pick(&others));
    }
    let runs = levels.iter().product();
    let mut table = factorial(runs, &levels);
    if random.percent(40) {
        jumble(random, &mut table);
    }
    let i = draft.add(table_numbers(&table));
    draft.steps.push(take(i));
}

/// The first step. With `merge_p`, one that leaves columns to be merged.
pub fn first_step(random: &mut Random, draft: &mut Draft, merge_p: Option<usize>) {
    if let Some(p) = merge_p {
        if random.percent(50) {
            let i = if p < 4 && random.percent(30) {
                if p == 2 {
                    101
                } else {
                    102
                }
            } else {
                let mut table = pencil(p);
                if random.percent(40) {
                    random.shuffle(&mut table.runs);
                }
                draft.add(table_numbers(&table))
            };
            draft.steps.push(take(i));
        } else {
            let t = match p {
                2 | 3 => random.between(2, 4),
                5 if random.percent(15) => 3,
                _ => 2,
            };
            let generator = pencil_generator(random, p, t);
            let i = draft.add(generator);
            draft.steps.push(field(i));
        }
        return;
    }
    if random.percent(50) {
        if random.percent(25) {
            draft.steps.push(take(random.between(101, 104)));
        } else {
            let runs = random.pick(&[
                2, 3, 4, 4, 5, 6, 7, 8, 8, 9, 9, 10, 12, 15, 16, 18, 24, 25, 27, 32,
            ]);
            let most = random.between(1, 5);
            let table = passing_table(random, runs, most);
            let i = draft.add(table_numbers(&table));
            draft.steps.push(take(i));
        }
    } else {
        // The pencils are over prime fields; so here the others more often.
        let s = random.pick(&[2, 3, 4, 4, 4, 5, 7, 8, 8, 8, 9, 9, 9]);
        let most_t = largest_exponent(s, 512);
        let t = random.between(1, most_t);
        let most_factors = (900 / s.pow(t as u32)).clamp(1, 12);
        let most_factors = random.between(1, most_factors);
        let wide = random.percent(40);
        let generator = passing_generator(random, s, t, most_factors, wide);
        let i = draft.add(generator);
        draft.steps.push(field(i));
    }
}

pub fn different(numbers: &[usize]) -> Vec<usize> {
    let mut found = numbers.to_vec();
    found.sort();
    found.dedup();
    found
}

/// Matrices and a k for a SUM on the sheet, by their numbers in the draft, and M.
pub fn parts_of_sum(
    random: &mut Random,
    draft: &mut Draft,
    sheet: &Table,
    m: usize,
) -> (Vec<usize>, usize) {
    let room = (950 / (sheet.runs.len() * m) / sheet.levels.len()).clamp(1, 8);
    let mut ps = different(&sheet.levels);
    if random.percent(10) && !ps.contains(&11) {
        ps.push(11); // serves no column
    }
    random.shuffle(&mut ps);
    let mut k = 0;
    if m > 1 && random.percent(60) {
        k = match m {
            4 | 9 | 12 if random.percent(60) => match m {
                4 => 101,
                9 => 102,
                _ => random.between(103, 104),
            },
            _ => {
                let most = random.between(1, 3);
                let table = passing_table(random, m, most);
                draft.add(table_numbers(&table))
            }
        };
    }
    let mut matrices = Vec::new();
    for &p in &ps {
        let matrix = passing_matrix(random, p, m, room);
        matrices.push(draft.add(matrix_numbers(p, &matrix)));
    }
    (matrices, k)
}

/// An M for a SUM that leaves a small sheet; usually one that all level counts divide.
pub fn rows_for_sum(random: &mut Random, sheet: &Table) -> Option<usize> {
    let cells = sheet.runs.len() * sheet.levels.len();
    let fitting: Vec<usize> = (1..=20)
        .filter(|m| sheet.runs.len() * m <= 512 && cells * m <= 750)
        .collect();
    let even: Vec<usize> = fitting
        .iter()
        .copied()
        .filter(|m| sheet.levels.iter().all(|level| m.is_multiple_of(*level)))
        .collect();
    if !even.is_empty() && random.percent(85) {
        Some(random.pick(&even))
    } else if !fitting.is_empty() {
        Some(random.pick(&fitting))
    } else {
        None
    }
}

/// The columns of p levels, from 1.
pub fn columns_of_levels(sheet: &Table, p: usize) -> Vec<usize> {
    (1..=sheet.levels.len())
        .filter(|column| sheet.levels[column - 1] == p)
        .collect()
}

/// Members that can be merged, looked for at random.
pub fn members_of_merge(random: &mut Random, sheet: &Table) -> Option<(usize, Vec<usize>)> {
    let column = |c: usize| -> Vec<usize> { sheet.runs.iter().map(|run| run[c - 1]).collect() };
    let mut primes = [2, 3, 5, 7];
    random.shuffle(&mut primes);
    for p in primes {
        let columns = columns_of_levels(sheet, p);
        if columns.len() < p + 1 {
            continue;
        }
        for _ in 0..30 {
            let mut members = vec![random.pick(&columns), random.pick(&columns)];
            if members[0] == members[1] {
                continue;
            }
            let (first, second) = (column(members[0]), column(members[1]));
            for h in 1..p {
                let wanted: Vec<usize> = first
                    .iter()
                    .zip(&second)
                    .map(|(x, y)| (x + h * y) % p)
                    .collect();
                members.extend(columns.iter().find(|&&c| column(c) == wanted));
            }
            if members.len() == p + 1 {
                return Some((p, members));
            }
        }
    }
    None
}

/// A further step that fits, if one of the kind can be had.
pub fn right_step(random: &mut Random, draft: &mut Draft, sheet: &Table, kind: usize) -> bool {
    match kind {
        3 => {
            let Some(m) = rows_for_sum(random, sheet) else {
                return false;
            };
            let (matrices, k) = parts_of_sum(random, draft, sheet, m);
            draft.steps.push(sum(&matrices, k));
        }
        4 => {
            let Some((p, members)) = members_of_merge(random, sheet) else {
                return false;
            };
            draft.steps.push(merge(p, &members));
        }
        _ => {
            let column = random.between(1, sheet.levels.len());
            let runs = sheet.levels[column - 1];
            let i = match runs {
                4 if random.percent(50) => 101,
                9 if random.percent(50) => 102,
                12 if random.percent(50) => random.between(103, 104),
                _ => {
                    let most = random.between(1, 4);
                    let table = passing_table(random, runs, most);
                    draft.add(table_numbers(&table))
                }
            };
            draft.steps.push(split(column, i));
        }
    }
    true
}

/// A right order of a few steps.
pub fn right_order(random: &mut Random) -> Draft {
    let mut draft = Draft::default();
    if random.percent(20) {
        // An ingredient that no step will name.
        let unused = unused_ingredient(random);
        draft.add(unused);
    }
    // The kind that the second step is likely to have, where the first one prepares it.
    let mut second = None;
    if random.percent(18) {
        first_step_to_a_field(random, &mut draft);
        second = Some(3);
    } else if random.percent(55) {
        let p = random.pick(&[2, 3, 3, 5, 7]);
        first_step(random, &mut draft, Some(p));
        second = Some(4);
    } else {
        first_step(random, &mut draft, None);
    }
    let mut more = random.pick(&[0, 1, 1, 1, 2, 2, 3, 4]);
    if second.is_some() {
        more += 1;
    }
    for round in 0..more {
        let Some(sheet) = draft.sheet() else { break };
        let kind = match second {
            Some(kind) if round == 0 && random.percent(75) => kind,
            _ => random.pick(&[3, 3, 4, 5, 5]),
        };
        right_step(random, &mut draft, &sheet, kind);
    }
    draft
}

/// Any small passing ingredient.
pub fn unused_ingredient(random: &mut Random) -> Numbers {
    match random.below(4) {
        0 => {
            let runs = random.between(2, 12);
            let most = random.between(1, 3);
            table_numbers(&passing_table(random, runs, most))
        }
        1 => {
            let p = random.between(2, 12);
            let rows = p * random.between(1, 2);
            matrix_numbers(p, &passing_matrix(random, p, rows, 3))
        }
        _ => {
            let s = random.pick(&FIELDS);
            let most_t = largest_exponent(s, 512).min(4);
            let t = random.between(1, most_t);
            let most_factors = random.between(1, 4);
            passing_generator(random, s, t, most_factors, true)
        }
    }
}

/// The first columns of a passing two-level matrix, of as many rows as a power of two.
pub fn square(rows: usize, columns: usize) -> Vec<Vec<usize>> {
    let entry = |y: usize, c: usize| (y & c).count_ones() as usize % 2;
    (0..rows)
        .map(|y| (0..columns).map(|c| entry(y, c)).collect())
        .collect()
}

/// Points of a space over the field of two elements as factors of one column: number 1, 2, 3 ..
/// in base 2.
pub fn points(t: usize, count: usize) -> Vec<Vec<Vec<usize>>> {
    (1..=count)
        .map(|number| vec![crate::field::digits(number, 2, t)])
        .collect()
}
