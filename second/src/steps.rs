//! Questions 5 to 8 of one step, and the sheet that it leaves.

use crate::field;
use crate::order::{Generator, Ingredient, Matrix, Step, Table};
use crate::{refused, Answer};

/// The sheet after the step, or the step's refusal. Before the first step there is no sheet.
pub fn carry_out(
    step_number: usize,
    step: &Step,
    sheet: Option<Table>,
    ingredients: &[Ingredient],
) -> Result<Table, Answer> {
    // Question 5: a step out of turn, or an ingredient that is not there or of another kind.
    let not_to_be_had = refused(8, &[step_number]);
    let table = |number| table_of(ingredients, number).ok_or(not_to_be_had.clone());
    let matrix = |number| matrix_of(ingredients, number).ok_or(not_to_be_had.clone());
    let generator = |number| generator_of(ingredients, number).ok_or(not_to_be_had.clone());

    match (sheet, step) {
        (None, Step::Take { table: i }) => table(*i),
        (None, Step::Field { generator: i }) => Ok(field_table(&generator(*i)?)),
        (Some(sheet), Step::Sum { matrices, k }) => {
            let mut named = Vec::new();
            for &d in matrices {
                named.push(matrix(d)?);
            }
            let adjoined = if *k == 0 { None } else { Some(table(*k)?) };
            sum(step_number, &sheet, &named, adjoined)
        }
        (Some(sheet), Step::Cross { matrices, k, h }) => {
            let mut named = Vec::new();
            for &d in matrices {
                named.push(matrix(d)?);
            }
            let adjoined = if *k == 0 { None } else { Some(table(*k)?) };
            let other_side = table(*h)?;
            cross(step_number, &sheet, matrices, &named, adjoined, &other_side)
        }
        (Some(sheet), Step::Merge { p, members }) => merge(step_number, &sheet, *p, members),
        (Some(sheet), Step::Split { column, table: i }) => {
            split(step_number, &sheet, *column, &table(*i)?)
        }
        _ => Err(not_to_be_had),
    }
}

fn table_of(ingredients: &[Ingredient], number: usize) -> Option<Table> {
    if number > 100 {
        return house_table(number);
    }
    match ingredients.get(number - 1) {
        Some(Ingredient::Table(table)) => Some(table.clone()),
        _ => None,
    }
}

fn matrix_of(ingredients: &[Ingredient], number: usize) -> Option<Matrix> {
    match ingredients.get(number - 1) {
        Some(Ingredient::Matrix(matrix)) => Some(matrix.clone()),
        _ => None,
    }
}

fn generator_of(ingredients: &[Ingredient], number: usize) -> Option<Generator> {
    match ingredients.get(number - 1) {
        Some(Ingredient::Generator(generator)) => Some(generator.clone()),
        _ => None,
    }
}

fn house_table(number: usize) -> Option<Table> {
    let (levels, runs) = match number {
        101 => ("222", "000 011 101 110"),
        102 => ("3333", "0000 0111 0222 1012 1120 1201 2021 2102 2210"),
        103 => (
            "32222",
            "00000 01110 00101 01011 10001 11100 10110 11011 20010 21101 20111 21000",
        ),
        104 => ("622", "000 011 101 110 200 211 301 310 400 411 501 510"),
        _ => return None,
    };
    let digits = |word: &str| word.bytes().map(|byte| (byte - b'0') as usize).collect();
    Some(Table {
        levels: digits(levels),
        runs: runs.split(' ').map(digits).collect(),
    })
}

/// FIELD. A generator leaves at most 512 runs and 128 columns.
fn field_table(generator: &Generator) -> Table {
    let s = generator.s;
    let mut runs = Vec::new();
    for number in 0..s.pow(generator.t as u32) {
        let tuple = field::digits(number, s, generator.t);
        let mut run = Vec::new();
        for factor in &generator.factors {
            let values: Vec<usize> = factor
                .iter()
                .map(|column| times(s, &tuple, column))
                .collect();
            run.push(field::number(&values, s));
        }
        runs.push(run);
    }
    let levels = generator
        .factors
        .iter()
        .map(|factor| s.pow(factor.len() as u32))
        .collect();
    Table { levels, runs }
}

/// The tuple times a column: the products of their elements, added up.
fn times(s: usize, tuple: &[usize], column: &[usize]) -> usize {
    let mut total = 0;
    for (&a, &b) in tuple.iter().zip(column) {
        total = field::sum(s, total, field::product(s, a, b));
    }
    total
}

fn sum(
    step_number: usize,
    sheet: &Table,
    matrices: &[Matrix],
    adjoined: Option<Table>,
) -> Result<Table, Answer> {
    let (server, k) = parts_of_sum(step_number, sheet, matrices, adjoined)?;
    let nothing = no_columns(sheet.runs.len());
    summed(step_number, sheet, &server, &k, &nothing)
}

/// SUM with a table on the other side; 02, K6. The numbers are those by which the step names its
/// matrices.
fn cross(
    step_number: usize,
    sheet: &Table,
    numbers: &[usize],
    matrices: &[Matrix],
    adjoined: Option<Table>,
    h: &Table,
) -> Result<Table, Answer> {
    // Question 6 is that of SUM, and h has a run for each of the sheet.
    let (server, k) = parts_of_sum(step_number, sheet, matrices, adjoined)?;
    if h.runs.len() != sheet.runs.len() {
        return Err(refused(9, &[step_number]));
    }

    // Between questions 6 and 7. A matrix that serves no column is not asked.
    for (&number, matrix) in numbers.iter().zip(matrices) {
        if sheet.levels.contains(&matrix.p) {
            if let Some((column, value)) = first_uneven_value(matrix) {
                return Err(refused(14, &[step_number, number, column, value]));
            }
        }
    }
    summed(step_number, sheet, &server, &k, h)
}

/// The lowest column, from 1, that does not hold each value in M / p rows, and the lowest value that
/// it holds more or less often.
fn first_uneven_value(matrix: &Matrix) -> Option<(usize, usize)> {
    for column in 1..=matrix.columns {
        for value in 0..matrix.p {
            let holds_it = |row: &&Vec<usize>| row[column - 1] == value;
            let times = matrix.rows.iter().filter(holds_it).count();
            // No division, so that a remainder is uneven.
            if matrix.p * times != matrix.rows.len() {
                return Some((column, value));
            }
        }
    }
    None
}

/// Question 6 of a SUM: for each column of the sheet the matrix that serves it, and k.
fn parts_of_sum<'a>(
    step_number: usize,
    sheet: &Table,
    matrices: &'a [Matrix],
    adjoined: Option<Table>,
) -> Result<(Vec<&'a Matrix>, Table), Answer> {
    let unfit = refused(9, &[step_number]);
    let m = matrices[0].rows.len();
    for (index, matrix) in matrices.iter().enumerate() {
        let p_was_there = matrices[..index]
            .iter()
            .any(|earlier| earlier.p == matrix.p);
        if matrix.rows.len() != m || p_was_there {
            return Err(unfit);
        }
    }
    let mut server = Vec::new();
    for &level_count in &sheet.levels {
        match matrices.iter().find(|matrix| matrix.p == level_count) {
            Some(matrix) => server.push(matrix),
            None => return Err(unfit),
        }
    }
    let k = adjoined.unwrap_or(no_columns(m));
    if k.runs.len() != m {
        return Err(unfit);
    }
    Ok((server, k))
}

/// Nothing adjoined is so many runs of no columns.
fn no_columns(runs: usize) -> Table {
    Table {
        levels: vec![],
        runs: vec![vec![]; runs],
    }
}

/// Question 8 of a SUM or CROSS, and the new sheet: the sums, then k's columns at the matrix row,
/// then h's at the old run.
fn summed(
    step_number: usize,
    sheet: &Table,
    server: &[&Matrix],
    k: &Table,
    h: &Table,
) -> Result<Table, Answer> {
    let m = k.runs.len();
    let of_sums: usize = server.iter().map(|matrix| matrix.columns).sum();
    let columns = of_sums + k.levels.len() + h.levels.len();
    within_limits(step_number, sheet.runs.len() * m, columns)?;

    let mut levels = Vec::new();
    for matrix in server {
        for _ in 0..matrix.columns {
            levels.push(matrix.p);
        }
    }
    levels.extend(&k.levels);
    levels.extend(&h.levels);

    let mut runs = Vec::new();
    for (i, sheet_run) in sheet.runs.iter().enumerate() {
        for y in 0..m {
            let mut run = Vec::new();
            for (j, matrix) in server.iter().enumerate() {
                for c in 0..matrix.columns {
                    run.push(field::matrix_sum(matrix.p, sheet_run[j], matrix.rows[y][c]));
                }
            }
            run.extend(&k.runs[y]);
            run.extend(&h.runs[i]);
            runs.push(run);
        }
    }
    Ok(Table { levels, runs })
}

fn merge(step_number: usize, sheet: &Table, p: usize, members: &[usize]) -> Result<Table, Answer> {
    // Question 6.
    let unfit = refused(9, &[step_number]);
    for (index, member) in members.iter().enumerate() {
        if *member > sheet.levels.len()
            || members[..index].contains(member)
            || sheet.levels[member - 1] != p
        {
            return Err(unfit);
        }
    }

    // Question 7.
    if let Some((run, member)) = check_members(sheet, p, members).wrong {
        return Err(refused(10, &[step_number, run, member]));
    }

    // Question 8. There are fewer columns than before, and no more runs.
    let mut levels = Vec::new();
    let mut runs = vec![Vec::new(); sheet.runs.len()];
    for column in 1..=sheet.levels.len() {
        if column == members[0] {
            levels.push(p * p);
            for (new, old) in runs.iter_mut().zip(&sheet.runs) {
                new.push(p * old[members[0] - 1] + old[members[1] - 1]);
            }
        } else if !members.contains(&column) {
            levels.push(sheet.levels[column - 1]);
            for (new, old) in runs.iter_mut().zip(&sheet.runs) {
                new.push(old[column - 1]);
            }
        }
    }
    Ok(Table { levels, runs })
}

/// What question 7 finds of a MERGE.
#[derive(Clone, Copy, Debug, PartialEq, Eq)]
pub struct MemberCheck {
    /// The lowest run with a member that is not its sum, and the lowest such member in it.
    pub wrong: Option<(usize, usize)>,
    /// How many runs were looked at; 02, K4.
    pub runs_needed: usize,
}

/// Question 7, of members that question 6 lets through: is each its sum in every run? The first run in
/// which one is not ends the check, and the rest are not looked at.
pub fn check_members(sheet: &Table, p: usize, members: &[usize]) -> MemberCheck {
    let mut runs_needed = 0;
    for (run_number, run) in sheet.runs.iter().enumerate() {
        runs_needed += 1;
        if let Some(member) = lowest_wrong_member(run, p, members) {
            return MemberCheck {
                wrong: Some((run_number, member)),
                runs_needed,
            };
        }
    }
    MemberCheck {
        wrong: None,
        runs_needed,
    }
}

/// Member h stands at h - 1 in the list of members.
fn lowest_wrong_member(run: &[usize], p: usize, members: &[usize]) -> Option<usize> {
    let entry = |h: usize| run[members[h - 1] - 1];
    (3..=p + 1).find(|&h| entry(h) != (entry(1) + (h - 2) * entry(2)) % p)
}

fn split(step_number: usize, sheet: &Table, column: usize, table: &Table) -> Result<Table, Answer> {
    // Question 6.
    if column > sheet.levels.len() || sheet.levels[column - 1] != table.runs.len() {
        return Err(refused(9, &[step_number]));
    }

    // Question 8.
    let columns = sheet.levels.len() - 1 + table.levels.len();
    within_limits(step_number, sheet.runs.len(), columns)?;

    let in_its_place =
        |old: &[usize], new: &[usize]| [&old[..column - 1], new, &old[column..]].concat();
    let levels = in_its_place(&sheet.levels, &table.levels);
    let mut runs = Vec::new();
    for run in &sheet.runs {
        let level = run[column - 1];
        runs.push(in_its_place(run, &table.runs[level]));
    }
    Ok(Table { levels, runs })
}

/// Question 8.
fn within_limits(step_number: usize, runs: usize, columns: usize) -> Result<(), Answer> {
    if runs > 512 || columns > 128 {
        return Err(refused(11, &[step_number, runs, columns]));
    }
    Ok(())
}
