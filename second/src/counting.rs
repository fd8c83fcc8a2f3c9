//! Question 4: does an ingredient pass? Every count is made over, in the words of 01.

use crate::field;
use crate::order::{Generator, Ingredient, Matrix, Table};
use crate::{refused, Answer};

/// Refuses the ingredient of this number if it does not pass.
pub fn check(ingredient_number: usize, ingredient: &Ingredient) -> Result<(), Answer> {
    match ingredient {
        Ingredient::Table(table) => check_table(ingredient_number, table).verdict,
        Ingredient::Matrix(matrix) => check_matrix(ingredient_number, matrix),
        Ingredient::Generator(generator) => check_generator(ingredient_number, generator),
    }
}

/// 0-1, 0-2, .., then 1-2, and so on.
fn pairs(count: usize) -> Vec<(usize, usize)> {
    let mut found = Vec::new();
    for a in 0..count {
        for b in a + 1..count {
            found.push((a, b));
        }
    }
    found
}

/// What the check of a table answers.
#[derive(Clone, Debug, PartialEq, Eq)]
pub struct TableCheck {
    /// That the table passes, or why it does not.
    pub verdict: Result<(), Answer>,
    /// s × t × times - N of the pair of levels that refusal 5 names, below zero where the pair is short
    /// and above where it is over; 0 in every other case. 02, K5.
    pub gap: i64,
    /// How many pairs of columns were counted, with the one that refusal 5 names for the last; 0 where
    /// the check did not come to the pairs. 02, K8.
    pub pairs: usize,
}

impl TableCheck {
    /// Refused before a pair of columns was counted.
    pub(crate) fn refused(refusal: Answer) -> TableCheck {
        TableCheck {
            verdict: Err(refusal),
            gap: 0,
            pairs: 0,
        }
    }
}

/// Question 4, of a table that is the ingredient of this number.
pub fn check_table(ingredient_number: usize, table: &Table) -> TableCheck {
    let n = table.runs.len();
    for (a, &s) in table.levels.iter().enumerate() {
        for x in 0..s {
            let times = table.runs.iter().filter(|run| run[a] == x).count();
            if s * times != n {
                return TableCheck::refused(refused(4, &[ingredient_number, a + 1, x, times]));
            }
        }
    }
    let mut counted = 0;
    for (a, b) in pairs(table.levels.len()) {
        counted += 1;
        if let Some(LevelPair { x, y, times, gap }) = farthest_pair(table, a, b) {
            let refusal = refused(5, &[ingredient_number, a + 1, b + 1, x, y, times]);
            return TableCheck {
                verdict: Err(refusal),
                gap,
                pairs: counted,
            };
        }
    }
    TableCheck {
        verdict: Ok(()),
        gap: 0,
        pairs: counted,
    }
}

/// A pair of levels of two columns: in how many runs it stands, and how far that is from even.
#[derive(Clone, Copy, Debug, PartialEq, Eq)]
pub struct LevelPair {
    pub x: usize,
    pub y: usize,
    pub times: usize,
    /// s × t × times - N.
    pub gap: i64,
}

/// The pairs of levels of columns a and b, both counted from 0: 0-0, 0-1, .., then 1-0, and so on.
pub fn level_pairs(table: &Table, a: usize, b: usize) -> impl Iterator<Item = LevelPair> + '_ {
    let n = table.runs.len() as i64;
    let (s, t) = (table.levels[a], table.levels[b]);
    let pair = move |x: usize, y: usize| {
        let is_pair = |run: &&Vec<usize>| run[a] == x && run[b] == y;
        let times = table.runs.iter().filter(is_pair).count();
        let gap = (s * t * times) as i64 - n;
        LevelPair { x, y, times, gap }
    };
    (0..s).flat_map(move |x| (0..t).map(move |y| pair(x, y)))
}

/// The pair of levels whose gap is largest in size, sign ignored, and the first of them among equals.
/// There is none where every gap is 0.
fn farthest_pair(table: &Table, a: usize, b: usize) -> Option<LevelPair> {
    let mut farthest = None;
    let mut size = 0;
    for pair in level_pairs(table, a, b) {
        if pair.gap.abs() > size {
            size = pair.gap.abs();
            farthest = Some(pair);
        }
    }
    farthest
}

fn check_matrix(ingredient_number: usize, matrix: &Matrix) -> Result<(), Answer> {
    let p = matrix.p;
    for (a, b) in pairs(matrix.columns) {
        for difference in 0..p {
            // First minus second is the difference when second plus difference is first.
            let times = matrix
                .rows
                .iter()
                .filter(|row| field::matrix_sum(p, row[b], difference) == row[a])
                .count();
            if p * times != matrix.rows.len() {
                return Err(refused(
                    6,
                    &[ingredient_number, a + 1, b + 1, difference, times],
                ));
            }
        }
    }
    Ok(())
}

fn check_generator(ingredient_number: usize, generator: &Generator) -> Result<(), Answer> {
    let factors = &generator.factors;
    if factors.len() == 1 {
        if let Some(list) = least_combination_to_zero(generator.s, &factors[0]) {
            return Err(refused(7, &[ingredient_number, 1, 0, list]));
        }
    }
    for (a, b) in pairs(factors.len()) {
        let columns = [factors[a].clone(), factors[b].clone()].concat();
        if let Some(list) = least_combination_to_zero(generator.s, &columns) {
            return Err(refused(7, &[ingredient_number, a + 1, b + 1, list]));
        }
    }
    Ok(())
}

/// The least list of coefficients, not all zero, that combines the columns to zero; as a number.
fn least_combination_to_zero(s: usize, columns: &[Vec<usize>]) -> Option<usize> {
    let lists = s.pow(columns.len() as u32);
    (1..lists).find(|&list| {
        let coefficients = field::digits(list, s, columns.len());
        field::combine(s, &coefficients, columns)
            .iter()
            .all(|&value| value == 0)
    })
}
