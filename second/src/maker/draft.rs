//! Orders in the making, with what each number is there for.

use super::Call;
use crate::order::Table;
use crate::Answer;

/// What a number of an order is there for; an entry with the number that it must be below.
#[derive(Clone, Copy, Debug, PartialEq, Eq)]
pub enum Role {
    IngredientCount,
    IngredientKind,
    Rows,
    Columns,
    Level,
    P,
    S,
    U,
    Entry(usize),
    StepCount,
    StepKind,
    MatrixCount,
    Ingredient,
    IngredientOrNone,
    MergeP,
    Column,
}

pub type Numbers = Vec<(Role, usize)>;

/// An order in the making.
#[derive(Clone, Default)]
pub struct Draft {
    pub ingredients: Vec<Numbers>,
    pub steps: Vec<Numbers>,
}

impl Draft {
    pub fn numbers(&self) -> Numbers {
        let mut all = vec![(Role::IngredientCount, self.ingredients.len())];
        all.extend(self.ingredients.concat());
        all.push((Role::StepCount, self.steps.len()));
        all.extend(self.steps.concat());
        all
    }

    /// The ingredient's number.
    pub fn add(&mut self, ingredient: Numbers) -> usize {
        self.ingredients.push(ingredient);
        self.ingredients.len()
    }

    /// The sheet that the order leaves as it stands.
    pub fn sheet(&self) -> Option<Table> {
        match Call::of(plain(&self.numbers())).answer() {
            Answer::Filled { levels, table, .. } => {
                let cells: Vec<usize> = table.iter().map(|&cell| cell.into()).collect();
                Some(Table {
                    levels: levels.iter().map(|&level| level.into()).collect(),
                    runs: cells.chunks(levels.len()).map(|run| run.to_vec()).collect(),
                })
            }
            Answer::Refused { .. } => None,
        }
    }
}

pub fn plain(numbers: &[(Role, usize)]) -> Vec<u16> {
    numbers.iter().map(|&(_, number)| number as u16).collect()
}

// Ingredients and steps as numbers.

pub fn table_numbers(table: &Table) -> Numbers {
    let mut all = vec![
        (Role::IngredientKind, 1),
        (Role::Rows, table.runs.len()),
        (Role::Columns, table.levels.len()),
    ];
    for &level in &table.levels {
        all.push((Role::Level, level));
    }
    for run in &table.runs {
        for (&level, &entry) in table.levels.iter().zip(run) {
            all.push((Role::Entry(level), entry));
        }
    }
    all
}

pub fn matrix_numbers(p: usize, rows: &[Vec<usize>]) -> Numbers {
    let mut all = vec![
        (Role::IngredientKind, 2),
        (Role::Rows, rows.len()),
        (Role::Columns, rows[0].len()),
        (Role::P, p),
    ];
    for &entry in rows.iter().flatten() {
        all.push((Role::Entry(p), entry));
    }
    all
}

/// A factor is its columns.
pub fn generator_numbers(s: usize, t: usize, factors: &[Vec<Vec<usize>>]) -> Numbers {
    let mut all = vec![
        (Role::IngredientKind, 3),
        (Role::Rows, t),
        (Role::Columns, factors.len()),
        (Role::S, s),
    ];
    for factor in factors {
        all.push((Role::U, factor.len()));
    }
    for coordinate in 0..t {
        for column in factors.iter().flatten() {
            all.push((Role::Entry(s), column[coordinate]));
        }
    }
    all
}

pub fn take(table: usize) -> Numbers {
    vec![(Role::StepKind, 1), (Role::Ingredient, table)]
}

pub fn field(generator: usize) -> Numbers {
    vec![(Role::StepKind, 2), (Role::Ingredient, generator)]
}

pub fn sum(matrices: &[usize], k: usize) -> Numbers {
    let mut all = vec![(Role::StepKind, 3), (Role::MatrixCount, matrices.len())];
    for &matrix in matrices {
        all.push((Role::Ingredient, matrix));
    }
    all.push((Role::IngredientOrNone, k));
    all
}

pub fn cross(matrices: &[usize], k: usize, h: usize) -> Numbers {
    let mut all = sum(matrices, k);
    all[0].1 = 6;
    all.push((Role::Ingredient, h));
    all
}

pub fn merge(p: usize, members: &[usize]) -> Numbers {
    let mut all = vec![(Role::StepKind, 4), (Role::MergeP, p)];
    for &member in members {
        all.push((Role::Column, member));
    }
    all
}

pub fn split(column: usize, table: usize) -> Numbers {
    vec![
        (Role::StepKind, 5),
        (Role::Column, column),
        (Role::Ingredient, table),
    ]
}
