//! The steps. Each later step builds its sheet in the buffer that is free, so that nothing is copied
//! back until the end. Of the refusals of a step 10 and 14 alone are written.

use super::merge::{first_wrong, modulo_p, Merging};
use super::nine;
use super::read::{Ingredient, Order, Shape, Step};
use super::Stop;
use crate::planners::{filled, Buffers, Outcome};
use std::mem::swap;

const HOUSE_TABLE_101: [[u8; 3]; 4] = [[0, 0, 0], [0, 1, 1], [1, 0, 1], [1, 1, 0]];

/// The entries of the matrix that serves a level count, as bytes, and its columns.
type Served = (Vec<u8>, usize);

/// The matrix for each level count, of no columns where there is none, and how many rows all of them have.
struct Servers {
    of_p: Vec<Served>,
    rows: usize,
}

/// The table of a CROSS.
struct OtherSide {
    levels: Vec<u8>,
    cells: Vec<u8>,
}

impl OtherSide {
    fn of(table: &Ingredient, runs: usize) -> Result<OtherSide, Stop> {
        let Shape::Table { levels } = table.shape else {
            return Err(Stop::NotWritten);
        };
        if table.entries.len() != runs * levels.len() {
            return Err(Stop::NotWritten);
        }
        Ok(OtherSide {
            levels: levels.iter().map(|&level| level as u8).collect(),
            cells: table.entries.iter().map(|&entry| entry as u8).collect(),
        })
    }
}

/// A sheet; its cells are the first of the buffer that it lies in.
struct Sheet<'b> {
    runs: usize,
    levels: Vec<u8>,
    cells: &'b mut [u8],
    free: &'b mut [u8],
}

pub fn carry_out(order: &Order, buffers: &mut Buffers) -> Result<Outcome, Stop> {
    let (first, later) = order.steps.split_first().ok_or(Stop::NotWritten)?;
    let mut sheet = Sheet {
        runs: 0,
        levels: Vec::new(),
        cells: &mut buffers.table,
        free: &mut buffers.scratch,
    };
    match *first {
        Step::Take { table: 101 } => sheet.take_101(),
        Step::Take { table } => sheet.take(ingredient(order, table)?)?,
        Step::Field { generator } => sheet.field(ingredient(order, generator)?)?,
        _ => return Err(Stop::NotWritten),
    }
    for (index, step) in later.iter().enumerate() {
        match *step {
            Step::Sum { matrices } => {
                let served = sheet.served(order, matrices)?;
                sheet.sum(&served, None)?;
            }
            Step::Cross { matrices, h } => {
                let served = sheet.served(order, matrices)?;
                let other_side = OtherSide::of(ingredient(order, h)?, sheet.runs)?;
                sheet.columns_are_even(index + 2, order, matrices)?;
                sheet.sum(&served, Some(&other_side))?;
            }
            Step::Merge { members } => sheet.merge(index + 2, members)?,
            Step::Split { column, table: 101 } => sheet.split(column)?,
            _ => return Err(Stop::NotWritten),
        }
        swap(&mut sheet.cells, &mut sheet.free);
    }
    let Sheet { runs, levels, .. } = sheet;
    let cells = runs * levels.len();
    if later.len() % 2 == 1 {
        buffers.table[..cells].copy_from_slice(&buffers.scratch[..cells]);
    }
    buffers.table[cells..].fill(0);
    buffers.levels[..levels.len()].copy_from_slice(&levels);
    buffers.levels[levels.len()..].fill(0);
    buffers.scratch.fill(0);
    Ok(filled(runs, levels.len(), spare(runs, &levels)))
}

fn spare(runs: usize, levels: &[u8]) -> i64 {
    let held: i64 = levels.iter().map(|&level| i64::from(level) - 1).sum();
    runs as i64 - 1 - held
}

fn ingredient<'a>(order: &'a Order, number: usize) -> Result<&'a Ingredient<'a>, Stop> {
    order.ingredients.get(number - 1).ok_or(Stop::NotWritten)
}

impl Sheet<'_> {
    fn take_101(&mut self) {
        let cells = HOUSE_TABLE_101.as_flattened();
        self.runs = 4;
        self.levels = vec![2; 3];
        self.cells[..cells.len()].copy_from_slice(cells);
    }

    fn take(&mut self, table: &Ingredient) -> Result<(), Stop> {
        let Shape::Table { levels } = table.shape else {
            return Err(Stop::NotWritten);
        };
        self.runs = table.entries.len() / levels.len();
        self.levels = levels.iter().map(|&level| level as u8).collect();
        for (cell, &entry) in self.cells.iter_mut().zip(table.entries) {
            *cell = entry as u8;
        }
        Ok(())
    }

    /// The runs whose coordinate of one row is 1 are those before them with the row added; the last
    /// coordinate is the fastest.
    fn field(&mut self, generator: &Ingredient) -> Result<(), Stop> {
        let Shape::Generator { factors } = generator.shape else {
            return Err(Stop::NotWritten);
        };
        self.levels = vec![2; factors];
        self.cells[..factors].fill(0);
        self.runs = 1;
        for row in generator.entries.chunks_exact(factors).rev() {
            let (done, rest) = self.cells.split_at_mut(self.runs * factors);
            let runs = done.chunks_exact(factors);
            for (run, new) in runs.zip(rest.chunks_exact_mut(factors)) {
                for ((new, cell), &entry) in new.iter_mut().zip(run).zip(row) {
                    *new = cell ^ entry as u8;
                }
            }
            self.runs *= 2;
        }
        Ok(())
    }

    /// Question 6 of SUM.
    fn served(&self, order: &Order, matrices: &[u16]) -> Result<Servers, Stop> {
        let mut of_p: Vec<Served> = vec![(Vec::new(), 0); 65];
        let mut rows = 0;
        for (index, &d) in matrices.iter().enumerate() {
            let matrix = ingredient(order, d.into())?;
            let Shape::Matrix { columns, p } = matrix.shape else {
                return Err(Stop::NotWritten);
            };
            let matrix_rows = matrix.entries.len() / columns;
            let served = &mut of_p[usize::from(p)];
            if index > 0 && matrix_rows != rows || served.1 > 0 {
                return Err(Stop::NotWritten);
            }
            rows = matrix_rows;
            *served = (matrix.entries.iter().map(|&e| e as u8).collect(), columns);
        }
        let is_served = |&level: &u8| of_p[usize::from(level)].1 > 0;
        match self.levels.iter().all(is_served) {
            true => Ok(Servers { of_p, rows }),
            false => Err(Stop::NotWritten),
        }
    }

    /// 02, K6: each value of each column equally often, in the matrices that serve. They are gone through
    /// row by row, with a counter for each value of each column.
    fn columns_are_even(
        &self,
        step_number: usize,
        order: &Order,
        matrices: &[u16],
    ) -> Result<(), Stop> {
        for &d in matrices {
            let matrix = ingredient(order, d.into())?;
            let Shape::Matrix { columns, p } = matrix.shape else {
                return Err(Stop::NotWritten);
            };
            if !self.levels.contains(&(p as u8)) {
                continue;
            }
            let p = usize::from(p);
            let mut times = vec![0; columns * p];
            for row in matrix.entries.chunks_exact(columns) {
                for (counters, &entry) in times.chunks_exact_mut(p).zip(row) {
                    counters[usize::from(entry)] += 1;
                }
            }
            let rows = matrix.entries.len() / columns;
            if let Some(place) = times.iter().position(|times| p * times != rows) {
                let (column, value) = (place / p + 1, place % p);
                let numbers = [14, step_number, d.into(), column, value, 0, 0];
                return Err(Stop::Refused(numbers));
            }
        }
        Ok(())
    }

    /// SUM, or with another side CROSS.
    fn sum(&mut self, served: &Servers, other_side: Option<&OtherSide>) -> Result<(), Stop> {
        let of_column = |&level: &u8| &served.of_p[usize::from(level)];
        let repeated = |level: &u8| vec![*level; of_column(level).1];
        let mut levels: Vec<u8> = self.levels.iter().flat_map(repeated).collect();
        let sums = levels.len();
        levels.extend(other_side.iter().flat_map(|other_side| &other_side.levels));
        within_limits(self.runs * served.rows, levels.len())?;

        // 02, K2: the sum is that of the field for 4, 8 and 9, and modulo p for every other p.
        let all = |fits: fn(u8) -> bool| self.levels.iter().all(|&p| fits(p));
        if all(|p| p == 4 || p == 8) {
            self.put(served, other_side, &levels[..sums], |_, a, b| a ^ b);
        } else if all(|p| p == 9) {
            self.put(served, other_side, &levels[..sums], |_, a, b| {
                nine::sum(a, b)
            });
        } else if all(|p| ![4, 8, 9].contains(&p)) {
            self.put(served, other_side, &levels[..sums], modulo_p);
        } else {
            return Err(Stop::NotWritten);
        }
        self.levels = levels;
        self.runs *= served.rows;
        Ok(())
    }

    /// The new runs; a sum is given a level count, a cell and an entry.
    fn put(
        &mut self,
        served: &Servers,
        other_side: Option<&OtherSide>,
        ps: &[u8],
        sum: impl Fn(u8, u8, u8) -> u8,
    ) {
        match other_side {
            None => self.put_sums(served, sum),
            Some(other_side) => self.put_crossed(served, other_side, ps, sum),
        }
    }

    fn put_sums(&mut self, served: &Servers, sum: impl Fn(u8, u8, u8) -> u8) {
        let mut place = 0;
        for run in self.cells.chunks_exact(self.levels.len()).take(self.runs) {
            for y in 0..served.rows {
                for (&p, &cell) in self.levels.iter().zip(run) {
                    let (entries, columns) = &served.of_p[usize::from(p)];
                    let row = &entries[y * columns..(y + 1) * columns];
                    let new = &mut self.free[place..place + columns];
                    for (new, &entry) in new.iter_mut().zip(row) {
                        *new = sum(p, cell, entry);
                    }
                    place += columns;
                }
            }
        }
    }

    /// Even columns are seldom as many as a power of two, so that a loop over those of one matrix is slow.
    /// Cells and rows are laid out as the new columns stand, and a new run's sums are one loop.
    fn put_crossed(
        &mut self,
        served: &Servers,
        other_side: &OtherSide,
        ps: &[u8],
        sum: impl Fn(u8, u8, u8) -> u8,
    ) {
        let mut rows = Vec::with_capacity(served.rows * ps.len());
        for y in 0..served.rows {
            for &p in &self.levels {
                let (entries, columns) = &served.of_p[usize::from(p)];
                rows.extend_from_slice(&entries[y * columns..(y + 1) * columns]);
            }
        }
        let mut wide = vec![0; ps.len()];
        let width = ps.len() + other_side.levels.len();
        let runs = self.cells.chunks_exact(self.levels.len()).take(self.runs);
        let others = other_side.cells.chunks_exact(other_side.levels.len());
        let groups = self.free.chunks_exact_mut(served.rows * width);
        for ((run, other), group) in runs.zip(others).zip(groups) {
            let mut place = 0;
            for (&p, &cell) in self.levels.iter().zip(run) {
                let columns = served.of_p[usize::from(p)].1;
                wide[place..place + columns].fill(cell);
                place += columns;
            }
            let rows = rows.chunks_exact(ps.len());
            for (new, row) in group.chunks_exact_mut(width).zip(rows) {
                let (sums, last) = new.split_at_mut(ps.len());
                let parts = wide.iter().zip(row).zip(ps);
                for (new, ((&cell, &entry), &p)) in sums.iter_mut().zip(parts) {
                    *new = sum(p, cell, entry);
                }
                last.copy_from_slice(other);
            }
        }
    }

    fn merge(&mut self, step_number: usize, members: &[u16]) -> Result<(), Stop> {
        let members: Vec<usize> = members.iter().map(|&c| usize::from(c) - 1).collect();
        let p = (members.len() - 1) as u8;
        let mut sorted = members.clone();
        sorted.sort_unstable();
        sorted.dedup();
        let fits = |c: &usize| self.levels.get(*c) == Some(&p);
        if sorted.len() < members.len() || !members.iter().all(fits) {
            return Err(Stop::NotWritten);
        }
        let width = self.levels.len();
        let cells = &self.cells[..self.runs * width];
        if let Some((run, member)) = first_wrong(cells, width, &members) {
            return Err(Stop::Refused([10, step_number, run, member, 0, 0, 0]));
        }

        let (first, second) = (members[0], members[1]);
        let merging = Merging::of(first, &sorted, width);
        merging.put(cells, |run| p * run[first] + run[second], self.free);
        let mut levels = vec![0; width - usize::from(p)];
        merging.put(&self.levels, |_| p * p, &mut levels);
        self.levels = levels;
        Ok(())
    }

    /// By house table 101, for a column of four levels.
    fn split(&mut self, column: usize) -> Result<(), Stop> {
        let width = self.levels.len();
        let c = column - 1;
        if self.levels.get(c) != Some(&4) {
            return Err(Stop::NotWritten);
        }
        let new_width = width + 2;
        within_limits(self.runs, new_width)?;
        let runs = self.cells.chunks_exact(width).take(self.runs);
        for (run, new) in runs.zip(self.free.chunks_exact_mut(new_width)) {
            new[..c].copy_from_slice(&run[..c]);
            new[c..c + 3].copy_from_slice(&HOUSE_TABLE_101[usize::from(run[c])]);
            new[c + 3..].copy_from_slice(&run[c + 1..]);
        }
        self.levels.splice(c..c + 1, [2; 3]);
        Ok(())
    }
}

/// Question 8.
fn within_limits(runs: usize, columns: usize) -> Result<(), Stop> {
    if runs > 512 || columns > 128 {
        return Err(Stop::NotWritten);
    }
    Ok(())
}
