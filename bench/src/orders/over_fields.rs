//! Tables and matrices for 4, 8 and 9 levels. The matrices pass modulo p as well as over the field, so
//! that a line has the same answer, or for SUM a table as large, before and after 02's K2.

use super::{cells, matrix};

/// Sequences over the field of 2 or 3 elements, from every start. A level has some terms of one for its
/// digits, the first lowest, so that a column is even unless its digits depend on each other.
pub struct Sequences {
    pub q: usize,
    /// A term is the sum of the terms before it, as many as these numbers, times these.
    pub recurrence: &'static [usize],
    pub digits: usize,
    /// From one digit to the next.
    pub gap: usize,
}

impl Sequences {
    fn p(&self) -> usize {
        self.q.pow(self.digits as u32)
    }

    fn count(&self) -> usize {
        self.q.pow(self.recurrence.len() as u32)
    }

    /// The column whose lowest digits are the terms at `first`.
    fn column(&self, sequences: &[Vec<usize>], first: usize) -> Vec<usize> {
        let level = |terms: &Vec<usize>| {
            let places = (0..self.digits).rev().map(|digit| first + digit * self.gap);
            places.fold(0, |level, place| self.q * level + terms[place])
        };
        sequences.iter().map(level).collect()
    }

    fn all(&self) -> Vec<Vec<usize>> {
        let length = self.count() + self.digits * self.gap;
        (0..self.count()).map(|y| self.from(y, length)).collect()
    }

    fn from(&self, start: usize, length: usize) -> Vec<usize> {
        let n = self.recurrence.len();
        let mut terms: Vec<usize> = (0..n)
            .map(|place| start / self.q.pow(place as u32) % self.q)
            .collect();
        while terms.len() < length {
            let before = terms[terms.len() - n..].iter().zip(self.recurrence);
            terms.push(before.map(|(term, factor)| term * factor).sum::<usize>() % self.q);
        }
        terms
    }

    /// A table of the first columns, as many as the gap or fewer. With n terms before each, the gap is
    /// (q^n - 1) / (p - 1), so that no combination of digits is that of two columns.
    pub fn table(&self, columns: usize) -> Vec<u16> {
        let sequences = self.all();
        let columns: Vec<_> = (0..columns).map(|c| self.column(&sequences, c)).collect();
        let mut table = vec![1, sequences.len() as u16, columns.len() as u16];
        table.extend(vec![self.p() as u16; columns.len()]);
        table.extend(cells(sequences.len(), columns.len(), |y, c| {
            columns[c][y] as u16
        }));
        table
    }

    /// A matrix with each row so many times: zeros, and the first columns that are even by both rules
    /// with all before them. How many there are was tried.
    pub fn matrix(&self, columns: usize, times: usize) -> Vec<u16> {
        let sequences = self.all();
        let mut taken = vec![vec![0; sequences.len()]];
        for first in 0..sequences.len() - 1 {
            let column = self.column(&sequences, first);
            if taken.iter().all(|other| self.even(other, &column)) {
                taken.push(column);
            }
        }
        assert!(taken.len() >= columns);
        let rows = sequences.len();
        matrix(self.p() as u16, times * rows, columns, |y, c| {
            taken[c][y % rows] as u16
        })
    }

    /// Modulo p, and digit by digit.
    fn even(&self, a: &[usize], b: &[usize]) -> bool {
        let p = self.p();
        let mut times = vec![[0; 2]; p];
        for (&x, &y) in a.iter().zip(b) {
            times[(x + p - y) % p][0] += 1;
            times[self.difference(x, y)][1] += 1;
        }
        times.iter().all(|both| *both == [a.len() / p; 2])
    }

    fn difference(&self, x: usize, y: usize) -> usize {
        let q = self.q;
        let digit = |place: usize| (x / place + q - y / place % q) % q * place;
        (0..self.digits as u32).map(|d| digit(q.pow(d))).sum()
    }
}
