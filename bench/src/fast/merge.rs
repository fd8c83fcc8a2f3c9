//! MERGE: its question 7, and where the columns of its sheet come from. Members are given by the places of
//! their columns, from 0.

use std::ops::Range;

/// Question 7: the first run with a member that is not its sum, and the lowest such member of it, from 1.
pub fn first_wrong(cells: &[u8], width: usize, members: &[usize]) -> Option<(usize, usize)> {
    // A p that is a constant lets the members of a run be looked at without a loop.
    match members.len() {
        3 => first_wrong_of::<2>(cells, width, members),
        4 => first_wrong_of::<3>(cells, width, members),
        6 => first_wrong_of::<5>(cells, width, members),
        _ => first_wrong_of::<7>(cells, width, members),
    }
}

fn first_wrong_of<const P: u8>(
    cells: &[u8],
    width: usize,
    members: &[usize],
) -> Option<(usize, usize)> {
    let members = &members[..=usize::from(P)];
    // No branch for each member, which is faster; the member is looked for in the run that has one.
    let any = |run: &[u8]| wrong::<P>(run, members).fold(false, |any, wrong| any | wrong);
    let mut runs = cells.chunks_exact(width).enumerate();
    let (number, run) = runs.find(|(_, run)| any(run))?;
    let place = wrong::<P>(run, members).position(|wrong| wrong)?;
    Some((number, place + 3))
}

/// Of each member from the third on, whether it is not its sum; the sums stay below p.
fn wrong<'a, const P: u8>(run: &'a [u8], members: &'a [usize]) -> impl Iterator<Item = bool> + 'a {
    let (mut sum, second) = (run[members[0]], run[members[1]]);
    members[2..].iter().map(move |&place| {
        sum = modulo_p(P, sum, second);
        run[place] != sum
    })
}

/// The sum of two numbers below p.
pub fn modulo_p(p: u8, cell: u8, entry: u8) -> u8 {
    let total = cell + entry;
    if total < p {
        total
    } else {
        total - p
    }
}

/// How rows with the members become rows with the merged column.
pub struct Merging {
    width: usize,
    new_width: usize,
    merged_place: usize,
    /// The columns that stay, each range with the place that it goes to.
    staying: Vec<(Range<usize>, usize)>,
}

impl Merging {
    /// Of different members, the first of which gives its place to the merged column.
    pub fn of(first: usize, sorted: &[usize], width: usize) -> Merging {
        let starts = [0].into_iter().chain(sorted.iter().map(|c| c + 1));
        let ends = sorted.iter().copied().chain([width]);
        let between = starts.zip(ends).enumerate();
        let placed = |(before, (start, end)): (usize, (usize, usize))| {
            let place = start - before + usize::from(first < start);
            (start < end).then_some((start..end, place))
        };
        Merging {
            width,
            new_width: width + 1 - sorted.len(),
            merged_place: first - sorted.partition_point(|&c| c < first),
            staying: between.filter_map(placed).collect(),
        }
    }

    /// The rows stand one after the other; `merged` gives a row's level in the merged column. A range of
    /// all rows at a time, and nothing for a row that keeps no column, is faster than a row at a time.
    pub fn put(&self, rows: &[u8], merged: impl Fn(&[u8]) -> u8, new: &mut [u8]) {
        let rows = rows.chunks_exact(self.width);
        for (range, place) in &self.staying {
            let places = *place..place + range.len();
            for (row, new) in rows.clone().zip(new.chunks_exact_mut(self.new_width)) {
                new[places.clone()].copy_from_slice(&row[range.clone()]);
            }
        }
        let merged_cells = new[self.merged_place..].iter_mut();
        for (row, cell) in rows.zip(merged_cells.step_by(self.new_width)) {
            *cell = merged(row);
        }
    }
}
