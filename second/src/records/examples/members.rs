//! MERGE of members that are sums in every run, or not in some of them; 02, K4.

use crate::text::spaced;

/// Orders with their names.
pub fn members() -> Vec<(String, String)> {
    let mut orders = Vec::new();
    for p in [2, 3, 5, 7] {
        orders.extend(one_member(p));
        // With p = 2 the third member alone is a sum.
        if p > 2 {
            orders.extend(two_members(p));
        }
    }
    orders
}

/// The last member wrong in no run, in the first ones or in the last ones. No even table has it wrong
/// in the last run alone: then a pair with another member would be there once too often.
fn one_member(p: usize) -> Vec<(String, String)> {
    let (last, wrong, n) = (p + 1, 2 * p, 2 * p * p);
    vec![
        (
            format!("p = {p}, wrong in none of {n} runs"),
            TwoCopies::of(p).order(),
        ),
        (
            format!("p = {p}, wrong in the first {wrong} of {n} runs"),
            TwoCopies::of(p).exchange(0, last, p - 2, p - 1).order(),
        ),
        (
            format!("p = {p}, wrong in the last {wrong} of {n} runs"),
            TwoCopies::of(p).exchange(1, last, 0, 1).order(),
        ),
    ]
}

/// Two members wrong in the same run; and each in runs of its own, the higher member in the lower ones.
fn two_members(p: usize) -> Vec<(String, String)> {
    let (middle, last) = ((p + 3) / 2, p + 1);
    let second_copy = p * p;
    let before_it = second_copy - 2 * p;
    vec![
        (
            format!("p = {p}, members {middle} and {last} wrong in run {second_copy}"),
            TwoCopies::of(p)
                .exchange(1, middle, p - 2, p - 1)
                .exchange(1, last, p - 2, p - 1)
                .order(),
        ),
        (
            format!(
                "p = {p}, member {last} wrong in run {before_it}, member 3 in run {second_copy}"
            ),
            TwoCopies::of(p)
                .exchange(0, last, 0, 1)
                .exchange(1, 3, p - 2, p - 1)
                .order(),
        ),
    ]
}

/// The runs a, b, a + b, .., a + (p - 1) × b for all a and b, twice. Each copy goes by the last member,
/// from its highest level down, and starts with the run of p - 1 in all columns but the second.
struct TwoCopies {
    p: usize,
    runs: Vec<Vec<usize>>,
}

impl TwoCopies {
    fn of(p: usize) -> TwoCopies {
        let run = |number: usize| {
            let (last, b) = (p - 1 - number / p % p, number % p);
            // The last member is a - b.
            let a = last + b;
            let members = (1..p).map(|h| (a + h * b) % p);
            [a % p, b].into_iter().chain(members).collect()
        };
        TwoCopies {
            p,
            runs: (0..2 * p * p).map(run).collect(),
        }
    }

    /// Exchanges two levels of a member in one copy, 0 or 1, which leaves the table even.
    fn exchange(mut self, copy: usize, member: usize, x: usize, y: usize) -> TwoCopies {
        let size = self.p * self.p;
        for run in &mut self.runs[copy * size..(copy + 1) * size] {
            let level = &mut run[member - 1];
            if *level == x {
                *level = y;
            } else if *level == y {
                *level = x;
            }
        }
        self
    }

    /// TAKE of the table, and MERGE of all columns.
    fn order(&self) -> String {
        let TwoCopies { p, runs } = self;
        let columns = p + 1;
        let levels = spaced(&vec![*p; columns]);
        let entries = spaced(&runs.concat());
        let members = spaced(&Vec::from_iter(1..=columns));
        let n = runs.len();
        format!("1 1 {n} {columns} {levels} {entries} 2 1 1 4 {p} {members}")
    }
}
