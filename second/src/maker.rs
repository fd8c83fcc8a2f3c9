//! Random orders, most of them nearly right: built right from passing ingredients, then often
//! damaged in one place. What an order comes to is for `plan` to say; nothing here decides it.

mod crossing;
mod draft;
mod right;
mod uneven;
mod wrong;

use crate::{plan, Answer, Lengths, LEAST};
use crossing::at_every_edge;
pub use crossing::{crossing_edge_calls, make_crossing, Sizes, ANY, STORED};
use draft::*;
pub(crate) use draft::{plain, table_numbers};
pub(crate) use right::passing_table;
use right::*;
pub use uneven::make_uneven;
pub(crate) use uneven::uneven_table;
pub(crate) use wrong::damage;
use wrong::*;

/// The generator splitmix64.
pub struct Random {
    state: u64,
}

impl Random {
    pub fn new(seed: u64) -> Random {
        Random { state: seed }
    }

    pub fn word(&mut self) -> u64 {
        self.state = self.state.wrapping_add(0x9e37_79b9_7f4a_7c15);
        let mut z = self.state;
        z = (z ^ (z >> 30)).wrapping_mul(0xbf58_476d_1ce4_e5b9);
        z = (z ^ (z >> 27)).wrapping_mul(0x94d0_49bb_1331_11eb);
        z ^ (z >> 31)
    }

    pub fn below(&mut self, limit: usize) -> usize {
        (self.word() % limit as u64) as usize
    }

    pub fn between(&mut self, least: usize, most: usize) -> usize {
        least + self.below(most - least + 1)
    }

    pub fn percent(&mut self, percent: usize) -> bool {
        self.below(100) < percent
    }

    pub fn pick<T: Clone>(&mut self, from: &[T]) -> T {
        from[self.below(from.len())].clone()
    }

    pub fn shuffle<T>(&mut self, list: &mut [T]) {
        for last in (1..list.len()).rev() {
            list.swap(last, self.below(last + 1));
        }
    }
}

/// What the planner is called with.
#[derive(Clone, Debug)]
pub struct Call {
    pub list: Vec<u16>,
    pub lengths: Lengths,
}

/// The longest buffers that a call is made with: a program that tries the calls on the proved
/// planner has buffers of a fixed size, and lends the beginnings of these.
pub const MOST: Lengths = [66_048, 256, 66_048];

impl Call {
    /// The list with buffers just long enough.
    pub fn of(list: Vec<u16>) -> Call {
        Call {
            list,
            lengths: LEAST,
        }
    }

    pub fn answer(&self) -> Answer {
        let [table_len, levels_len, scratch_len] = self.lengths;
        plan(&self.list, table_len, levels_len, scratch_len)
    }
}

/// A call, the same for the same seed.
pub fn make(seed: u64) -> Call {
    let random = &mut Random::new(seed);
    let chosen = random.below(100);
    if chosen < 2 {
        return Call::of(random_list(random));
    }
    let mut draft = if chosen < 12 {
        extreme_order(random)
    } else {
        right_order(random)
    };
    if random.percent(37) {
        wrong_step(random, &mut draft);
        if random.percent(20) {
            draft.steps.push(split(1, 101));
        }
    }
    if random.percent(26) {
        spoil_an_ingredient(random, &mut draft);
    }
    if random.percent(8) {
        // Named by no step.
        let doubtful = doubtful_ingredient(random);
        draft.add(doubtful);
    }
    let mut numbers = draft.numbers();
    if random.percent(34) {
        damage(random, &mut numbers);
        // A second one now and then, to see which of two faults is named.
        if random.percent(20) {
            damage(random, &mut numbers);
        }
    }
    let mut call = Call::of(plain(&numbers));
    if random.percent(7) {
        change_buffers(random, &mut call);
    }
    call
}

/// Two small orders that hold every kind of ingredient and step.
fn whole_orders() -> [Draft; 2] {
    let mut first = Draft::default();
    first.add(table_numbers(&pencil(2)));
    first.add(matrix_numbers(2, &square(2, 2)));
    first.add(generator_numbers(
        3,
        2,
        &[vec![vec![1, 2]], vec![vec![0, 1]]],
    ));
    first.add(table_numbers(&factorial(4, &[4])));
    first.steps.push(take(1));
    first.steps.push(sum(&[2], 0));
    first.steps.push(merge(2, &[1, 3, 5]));
    first.steps.push(split(1, 4));

    let mut second = Draft::default();
    let two_columns = vec![vec![1, 0, 0], vec![0, 1, 1]];
    second.add(generator_numbers(2, 3, &[two_columns, vec![vec![0, 0, 1]]]));
    second.add(matrix_numbers(4, &[vec![3], vec![2]]));
    second.add(matrix_numbers(2, &square(2, 2)));
    second.add(table_numbers(&factorial(2, &[2])));
    second.steps.push(field(1));
    second.steps.push(split(1, 101));
    second.steps.push(sum(&[3, 2], 4));
    [first, second]
}

/// The same cut off at every length, with a number left over, and with each number that is no
/// entry changed to every edge of its role.
pub fn edge_calls() -> Vec<Call> {
    let of = |draft: Draft| at_every_edge(&draft.numbers(), edges);
    whole_orders().into_iter().flat_map(of).collect()
}

/// A few orders near the limits of size, and one number, run or column over them.
pub fn large_calls() -> Vec<Call> {
    let mut calls = Vec::new();
    let mut put = |draft: &Draft| calls.push(Call::of(plain(&draft.numbers())));

    // FIELD to 512 runs and 128 columns.
    let mut draft = Draft::default();
    draft.add(generator_numbers(2, 9, &points(9, 128)));
    draft.steps.push(field(1));
    put(&draft);

    // FIELD to 256 runs and 126 columns, the first of 4 levels, and SPLIT of that to 128; then a
    // column more, and SPLIT to 129.
    for more in [125, 126] {
        let mut factors = vec![vec![
            vec![1, 0, 0, 0, 0, 0, 0, 0],
            vec![0, 1, 0, 0, 0, 0, 0, 0],
        ]];
        let others = points(8, 250)
            .into_iter()
            .filter(|factor| factor[0][2..].contains(&1));
        factors.extend(others.take(more));
        let mut draft = Draft::default();
        draft.add(generator_numbers(2, 8, &factors));
        draft.steps.push(field(1));
        draft.steps.push(split(1, 101));
        put(&draft);
    }

    // FIELD to 64 runs and 32, 43 columns, SUM to 256 runs and 128, 129.
    for (columns, by) in [(32, 4), (43, 3)] {
        let mut draft = Draft::default();
        draft.add(generator_numbers(2, 6, &points(6, columns)));
        draft.add(matrix_numbers(2, &square(4, by)));
        draft.steps.push(field(1));
        draft.steps.push(sum(&[2], 0));
        put(&draft);
    }

    // SUM to more runs than sixteen bits tell: 65,536 of 16,384 columns, and 262,144 of 128.
    let mut draft = Draft::default();
    draft.add(generator_numbers(2, 9, &points(9, 128)));
    draft.add(matrix_numbers(2, &square(128, 128)));
    let column: Vec<Vec<usize>> = (0..512).map(|y| vec![y / 7 % 2]).collect();
    draft.add(matrix_numbers(2, &column));
    draft.steps.push(field(1));
    let mut wide = draft.clone();
    wide.steps.push(sum(&[2], 0));
    put(&wide);
    let mut long = draft;
    long.ingredients.remove(1);
    long.steps.push(sum(&[2], 0));
    put(&long);

    // A list of 32,768 numbers: a table of 256 runs and 127 columns, and a matrix of 118 rows to
    // make up the length. Then the same with one more row, with a number left over in the place
    // of the last row, and with the last entry not allowed.
    let mut draft = Draft::default();
    draft.add(generator_numbers(2, 8, &points(8, 127)));
    draft.steps.push(field(1));
    let table = draft.sheet().expect("different points are independent");
    for rows in [118, 119] {
        let mut draft = Draft::default();
        draft.add(table_numbers(&table));
        draft.add(matrix_numbers(3, &vec![vec![2]; rows]));
        draft.steps.push(take(1));
        put(&draft);
        if rows == 118 {
            let mut over = draft.clone();
            over.ingredients[1][4 + 117].1 = 3;
            put(&over);
            let mut uneven = draft.clone();
            uneven.ingredients[0][3 + 127 + 256 * 127 - 1].1 ^= 1;
            put(&uneven);
            let mut left_over = draft;
            left_over.ingredients[1] = matrix_numbers(3, &vec![vec![2]; 117]);
            left_over.steps[0].push((Role::Column, 1));
            put(&left_over);
        }
    }

    // TAKE of a table of 512 runs and 63 columns.
    let mut draft = Draft::default();
    draft.add(generator_numbers(2, 9, &points(9, 63)));
    draft.steps.push(field(1));
    let table = draft.sheet().expect("different points are independent");
    let mut draft = Draft::default();
    draft.add(table_numbers(&table));
    draft.steps.push(take(1));
    put(&draft);
    calls
}
