//! Orders with a CROSS: right ones, and such as are wrong in one way; 02, K6.

use super::draft::*;
use super::right::*;
use super::wrong::{edges, is_entry};
use super::{Call, Random};

/// How large a made order may be.
pub struct Sizes {
    /// The most runs of an own table that is taken, unless it has each combination of levels once.
    pub runs: usize,
    /// How often it may have each combination.
    pub copies: usize,
    /// About the most cells of the sheet that a right CROSS leaves.
    pub cells: usize,
}

/// For orders that are stored.
pub const STORED: Sizes = Sizes {
    runs: 9,
    copies: 2,
    cells: 64,
};

/// For orders that a function is given.
pub const ANY: Sizes = Sizes {
    runs: 64,
    copies: 8,
    cells: 8_000,
};

/// What is wrong with a CROSS.
#[derive(Clone, Copy, Debug, PartialEq, Eq)]
enum Fault {
    Nothing,
    /// A column of one value among even ones, which leaves the matrix a difference matrix.
    ConstantColumn,
    /// A matrix of one column, an entry of it changed.
    ChangedEntry,
    /// Whatever columns a passing matrix has.
    AnyColumns,
    /// Every matrix that serves a column.
    AllUneven,
    /// A matrix that serves no column, which does no harm.
    IdleUneven,
    RunsOfH,
    KindOfH,
    RunsOfK,
    Matrices,
    /// More than 512 runs, and now and then an uneven matrix too.
    Runs,
    /// More than 128 columns, the same.
    Columns,
    OutOfTurn,
}

use Fault::*;

/// As often as they are wanted.
const FAULTS: [Fault; 35] = [
    Nothing,
    Nothing,
    Nothing,
    Nothing,
    Nothing,
    Nothing,
    Nothing,
    Nothing,
    Nothing,
    ConstantColumn,
    ConstantColumn,
    ConstantColumn,
    ConstantColumn,
    ChangedEntry,
    ChangedEntry,
    ChangedEntry,
    ChangedEntry,
    AnyColumns,
    AnyColumns,
    AnyColumns,
    AllUneven,
    AllUneven,
    AllUneven,
    AllUneven,
    IdleUneven,
    IdleUneven,
    RunsOfH,
    RunsOfH,
    RunsOfH,
    KindOfH,
    KindOfH,
    RunsOfK,
    Matrices,
    Runs,
    OutOfTurn,
];

/// An order with a CROSS, the same for the same seed.
pub fn make_crossing(seed: u64, sizes: &Sizes) -> Call {
    let random = &mut Random::new(seed);
    let mut draft = Draft::default();
    if random.percent(15) {
        // So that the numbers of the matrices are not always the same.
        draft.add(matrix_numbers(5, &[vec![random.below(5)]]));
    }
    let fault = match random.percent(3) {
        true => Columns,
        false => random.pick(&FAULTS),
    };
    if fault == Columns {
        too_many_columns(random, &mut draft);
    } else {
        first_sheet(random, &mut draft, sizes, fault);
        add_cross(random, &mut draft, sizes, fault);
        if random.percent(25) {
            later_step(random, &mut draft, sizes);
        }
    }
    if fault == OutOfTurn && draft.steps.len() > 1 {
        // Without its first step, or with the first two changed about.
        match random.percent(50) {
            true => drop(draft.steps.remove(0)),
            false => draft.steps.swap(0, 1),
        }
    }
    let mut numbers = draft.numbers();
    if random.percent(14) {
        change_a_step(random, &draft, &mut numbers);
    }
    Call::of(plain(&numbers))
}

/// A first step that leaves a small sheet, and now and then a SPLIT.
fn first_sheet(random: &mut Random, draft: &mut Draft, sizes: &Sizes, fault: Fault) {
    if fault == Runs {
        // From few runs it would take many rows.
        draft.steps.push(take(random.between(102, 104)));
        return;
    }
    match random.below(10) {
        0 | 1 => draft.steps.push(take(random.pick(&[101, 101, 101, 102]))),
        2 => {
            let s = random.pick(&[2, 3, 4]);
            let generator = passing_generator(random, s, 2, 2, false);
            let i = draft.add(generator);
            draft.steps.push(field(i));
        }
        _ => {
            // For two level counts there are two matrices, of which the first uneven one is named; and
            // with three levels or more another value than 0 can be the lowest.
            let uneven = [ConstantColumn, ChangedEntry, AllUneven].contains(&fault);
            let levels = match uneven && random.percent(80) {
                true => random.pick(&[
                    vec![2, 3],
                    vec![3, 2],
                    vec![2, 4],
                    vec![4, 2],
                    vec![3],
                    vec![4],
                    vec![5],
                    vec![9],
                ]),
                false => random.pick(&[
                    vec![2],
                    vec![2],
                    vec![3],
                    vec![3],
                    vec![2, 2],
                    vec![2, 3],
                    vec![3, 2],
                    vec![4],
                    vec![4],
                    vec![4],
                    vec![6],
                    vec![5],
                    vec![8],
                    vec![9],
                ]),
            };
            let once: usize = levels.iter().product();
            let most = (sizes.runs / once).max(1);
            let mut table = factorial(once * random.between(1, most.min(sizes.copies)), &levels);
            if random.percent(50) {
                jumble(random, &mut table);
            }
            let i = draft.add(table_numbers(&table));
            draft.steps.push(take(i));
        }
    }
    if random.percent(10) {
        if let Some(sheet) = draft.sheet() {
            right_step(random, draft, &sheet, 5);
        }
    }
}

fn least_common_multiple(numbers: &[usize]) -> usize {
    let is_multiple = |m: &usize| numbers.iter().all(|number| m.is_multiple_of(*number));
    (1..).find(is_multiple).expect("their product is one")
}

/// A matrix whose columns are all even, of rows that p divides; where it does not, of one column.
fn even_matrix(random: &mut Random, p: usize, rows: usize, most_columns: usize) -> Vec<Vec<usize>> {
    if !rows.is_multiple_of(p) {
        return (0..rows).map(|_| vec![random.below(p)]).collect();
    }
    let matrix = passing_matrix(random, p, rows, most_columns + 1);
    let holds = |column: usize, value: usize| matrix.iter().filter(|y| y[column] == value).count();
    let is_even = |column: &usize| (0..p).all(|value| p * holds(*column, value) == rows);
    let even: Vec<usize> = (0..matrix[0].len()).filter(is_even).collect();
    if even.is_empty() {
        let mut column: Vec<Vec<usize>> = (0..rows).map(|y| vec![y % p]).collect();
        random.shuffle(&mut column);
        return column;
    }
    let even = &even[..even.len().min(most_columns)];
    let chosen = |row: &Vec<usize>| even.iter().map(|&column| row[column]).collect();
    matrix.iter().map(chosen).collect()
}

/// Puts a column of one value into an even matrix, at any place. The differences to it are even too.
fn put_constant_column(random: &mut Random, p: usize, matrix: &mut [Vec<usize>]) {
    let any = random.below(p);
    let value = random.pick(&[0, 0, any]);
    let place = random.below(matrix[0].len() + 1);
    for row in matrix {
        row.insert(place, value);
    }
}

/// Leaves one column, and changes an entry of it; mostly one above 0 to another such, so that value 0
/// stays even.
fn change_an_entry(random: &mut Random, p: usize, matrix: &mut [Vec<usize>]) {
    for row in matrix.iter_mut() {
        row.truncate(1);
    }
    let above_0: Vec<usize> = (0..matrix.len()).filter(|&y| matrix[y][0] > 0).collect();
    if p > 2 && !above_0.is_empty() && random.percent(70) {
        let entry = &mut matrix[random.pick(&above_0)][0];
        *entry = 1 + (*entry - 1 + random.between(1, p - 2)) % (p - 1);
    } else {
        let entry = &mut matrix[random.below(matrix.len())][0];
        *entry = (*entry + random.between(1, p - 1)) % p;
    }
}

fn make_uneven_one(random: &mut Random, p: usize, matrix: &mut [Vec<usize>]) {
    match random.percent(50) {
        true => put_constant_column(random, p, matrix),
        false => change_an_entry(random, p, matrix),
    }
}

/// Any table that passes and has so many runs, by its number in the draft; of one column if there is
/// no room for more.
fn table_of_runs(random: &mut Random, draft: &mut Draft, runs: usize, room: bool) -> usize {
    match runs {
        4 if room && random.percent(70) => 101,
        9 if room && random.percent(70) => 102,
        12 if room && random.percent(80) => random.between(103, 104),
        _ => {
            let most = if room { random.between(1, 2) } else { 1 };
            let table = passing_table(random, runs, most);
            draft.add(table_numbers(&table))
        }
    }
}

/// A CROSS on the sheet that the draft leaves, with this fault; none if the sheet is too large.
fn add_cross(random: &mut Random, draft: &mut Draft, sizes: &Sizes, fault: Fault) {
    let Some(sheet) = draft.sheet() else { return };
    let n = sheet.runs.len();
    let mut ps = different(&sheet.levels);
    let least = least_common_multiple(&ps);
    let cells = n * least * (sheet.levels.len() + 1);
    if fault != Runs && (cells > 3 * sizes.cells || n * least > 512) {
        return;
    }
    let mut m = match sizes.cells / cells {
        0 | 1 => least,
        more => least * random.between(1, more.min(4)),
    };
    if fault == Runs {
        m = (512 / n / least + 1) * least;
    } else if random.percent(3) {
        m += 1;
    }
    let room = (sizes.cells / (n * m * sheet.levels.len())).clamp(1, 8);
    let room = if fault == Runs { 1 } else { room };

    random.shuffle(&mut ps);
    let worst = random.below(ps.len());
    let mut matrices = Vec::new();
    for (place, &p) in ps.iter().enumerate() {
        let mut matrix = even_matrix(random, p, m, room);
        match fault {
            ConstantColumn if place == worst => put_constant_column(random, p, &mut matrix),
            ChangedEntry if place == worst => change_an_entry(random, p, &mut matrix),
            AnyColumns => matrix = passing_matrix(random, p, m, room + 1),
            AllUneven => make_uneven_one(random, p, &mut matrix),
            Runs if random.percent(30) => change_an_entry(random, p, &mut matrix),
            _ => {}
        }
        matrices.push(draft.add(matrix_numbers(p, &matrix)));
    }
    // The step's list need not be in the order of the ingredients.
    random.shuffle(&mut matrices);
    if fault == IdleUneven || random.percent(6) {
        let p = random.pick(&[7, 11, 64]);
        let idle: Vec<Vec<usize>> = (0..m).map(|_| vec![random.below(p)]).collect();
        let i = draft.add(matrix_numbers(p, &idle));
        matrices.insert(random.below(matrices.len() + 1), i);
    }

    let few_runs = 3 * n * m <= sizes.cells;
    let mut k = 0;
    if m > 1 && fault != Runs && random.percent(45) {
        k = table_of_runs(random, draft, m, few_runs);
    }
    // The table that the first step took has as many runs as the sheet, unless a step came between.
    let taken = draft.steps[0][1].1;
    let h = match draft.steps[0][0].1 {
        1 if draft.steps.len() == 1 && random.percent(50) => taken,
        _ => table_of_runs(random, draft, n, few_runs),
    };
    let mut step = cross(&matrices, k, h);
    let last = step.len() - 1;
    match fault {
        RunsOfH => {
            let other = random.pick(&[m, n + 1, 2 * n, n / 2, m, 4, 9]);
            let large = n * m <= 36 && random.percent(30);
            let runs = if large { n * m } else { other };
            step[last].1 = table_of_runs(random, draft, runs.max(2), true);
        }
        KindOfH => {
            let missing = draft.ingredients.len() + 1;
            let matrix = random.pick(&matrices);
            step[last].1 = random.pick(&[missing, 32, matrix, matrix]);
        }
        RunsOfK => {
            let runs = random.pick(&[n, m + 1, 2 * m, 4, 9]);
            step[last - 1].1 = table_of_runs(random, draft, runs.max(2), true);
        }
        Matrices => {
            let first = step[2].1;
            match random.below(3) {
                // One twice.
                0 => {
                    step[1].1 += 1;
                    step.insert(2, (Role::Ingredient, first));
                }
                // A matrix of more rows.
                1 => {
                    let other = draft.add(matrix_numbers(13, &vec![vec![1]; m + 1]));
                    step[1].1 += 1;
                    step.insert(3, (Role::Ingredient, other));
                }
                // One that does not serve, in the place of one that does.
                _ => {
                    let other: Vec<Vec<usize>> = (0..m).map(|y| vec![y % 13]).collect();
                    step[2].1 = draft.add(matrix_numbers(13, &other));
                }
            }
        }
        _ => {}
    }
    draft.steps.push(step);
}

/// From 4 runs of 3 columns by SUM twice to 64 of 48, and CROSS with three columns for each.
fn too_many_columns(random: &mut Random, draft: &mut Draft) {
    let whole = draft.add(matrix_numbers(2, &square(4, 4)));
    let mut even: Vec<Vec<usize>> = square(4, 4).iter().map(|y| y[1..].to_vec()).collect();
    random.shuffle(&mut even);
    let even = draft.add(matrix_numbers(2, &even));
    let h = draft.add(table_numbers(&factorial(64, &[2])));
    let used = if random.percent(30) { whole } else { even };
    draft.steps.push(take(101));
    draft.steps.push(sum(&[whole], 0));
    draft.steps.push(sum(&[whole], 0));
    draft.steps.push(cross(&[used], 0, h));
}

/// A step after a CROSS that is filled.
fn later_step(random: &mut Random, draft: &mut Draft, sizes: &Sizes) {
    let Some(sheet) = draft.sheet() else { return };
    match random.below(4) {
        0 => add_cross(random, draft, sizes, Nothing),
        1 => drop(right_step(random, draft, &sheet, 5)),
        2 if sizes.cells > STORED.cells => drop(right_step(random, draft, &sheet, 3)),
        _ => drop(right_step(random, draft, &sheet, 4)),
    }
}

/// `edges`, and the step kind that is the first too high since there is a CROSS. The older random
/// orders are made without it.
fn edges_of_steps(role: Role) -> Vec<usize> {
    let mut all = edges(role);
    if role == Role::StepKind {
        all.push(7);
    }
    all
}

/// Changes a number of a step to an edge of its role, or cuts the order off there.
fn change_a_step(random: &mut Random, draft: &Draft, numbers: &mut Numbers) {
    let of_steps = draft.steps.concat().len();
    let place = numbers.len() - 1 - random.below(of_steps);
    if random.percent(15) {
        numbers.truncate(place);
    } else {
        numbers[place].1 = random.pick(&edges_of_steps(numbers[place].0));
    }
}

/// A small order with a CROSS cut off at every length, with a number left over, and with each number
/// that is no entry changed to every edge of its role.
pub fn crossing_edge_calls() -> Vec<Call> {
    let mut draft = Draft::default();
    let column = [0, 1, 1, 0].map(|entry| vec![entry]);
    draft.add(matrix_numbers(2, &column));
    draft.steps.push(take(101));
    draft.steps.push(cross(&[1], 101, 101));
    at_every_edge(&draft.numbers(), edges_of_steps)
}

/// An order so changed, one number at a time.
pub fn at_every_edge(numbers: &Numbers, edges: impl Fn(Role) -> Vec<usize>) -> Vec<Call> {
    let mut calls = Vec::new();
    for length in 0..=numbers.len() {
        calls.push(Call::of(plain(&numbers[..length])));
    }
    calls.push(Call::of([plain(numbers), vec![0]].concat()));
    for (place, &(role, number)) in numbers.iter().enumerate() {
        for edge in edges(role) {
            if !is_entry(role) && edge != number {
                let mut changed = numbers.clone();
                changed[place].1 = edge;
                calls.push(Call::of(plain(&changed)));
            }
        }
    }
    calls
}
