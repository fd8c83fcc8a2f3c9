//! Prints the vectors as a text of records. A summary goes to standard error.

#![forbid(unsafe_code)]

use second::maker::Call;
use second::order::{self, Ingredient, Step, Table};
use second::{level_pairs, records, Answer, LevelPair};
use std::collections::BTreeMap;
use std::io::{stdout, Write};

fn main() -> std::io::Result<()> {
    let mut summary = Summary::default();
    let text = records::vectors(|call, answer| summary.note(call, answer));
    stdout().write_all(text.as_bytes())?;
    summary.print();
    Ok(())
}

/// Counts: for steps, fields and matrices, how many were reached, and how many of them in filled
/// orders.
#[derive(Default)]
struct Summary {
    answers: BTreeMap<u8, usize>,
    refusing_pairs: BTreeMap<String, usize>,
    refusing_matrices: BTreeMap<usize, usize>,
    refusing_values: BTreeMap<String, usize>,
    steps: BTreeMap<&'static str, [usize; 2]>,
    refusing_steps: BTreeMap<(u8, &'static str), usize>,
    fields_checked: BTreeMap<usize, [usize; 2]>,
    fields_run: BTreeMap<usize, [usize; 2]>,
    wide_sums: BTreeMap<usize, [usize; 2]>,
    merges: BTreeMap<usize, [usize; 2]>,
    numbers_in_list: Vec<usize>,
    cells_in_filled: Vec<usize>,
}

impl Summary {
    fn note(&mut self, call: &Call, answer: &Answer) {
        self.numbers_in_list.push(call.list.len());
        let (number, details) = match answer {
            Answer::Filled { table, .. } => {
                self.cells_in_filled.push(table.len());
                (0, [0; 6])
            }
            Answer::Refused { number, details } => (*number, *details),
        };
        *self.answers.entry(number).or_default() += 1;
        if (1..=3).contains(&number) {
            return;
        }

        let filled = usize::from(number == 0);
        let order = order::read(&call.list).expect("question 2 was passed");
        let checked = match number {
            4..=7 => details[0] as usize,
            _ => order.ingredients.len(),
        };
        for ingredient in &order.ingredients[..checked] {
            if let Ingredient::Generator(generator) = ingredient {
                count(&mut self.fields_checked, generator.s, filled);
            }
        }
        if let (5, Some(Ingredient::Table(table))) = (number, order.ingredients[..checked].last()) {
            for kind in kinds_of_pair(table, &details.map(|detail| detail as usize)) {
                *self.refusing_pairs.entry(kind).or_default() += 1;
            }
        }
        if let (6, Some(Ingredient::Matrix(matrix))) = (number, order.ingredients[..checked].last())
        {
            *self.refusing_matrices.entry(matrix.p).or_default() += 1;
        }
        let reached = match number {
            0 => order.steps.len(),
            8..=11 | 14 => details[0] as usize,
            _ => 0,
        };
        for (index, step) in order.steps[..reached].iter().enumerate() {
            let kind = match step {
                Step::Take { .. } => "TAKE",
                Step::Field { generator } => {
                    if let Some(Ingredient::Generator(generator)) =
                        order.ingredients.get(generator - 1)
                    {
                        count(&mut self.fields_run, generator.s, filled);
                    }
                    "FIELD"
                }
                Step::Sum { matrices, .. } | Step::Cross { matrices, .. } => {
                    for d in matrices {
                        match order.ingredients.get(d - 1) {
                            Some(Ingredient::Matrix(matrix)) if matrix.columns > 2 => {
                                count(&mut self.wide_sums, matrix.p, filled);
                            }
                            _ => {}
                        }
                    }
                    match step {
                        Step::Sum { .. } => "SUM",
                        _ => "CROSS",
                    }
                }
                Step::Merge { p, .. } => {
                    count(&mut self.merges, *p, filled);
                    "MERGE"
                }
                Step::Split { .. } => "SPLIT",
            };
            if let (14, true) = (number, index + 1 == reached) {
                for kind in kinds_of_value(&order, step, &details) {
                    *self.refusing_values.entry(kind).or_default() += 1;
                }
            }
            count(&mut self.steps, kind, filled);
            if number != 0 && index + 1 == reached {
                *self.refusing_steps.entry((number, kind)).or_default() += 1;
            }
        }
    }

    fn print(&self) {
        eprintln!("{} vectors", self.answers.values().sum::<usize>());
        for (number, times) in &self.answers {
            let name = if *number == 0 {
                "filled".to_string()
            } else {
                format!("refused {number}")
            };
            eprintln!("  {name}: {times}");
        }
        eprintln!("pairs that refusal 5 names:");
        for (kind, times) in &self.refusing_pairs {
            eprintln!("  {kind}: {times}");
        }
        eprintln!("matrices refused as 6, by p:");
        for (p, times) in &self.refusing_matrices {
            eprintln!("  {p}: {times}");
        }
        eprintln!("values that refusal 14 names:");
        for (kind, times) in &self.refusing_values {
            eprintln!("  {kind}: {times}");
        }
        eprintln!("refusals by step:");
        for ((number, kind), times) in &self.refusing_steps {
            eprintln!("  {number} at {kind}: {times}");
        }
        eprintln!("steps reached (in filled orders):");
        print_counts(&self.steps);
        eprintln!("generators counted, by s (in filled orders):");
        print_counts(&self.fields_checked);
        eprintln!("FIELD steps reached, by s (in filled orders):");
        print_counts(&self.fields_run);
        eprintln!("matrices of 3 columns or more in SUM and CROSS steps reached, by p (in filled orders):");
        print_counts(&self.wide_sums);
        eprintln!("MERGE steps reached, by p (in filled orders):");
        print_counts(&self.merges);
        print_sizes("numbers in a list", &self.numbers_in_list);
        print_sizes("cells of a filled table", &self.cells_in_filled);
    }
}

/// What is to be said of the pair of levels that refusal 5 names, by its details.
fn kinds_of_pair(table: &Table, details: &[usize; 6]) -> Vec<String> {
    let &[_, a, b, x, y, times] = details;
    let uneven: Vec<LevelPair> = level_pairs(table, a - 1, b - 1)
        .filter(|pair| pair.gap != 0)
        .collect();
    let is_named = |pair: &&LevelPair| (pair.x, pair.y) == (x, y);
    let named = uneven.iter().find(is_named).expect("it is uneven");
    let equals = |gap: i64| uneven.iter().any(|pair| pair.gap == gap && pair != named);
    let over_or_short = if named.gap > 0 { "over" } else { "short" };
    let mut kinds = vec![over_or_short];
    kinds.push(match uneven[0] == *named {
        true => "the lowest uneven pair",
        false => "not the lowest uneven pair",
    });
    kinds.push(match (equals(named.gap), equals(-named.gap)) {
        (_, true) => "as far off as one of the other sign",
        (true, false) => "as far off as one of the same sign alone",
        (false, false) => "farther off than every other",
    });
    if times == 0 {
        kinds.push("times 0");
    }
    if (a, b) != (1, 2) {
        kinds.push("not of columns 1 and 2");
    }
    let mut kinds: Vec<String> = kinds.into_iter().map(str::to_string).collect();
    let both = format!("{}, {}", kinds[0], kinds[1]);
    kinds.push(both);
    kinds
}

/// What is to be said of the value that refusal 14 names.
fn kinds_of_value(order: &order::Order, step: &Step, details: &[u32; 6]) -> Vec<String> {
    let &[_, number, column, value, ..] = details;
    let Step::Cross { matrices, .. } = step else {
        return vec![];
    };
    let place = matrices.iter().position(|&d| d == number as usize);
    let Some(Ingredient::Matrix(matrix)) = order.ingredients.get(number as usize - 1) else {
        return vec![];
    };
    let mut kinds = vec![format!("p = {}", matrix.p)];
    if place != Some(0) {
        kinds.push("not the first of the step's list".to_string());
    }
    if column > 1 {
        kinds.push("not of column 1".to_string());
    }
    if value > 0 {
        kinds.push("not value 0".to_string());
    }
    if matrix.rows.len() % matrix.p != 0 {
        kinds.push("p does not divide M".to_string());
    }
    kinds
}

fn count<Key: Ord>(counts: &mut BTreeMap<Key, [usize; 2]>, key: Key, filled: usize) {
    let both = counts.entry(key).or_default();
    both[0] += 1;
    both[1] += filled;
}

fn print_counts<Key: std::fmt::Display>(counts: &BTreeMap<Key, [usize; 2]>) {
    for (key, [all, filled]) in counts {
        eprintln!("  {key}: {all} ({filled})");
    }
}

fn print_sizes(name: &str, sizes: &[usize]) {
    let mut sizes = sizes.to_vec();
    sizes.sort();
    let at = |percent: usize| sizes[(sizes.len() - 1) * percent / 100];
    eprintln!(
        "{name}: half up to {}, nine tenths up to {}, most {}",
        at(50),
        at(90),
        at(100)
    );
}
