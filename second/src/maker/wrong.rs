//! Orders that are not right, or not surely.

use super::draft::*;
use super::right::*;
use super::{Call, Random, MOST};
use crate::order::Table;
use crate::LEAST;

/// Adds a step that reads well but should not be carried out, or not surely.
pub fn wrong_step(random: &mut Random, draft: &mut Draft) {
    let chosen = random.pick(&[0, 0, 1, 1, 1, 1, 1, 2, 3, 3, 4, 4, 4, 5, 5, 6, 7, 7, 8]);
    if chosen < 2 && random.percent(70) {
        // Instead of the last MERGE, if there is one.
        let is_merge = |step: &Numbers| step[0].1 == 4;
        if let Some(last) = draft.steps.iter().rposition(is_merge) {
            draft.steps.truncate(last);
        }
    }
    let Some(sheet) = draft.sheet() else { return };
    match chosen {
        // MERGE of any columns of p levels.
        0 => {
            let mut primes = [2, 3, 5, 7];
            random.shuffle(&mut primes);
            for p in primes {
                let mut columns = columns_of_levels(&sheet, p);
                if columns.len() > p {
                    random.shuffle(&mut columns);
                    draft.steps.push(merge(p, &columns[..p + 1]));
                    return;
                }
            }
        }
        // MERGE of right members in another order, or with one of them changed.
        1 => {
            let Some((p, mut members)) = members_of_merge(random, &sheet) else {
                return;
            };
            let place = random.below(p + 1);
            let others: Vec<usize> = (1..=sheet.levels.len())
                .filter(|column| !members.contains(column))
                .collect();
            if others.is_empty() || (p > 2 && random.percent(60)) {
                members.swap(place, (place + random.between(1, p)) % (p + 1));
            } else if random.percent(90) {
                members[place] = random.pick(&others);
            } else {
                members[place] = members[(place + 1) % (p + 1)];
            }
            draft.steps.push(merge(p, &members));
        }
        // MERGE with a member that is there already, not of p levels or not on the sheet.
        2 => {
            let p = random.pick(&[2, 3, 5, 7]);
            let most = sheet.levels.len() + random.below(2);
            let members: Vec<usize> = (0..p + 1)
                .map(|_| random.between(1, most.min(128)))
                .collect();
            draft.steps.push(merge(p, &members));
        }
        // SPLIT by a table of another number of runs, or of a column not on the sheet.
        3 => {
            let column = random.between(1, sheet.levels.len());
            let runs = sheet.levels[column - 1] + random.between(0, 2);
            let table = passing_table(random, runs, 2);
            let i = draft.add(table_numbers(&table));
            let column = if random.percent(30) {
                sheet.levels.len() + 1
            } else {
                column
            };
            draft.steps.push(split(column.min(128), i));
        }
        // SUM with too few or too many matrices, or with a k of other runs.
        4 => {
            let Some(m) = rows_for_sum(random, &sheet) else {
                return;
            };
            let (mut matrices, mut k) = parts_of_sum(random, draft, &sheet, m);
            match random.below(4) {
                0 => {
                    let p = random.pick(&sheet.levels) + 1;
                    let matrix = passing_matrix(random, p.min(64), m, 2);
                    matrices[0] = draft.add(matrix_numbers(p.min(64), &matrix));
                }
                1 => {
                    let again = random.pick(&matrices);
                    matrices.insert(random.below(matrices.len() + 1), again);
                }
                2 => {
                    let matrix = passing_matrix(random, 13, m + 1, 2);
                    let i = draft.add(matrix_numbers(13, &matrix));
                    matrices.insert(random.below(matrices.len() + 1), i);
                }
                _ => {
                    let runs = random.pick(&[m - 1, m + 1, m + 2, 2 * m]).max(2);
                    let table = passing_table(random, runs, 2);
                    k = draft.add(table_numbers(&table));
                }
            }
            draft.steps.push(sum(&matrices, k));
        }
        // SUM to more than 512 runs, or nearly.
        5 => {
            let m = (512 / sheet.runs.len() + random.between(0, 2)).max(1);
            let mut matrices = Vec::new();
            for p in different(&sheet.levels) {
                let matrix = passing_matrix(random, p, m, 2);
                matrices.push(draft.add(matrix_numbers(p, &matrix)));
            }
            draft.steps.push(sum(&matrices, 0));
        }
        // TAKE or FIELD when there is a sheet.
        6 => {
            let i = random.between(1, draft.ingredients.len().max(1));
            let step = if random.percent(50) {
                take(i)
            } else {
                field(i)
            };
            draft.steps.push(step);
        }
        // Another ingredient named.
        7 => {
            let step = random.below(draft.steps.len());
            let most = draft.ingredients.len() + 1;
            let i = if random.percent(70) {
                random.between(1, most)
            } else {
                random.between(101, 104)
            };
            let named = |role| matches!(role, Role::Ingredient | Role::IngredientOrNone);
            for number in draft.steps[step]
                .iter_mut()
                .filter(|number| named(number.0))
                .take(1)
            {
                number.1 = i;
            }
        }
        // Steps changed about, the first left out, or one done again.
        _ => {
            let (a, b) = (
                random.below(draft.steps.len()),
                random.below(draft.steps.len()),
            );
            if a != b {
                draft.steps.swap(a, b);
            } else if draft.steps.len() > 1 {
                draft.steps.remove(0);
            } else {
                let again = draft.steps[a].clone();
                draft.steps.push(again);
            }
        }
    }
}

/// Numbers at the edges of what a role allows, and beyond.
pub fn edges(role: Role) -> Vec<usize> {
    match role {
        Role::IngredientCount => vec![0, 1, 31, 32, 33],
        Role::IngredientKind => vec![0, 1, 2, 3, 4],
        Role::Rows => vec![0, 1, 8, 9, 10, 511, 512, 513],
        Role::Columns => vec![0, 1, 127, 128, 129],
        Role::Level | Role::P => vec![0, 1, 2, 3, 4, 6, 63, 64, 65],
        Role::S => vec![0, 1, 2, 3, 4, 5, 6, 7, 8, 9, 10, 11, 13, 16],
        Role::U => vec![0, 1, 2, 3, 4, 5, 6, 7],
        Role::Entry(limit) => vec![limit - 1, limit, limit + 1, 65_535],
        Role::StepCount => vec![0, 1, 15, 16, 17],
        Role::StepKind => vec![0, 1, 2, 3, 4, 5, 6],
        Role::MatrixCount => vec![0, 1, 2, 15, 16, 17],
        Role::Ingredient | Role::IngredientOrNone => {
            vec![0, 1, 2, 3, 4, 31, 32, 33, 100, 101, 102, 103, 104, 105]
        }
        Role::MergeP => vec![0, 1, 2, 3, 4, 5, 6, 7, 8, 9, 11],
        Role::Column => vec![0, 1, 2, 3, 4, 127, 128, 129],
    }
}

pub fn is_entry(role: Role) -> bool {
    matches!(role, Role::Entry(_))
}

/// Changes one number, of a role chosen first so that rare roles have their turn.
pub fn change_one_number(random: &mut Random, numbers: &mut Numbers) {
    let mut roles: Vec<Role> = Vec::new();
    for &(role, _) in numbers.iter() {
        if !is_entry(role) && !roles.contains(&role) {
            roles.push(role);
        }
    }
    let role = random.pick(&roles);
    let places: Vec<usize> = (0..numbers.len())
        .filter(|&place| numbers[place].0 == role)
        .collect();
    let place = random.pick(&places);
    let number = numbers[place].1;
    numbers[place].1 = match random.below(8) {
        0 | 1 => number + 1,
        2 => number.saturating_sub(1),
        3 => random.between(1, 12),
        4 => random.below(65_536),
        _ => random.pick(&edges(role)),
    };
}

/// Changes an entry; `allowed` leaves it below its limit.
pub fn change_one_entry(random: &mut Random, numbers: &mut Numbers, allowed: bool) {
    let places: Vec<usize> = (0..numbers.len())
        .filter(|&place| is_entry(numbers[place].0))
        .collect();
    if places.is_empty() {
        return;
    }
    let place = random.pick(&places);
    let (Role::Entry(limit), entry) = numbers[place] else {
        return;
    };
    numbers[place].1 = if allowed {
        (entry + random.between(1, limit - 1)) % limit
    } else {
        let edge = random.pick(&[limit, limit, limit + 1, 65_535]);
        if random.percent(20) {
            random.between(limit, 65_535)
        } else {
            edge
        }
    };
}

/// Lets two entries of one limit change places, which leaves the count of each level as it was.
pub fn swap_entries(random: &mut Random, numbers: &mut Numbers) {
    let places: Vec<usize> = (0..numbers.len())
        .filter(|&place| is_entry(numbers[place].0))
        .collect();
    for _ in 0..40 {
        if places.is_empty() {
            return;
        }
        let (a, b) = (random.pick(&places), random.pick(&places));
        if numbers[a].0 == numbers[b].0 && numbers[a].1 != numbers[b].1 {
            numbers.swap(a, b);
            return;
        }
    }
}

/// Changes an ingredient, of a kind chosen first, so that it hardly passes any more.
pub fn spoil_an_ingredient(random: &mut Random, draft: &mut Draft) {
    let kind_of = |ingredient: &Numbers| ingredient[0].1;
    let kinds: Vec<usize> = draft.ingredients.iter().map(kind_of).collect();
    if kinds.is_empty() {
        return;
    }
    let kind = random.pick(&different(&kinds));
    // Best one with columns enough to be uneven.
    let fit = |ingredient: &Numbers| kind_of(ingredient) == kind && ingredient[2].1 > 1;
    let Some(place) = (0..kinds.len())
        .find(|&place| fit(&draft.ingredients[place]))
        .or(kinds.iter().position(|&other| other == kind))
    else {
        return;
    };
    let ingredient = &mut draft.ingredients[place];
    let (rows, columns) = (ingredient[1].1, ingredient[2].1);
    let over_field = kind == 2 && MATRIX_FIELDS.contains(&ingredient[3].1);
    // Where the entries start, and how long their rows are.
    let start = match kind {
        1 => 3 + columns,
        2 => 4,
        _ => 4 + columns,
    };
    let entries = &mut ingredient[start..];
    let width = entries.len() / rows;
    if kind == 3 {
        for _ in 0..random.between(1, 2) {
            repeat_a_column(random, entries, rows, width);
        }
        return;
    }
    if over_field && random.percent(50) {
        add_to_rows(random, entries, width);
        return;
    }
    match random.below(6) {
        0 => change_one_entry(random, ingredient, true),
        1 | 2 => swap_in_a_column(random, entries, rows, width),
        3 => mix_columns(random, entries, rows, width),
        4 => copy_columns(random, entries, width),
        _ => {
            // A row less; the others can hardly be even.
            if rows > 1 {
                ingredient[1].1 -= 1;
                ingredient.truncate(ingredient.len() - width);
            }
        }
    }
}

/// Adds a number to each row of a matrix modulo p, which leaves the differences modulo p as they were,
/// and those of a field hardly.
fn add_to_rows(random: &mut Random, entries: &mut [(Role, usize)], columns: usize) {
    let Role::Entry(p) = entries[0].0 else { return };
    for row in entries.chunks_mut(columns) {
        let added = random.below(p);
        for (_, entry) in row {
            *entry = (*entry + added) % p;
        }
    }
}

/// A matrix for 4, 8 or 9 levels that passes modulo p, and over the field not surely.
fn matrix_modulo_p(random: &mut Random) -> Numbers {
    let p = random.pick(&[4, 4, 8, 8, 9]);
    let rows = if p == 4 && random.percent(50) {
        from_words(&D_8_4_MODULO_4)
    } else {
        multiples(p, p * random.between(1, 2))
    };
    let columns = rows[0].len();
    let mut numbers = matrix_numbers(p, &rows);
    add_to_rows(random, &mut numbers[4..], columns);
    numbers
}

/// Puts the entries of some columns into any order, which leaves the count of each level as it was.
fn mix_columns(random: &mut Random, entries: &mut [(Role, usize)], rows: usize, columns: usize) {
    for column in 0..columns {
        if random.percent(50) {
            let mut mixed: Vec<_> = (0..rows).map(|y| entries[y * columns + column]).collect();
            random.shuffle(&mut mixed);
            for (y, entry) in mixed.into_iter().enumerate() {
                entries[y * columns + column] = entry;
            }
        }
    }
}

/// Puts one column in the place of another, and a third in the place of a fourth, as far as there
/// are so many, and of equal limits.
fn copy_columns(random: &mut Random, entries: &mut [(Role, usize)], columns: usize) {
    let mut order: Vec<usize> = (0..columns).collect();
    random.shuffle(&mut order);
    for pair in order.chunks_exact(2).take(2) {
        for row in entries.chunks_mut(columns) {
            if row[pair[0]].0 == row[pair[1]].0 {
                row[pair[1]] = row[pair[0]];
            }
        }
    }
}

/// A table whose columns are even but not its pairs, often because there can be no even pairs; a matrix
/// built modulo p where it is over a field; or a matrix of any entries.
pub fn doubtful_ingredient(random: &mut Random) -> Numbers {
    if random.percent(25) {
        return matrix_modulo_p(random);
    }
    if random.percent(60) {
        let runs: usize = random.pick(&[6, 6, 9, 10, 12, 12, 18, 20]);
        let fitting: Vec<usize> = (2..=runs).filter(|s| runs.is_multiple_of(*s)).collect();
        let columns = random.between(2, 4);
        let levels: Vec<usize> = (0..columns).map(|_| random.pick(&fitting[..2])).collect();
        let rows = (0..runs).map(|y| levels.iter().map(|level| y % level).collect());
        let mut table = table_numbers(&Table {
            levels: levels.clone(),
            runs: rows.collect(),
        });
        mix_columns(random, &mut table[3 + columns..], runs, columns);
        table
    } else {
        let p = random.between(2, 7);
        let rows = random.between(1, 9);
        let columns = random.between(2, 3);
        let row = |random: &mut Random| (0..columns).map(|_| random.below(p)).collect();
        let rows: Vec<Vec<usize>> = (0..rows).map(|_| row(random)).collect();
        matrix_numbers(p, &rows)
    }
}

/// Lets two entries of one column change places, which leaves the count of each level as it was.
pub fn swap_in_a_column(
    random: &mut Random,
    entries: &mut [(Role, usize)],
    rows: usize,
    columns: usize,
) {
    for _ in 0..40 {
        let column = random.below(columns);
        let a = random.below(rows) * columns + column;
        let b = random.below(rows) * columns + column;
        if entries[a].1 != entries[b].1 {
            entries.swap(a, b);
            return;
        }
    }
}

/// Puts a multiple of one column in the place of another.
pub fn repeat_a_column(
    random: &mut Random,
    entries: &mut [(Role, usize)],
    rows: usize,
    columns: usize,
) {
    let (from, to) = (random.below(columns), random.below(columns));
    let Role::Entry(s) = entries[0].0 else { return };
    let coefficient = random.below(s);
    for row in 0..rows {
        let entry = entries[row * columns + from].1;
        entries[row * columns + to].1 = crate::field::product(s, coefficient, entry);
    }
}

/// Cuts numbers off or adds one.
pub fn change_length(random: &mut Random, numbers: &mut Numbers) {
    let place = random.below(numbers.len());
    match random.below(6) {
        0 => {
            numbers.pop();
        }
        1 => numbers.push((Role::Column, random.between(0, 3))),
        2 => numbers.truncate(place),
        3 => {
            numbers.remove(place);
        }
        4 => numbers.insert(place, (Role::Column, random.between(0, 4))),
        _ => {
            let again = numbers[place];
            numbers.insert(place, again);
        }
    }
}

pub fn damage(random: &mut Random, numbers: &mut Numbers) {
    if numbers.is_empty() {
        return; // the damage before has cut everything off
    }
    match random.below(10) {
        0..=3 => change_one_number(random, numbers),
        4 | 5 => change_one_entry(random, numbers, true),
        6 => change_one_entry(random, numbers, false),
        7 | 8 => swap_entries(random, numbers),
        _ => change_length(random, numbers),
    }
}

/// An order with as much of something as is allowed, or one more.
pub fn extreme_order(random: &mut Random) -> Draft {
    let mut draft = Draft::default();
    match random.below(12) {
        // Steps.
        0 => {
            draft.steps.push(take(101));
            for index in 0..random.between(14, 16) {
                let step = if index % 2 == 0 {
                    merge(2, &[3, 1, 2])
                } else {
                    split(1, 101)
                };
                draft.steps.push(step);
            }
        }
        // Ingredients.
        1 => {
            for _ in 0..random.between(31, 33) {
                draft.add(matrix_numbers(2, &[vec![0], vec![1]]));
            }
            draft.steps.push(take(101));
            draft.steps.push(sum(&[32.min(draft.ingredients.len())], 0));
        }
        // Matrices in one SUM; most of them serve no column.
        2 => {
            let count = random.between(15, 17);
            let mut matrices = Vec::new();
            for p in 2..2 + count {
                matrices.push(draft.add(matrix_numbers(p, &[vec![p - 1]])));
            }
            random.shuffle(&mut matrices);
            draft.steps.push(take(random.between(101, 104)));
            draft.steps.push(sum(&matrices, 0));
        }
        // Rows of a table.
        3 => {
            let rows = random.pick(&[510, 512, 512, 513, 514]);
            let levels = random.pick(&[2, 2, 4, 64]);
            draft.add(table_numbers(&factorial(rows, &[levels])));
            draft.steps.push(take(1));
        }
        // Rows of a matrix, and runs of a sheet.
        4 => {
            let (p, rows) = random.pick(&[
                (2, 128),
                (2, 129),
                (2, 512),
                (2, 513),
                (3, 56),
                (3, 57),
                (3, 512),
            ]);
            let column: Vec<Vec<usize>> = (0..rows).map(|_| vec![random.below(p)]).collect();
            draft.add(matrix_numbers(p, &column));
            draft.steps.push(take(99 + p));
            draft.steps.push(sum(&[1], 0));
        }
        // Columns of a table or a matrix, which cannot pass with so few rows.
        5 => {
            let columns = random.pick(&[127, 128, 128, 129]);
            let rows = vec![vec![0; columns], vec![1; columns]];
            let ingredient = if random.percent(50) {
                table_numbers(&Table {
                    levels: vec![2; columns],
                    runs: rows,
                })
            } else {
                matrix_numbers(random.pick(&[2, 64]), &rows)
            };
            draft.add(ingredient);
            draft.steps.push(take(101));
        }
        // Coordinates, and the size of the field.
        6 => {
            let s = random.pick(&FIELDS);
            let most_t = largest_exponent(s, 512);
            let t = most_t + random.below(2);
            let first = (0..t).map(|i| usize::from(i == 0)).collect();
            let second = (0..t)
                .map(|i| if i < 2 { random.below(s) } else { 0 })
                .collect();
            let i = draft.add(generator_numbers(s, t, &[vec![first], vec![second]]));
            draft.steps.push(field(i));
        }
        // Columns of a factor.
        7 => {
            let s = random.pick(&FIELDS);
            let most_t = largest_exponent(s, 512);
            let most_u = largest_exponent(s, 64);
            let u = most_u + random.below(2);
            let unit = |c: usize| (0..most_t).map(|i| usize::from(i == c)).collect();
            let i = draft.add(generator_numbers(s, most_t, &[(0..u).map(unit).collect()]));
            draft.steps.push(field(i));
        }
        // Columns of a sheet, one or some too many.
        8..=10 => {
            let by_sum = random.percent(60);
            let t = if by_sum { random.between(5, 8) } else { 8 };
            let mut factors = points(t, 2usize.pow(t as u32) - 1);
            random.shuffle(&mut factors);
            if by_sum {
                factors.truncate(random.between(15, 60).min(factors.len()));
                let count = factors.len();
                draft.add(generator_numbers(2, t, &factors));
                draft.steps.push(field(1));
                let columns = 128 / count + 1;
                let rows = columns.next_power_of_two();
                draft.add(matrix_numbers(2, &square(rows, columns)));
                draft.steps.push(sum(&[2], 0));
            } else {
                // The first two coordinates as one factor of 4 levels.
                factors.retain(|factor| factor[0][2..].contains(&1));
                factors.truncate(random.between(126, 127).min(factors.len()));
                let unit = |c: usize| (0..t).map(|i| usize::from(i == c)).collect();
                factors.push(vec![unit(0), unit(1)]);
                let column = factors.len();
                draft.add(generator_numbers(2, t, &factors));
                draft.steps.push(field(1));
                draft.steps.push(split(column, 101));
            }
        }
        // Level counts.
        _ => {
            let levels = random.pick(&[63, 64, 64, 65]);
            draft.add(table_numbers(&factorial(levels, &[levels])));
            draft.steps.push(take(1));
            if random.percent(50) {
                draft.add(matrix_numbers(levels, &[vec![0], vec![levels - 1]]));
                draft.steps.push(sum(&[2], 0));
            }
        }
    }
    draft
}

/// Numbers that only look like an order.
pub fn random_list(random: &mut Random) -> Vec<u16> {
    let count = random.below(30);
    let most = random.pick(&[2, 4, 8, 130]);
    let mut list: Vec<u16> = (0..count).map(|_| random.below(most) as u16).collect();
    if random.percent(30) && !list.is_empty() {
        let place = random.below(list.len());
        list[place] = random.below(65_536) as u16;
    }
    list
}

/// Short or long buffers.
pub fn change_buffers(random: &mut Random, call: &mut Call) {
    for _ in 0..random.pick(&[1, 1, 1, 2]) {
        let buffer = random.below(3);
        let least = LEAST[buffer];
        call.lengths[buffer] = match random.below(4) {
            0 | 1 => least - 1,
            2 => random.below(least),
            _ => random.between(least + 1, MOST[buffer]),
        };
    }
}
