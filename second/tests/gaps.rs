//! The check of a table by itself: the pair of levels that refusal 5 names, its gap (02, K5), and the
//! reading of a table that is handed in. How many pairs of columns are counted is tried in pairs.rs.

mod common;
use common::*;
use second::checker::{check_list, print_check};
use second::gap_tables::gap_tables;
use second::maker::{make, make_uneven, Random};
use second::order::{self, Ingredient, Table};
use second::table_calls::{self, Limits};
use second::{check_table, Answer, TableCheck};
use std::collections::BTreeMap;

/// What 01, K5 and K8 say of a table, of all pairs of levels at once: how often each stands in the runs,
/// and the first of the farthest.
fn said(ingredient: i64, table: &Table) -> [i64; 9] {
    let n = table.runs.len() as i64;
    let columns = table.levels.len();
    for column in 0..columns {
        let mut times = vec![0; table.levels[column]];
        for run in &table.runs {
            times[run[column]] += 1;
        }
        let s = times.len() as i64;
        if let Some(level) = times.iter().position(|times| s * times != n) {
            let column = column as i64 + 1;
            let (level, times) = (level as i64, times[level]);
            return [4, ingredient, column, level, times, 0, 0, 0, 0];
        }
    }
    for first in 0..columns {
        for second in first + 1..columns {
            let (s, t) = (table.levels[first], table.levels[second]);
            let mut times: BTreeMap<(usize, usize), i64> = BTreeMap::new();
            for x in 0..s {
                for y in 0..t {
                    times.insert((x, y), 0);
                }
            }
            for run in &table.runs {
                *times.get_mut(&(run[first], run[second])).unwrap() += 1;
            }
            let gap = |times: i64| (s * t) as i64 * times - n;
            // From the farthest on, and the lowest levels first among equals.
            let mut all: Vec<(i64, usize, usize, i64)> = times
                .iter()
                .map(|(&(x, y), &times)| (-gap(times).abs(), x, y, times))
                .collect();
            all.sort();
            let (size, x, y, times) = all[0];
            if size != 0 {
                let pairs = position_of_pair(columns, first + 1, second + 1);
                let [first, second, x, y] = [first + 1, second + 1, x, y].map(|n| n as i64);
                return [5, ingredient, first, second, x, y, times, gap(times), pairs];
            }
        }
    }
    let pairs = (columns * (columns - 1) / 2) as i64;
    [0, 0, 0, 0, 0, 0, 0, 0, pairs]
}

/// The check of a table, seen to be what is said, and within its bounds.
fn checked(table: &Table) -> [i64; 9] {
    let numbers = table_calls::numbers(&check_table(1, table));
    assert_eq!(numbers, said(1, table), "{table:?}");
    if numbers[0] == 5 {
        assert_is_farthest(table, numbers);
    } else {
        assert_eq!(numbers[7], 0);
    }
    numbers
}

/// What refusal 5 says, each thing for itself.
fn assert_is_farthest(table: &Table, [_, _, a, b, x, y, times, gap, _]: [i64; 9]) {
    let n = table.runs.len() as i64;
    let levels = |column: i64| table.levels[column as usize - 1] as i64;
    let (s, t) = (levels(a), levels(b));
    let stands = |x: i64, y: i64| {
        let is_pair =
            |run: &&Vec<usize>| run[a as usize - 1] as i64 == x && run[b as usize - 1] as i64 == y;
        table.runs.iter().filter(is_pair).count() as i64
    };
    assert!(a < b && x < s && y < t);
    assert_eq!(times, stands(x, y));
    assert_eq!(gap, s * t * times - n);
    // Below zero where the pair is short, and above where it is over.
    assert_eq!(gap < 0, times * s * t < n);
    assert_ne!(gap, 0);
    for other_x in 0..s {
        for other_y in 0..t {
            let size = (s * t * stands(other_x, other_y) - n).abs();
            assert!(size <= gap.abs());
            if (other_x, other_y) < (x, y) {
                assert!(size < gap.abs());
            }
        }
    }
    // A pair stands in no more runs than its rarer level.
    assert!(-n <= gap && gap <= n * (s.min(t) - 1));
    assert!((-512..=32_256).contains(&gap));
}

fn numbers_of(list: &[u16]) -> [i64; 9] {
    table_calls::numbers(&check_list(list))
}

/// Two columns in which x and y stand together counts[x][y] times.
fn of_counts(counts: &[Vec<usize>]) -> Table {
    let mut runs = Vec::new();
    for (x, row) in counts.iter().enumerate() {
        for (y, &times) in row.iter().enumerate() {
            runs.extend(vec![vec![x, y]; times]);
        }
    }
    Table {
        levels: vec![counts.len(), counts[0].len()],
        runs,
    }
}

#[test]
fn the_example_of_02() {
    let list = numbers("1 4 2 2 2 0 0 0 0 1 1 1 1");
    assert_eq!(
        check_list(&list),
        TableCheck {
            verdict: Err(refusal(5, &[1, 1, 2, 0, 0, 2])),
            gap: 4,
            pairs: 1,
        }
    );
    assert_eq!(
        print_check(b"1 4 2 2 2 0 0 0 0 1 1 1 1"),
        "refused 5 1 1 2 0 0 2\ngap 4\npairs 1\n"
    );
    assert_eq!(
        planned(&order(&[list], &[&[1, 1]])),
        refusal(5, &[1, 1, 2, 0, 0, 2])
    );
}

#[test]
fn the_gap_is_0_after_a_pass_and_after_refusal_4() {
    let passing = |pairs: usize| TableCheck {
        verdict: Ok(()),
        gap: 0,
        pairs,
    };
    assert_eq!(
        check_list(&numbers("1 4 2 2 2 0 0 0 1 1 0 1 1")),
        passing(1)
    );
    assert_eq!(check_list(&numbers("1 2 1 2 1 0")), passing(0));
    let uneven = TableCheck {
        verdict: Err(refusal(4, &[1, 2, 0, 3])),
        gap: 0,
        pairs: 0,
    };
    assert_eq!(check_list(&numbers("1 4 2 2 2 0 0 0 1 1 0 1 0")), uneven);
}

#[test]
fn tables_with_names() {
    let tables = gap_tables();
    assert_eq!(tables.len(), GAPS.len());
    for ((name, table), (wanted_name, wanted)) in tables.iter().zip(GAPS) {
        assert_eq!(name, wanted_name);
        assert_eq!(checked(table), wanted, "{name}");
        assert_eq!(numbers_of(&list_of(table)), wanted, "{name}");
    }
}

/// The lowest uneven pair of the two columns that a refusal names.
fn lowest_uneven(table: &Table, a: i64, b: i64) -> (i64, i64) {
    let [a, b] = [a, b].map(|column| column as usize - 1);
    let (s, t) = (table.levels[a], table.levels[b]);
    for x in 0..s {
        for y in 0..t {
            let is_pair = |run: &&Vec<usize>| run[a] == x && run[b] == y;
            if s * t * table.runs.iter().filter(is_pair).count() != table.runs.len() {
                return (x as i64, y as i64);
            }
        }
    }
    panic!("{table:?}")
}

/// How often a table is refused as 5, and what pair is named.
#[derive(Default, Debug)]
struct Counted {
    refused: usize,
    not_the_lowest: usize,
    short: usize,
    over: usize,
    other_columns: usize,
}

impl Counted {
    fn count(&mut self, table: &Table, numbers: [i64; 9]) {
        let [5, _, a, b, x, y, _, gap, _] = numbers else {
            return;
        };
        self.refused += 1;
        self.not_the_lowest += usize::from(lowest_uneven(table, a, b) != (x, y));
        self.short += usize::from(gap < 0);
        self.over += usize::from(gap > 0);
        self.other_columns += usize::from((a, b) != (1, 2));
    }

    fn assert_often(&self, least: usize) {
        let all = [
            self.refused,
            self.not_the_lowest,
            self.short,
            self.over,
            self.other_columns,
        ];
        assert!(all.iter().all(|&times| times >= least), "{self:?}");
    }
}

/// Tables of any entries, whose columns are mostly uneven, and such as have even columns in any order.
#[test]
fn random_tables() {
    let random = &mut Random::new(5);
    let mut counted = Counted::default();
    let mut times = [0; 6];
    for number in 0..30_000 {
        let columns = random.between(1, 4);
        let levels: Vec<usize> = (0..columns).map(|_| random.between(2, 5)).collect();
        let n: usize = random.pick(&[1, 2, 3, 4, 6, 8, 9, 12, 16, 18, 20, 24, 30, 36, 60]);
        let fits = |s: &usize| number % 4 == 0 || n.is_multiple_of(*s);
        let levels: Vec<usize> = levels.into_iter().filter(fits).collect();
        if levels.is_empty() {
            continue;
        }
        let mut runs = vec![Vec::new(); n];
        for &s in &levels {
            let mut column: Vec<usize> = (0..n).map(|run| run % s).collect();
            match number % 4 {
                0 => column.fill_with(|| random.below(s)),
                1 => random.shuffle(&mut column),
                _ => {
                    for _ in 0..random.below(6) {
                        column.swap(random.below(n), random.below(n));
                    }
                }
            }
            for (run, entry) in runs.iter_mut().zip(column) {
                run.push(entry);
            }
        }
        let table = Table { levels, runs };
        let numbers = checked(&table);
        counted.count(&table, numbers);
        times[numbers[0] as usize] += 1;
        assert_eq!(numbers_of(&list_of(&table)), numbers);
    }
    assert!(times[0] > 1_000 && times[4] > 1_000, "{times:?}");
    counted.assert_often(300);
}

/// Every table of two even columns of 3 levels in 9 runs, and of 2 and 3 levels in 6 and in 12.
#[test]
fn all_small_tables() {
    let mut refused = 0;
    for (s, t, n) in [(3, 3, 9), (2, 3, 6), (2, 3, 12), (3, 2, 12), (2, 4, 12)] {
        for counts in all_counts(s, n / s, &vec![n / t; t]) {
            let numbers = checked(&of_counts(&counts));
            let even = counts.concat().iter().all(|times| s * t * times == n);
            assert_eq!(numbers[0], if even { 0 } else { 5 });
            refused += usize::from(!even);
        }
    }
    assert!(refused > 100, "{refused}");
}

/// All ways to write so many rows, each with the same sum, whose columns have these sums.
fn all_counts(rows: usize, sum: usize, sums: &[usize]) -> Vec<Vec<Vec<usize>>> {
    if rows == 0 {
        return match sums.iter().all(|&sum| sum == 0) {
            true => vec![vec![]],
            false => vec![],
        };
    }
    let mut found = Vec::new();
    for row in all_rows(sum, sums) {
        let left: Vec<usize> = sums
            .iter()
            .zip(&row)
            .map(|(sum, times)| sum - times)
            .collect();
        for rest in all_counts(rows - 1, sum, &left) {
            found.push([vec![row.clone()], rest].concat());
        }
    }
    found
}

fn all_rows(sum: usize, most: &[usize]) -> Vec<Vec<usize>> {
    let Some((&first, rest)) = most.split_first() else {
        return match sum {
            0 => vec![vec![]],
            _ => vec![],
        };
    };
    let mut found = Vec::new();
    for times in 0..=sum.min(first) {
        for row in all_rows(sum - times, rest) {
            found.push([vec![times], row].concat());
        }
    }
    found
}

/// Random tables of the maker of calls, with many columns and with many levels among them.
#[test]
fn tables_of_the_maker() {
    let mut counted = Counted::default();
    let limits = Limits {
        most_entries: 1_500,
        wide: true,
    };
    for seed in 0..2_000 {
        let list = table_calls::make(seed, &limits);
        if let Ok((table, entries)) = order::read_table(&list) {
            if entries.iter().all(|entry| entry.value < entry.limit) {
                counted.count(&table, checked(&table));
            }
        }
    }
    counted.assert_often(100);
}

#[test]
fn the_order_of_the_runs_changes_nothing() {
    let random = &mut Random::new(6);
    for (_, mut table) in gap_tables() {
        let numbers = checked(&table);
        for _ in 0..3 {
            random.shuffle(&mut table.runs);
            assert_eq!(checked(&table), numbers);
        }
    }
}

/// With other names for the levels, or the columns the other way about, another pair may be the lowest
/// of the farthest, but these are as far off.
#[test]
fn names_of_levels_and_turn_of_columns() {
    let random = &mut Random::new(7);
    for seed in 0..500 {
        let random_table = || match order::read(&make_uneven(seed).list)
            .unwrap()
            .ingredients
            .pop()
        {
            Some(Ingredient::Table(table)) => table,
            other => panic!("{other:?}"),
        };
        let numbers = checked(&random_table());
        if numbers[0] != 5 {
            continue;
        }
        let mut renamed = random_table();
        for (column, &s) in renamed.levels.iter().enumerate() {
            let mut names = Vec::from_iter(0..s);
            random.shuffle(&mut names);
            for run in &mut renamed.runs {
                run[column] = names[run[column]];
            }
        }
        let of_renamed = checked(&renamed);
        assert_eq!(of_renamed[..4], numbers[..4]);
        assert_eq!(of_renamed[7].abs(), numbers[7].abs());
        assert_eq!(of_renamed[8], numbers[8]);

        // The two columns alone.
        let two = |columns: [i64; 2]| {
            let columns = columns.map(|column| column as usize - 1);
            let table = random_table();
            let chosen = |row: &Vec<usize>| columns.map(|column| row[column]).to_vec();
            Table {
                levels: chosen(&table.levels),
                runs: table.runs.iter().map(chosen).collect(),
            }
        };
        let [a, b] = [numbers[2], numbers[3]];
        let alone = checked(&two([a, b]));
        assert_eq!(alone[4..8], numbers[4..8]);
        assert_eq!(alone[8], 1);
        assert_eq!(checked(&two([b, a]))[7].abs(), numbers[7].abs());
    }
}

/// Two equal columns have the largest gap that there is with their levels: N times one less than
/// these. Two opposite ones of 2 levels have the least, - N.
#[test]
fn the_largest_and_the_least_gap() {
    for s in 2..=64 {
        let n = 512 / s * s;
        let equal = Table {
            levels: vec![s; 2],
            runs: (0..n).map(|run| vec![run % s; 2]).collect(),
        };
        let numbers = checked(&equal);
        let [s, n] = [s, n].map(|number| number as i64);
        assert_eq!(numbers, [5, 1, 1, 2, 0, 0, n / s, n * (s - 1), 1]);
    }
    for n in [2, 4, 6, 510, 512] {
        let opposite = Table {
            levels: vec![2; 2],
            runs: (0..n).map(|run| vec![run % 2, 1 - run % 2]).collect(),
        };
        assert_eq!(checked(&opposite), [5, 1, 1, 2, 0, 0, 0, -(n as i64), 1]);
    }
}

/// Refusal 5 names the pair in the turn of the levels, so that a pair as far off stands after it: one
/// of the other sign, and one of the same.
#[test]
fn pairs_as_far_off() {
    let farthest = |counts: &[Vec<usize>]| checked(&of_counts(counts))[4..8].to_vec();
    let short = vec![4, 2, 3];
    let over = vec![2, 4, 3];
    assert_eq!(
        farthest(&[short.clone(), vec![1, 5, 3], short]),
        [1, 0, 1, -18]
    );
    assert_eq!(
        farthest(&[over.clone(), vec![5, 1, 3], over]),
        [1, 0, 5, 18]
    );
    // The second column's level decides within one level of the first.
    assert_eq!(
        farthest(&[vec![3, 1, 5], vec![3, 5, 1], vec![3, 3, 3]]),
        [0, 1, 1, -18]
    );
    assert_eq!(
        farthest(&[vec![3, 5, 1], vec![3, 1, 5], vec![3, 3, 3]]),
        [0, 1, 5, 18]
    );
    // And the first column's before that: 0-2 before 1-0.
    assert_eq!(
        farthest(&[vec![4, 4, 1], vec![1, 4, 4], vec![4, 1, 4]]),
        [0, 2, 1, -18]
    );
}

/// The refusals 4 and 5 of an order are those of its first table that does not pass.
#[test]
fn orders_are_refused_by_the_same_check() {
    let mut times = [0; 6];
    let orders = (0..1_500).map(|seed| make(7_000_000 + seed));
    let uneven = (0..500).map(make_uneven);
    for call in orders.chain(uneven) {
        let answer = planned(&call.list);
        let Answer::Refused {
            number: number @ (4 | 5),
            details,
        } = answer
        else {
            continue;
        };
        let ingredients = order::read(&call.list).unwrap().ingredients;
        let place = details[0] as usize - 1;
        let Ingredient::Table(table) = &ingredients[place] else {
            panic!("{:?}", call.list)
        };
        let check = check_table(place + 1, table);
        assert_eq!(check.verdict, Err(refusal(number, &details)));
        assert_eq!(table_calls::numbers(&check), said(details[0].into(), table));
        times[number as usize] += 1;
    }
    assert!(times[4] > 50 && times[5] > 300, "{times:?}");
}

/// A table as the one ingredient of an order: its places are one less, and its answer is the same.
#[test]
fn a_table_is_read_as_an_ingredient_is() {
    let mut times = [0; 6];
    for seed in 0..3_000 {
        let list = table_calls::make(40_000 + seed, &table_calls::STORED);
        let numbers = numbers_of(&list);
        times[numbers[0] as usize] += 1;
        let in_an_order = [&[1], list.as_slice(), &[1, 1, 1]].concat();
        match (numbers[0], planned(&in_an_order)) {
            (0, Answer::Filled { .. }) => {}
            (2, answer) => assert_unreadable(&list, numbers[1] as usize, &answer),
            (3, answer) => assert_eq!(answer, refusal(3, &[numbers[1] as u32 + 1])),
            (4 | 5, Answer::Refused { number, details }) => {
                assert_eq!(i64::from(number), numbers[0]);
                assert_eq!(details.map(i64::from), numbers[1..7]);
            }
            other => panic!("{list:?}: {other:?}"),
        }
    }
    assert!([0, 2, 3, 4, 5].iter().all(|&n| times[n] > 50), "{times:?}");
}

/// A number that the table does not allow is refused in an order too, one place on. What an order does
/// with the end of a list, or with another kind, is its own.
fn assert_unreadable(list: &[u16], place: usize, answer: &Answer) {
    let ends_there = place == list.len();
    let left_over = order::read_table(&list[..place]).is_ok();
    let other_kind = place == 0 && [Some(&2), Some(&3)].contains(&list.first());
    if !ends_there && !left_over && !other_kind {
        assert_eq!(*answer, refusal(2, &[place as u32 + 1]), "{list:?}");
    }
}

/// How one number of a table is taken: allowed, or refused at its place. Nothing may follow it.
fn allowed(before: &str, number: u16) -> bool {
    let mut list = numbers(before);
    let place = list.len() as i64;
    list.push(number);
    let [2, at, 0, 0, 0, 0, 0, 0, 0] = numbers_of(&list) else {
        panic!("{list:?}")
    };
    assert!(at == place || at == place + 1);
    at == place + 1
}

#[test]
fn numbers_in_their_limits() {
    for number in 0..=65_535 {
        let within = |least, most| (least..=most).contains(&number);
        assert_eq!(allowed("", number), number == 1, "kind {number}");
        assert_eq!(allowed("1", number), within(1, 512), "rows {number}");
        assert_eq!(allowed("1 1", number), within(1, 128), "columns {number}");
        assert_eq!(allowed("1 1 2", number), within(2, 64), "level {number}");
        assert_eq!(allowed("1 1 2 64", number), within(2, 64), "level {number}");
        // An entry may be any number as long as the list does not read.
        assert!(allowed("1 2 1 2", number));
    }
}

#[test]
fn lists_that_run_out_or_have_a_number_left_over() {
    let whole = numbers("1 6 2 3 2 0 0 0 1 1 0 1 1 2 0 2 1");
    assert_eq!(numbers_of(&whole), [0, 0, 0, 0, 0, 0, 0, 0, 1]);
    for length in 0..whole.len() {
        let place = length as i64;
        assert_eq!(numbers_of(&whole[..length])[..3], [2, place, 0]);
    }
    for left_over in [&[0][..], &[1], &[65_535], &[1, 1, 1]] {
        let longer = [&whole, left_over].concat();
        assert_eq!(numbers_of(&longer), [2, 17, 0, 0, 0, 0, 0, 0, 0]);
    }
}

#[test]
fn lists_of_32768_numbers_and_one_more() {
    // 255 runs of 128 columns, and 512 runs of 63, are within the length; 256 of 128 are not.
    let parity = |run: usize, number: usize| ((run & number).count_ones() % 2) as u16;
    let sheet = |runs: usize, columns: usize| {
        let run = |run| (1..=columns).map(|number| parity(run, number)).collect();
        table(&vec![2; columns], &Vec::from_iter((0..runs).map(run)))
    };
    let passes = |pairs: i64| [0, 0, 0, 0, 0, 0, 0, 0, pairs];
    assert_eq!(numbers_of(&sheet(512, 63)), passes(1_953));
    assert_eq!(numbers_of(&sheet(256, 127)), passes(8_001));
    let odd = sheet(255, 128);
    assert_eq!(odd.len(), 32_771);
    assert_eq!(numbers_of(&odd), [2, 32_768, 0, 0, 0, 0, 0, 0, 0]);
    // At the most that there are, a number is left over.
    let mut list = sheet(512, 63);
    let length = list.len() as i64;
    list.resize(32_768, 0);
    assert_eq!(numbers_of(&list), [2, length, 0, 0, 0, 0, 0, 0, 0]);
    list.push(0);
    assert_eq!(numbers_of(&list), [2, 32_768, 0, 0, 0, 0, 0, 0, 0]);
    // Before any reading.
    assert_eq!(numbers_of(&[7; 32_768])[..2], [2, 0]);
    assert_eq!(numbers_of(&[7; 32_769])[..2], [2, 32_768]);
    // A list that runs out at the most numbers.
    let mut list = vec![1, 512, 128];
    list.resize(32_768, 2);
    assert_eq!(numbers_of(&list)[..2], [2, 32_768]);
}

#[test]
fn entries_and_the_turn_of_the_questions() {
    assert_eq!(numbers_of(&numbers("1 2 2 3 2 2 1 2 2"))[..3], [3, 8, 0]);
    assert_eq!(numbers_of(&numbers("1 2 2 3 2 3 1 2 2"))[..3], [3, 5, 0]);
    assert_eq!(numbers_of(&numbers("1 2 1 2 0 65535"))[..3], [3, 5, 0]);
    // Question 2 before 3, and 3 before 4.
    assert_eq!(numbers_of(&numbers("1 2 1 2 9 0 0"))[..3], [2, 6, 0]);
    assert_eq!(numbers_of(&numbers("1 2 1 2 9"))[..3], [2, 5, 0]);
    assert_eq!(numbers_of(&numbers("1 4 1 2 0 0 0 2"))[..3], [3, 7, 0]);
}

#[test]
fn words_are_read_as_those_of_an_order() {
    let passes = "passes\ngap 0\npairs 0\n";
    assert_eq!(print_check(b"1 2 1 2 0 1"), passes);
    assert_eq!(print_check(b"\n\t001 2\n1  02 0 1\n\n"), passes);
    let unreadable = |place: usize| format!("refused 2 {place} 0 0 0 0 0\ngap 0\npairs 0\n");
    assert_eq!(print_check(b""), unreadable(0));
    assert_eq!(print_check(b" \n"), unreadable(0));
    assert_eq!(print_check(b"1 2 1 2 0 1 0"), unreadable(6));
    // A word before the list: the one at place 5, though the kind is wrong.
    for word in ["x", "-1", "+1", "1.0", "65536", "1\r"] {
        let text = format!("9 2 1 2 0 {word}");
        assert_eq!(print_check(text.as_bytes()), unreadable(5), "{word:?}");
    }
    let most = "1 ".repeat(32_768);
    assert_eq!(print_check(most.as_bytes()), unreadable(3));
    assert_eq!(
        print_check(format!("{most}x").as_bytes()),
        unreadable(32_768)
    );
    assert_eq!(
        print_check(format!("{most}1").as_bytes()),
        unreadable(32_768)
    );
    assert_eq!(print_check(format!("x {most}").as_bytes()), unreadable(0));
}

#[test]
fn printed_refusals_and_gaps() {
    assert_eq!(
        print_check(b"1 4 2 2 2 0 1 0 1 1 0 1 0"),
        "refused 5 1 1 2 0 0 0\ngap -4\npairs 1\n"
    );
    assert_eq!(
        print_check(b"1 2 1 2 0 2"),
        "refused 3 5 0 0 0 0 0\ngap 0\npairs 0\n"
    );
    assert_eq!(
        print_check(b"1 4 2 2 2 0 0 0 1 1 0 1 0"),
        "refused 4 1 2 0 3 0 0\ngap 0\npairs 0\n"
    );
}
