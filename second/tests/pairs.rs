//! How many pairs of columns the check of a table counts; 02, K8.

mod common;
use common::*;
use second::checker::{check_list, print_check};
use second::gap_tables::{gap_tables, parities};
use second::maker::{make_uneven, Random};
use second::order::{self, Ingredient, Table};
use second::pair_tables::pair_tables;
use second::{check_table, print, table_calls, Answer, TableCheck};

/// 128 × 127 ÷ 2.
const MOST_PAIRS: usize = 8_128;

/// The runs that have each level of a column, and each pair of levels of two, are as many as even
/// columns have.
fn is_even(table: &Table, columns: &[usize]) -> bool {
    let together: usize = columns
        .iter()
        .map(|&column| table.levels[column - 1])
        .product();
    let mut times = vec![0; together];
    for run in &table.runs {
        let number = columns.iter().fold(0, |number, &column| {
            number * table.levels[column - 1] + run[column - 1]
        });
        times[number] += 1;
    }
    times
        .iter()
        .all(|times| together * times == table.runs.len())
}

/// What K8 says of a table: how far one gets in the list of all pairs.
fn said(table: &Table) -> usize {
    let m = table.levels.len();
    if !(1..=m).all(|column| is_even(table, &[column])) {
        return 0;
    }
    let written = pairs_in_order(m);
    let failing = written.iter().position(|&(a, b)| !is_even(table, &[a, b]));
    match failing {
        Some(place) => place + 1,
        None => m * (m - 1) / 2,
    }
}

/// The position of a pair without a list of them: each column before the first has as many pairs as
/// columns come after it, and then they go from the first to the second.
fn worked_out(m: usize, first: usize, second: usize) -> usize {
    let before: usize = (1..first).map(|column| m - column).sum();
    before + (second - first)
}

/// The two columns that refusal 5 names.
fn failing_columns(check: &TableCheck) -> Option<(usize, usize)> {
    match &check.verdict {
        Err(Answer::Refused { number: 5, details }) => {
            Some((details[1] as usize, details[2] as usize))
        }
        _ => None,
    }
}

/// The pairs counted of a table, seen to be what is said, and within their bounds.
fn counted(table: &Table) -> usize {
    let check = check_table(1, table);
    let m = table.levels.len();
    assert_eq!(check.pairs, said(table), "{table:?}");
    assert!(check.pairs <= m * (m - 1) / 2 && check.pairs <= MOST_PAIRS);
    if let Some((a, b)) = failing_columns(&check) {
        assert_eq!(check.pairs, worked_out(m, a, b));
        assert!(check.pairs >= 1);
    }
    check.pairs
}

/// The pairs counted of a table with 2-level columns that have these numbers (`parities`), and the two
/// columns named.
fn of_numbers(runs: usize, numbers: &[usize]) -> (usize, Option<(usize, usize)>) {
    let table = parities(runs, numbers);
    (counted(&table), failing_columns(&check_table(1, &table)))
}

/// The numbers from 1 on, but for the second column, which has the number of the first.
fn one_repeated(columns: usize, first: usize, second: usize) -> Vec<usize> {
    let mut numbers = Vec::from_iter(1..columns);
    numbers.insert(second - 1, first);
    numbers
}

/// The nine numbers of the check of a list.
fn numbers_of(list: &[u16]) -> [i64; 9] {
    table_calls::numbers(&check_list(list))
}

fn printed(text: &str) -> String {
    print_check(text.as_bytes())
}

#[test]
fn house_tables() {
    let runs_101 = "0 0 0 0 1 1 1 0 1 1 1 0";
    assert_eq!(
        printed(&format!("1 4 3 2 2 2 {runs_101}")),
        "passes\ngap 0\npairs 3\n"
    );
    let runs_102 = "0 0 0 0 0 1 1 1 0 2 2 2 1 0 1 2 1 1 2 0 1 2 0 1 2 0 2 1 2 1 0 2 2 2 1 0";
    assert_eq!(
        printed(&format!("1 9 4 3 3 3 3 {runs_102}")),
        "passes\ngap 0\npairs 6\n"
    );
    // 103, of 5 columns, whose last two runs' entries of column 5 are exchanged: 2-5 is the seventh.
    let beginning = "1 12 5 3 2 2 2 2 0 0 0 0 0 0 1 1 1 0 0 0 1 0 1 0 1 0 1 1 1 0 0 0 1 1 1 1 0 0 \
                     1 0 1 1 0 1 1 0 1 1 2 0 0 1 0 2 1 1 0 1";
    assert_eq!(
        printed(&format!("{beginning} 2 0 1 1 1 2 1 0 0 0")),
        "passes\ngap 0\npairs 10\n"
    );
    assert_eq!(
        printed(&format!("{beginning} 2 0 1 1 0 2 1 0 0 1")),
        "refused 5 1 2 5 0 0 4\ngap 4\npairs 7\n"
    );
}

#[test]
fn one_column_has_no_pairs() {
    for levels in 2..=64 {
        let runs = Vec::from_iter((0..levels).map(|level| vec![level]));
        assert_eq!(
            numbers_of(&table(&[levels], &runs)),
            [0, 0, 0, 0, 0, 0, 0, 0, 0]
        );
    }
    assert_eq!(printed("1 2 1 2 1 0"), "passes\ngap 0\npairs 0\n");
}

/// A pair is one pair, however many levels its columns have.
#[test]
fn two_columns_have_one_pair() {
    for s in 2..=22 {
        let each_once = |number: usize| vec![number / s, number % s];
        let even = Table {
            levels: vec![s; 2],
            runs: (0..s * s).map(each_once).collect(),
        };
        assert_eq!(counted(&even), 1);
        assert_eq!(check_table(1, &even).verdict, Ok(()));
        let equal = Table {
            levels: vec![s; 2],
            runs: (0..s).map(|level| vec![level; 2]).collect(),
        };
        assert_eq!(counted(&equal), 1);
        assert!(check_table(1, &equal).verdict.is_err());
    }
}

/// After 2, 3 and 4 nothing was counted, or no pair, though there are pairs that could be.
#[test]
fn no_pairs_after_another_refusal() {
    assert_eq!(
        printed("1 4 2 2 2 0 0 0 1 1 0 1 0"),
        "refused 4 1 2 0 3 0 0\ngap 0\npairs 0\n"
    );
    // Columns 1 and 2 are even together, and column 3 is uneven.
    assert_eq!(
        printed("1 4 3 2 2 2 0 0 0 0 1 0 1 0 0 1 1 0"),
        "refused 4 1 3 0 4 0 0\ngap 0\npairs 0\n"
    );
    // Columns 1 and 2 are equal, and column 3 is uneven.
    assert_eq!(
        printed("1 4 3 2 2 2 0 0 0 0 0 0 1 1 0 1 1 0"),
        "refused 4 1 3 0 4 0 0\ngap 0\npairs 0\n"
    );
    // An entry out of range, a number left over, a list that runs out, a kind, and a word.
    for (text, refusal) in [
        ("1 4 3 2 2 2 0 0 0 0 1 1 1 0 1 1 1 2", "3 17"),
        ("1 4 3 2 2 2 0 0 0 0 1 1 1 0 1 1 1 0 0", "2 18"),
        ("1 4 3 2 2 2 0 0 0 0 1 1 1 0 1 1 1", "2 17"),
        ("2 4 3 2 2 2 0 0 0 0 1 1 1 0 1 1 1 0", "2 0"),
        ("1 4 3 2 2 2 0 0 0 0 1 1 1 0 1 1 1 0x", "2 17"),
        ("", "2 0"),
    ] {
        let wanted = format!("refused {refusal} 0 0 0 0 0\ngap 0\npairs 0\n");
        assert_eq!(printed(text), wanted);
    }
}

#[test]
fn tables_with_names() {
    let tables = pair_tables();
    assert_eq!(tables.len(), PAIRS.len());
    for ((name, table), (wanted_name, wanted)) in tables.iter().zip(PAIRS) {
        assert_eq!(name, wanted_name);
        assert_eq!(counted(table) as i64, wanted[8], "{name}");
        assert_eq!(table_calls::numbers(&check_table(1, table)), wanted);
        assert_eq!(numbers_of(&list_of(table)), wanted, "{name}");
    }
    for ((name, table), (_, wanted)) in gap_tables().iter().zip(GAPS) {
        assert_eq!(counted(table) as i64, wanted[8], "{name}");
    }
}

/// Of 2 to 12 columns all that are uneven are two, each two in their turn: the numbers go up by one.
#[test]
fn every_pair_in_its_turn() {
    for columns in 2..=12 {
        let mut pairs = 0;
        for (first, second) in pairs_in_order(columns) {
            pairs += 1;
            let numbers = one_repeated(columns, first, second);
            assert_eq!(of_numbers(16, &numbers), (pairs, Some((first, second))));
        }
        assert_eq!(pairs, columns * (columns - 1) / 2);
        let all = Vec::from_iter(1..=columns);
        assert_eq!(of_numbers(16, &all), (pairs, None));
    }
}

/// 128 columns that pass, and such of which two alone are uneven: at both ends of the first rows of the
/// list of pairs and of its last, and the pair before and after them.
#[test]
fn the_most_columns() {
    let all = Vec::from_iter(1..=128);
    assert_eq!(of_numbers(256, &all), (8_128, None));
    assert_eq!(of_numbers(512, &all), (8_128, None));
    for (first, second, position) in [
        (1, 2, 1),
        (1, 3, 2),
        (1, 127, 126),
        (1, 128, 127),
        (2, 3, 128),
        (2, 4, 129),
        (2, 127, 252),
        // 127 + 126.
        (2, 128, 253),
        (3, 4, 254),
        (3, 5, 255),
        (3, 6, 256),
        // 127 + 126 + .. + 65 is 63 × 96.
        (63, 128, 6_048),
        (64, 65, 6_049),
        (125, 126, 8_123),
        (125, 127, 8_124),
        (125, 128, 8_125),
        (126, 127, 8_126),
        (126, 128, 8_127),
        (127, 128, 8_128),
    ] {
        let numbers = one_repeated(128, first, second);
        assert_eq!(of_numbers(128, &numbers), (position, Some((first, second))));
    }
    // One column fewer: 127 × 126 ÷ 2.
    assert_eq!(of_numbers(128, &all[..127]), (8_001, None));
}

/// As many columns as a prime that is 3 modulo 4, and one run more. In run 0 all is 0, and in the others
/// a 1 says that run and column add up to a square modulo the prime, 0 among them.
fn of_squares(prime: usize) -> Table {
    let is_square = |number: usize| (0..prime).any(|root| root * root % prime == number);
    let squares = Vec::from_iter((0..prime).map(is_square));
    let entry = |run: usize, column: usize| usize::from(squares[(column + run) % prime]);
    let mut runs = vec![vec![0; prime]];
    runs.extend((0..prime).map(|run| (0..prime).map(|column| entry(run, column)).collect()));
    Table {
        levels: vec![2; prime],
        runs,
    }
}

#[test]
fn tables_of_squares() {
    for (prime, pairs) in [
        (3, 3),
        (7, 21),
        (11, 55),
        (19, 171),
        (23, 253),
        (31, 465),
        (83, 3_403),
        (127, 8_001),
    ] {
        let table = of_squares(prime);
        assert_eq!(check_table(1, &table).verdict, Ok(()));
        assert_eq!(counted(&table), pairs);
    }
}

/// A list holds at most 254 runs of 128 columns. The most pairs are counted of 132 that pass, and of 128
/// in which the last two columns are equal.
#[test]
fn the_most_pairs_of_a_list() {
    let mut wide = of_squares(131);
    wide.levels.truncate(128);
    for run in &mut wide.runs {
        run.truncate(128);
    }
    let list = list_of(&wide);
    assert_eq!(list.len(), 17_027);
    assert_eq!(numbers_of(&list), [0, 0, 0, 0, 0, 0, 0, 0, 8_128]);
    let words: Vec<String> = list.iter().map(u16::to_string).collect();
    assert_eq!(printed(&words.join(" ")), "passes\ngap 0\npairs 8128\n");

    let equal = list_of(&parities(128, &one_repeated(128, 127, 128)));
    assert_eq!(equal.len(), 16_515);
    assert_eq!(numbers_of(&equal), [5, 1, 127, 128, 0, 0, 64, 128, 8_128]);

    // Of the 128 columns of 256 runs the list is too long.
    let long = list_of(&parities(256, &Vec::from_iter(1..=128)));
    assert_eq!(numbers_of(&long), [2, 32_768, 0, 0, 0, 0, 0, 0, 0]);
}

/// Columns with any numbers, few of them or many: the first two that have the same are named.
#[test]
fn random_numbers_of_columns() {
    let random = &mut Random::new(8);
    let mut times = [0; 2];
    for _ in 0..3_000 {
        let runs: usize = random.pick(&[2, 4, 8, 16, 32]);
        let columns = random.between(1, 24);
        let numbers = Vec::from_iter((0..columns).map(|_| random.between(1, runs - 1)));
        let equal = |&(a, b): &(usize, usize)| numbers[a - 1] == numbers[b - 1];
        let written = pairs_in_order(columns);
        let wanted = match written.iter().position(equal) {
            Some(place) => (place + 1, Some(written[place])),
            None => (written.len(), None),
        };
        assert_eq!(of_numbers(runs, &numbers), wanted);
        times[usize::from(wanted.1.is_some())] += 1;
    }
    assert!(times.iter().all(|&times| times > 200), "{times:?}");
}

/// Tables of the makers: of few levels and of many, and of few columns and of many.
#[test]
fn random_tables() {
    let mut times = [0; 6];
    let mut late = 0;
    let mut count = |table: &Table| {
        let pairs = counted(table);
        let numbers = table_calls::numbers(&check_table(1, table));
        assert_eq!(numbers[8], pairs as i64);
        times[numbers[0] as usize] += 1;
        late += usize::from(numbers[0] == 5 && pairs > 1);
    };
    for limits in [table_calls::STORED, table_calls::ANY] {
        for seed in 0..2_500 {
            let list = table_calls::make(80_000 + seed, &limits);
            let numbers = numbers_of(&list);
            match order::read_table(&list) {
                Ok((table, _)) if ![2, 3].contains(&numbers[0]) => count(&table),
                _ => assert_eq!(numbers[8], 0),
            }
        }
    }
    for seed in 0..500 {
        let ingredients = order::read(&make_uneven(seed).list).unwrap().ingredients;
        for ingredient in &ingredients {
            if let Ingredient::Table(table) = ingredient {
                count(table);
            }
        }
    }
    assert!([0, 4, 5].iter().all(|&n| times[n] > 100), "{times:?}");
    assert!(late > 300, "{late}");
}

/// Without the columns after the failing two the same two fail, and each column that is gone takes a pair
/// with each of those before the first.
#[test]
fn columns_after_the_failing_ones() {
    let random = &mut Random::new(9);
    let mut times = 0;
    for _ in 0..3_000 {
        let columns = random.between(2, 24);
        let numbers = Vec::from_iter((0..columns).map(|_| random.between(1, 31)));
        let (pairs, Some((a, b))) = of_numbers(32, &numbers) else {
            continue;
        };
        let (pairs_of_cut, failing) = of_numbers(32, &numbers[..b]);
        assert_eq!(failing, Some((a, b)));
        let gone = columns - b;
        assert_eq!(pairs, pairs_of_cut + (a - 1) * gone);
        times += usize::from(a > 1 && gone > 0);
    }
    assert!(times > 1_000, "{times}");
}

/// The number is no part of an order's answer.
#[test]
fn orders_are_answered_as_before() {
    let uneven = numbers("1 4 3 2 2 2 0 0 0 0 1 1 1 0 0 1 1 1");
    assert_eq!(numbers_of(&uneven), [5, 1, 2, 3, 0, 0, 2, 4, 3]);
    assert_eq!(
        print(&planned(&order(&[uneven], &[&[1, 1]]))),
        "refused 5 1 2 3 0 0 2\n"
    );
}
