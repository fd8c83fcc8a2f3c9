//! The price list applied: 02's request K7, worked out by hand or in another way.

mod common;
use common::*;
use second::charge_calls::{make, ChargeCall, ANY, STORED};
use second::charges::{charge, print_charge, Quote};
use second::maker::Random;
use second::{plan_text, print, Answer, LEAST};

/// A sheet handed in, with the size that is said of it.
#[derive(Clone)]
struct Sheet {
    table: Vec<u8>,
    levels: Vec<u8>,
    runs: usize,
    columns: usize,
}

impl Sheet {
    fn new(levels: Vec<u8>, runs: Vec<Vec<u8>>) -> Sheet {
        Sheet {
            table: runs.concat(),
            columns: levels.len(),
            levels,
            runs: runs.len(),
        }
    }

    /// From runs that are written as digits; each column has 10 levels.
    fn of_digits(text: &str) -> Sheet {
        let digits = |word: &str| word.bytes().map(|byte| byte - b'0').collect();
        let runs: Vec<Vec<u8>> = text.split(' ').map(digits).collect();
        Sheet::new(vec![10; runs[0].len()], runs)
    }

    fn rows(&self) -> Vec<Vec<u8>> {
        let rows = self.table.chunks(self.columns).take(self.runs);
        rows.map(<[u8]>::to_vec).collect()
    }

    /// The same runs with the columns of these numbers, from 0, in this order.
    fn with_columns(&self, numbers: &[usize]) -> Sheet {
        let of = |run: &Vec<u8>| numbers.iter().map(|&column| run[column]).collect();
        let levels = numbers.iter().map(|&column| self.levels[column]).collect();
        Sheet::new(levels, self.rows().iter().map(of).collect())
    }

    fn with_rows(&self, rows: Vec<Vec<u8>>) -> Sheet {
        Sheet::new(self.levels[..self.columns].to_vec(), rows)
    }

    fn quote(&self, run_price: u32, prices: &[u32], discount: u32) -> Quote {
        charge(
            &self.table,
            &self.levels,
            self.runs,
            self.columns,
            run_price,
            prices,
            discount,
        )
    }

    /// The charge, where there is one.
    fn charge(&self, run_price: u32, prices: &[u32], discount: u32) -> u64 {
        let quote = self.quote(run_price, prices, discount);
        assert_eq!(quote.answer, 0);
        quote.charge
    }

    /// How often a column changes: one less than the stretches of equal levels that it has.
    fn changes(&self, column: usize) -> u64 {
        let mut levels: Vec<u8> = self.rows().iter().map(|run| run[column]).collect();
        levels.dedup();
        levels.len() as u64 - 1
    }

    /// The sum, column by column.
    fn sum(&self, run_price: u32, prices: &[u32]) -> u64 {
        let runs = self.runs as u64 * u64::from(run_price);
        let column = |(column, &price): (usize, &u32)| self.changes(column) * u64::from(price);
        runs + prices.iter().enumerate().map(column).sum::<u64>()
    }
}

fn assert_refused(quote: Quote, answer: usize) {
    assert_eq!(quote, Quote { answer, charge: 0 });
}

/// The columns change once, twice and three times.
fn five_runs() -> Sheet {
    Sheet::of_digits("000 011 012 112 120")
}

/// One run of one column: the sum is the run price.
fn one_price(pence: u32, discount: u32) -> u64 {
    Sheet::of_digits("0").charge(pence, &[u32::MAX], discount)
}

#[test]
fn sums_worked_out_by_hand() {
    let sheet = five_runs();
    assert_eq!(sheet.charge(7, &[1_000, 100, 10], 0), 1_265);
    assert_eq!(sheet.charge(7, &[10, 100, 1_000], 0), 3_245);
    assert_eq!(sheet.charge(7, &[0, 0, 0], 0), 35);
    assert_eq!(sheet.charge(0, &[1_000, 100, 10], 0), 1_230);
    assert_eq!(sheet.charge(0, &[0, 0, 0], 0), 0);
}

/// The example of the program `pricer`: house table 103, whose columns change 2, 11, 6, 8 and 6 times.
/// 12 × 4,500 + 2 × 1,250 + 11 × 300 + 6 × 290 + 8 × 74 + 6 × 993 = 68,090.
#[test]
fn house_table_103() {
    let Answer::Filled {
        runs,
        levels,
        table,
        ..
    } = answer("0 1 1 103")
    else {
        panic!();
    };
    let sheet = Sheet {
        table,
        columns: levels.len(),
        levels,
        runs,
    };
    let changes: Vec<u64> = (0..5).map(|column| sheet.changes(column)).collect();
    assert_eq!(changes, [2, 11, 6, 8, 6]);
    let prices = [1_250, 300, 290, 74, 993];
    assert_eq!(sheet.charge(4_500, &prices, 0), 68_090);
    // 57,876.50.
    assert_eq!(sheet.charge(4_500, &prices, 15), 57_877);
}

#[test]
fn each_column_has_its_own_price() {
    for column in 0..6 {
        let changed: String = (0..6)
            .map(|c| if c == column { '1' } else { '0' })
            .collect();
        let sheet = Sheet::of_digits(&format!("000000 {changed} {changed}"));
        let prices = [1, 10, 100, 1_000, 10_000, 100_000];
        let wanted = 3_000_000 + u64::from(prices[column]);
        assert_eq!(sheet.charge(1_000_000, &prices, 0), wanted);
    }
}

#[test]
fn a_change_is_between_a_run_and_the_run_before() {
    for (runs, wanted) in [
        ("0", 0),
        ("9", 0),
        ("0 0", 0),
        ("9 9", 0),
        ("0 1", 1),
        ("1 0", 1),
        ("0 9", 1),
        ("0 0 1", 1),
        ("0 1 1", 1),
        ("0 1 0", 2),
        ("0 1 2", 2),
        ("0 1 1 0", 2),
        ("0 1 0 1", 3),
        ("0 1 2 0", 3),
        ("3 3 3 4 4 3 3", 2),
        // Columns that differ from one another do not change by that.
        ("01 01 01", 0),
        ("12 12 12", 0),
        ("01 10 01", 4),
        ("12 13 12", 2),
        ("00 11 11", 2),
    ] {
        let sheet = Sheet::of_digits(runs);
        let prices = vec![1; sheet.columns];
        assert_eq!(sheet.charge(0, &prices, 0), wanted, "{runs}");
        let with_runs = 1_000 * sheet.runs as u64 + wanted;
        assert_eq!(sheet.charge(1_000, &prices, 0), with_runs, "{runs}");
    }
}

#[test]
fn one_run_has_no_changes() {
    for run in ["0", "5", "00", "05", "99999"] {
        let sheet = Sheet::of_digits(run);
        for price in [0, 1, 4_500, u32::MAX] {
            for run_price in [0, 1, 4_500, u32::MAX] {
                let prices = vec![price; sheet.columns];
                let charge = sheet.charge(run_price, &prices, 0);
                assert_eq!(charge, u64::from(run_price));
            }
        }
    }
}

/// Of the sum × (100 - discount).
#[test]
fn endings_at_one_percent() {
    for (sum, wanted) in [
        // 00, 01, 49, 50, 51 and 99.
        (100, 99),
        (99, 98),
        (51, 50),
        (50, 50),
        (49, 49),
        (1, 1),
        (200, 198),
        (199, 197),
        (151, 149),
        (150, 149),
        (149, 148),
        (101, 100),
        (0, 0),
    ] {
        assert_eq!(one_price(sum, 1), wanted, "{sum}");
    }
}

#[test]
fn endings_at_ninety_nine_percent() {
    for (sum, wanted) in [
        (0, 0),
        (1, 0),
        (49, 0),
        (50, 1),
        (51, 1),
        (99, 1),
        (100, 1),
        (101, 1),
        (149, 1),
        (150, 2),
        (151, 2),
        (199, 2),
        (249, 2),
        (250, 3),
    ] {
        assert_eq!(one_price(sum, 99), wanted, "{sum}");
    }
}

/// After an even number of pence and after an odd one.
#[test]
fn halves_go_up() {
    for (sum, discount, wanted) in [
        (1, 50, 1),
        (3, 50, 2),
        (5, 50, 3),
        (7, 50, 4),
        (2, 75, 1),
        (6, 75, 2),
        (10, 15, 9),
        (30, 15, 26),
        (5, 90, 1),
        (15, 90, 2),
        (25, 98, 1),
        (75, 98, 2),
        (u32::MAX, 50, 2_147_483_648),
        (4_294_967_250, 99, 42_949_673),
    ] {
        assert_eq!(one_price(sum, discount), wanted, "{sum} {discount}");
    }
}

#[test]
fn rounded_once() {
    // 5 runs and 6 changes: 5.5, where 11 single halves would be 11.
    assert_eq!(five_runs().charge(1, &[1, 1, 1], 50), 6);
    // 11 × 0.49 and 11 × 0.51.
    assert_eq!(five_runs().charge(49, &[49; 3], 99), 5);
    assert_eq!(five_runs().charge(51, &[51; 3], 99), 6);
    // Two changes of one column, two columns in one run, and both.
    assert_eq!(Sheet::of_digits("0 1 1 0").charge(0, &[1], 50), 1);
    assert_eq!(Sheet::of_digits("00 11").charge(0, &[1, 1], 50), 1);
    assert_eq!(Sheet::of_digits("00 11 00").charge(0, &[1, 1], 50), 2);
    // The runs come to 1.5, and the change to 0.5.
    assert_eq!(Sheet::of_digits("0 0 1").charge(1, &[1], 50), 2);
    // 98, and not a hundredth of it first.
    assert_eq!(five_runs().charge(19, &[1, 1, 0], 1), 97);
}

#[test]
fn discounts_from_0_to_100() {
    for (discount, wanted) in [
        (0, 1_265),
        (1, 1_252),
        (2, 1_240),
        (10, 1_139),
        (15, 1_075),
        (25, 949),
        (49, 645),
        (50, 633),
        (51, 620),
        (75, 316),
        (98, 25),
        (99, 13),
        (100, 0),
    ] {
        let charge = five_runs().charge(7, &[1_000, 100, 10], discount);
        assert_eq!(charge, wanted, "{discount}");
    }
}

#[test]
fn discounts_over_100() {
    let near = 101..=400;
    let low_half = (0..=100).map(|right| 65_536 + right);
    let low_31_bits = (0..=100).map(|right| 0x8000_0000 + right);
    let last = u32::MAX - 200..=u32::MAX;
    for discount in near.chain(low_half).chain(low_31_bits).chain(last) {
        let quote = five_runs().quote(7, &[1_000, 100, 10], discount);
        assert_refused(quote, 15);
        assert_refused(five_runs().quote(0, &[0, 0, 0], discount), 15);
    }
}

#[test]
fn price_counts_that_are_not_the_columns() {
    for columns in [1, 2, 3, 127, 128] {
        let runs = vec![vec![0; columns], vec![1; columns]];
        let sheet = Sheet::new(vec![2; columns], runs);
        for count in 0..=260 {
            let quote = sheet.quote(5, &vec![3; count], 0);
            match count == columns {
                true => assert_eq!(quote.charge, 10 + 3 * columns as u64),
                false => assert_refused(quote, 15),
            }
            assert_eq!(quote.answer == 0, count == columns);
        }
    }
}

/// The number of columns is what is said of the sheet, and not the length of its level list.
#[test]
fn a_longer_level_list_asks_for_no_more_prices() {
    let mut sheet = five_runs();
    sheet.levels.push(10);
    assert_eq!(sheet.charge(7, &[1_000, 100, 10], 0), 1_265);
    assert_refused(sheet.quote(7, &[1_000, 100, 10, 1], 0), 15);
}

fn largest_sheet() -> Sheet {
    let run = |run: usize| vec![(run % 2) as u8; 128];
    Sheet::new(vec![2; 128], (0..512).map(run).collect())
}

/// 512 runs and 511 × 128 changes at 4,294,967,295 pence.
#[test]
fn the_highest_charge() {
    let prices = [u32::MAX; 128];
    for (discount, wanted) in [
        (0, 283_124_244_086_400),
        (1, 280_293_001_645_536),
        (50, 141_562_122_043_200),
        (99, 2_831_242_440_864),
        (100, 0),
    ] {
        let charge = largest_sheet().charge(u32::MAX, &prices, discount);
        assert_eq!(charge, wanted, "{discount}");
    }
    assert_refused(largest_sheet().quote(u32::MAX, &prices, 101), 15);
}

#[test]
fn sums_over_32_bits() {
    let two_runs = Sheet::of_digits("0 0");
    assert_eq!(two_runs.charge(1 << 31, &[0], 0), 1 << 32);
    let two_changes = Sheet::of_digits("0 1 0");
    assert_eq!(two_changes.charge(0, &[1 << 31], 0), 1 << 32);
    let one_change = Sheet::of_digits("0 1");
    assert_eq!(one_change.charge(1, &[u32::MAX - 1], 0), 1 << 32);
    // 100 times the sum is over 32 bits.
    assert_eq!(one_price(42_949_673, 0), 42_949_673);
    assert_eq!(one_price(42_949_673, 1), 42_520_176);
}

/// Refused as 1, whatever the price list is.
fn assert_no_sheet(sheet: &Sheet) {
    let right_count = sheet.columns.min(300);
    for count in [right_count, right_count + 1, 0, 3] {
        for discount in [0, 100, 101, u32::MAX] {
            assert_refused(sheet.quote(7, &vec![10; count], discount), 1);
        }
    }
}

#[test]
fn sizes_beyond_the_limits() {
    let right = largest_sheet();
    for runs in [0, 513, 514, 65_536, usize::MAX / 128 + 1, usize::MAX] {
        assert_no_sheet(&Sheet {
            runs,
            ..right.clone()
        });
    }
    for columns in [0, 129, 130, 65_536, usize::MAX / 512 + 1, usize::MAX] {
        assert_no_sheet(&Sheet {
            columns,
            ..right.clone()
        });
    }
    // With table and level list long enough.
    assert_no_sheet(&Sheet::new(vec![2], vec![vec![0]; 513]));
    assert_no_sheet(&Sheet::new(vec![2; 129], vec![vec![0; 129]]));
    let tallest = Sheet::new(vec![2], vec![vec![0]; 512]);
    assert_eq!(tallest.charge(3, &[5], 0), 1_536);
    let widest = Sheet::new(vec![2; 128], vec![vec![0; 128]]);
    assert_eq!(widest.charge(3, &[5; 128], 0), 3);
}

#[test]
fn levels_entries_and_lengths_at_their_limits() {
    for column in 0..3 {
        for level in [0, 1, 65, 66, 255] {
            let mut sheet = five_runs();
            sheet.table.fill(0);
            sheet.levels[column] = level;
            assert_no_sheet(&sheet);
        }
        for level in [2, 64] {
            let mut sheet = five_runs();
            sheet.table.fill(level - 1);
            sheet.levels.fill(64);
            sheet.levels[column] = level;
            assert_eq!(sheet.charge(7, &[1, 1, 1], 0), 35);
        }
    }
    for place in 0..15 {
        for entry in [10, 11, 64, 255] {
            let mut sheet = five_runs();
            sheet.table[place] = entry;
            assert_no_sheet(&sheet);
        }
        let mut sheet = five_runs();
        sheet.table[place] = 9;
        assert_eq!(sheet.quote(7, &[1, 1, 1], 0).answer, 0);
    }
    for length in 0..15 {
        let mut sheet = five_runs();
        sheet.table.truncate(length);
        assert_no_sheet(&sheet);
    }
    for length in 0..3 {
        let mut sheet = five_runs();
        sheet.levels.truncate(length);
        assert_no_sheet(&sheet);
    }
}

#[test]
fn what_is_longer_is_not_looked_at() {
    let mut sheet = five_runs();
    // A run that would change every column, and bytes that are no levels.
    sheet.table.extend([9, 9, 9, 255, 10]);
    sheet.levels.extend([0, 1, 65, 255]);
    assert_eq!(sheet.charge(7, &[1_000, 100, 10], 0), 1_265);
}

/// The calls that are charged among random ones, as a sheet and its price list.
fn charged_calls(seeds: std::ops::Range<u64>) -> Vec<(Sheet, ChargeCall)> {
    let mut charged = Vec::new();
    for seed in seeds {
        let call = make(seed, &STORED);
        if call.quote().answer == 0 {
            let sheet = Sheet {
                table: call.table()[..call.runs * call.columns].to_vec(),
                levels: call.levels[..call.columns].to_vec(),
                runs: call.runs,
                columns: call.columns,
            };
            charged.push((sheet, call));
        }
    }
    assert!(charged.len() > 100);
    charged
}

/// 100 × charge is within 50 of the sum × (100 - discount), above it at a half.
#[test]
fn charges_are_the_nearest_pence() {
    let mut halves = 0;
    for (sheet, call) in charged_calls(0..1_500) {
        let sum = sheet.sum(call.run_price, &call.prices);
        let exact = i128::from(sum) * i128::from(100 - call.discount);
        let off = 100 * i128::from(call.quote().charge) - exact;
        assert!((-49..=50).contains(&off), "{call:?}");
        halves += usize::from(off == 50);
    }
    assert!(halves > 30, "{halves}");
}

#[test]
fn no_discount_is_the_sum_and_all_of_it_is_nothing() {
    for (sheet, call) in charged_calls(0..1_000) {
        let sum = sheet.sum(call.run_price, &call.prices);
        assert_eq!(sheet.charge(call.run_price, &call.prices, 0), sum);
        assert_eq!(sheet.charge(call.run_price, &call.prices, 100), 0);
    }
}

#[test]
fn a_higher_discount_never_costs_more() {
    for (sheet, call) in charged_calls(0..300) {
        let charge = |discount| sheet.charge(call.run_price, &call.prices, discount);
        for discount in 1..=100 {
            assert!(charge(discount) <= charge(discount - 1), "{call:?}");
        }
    }
}

/// What both parts of a discount take away is all of it, or a penny more where both are halves.
#[test]
fn two_discounts_that_make_100() {
    for (sheet, call) in charged_calls(0..300) {
        let sum = sheet.sum(call.run_price, &call.prices);
        for discount in 0..=100 {
            let charge = |discount| sheet.charge(call.run_price, &call.prices, discount);
            let both = charge(discount) + charge(100 - discount);
            let is_half = sum * u64::from(discount) % 100 == 50;
            assert_eq!(both, sum + u64::from(is_half), "{call:?}");
        }
    }
}

#[test]
fn the_first_run_alone_costs_the_run_price() {
    for (sheet, call) in charged_calls(0..1_000) {
        let first = sheet.with_rows(vec![sheet.rows()[0].clone()]);
        let charge = first.charge(call.run_price, &call.prices, 0);
        assert_eq!(charge, u64::from(call.run_price));
    }
}

/// A column that stands there twice costs its changes twice, and a price may be parted between the two.
#[test]
fn a_column_repeated() {
    let random = &mut Random::new(7);
    for (sheet, call) in charged_calls(0..1_000) {
        if sheet.columns == 128 {
            continue;
        }
        let column = random.below(sheet.columns);
        let mut numbers: Vec<usize> = (0..sheet.columns).collect();
        numbers.push(column);
        let wider = sheet.with_columns(&numbers);
        let price = call.prices[column];
        let once = sheet.charge(call.run_price, &call.prices, 0);
        let twice = wider.charge(call.run_price, &[&call.prices[..], &[price]].concat(), 0);
        assert_eq!(twice, once + sheet.changes(column) * u64::from(price));
        let part = random.between(0, price as usize) as u32;
        let mut parted = call.prices.clone();
        parted[column] = part;
        parted.push(price - part);
        let charge = wider.charge(call.run_price, &parted, call.discount);
        assert_eq!(charge, call.quote().charge);
    }
}

#[test]
fn columns_and_runs_in_another_order() {
    let random = &mut Random::new(8);
    for (sheet, call) in charged_calls(0..1_000) {
        let mut numbers: Vec<usize> = (0..sheet.columns).collect();
        random.shuffle(&mut numbers);
        let prices: Vec<u32> = numbers.iter().map(|&column| call.prices[column]).collect();
        let shuffled = sheet.with_columns(&numbers);
        let wanted = call.quote().charge;
        let charge = shuffled.charge(call.run_price, &prices, call.discount);
        assert_eq!(charge, wanted);
        let mut rows = sheet.rows();
        rows.reverse();
        let backwards = sheet.with_rows(rows);
        let charge = backwards.charge(call.run_price, &call.prices, call.discount);
        assert_eq!(charge, wanted);
    }
}

/// Levels by other numbers cost the same.
#[test]
fn levels_renamed() {
    for (sheet, call) in charged_calls(0..1_000) {
        let mut renamed = sheet.clone();
        for (place, entry) in renamed.table.iter_mut().enumerate() {
            *entry = sheet.levels[place % sheet.columns] - 1 - *entry;
        }
        let charge = renamed.charge(call.run_price, &call.prices, call.discount);
        assert_eq!(charge, call.quote().charge);
    }
}

/// A run that stands there twice in succession costs its run price again, and nothing else.
#[test]
fn a_run_repeated() {
    let random = &mut Random::new(9);
    for (sheet, call) in charged_calls(0..1_000) {
        if sheet.runs == 512 {
            continue;
        }
        let mut rows = sheet.rows();
        let place = random.below(rows.len());
        rows.insert(place, rows[place].clone());
        let longer = sheet.with_rows(rows);
        let more = longer.charge(call.run_price, &call.prices, 0);
        let charge = sheet.charge(call.run_price, &call.prices, 0);
        assert_eq!(more, charge + u64::from(call.run_price));
    }
}

/// Two parts of a sheet, both with the run between them, cost that run more than the whole.
#[test]
fn a_sheet_in_two_parts() {
    let random = &mut Random::new(10);
    for (sheet, call) in charged_calls(0..1_000) {
        let rows = sheet.rows();
        let between = random.below(rows.len());
        let sum = |rows: &[Vec<u8>]| {
            let part = sheet.with_rows(rows.to_vec());
            part.charge(call.run_price, &call.prices, 0)
        };
        let parts = sum(&rows[..=between]) + sum(&rows[between..]);
        assert_eq!(parts, sum(&rows) + u64::from(call.run_price));
    }
}

#[test]
fn random_calls_reach_every_answer() {
    for limits in [STORED, ANY] {
        let mut times = [0; 16];
        for seed in 0..2_000 {
            let quote = make(seed, &limits).quote();
            times[quote.answer] += 1;
            assert!(quote.answer == 0 || quote.charge == 0, "{seed}");
        }
        assert!(times[0] > 1_000, "{times:?}");
        assert!(times[1] > 200, "{times:?}");
        assert!(times[15] > 200, "{times:?}");
        assert_eq!(times.iter().sum::<usize>(), times[0] + times[1] + times[15]);
    }
}

const REFUSED_15: &str = "refused 15 0 0 0 0 0 0\n";

/// What the program prints for an order with arguments that are parted by single spaces.
fn printed(order: &str, arguments: &str) -> String {
    let words: Vec<Vec<u8>> = arguments.split(' ').map(|word| word.into()).collect();
    print_charge(order.as_bytes(), &words)
}

#[test]
fn an_order_is_charged() {
    let order = "0 1 1 103";
    assert_eq!(printed(order, "4500 1250 300 290 74 993 15"), "57877\n");
    assert_eq!(printed(order, "4500 1250 300 290 74 993 0"), "68090\n");
    assert_eq!(printed(order, "4500 1250 300 290 74 993 100"), "0\n");
    assert_eq!(printed(order, "0 0 0 0 0 1 0"), "6\n");
    // Four runs of one column of four levels.
    let merged = "0 2 1 101 4 2 1 2 3";
    assert_eq!(printed(merged, "1 10 0"), "34\n");
    assert_eq!(printed(merged, "4294967295 4294967295 0"), "30064771065\n");
}

#[test]
fn arguments_that_are_numbers() {
    for arguments in [
        "5 7 50",
        "05 007 0050",
        "0005 0000000000000007 00000000000050",
    ] {
        assert_eq!(printed("0 2 1 101 4 2 1 2 3", arguments), "21\n");
    }
}

#[test]
fn arguments_that_are_no_numbers() {
    let order = "0 2 1 101 4 2 1 2 3";
    assert_eq!(printed(order, "5 7 50"), "21\n");
    for word in [
        "",
        "x",
        "+5",
        "-1",
        "-0",
        "1.5",
        "1,5",
        "5.",
        "1e1",
        "0x5",
        "5p",
        "4294967296",
        "4294967301",
        "18446744073709551616",
        "99999999999999999999999",
        "\t5",
        "5\n",
        "5\r",
        "٥",
        "5\0",
        "_5",
        "5_0",
        "%",
    ] {
        for place in 0..3 {
            let mut words = ["5", "7", "50"];
            words[place] = word;
            let words: Vec<Vec<u8>> = words.iter().map(|&word| word.into()).collect();
            let printed = print_charge(order.as_bytes(), &words);
            assert_eq!(printed, REFUSED_15, "{word:?} at {place}");
        }
    }
    let not_a_text = vec![b"5".to_vec(), vec![b'7', 255], b"50".to_vec()];
    assert_eq!(print_charge(order.as_bytes(), &not_a_text), REFUSED_15);
    let two_numbers = vec![b"5".to_vec(), b"7 7".to_vec(), b"50".to_vec()];
    assert_eq!(print_charge(order.as_bytes(), &two_numbers), REFUSED_15);
}

#[test]
fn numbers_of_arguments() {
    let order = "0 1 1 103";
    for count in 0..=140 {
        let words = vec![b"1".to_vec(); count];
        let printed = print_charge(order.as_bytes(), &words);
        let wanted = match count {
            // 12 runs and 33 changes, less a hundredth: 44.55.
            7 => "45\n",
            _ => REFUSED_15,
        };
        assert_eq!(printed, wanted, "{count}");
    }
}

#[test]
fn a_discount_over_100_is_refused() {
    for discount in ["101", "200", "256", "65536", "4294967295"] {
        let arguments = format!("4500 1250 300 290 74 993 {discount}");
        assert_eq!(printed("0 1 1 103", &arguments), REFUSED_15);
    }
}

#[test]
fn the_orders_own_refusal_comes_first() {
    for order in [
        "",
        "0 1 1 1O1",
        "0 2 1 101 4 2 1 1 2",
        "1 1 2 1 2 0 0 1 1 1",
    ] {
        let refusal = print(&plan_text(order.as_bytes(), LEAST));
        assert!(refusal.starts_with("refused "));
        assert_eq!(print_charge(order.as_bytes(), &[]), refusal);
        for arguments in ["", "x", "5", "5 7 50", "5 7 101", "5 7 7 7 50"] {
            assert_eq!(printed(order, arguments), refusal);
        }
    }
}

/// The widest sheet that an order can leave takes 130 arguments.
#[test]
fn an_order_of_128_columns() {
    let text = |list: Vec<u16>| {
        let words: Vec<String> = list.iter().map(u16::to_string).collect();
        words.join(" ")
    };
    // 128 points in eight coordinates, all different and none of them zero.
    let order = text(order(&[points(8, 128)], &[&[2, 1]]));
    let words = |count| vec![b"0".to_vec(); count];
    assert_eq!(print_charge(order.as_bytes(), &words(130)), "0\n");
    for count in [0, 1, 2, 129, 131] {
        assert_eq!(print_charge(order.as_bytes(), &words(count)), REFUSED_15);
    }
}
