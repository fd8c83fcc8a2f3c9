//! The stored calls for charges: they are what is made here, come to what was worked out by hand, and
//! reach every answer.

use second::charge_calls::{
    answers, examples, read, stored, ChargeCall, MOST_LEVELS, MOST_PATTERN, MOST_PRICES, MOST_TABLE,
};
use second::charges::print_charge;
use std::collections::{BTreeMap, BTreeSet};

/// A little below what the program that reads them has room for.
const MOST_WORDS: usize = 32_000;

fn stored_file(path: &str) -> String {
    let path = format!("{}/../{path}", env!("CARGO_MANIFEST_DIR"));
    std::fs::read_to_string(path).unwrap()
}

fn stored_calls() -> String {
    stored_file("crates/charge_examples/stdin")
}

fn stored_answers() -> String {
    stored_file("crates/charge_examples/stdout")
}

/// Line by line, as the texts are too long to be shown whole.
fn assert_same(stored: &str, made: &str) {
    for (index, (old, new)) in stored.split('\n').zip(made.split('\n')).enumerate() {
        assert_eq!(old, new, "line {}", index + 1);
    }
    assert_eq!(stored.len(), made.len());
}

#[test]
fn stored_calls_are_those_made() {
    assert_same(&stored_calls(), &stored());
}

#[test]
fn stored_answers_are_those_of_the_calls() {
    assert_same(&stored_answers(), &answers(stored_calls().as_bytes()));
}

#[test]
fn calls_are_a_line_each_in_plain_numbers() {
    let text = stored_calls();
    assert!(text.split_whitespace().count() <= MOST_WORDS);
    let calls = read(text.as_bytes());
    let lines: Vec<&str> = text.lines().collect();
    assert_eq!(lines.len(), calls.len());
    for (line, call) in lines.iter().zip(&calls) {
        assert_eq!(read(line.as_bytes()), std::slice::from_ref(call));
        for word in line.split(' ') {
            assert_eq!(word.parse::<u16>().unwrap().to_string(), word);
        }
    }
}

/// A call written out: a run price of 65,537, a discount of 15, and the prices 2 and 131,075.
#[test]
fn a_call_number_by_number() {
    let call = ChargeCall {
        runs: 3,
        columns: 2,
        run_price: 65_537,
        discount: 15,
        prices: vec![2, 131_075],
        levels: vec![4, 5, 6],
        table_size: [7, 1],
        pattern: vec![0, 1, 3],
    };
    let text = "3 2 1 1 0 15 2 0 2 2 3 3 4 5 6 7 1 3 0 1 3\n";
    assert_eq!(read(text.as_bytes()), std::slice::from_ref(&call));
    assert_eq!(call.table(), [0, 1, 3, 0, 1, 3, 0]);
    // 3 × 65,537 + 2 × 2 + 2 × 131,075 = 458,765, of which 85 percent are 389,950.25.
    assert_eq!(answers(text.as_bytes()), "0 389950\n");
}

#[test]
fn calls_are_within_the_programs_limits() {
    for call in read(stored_calls().as_bytes()) {
        assert!(call.prices.len() <= MOST_PRICES);
        assert!(call.levels.len() <= MOST_LEVELS);
        assert!(call.table_len() <= MOST_TABLE);
        assert!(call.pattern.len() <= MOST_PATTERN);
    }
}

/// Answer and charge of each call, as a reader of the text takes them.
fn stored_quotes() -> Vec<(usize, u64)> {
    let text = stored_answers();
    let quote = |line: &str| {
        let (answer, charge) = line.split_once(' ').unwrap();
        (answer.parse().unwrap(), charge.parse().unwrap())
    };
    text.lines().map(quote).collect()
}

#[test]
fn every_answer_is_reached_often() {
    let quotes = stored_quotes();
    assert_eq!(read(stored_calls().as_bytes()).len(), quotes.len());
    let mut times: BTreeMap<usize, usize> = BTreeMap::new();
    for (answer, charge) in quotes {
        *times.entry(answer).or_default() += 1;
        assert!(answer == 0 || charge == 0);
    }
    assert_eq!(Vec::from_iter(times.keys().copied()), [0, 1, 15]);
    assert!(times[&0] > 200, "{times:?}");
    assert!(times.values().all(|&times| times > 60), "{times:?}");
}

/// All examples that are charged, each with its charge as worked out by hand.
const CHARGES: &str = "\
1265 five runs, all prices
3245 five runs, column prices the other way round
35 five runs, the run price alone
1230 five runs, column prices alone
1 five runs, the first column alone
2 five runs, the second column alone
3 five runs, the third column alone
0 five runs, no price
0 five runs, no price, and a discount
4231 table 101
3786 table 102
68090 table 103, no discount
57877 table 103, a half at 15 percent
34045 table 103, half the price
511072 table 104
4000 zeros alone
4000 no changes, not zeros
4000 no changes, columns that differ
4111 all columns into the second run
4111 all columns into the third run
4111 all columns into the last run
4222 there and back in the middle
4222 there and back at the end
4222 there, and back after two runs
4333 back and forth in every run
4333 down and up in every run
4333 another level in every run
4003 the first column alone
4030 the second column alone
4300 the third column alone
4330 all but the first column
4033 all but the third column
4111 one column after the other
4111 one column back after the other
4100 the third column once, into the last run
4001 the first column once, into the second run
4333 columns that run into one another
4333 columns that are moved along
2000 two runs, equal
2100 two runs, one change
4333 levels that are far apart
4500 one run
4500 one run, no column prices
4500 one run, the highest column prices
0 one run, no run price
4294967295 one run, the highest prices
2251 one run, half the price
0 one run, a discount of 100
4500 one run of one column
4500 one run of 128 columns
1 a sum of 1, 1 percent off
49 a sum of 49, 1 percent off
50 a sum of 50, 1 percent off
50 a sum of 51, 1 percent off
98 a sum of 99, 1 percent off
99 a sum of 100, 1 percent off
100 a sum of 101, 1 percent off
148 a sum of 149, 1 percent off
149 a sum of 150, 1 percent off
149 a sum of 151, 1 percent off
197 a sum of 199, 1 percent off
198 a sum of 200, 1 percent off
0 a sum of 1, 99 percent off
0 a sum of 49, 99 percent off
1 a sum of 50, 99 percent off
1 a sum of 51, 99 percent off
1 a sum of 99, 99 percent off
1 a sum of 100, 99 percent off
1 a sum of 101, 99 percent off
1 a sum of 149, 99 percent off
2 a sum of 150, 99 percent off
2 a sum of 151, 99 percent off
2 a sum of 199, 99 percent off
2 a sum of 200, 99 percent off
99 five runs and a sum of 100, 1 percent off
148 five runs and a sum of 149, 1 percent off
149 five runs and a sum of 150, 1 percent off
149 five runs and a sum of 151, 1 percent off
197 five runs and a sum of 199, 1 percent off
199 five runs and a sum of 201, 1 percent off
9 a half: 10, 15 percent off
26 a half: 30, 15 percent off
1 a half: 1, 50 percent off
2 a half: 3, 50 percent off
3 a half: 5, 50 percent off
1073741825 a half: 2147483649, 50 percent off
2147483648 a half: 4294967295, 50 percent off
1 a half: 2, 75 percent off
2 a half: 6, 75 percent off
3 a half: 10, 75 percent off
1 a half: 5, 90 percent off
2 a half: 15, 90 percent off
1 a half: 25, 98 percent off
2 a half: 75, 98 percent off
1 a half: 50, 99 percent off
3 a half: 250, 99 percent off
42949673 a half: 4294967250, 99 percent off
5 less by the line, the run and the column
6 more by the line, the run and the column
6 halves by the line, the run and the column
1 more by the run, not by the column
1 more by the column, not by the run
2 more by the change alone
2 more if runs and changes are rounded apart
97 nothing if it is divided by 100 first
1265 five runs, 0 percent off
1252 five runs, 1 percent off
1240 five runs, 2 percent off
1139 five runs, 10 percent off
1075 five runs, 15 percent off
949 five runs, 25 percent off
645 five runs, 49 percent off
633 five runs, 50 percent off
620 five runs, 51 percent off
316 five runs, 75 percent off
25 five runs, 98 percent off
13 five runs, 99 percent off
0 five runs, 100 percent off
95 three columns and 3 column prices
24 one column and 1 column prices
1294 128 columns and 128 column prices
95 three columns, four level counts and 3 column prices
196605 a run price and a column price of 65535
196608 a run price and a column price of 65536
196611 a run price and a column price of 65537
393213 a run price and a column price of 131071
6442450941 a run price and a column price of 2147483647
6442450944 a run price and a column price of 2147483648
42949672 a sum of 42949672, 0 percent off
42520175 a sum of 42949672, 1 percent off
21474836 a sum of 42949672, 50 percent off
42949673 a sum of 42949673, 0 percent off
42520176 a sum of 42949673, 1 percent off
21474837 a sum of 42949673, 50 percent off
4294967296 two runs that cost 2^32
4294967299 two changes that cost 2^32
4294967296 a run price and a change that cost 2^32
2199023255040 512 runs at the highest price
2194728287745 511 changes at the highest price
2196875771393 512 runs and 511 changes, half the price
283124244086400 the largest sheet at the highest prices, 0 percent off
280293001645536 the largest sheet at the highest prices, 1 percent off
141562122043200 the largest sheet at the highest prices, 50 percent off
0 the largest sheet at the highest prices, 100 percent off
2194728287745 the largest sheet, column 1 alone
2194728287745 the largest sheet, column 128 alone
141562122042945 the largest sheet, a half
361411904 the largest sheet, each column at another price
2199023255040 the largest sheet, no changes
100 1 runs of 1 columns
54610 512 runs of 1 columns
100 1 runs of 128 columns
200 2 levels in column 1
200 64 levels in column 1
200 2 levels in column 2
200 64 levels in column 2
200 2 levels in column 3
200 64 levels in column 3
400 entry 0 is 1
1265 five runs of three columns in a table of 15 × 1 bytes
1265 five runs of three columns in a table of 3 × 5 bytes
1265 five runs of three columns in a table of 6 × 3 bytes
1265 five runs of three columns in a table of 90 × 1 bytes
1265 three columns with 3 level counts
1265 three columns with 4 level counts
1265 three columns with 255 level counts
1265 bytes that are no levels beyond the sheet
65920 the largest sheet in a table of 256 × 256 bytes
";

/// All examples that are refused as 15. The others are refused as 1.
const REFUSED_AS_15: &str = "\
five runs, 101 percent off
five runs, 102 percent off
five runs, 127 percent off
five runs, 128 percent off
five runs, 150 percent off
five runs, 199 percent off
five runs, 200 percent off
five runs, 201 percent off
five runs, 255 percent off
five runs, 256 percent off
five runs, 271 percent off
five runs, 356 percent off
five runs, 32768 percent off
five runs, 65535 percent off
five runs, 65536 percent off
five runs, 65551 percent off
five runs, 65636 percent off
five runs, 131072 percent off
five runs, 2147483647 percent off
five runs, 2147483648 percent off
five runs, 2147483663 percent off
five runs, 4294967196 percent off
five runs, 4294967197 percent off
five runs, 4294967295 percent off
three columns and 0 column prices
three columns and 1 column prices
three columns and 2 column prices
three columns and 4 column prices
three columns and 5 column prices
three columns and 15 column prices
three columns and 255 column prices
one column and 0 column prices
one column and 2 column prices
128 columns and 0 column prices
128 columns and 127 column prices
128 columns and 129 column prices
three columns, four level counts and 4 column prices
three columns, 2 column prices, nothing to pay
three columns, 4 column prices, nothing to pay
the largest sheet at the highest prices, 101 percent off
nothing wrong, 3 column prices, 101 percent off
nothing wrong, 2 column prices, 0 percent off
nothing wrong, 4 column prices, 100 percent off
nothing wrong, 0 column prices, 4294967295 percent off
";

#[test]
fn examples_come_to_what_was_worked_out() {
    let mut wanted: BTreeMap<&str, (usize, u64)> = BTreeMap::new();
    for line in CHARGES.lines() {
        let (charge, name) = line.split_once(' ').unwrap();
        wanted.insert(name, (0, charge.parse().unwrap()));
    }
    for name in REFUSED_AS_15.lines() {
        wanted.insert(name, (15, 0));
    }
    let quotes = stored_quotes();
    let mut refused_as_1 = 0;
    for ((name, call), &quote) in examples().iter().zip(&quotes) {
        let of_name = wanted.remove(name.as_str());
        assert_eq!(quote, of_name.unwrap_or((1, 0)), "{name}: {call:?}");
        refused_as_1 += usize::from(of_name.is_none());
    }
    assert_eq!(wanted, BTreeMap::new());
    assert_eq!(refused_as_1, 64);
}

#[test]
fn names_are_different() {
    let examples = examples();
    let names: BTreeSet<&String> = examples.iter().map(|(name, _)| name).collect();
    assert_eq!(names.len(), examples.len());
}

/// Halves, of an even and of an odd number of pence, and the endings at both sides of them.
#[test]
fn every_kind_of_ending_is_among_them() {
    let calls = read(stored_calls().as_bytes());
    let mut times: BTreeMap<(u64, bool), usize> = BTreeMap::new();
    for (call, (answer, _)) in calls.iter().zip(stored_quotes()) {
        if answer == 0 {
            let whole = call.clone().priced(call.run_price, &call.prices, 0);
            let hundredths = whole.quote().charge * u64::from(100 - call.discount);
            let is_odd = hundredths / 100 % 2 == 1;
            *times.entry((hundredths % 100, is_odd)).or_default() += 1;
        }
    }
    for ending in [0, 1, 49, 50, 51, 99] {
        for is_odd in [false, true] {
            let times = times.get(&(ending, is_odd)).copied().unwrap_or(0);
            assert!(times >= 1, "{ending} {is_odd}");
        }
    }
    assert!(times[&(50, false)] >= 10, "{times:?}");
    assert!(times[&(50, true)] >= 10, "{times:?}");
}

/// The order and the arguments of the program `pricer` in the gate: a half, which goes up.
#[test]
fn stored_charge_is_that_made() {
    let order = stored_file("crates/pricer/stdin");
    let lines = stored_file("crates/pricer/args");
    let words: Vec<Vec<u8>> = lines.lines().map(|word| word.into()).collect();
    let printed = stored_file("crates/pricer/stdout");
    assert_eq!(print_charge(order.as_bytes(), &words), printed);
    assert_eq!(lines.split_whitespace().count(), words.len());
    assert_eq!(printed, "57877\n");
    let mut whole = words.clone();
    whole.pop();
    whole.push(b"0".to_vec());
    assert_eq!(print_charge(order.as_bytes(), &whole), "68090\n");
    assert_eq!(68_090 * 85, 5_787_650);
}
