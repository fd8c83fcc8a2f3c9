//! Calls at both sides of each limit and of each rounding of 02's K7, each with its name.

use super::ChargeCall;

/// All examples with their names, in the order in which they are stored.
pub fn examples() -> Vec<(String, ChargeCall)> {
    [
        price_lists(),
        house_tables(),
        places_of_changes(),
        one_run(),
        endings(),
        halves(),
        roundings(),
        discounts(),
        price_counts(),
        numbers_of_32_bits(),
        largest_sheet(),
        sizes_at_their_limits(),
        levels_at_their_limits(),
        entries_at_their_levels(),
        lengths(),
        turn_of_refusals(),
    ]
    .concat()
}

type Named = (String, ChargeCall);

fn named(name: &str, call: ChargeCall) -> Named {
    (name.to_string(), call)
}

/// A sheet for which nothing is charged.
fn sheet(runs: usize, columns: usize, levels: &[u8], pattern: &[u8]) -> ChargeCall {
    ChargeCall {
        runs,
        columns,
        run_price: 0,
        discount: 0,
        prices: vec![0; columns],
        levels: levels.to_vec(),
        table_size: [runs, columns],
        pattern: pattern.to_vec(),
    }
}

/// The same, from runs that are written as digits; each column has 3 levels.
fn of_digits(runs: &str) -> ChargeCall {
    let words: Vec<&str> = runs.split(' ').collect();
    let columns = words[0].len();
    sheet(words.len(), columns, &vec![3; columns], &digits(runs))
}

fn digits(text: &str) -> Vec<u8> {
    let digits = text.bytes().filter(u8::is_ascii_digit);
    digits.map(|byte| byte - b'0').collect()
}

/// The first column changes once, the second twice and the third three times. The sheet is not even.
fn five_runs() -> ChargeCall {
    of_digits("000 011 012 112 120")
}

/// A sum of 5 × 7 + 1,000 + 2 × 100 + 3 × 10 = 1,265.
fn five_priced_runs() -> ChargeCall {
    five_runs().priced(7, &[1_000, 100, 10], 0)
}

/// One run of one column, at this price.
fn one_price(pence: u32, discount: u32) -> ChargeCall {
    sheet(1, 1, &[2], &[1]).priced(pence, &[u32::MAX], discount)
}

fn price_lists() -> Vec<Named> {
    let with = |run_price, prices: [u32; 3]| five_runs().priced(run_price, &prices, 0);
    vec![
        named("five runs, all prices", five_priced_runs()),
        named(
            "five runs, column prices the other way round",
            with(7, [10, 100, 1_000]),
        ),
        named("five runs, the run price alone", with(7, [0, 0, 0])),
        named("five runs, column prices alone", with(0, [1_000, 100, 10])),
        named("five runs, the first column alone", with(0, [1, 0, 0])),
        named("five runs, the second column alone", with(0, [0, 1, 0])),
        named("five runs, the third column alone", with(0, [0, 0, 1])),
        named("five runs, no price", with(0, [0, 0, 0])),
        named(
            "five runs, no price, and a discount",
            five_runs().priced(0, &[0, 0, 0], 50),
        ),
    ]
}

/// 101 to 104 of 01.
fn house_tables() -> Vec<Named> {
    let table_101 = sheet(4, 3, &[2; 3], &digits("000 011 101 110"));
    let table_102 = of_digits("0000 0111 0222 1012 1120 1201 2021 2102 2210");
    let table_103 = sheet(
        12,
        5,
        &[3, 2, 2, 2, 2],
        &digits("00000 01110 00101 01011 10001 11100 10110 11011 20010 21101 20111 21000"),
    );
    let table_104 = sheet(
        12,
        3,
        &[6, 2, 2],
        &digits("000 011 101 110 200 211 301 310 400 411 501 510"),
    );
    // That of the stored run of the program `pricer`.
    let list_of_103 = |discount| {
        let prices = [1_250, 300, 290, 74, 993];
        table_103.clone().priced(4_500, &prices, discount)
    };
    vec![
        named("table 101", table_101.priced(1_000, &[1, 10, 100], 0)),
        named("table 102", table_102.priced(100, &[1_000, 100, 10, 1], 0)),
        named("table 103, no discount", list_of_103(0)),
        named("table 103, a half at 15 percent", list_of_103(15)),
        named("table 103, half the price", list_of_103(50)),
        named("table 104", table_104.priced(1, &[100_000, 1_000, 10], 0)),
    ]
}

/// Runs at 1,000, and changes at 1, 10 and 100 by their column.
fn places_of_changes() -> Vec<Named> {
    let with = |name, runs| named(name, of_digits(runs).priced(1_000, &[1, 10, 100], 0));
    let mut far = of_digits("000 222 000 111").priced(1_000, &[1, 10, 100], 0);
    far.levels = vec![64; 3];
    far.pattern = far.pattern.iter().map(|level| 31 * level).collect();
    vec![
        with("zeros alone", "000 000 000 000"),
        with("no changes, not zeros", "222 222 222 222"),
        with("no changes, columns that differ", "120 120 120 120"),
        with("all columns into the second run", "000 111 111 111"),
        with("all columns into the third run", "000 000 111 111"),
        with("all columns into the last run", "000 000 000 111"),
        with("there and back in the middle", "000 111 000 000"),
        with("there and back at the end", "000 000 111 000"),
        with("there, and back after two runs", "000 111 111 000"),
        with("back and forth in every run", "000 111 000 111"),
        with("down and up in every run", "222 111 222 111"),
        with("another level in every run", "000 111 222 000"),
        with("the first column alone", "000 100 000 100"),
        with("the second column alone", "000 010 000 010"),
        with("the third column alone", "000 001 000 001"),
        with("all but the first column", "100 111 100 111"),
        with("all but the third column", "001 111 001 111"),
        with("one column after the other", "000 100 110 111"),
        with("one column back after the other", "111 110 100 000"),
        with(
            "the third column once, into the last run",
            "000 000 000 001",
        ),
        with(
            "the first column once, into the second run",
            "000 100 100 100",
        ),
        with("columns that run into one another", "010 101 010 101"),
        with("columns that are moved along", "012 120 201 012"),
        with("two runs, equal", "121 121"),
        with("two runs, one change", "121 122"),
        named("levels that are far apart", far),
    ]
}

/// No change, whatever the prices and the levels are.
fn one_run() -> Vec<Named> {
    let run = of_digits("122");
    let with = |name, run_price, price, discount| {
        named(name, run.clone().priced(run_price, &[price; 3], discount))
    };
    let wide = sheet(1, 128, &[64; 128], &[63]);
    vec![
        with("one run", 4_500, 1_250, 0),
        with("one run, no column prices", 4_500, 0, 0),
        with("one run, the highest column prices", 4_500, u32::MAX, 0),
        with("one run, no run price", 0, u32::MAX, 0),
        with("one run, the highest prices", u32::MAX, u32::MAX, 0),
        with("one run, half the price", 4_501, u32::MAX, 50),
        with("one run, a discount of 100", 4_500, u32::MAX, 100),
        named("one run of one column", one_price(4_500, 0)),
        named("one run of 128 columns", wide.priced(4_500, &[99; 128], 0)),
    ]
}

/// The sum × (100 - discount) ends in 00, 01, 49, 50, 51 and 99: by one price, and by five runs with a
/// change.
fn endings() -> Vec<Named> {
    let mut calls = Vec::new();
    for discount in [1, 99] {
        for sum in [1, 49, 50, 51, 99, 100, 101, 149, 150, 151, 199, 200] {
            let name = format!("a sum of {sum}, {discount} percent off");
            calls.push((name, one_price(sum, discount)));
        }
    }
    for sum in [100, 149, 150, 151, 199, 201] {
        let name = format!("five runs and a sum of {sum}, 1 percent off");
        let change = sum - 5 * 20;
        calls.push((name, five_runs().priced(20, &[change, 0, 0], 1)));
    }
    calls
}

/// A half, of an even and of an odd number of pence.
fn halves() -> Vec<Named> {
    let mut calls = Vec::new();
    for (discount, sums) in [
        (15, vec![10, 30]),
        (50, vec![1, 3, 5, 2_147_483_649, u32::MAX]),
        (75, vec![2, 6, 10]),
        (90, vec![5, 15]),
        (98, vec![25, 75]),
        (99, vec![50, 250, 4_294_967_250]),
    ] {
        for sum in sums {
            let name = format!("a half: {sum}, {discount} percent off");
            calls.push((name, one_price(sum, discount)));
        }
    }
    calls
}

/// What would come to another charge if it were rounded before the end.
fn roundings() -> Vec<Named> {
    let all_at = |price, discount| five_runs().priced(price, &[price; 3], discount);
    let changes_at_half = |runs: &str| {
        let sheet = of_digits(runs);
        let prices = vec![1; sheet.columns];
        sheet.priced(0, &prices, 50)
    };
    vec![
        named("less by the line, the run and the column", all_at(49, 99)),
        named("more by the line, the run and the column", all_at(51, 99)),
        named("halves by the line, the run and the column", all_at(1, 50)),
        named(
            "more by the run, not by the column",
            changes_at_half("0 1 1 0"),
        ),
        named(
            "more by the column, not by the run",
            changes_at_half("00 11"),
        ),
        named("more by the change alone", changes_at_half("00 11 00")),
        named(
            "more if runs and changes are rounded apart",
            of_digits("0 0 1").priced(1, &[1], 50),
        ),
        named(
            "nothing if it is divided by 100 first",
            five_runs().priced(19, &[1, 1, 0], 1),
        ),
    ]
}

fn discounts() -> Vec<Named> {
    let right = [0, 1, 2, 10, 15, 25, 49, 50, 51, 75, 98, 99, 100];
    let over = [
        101, 102, 127, 128, 150, 199, 200, 201, 255, 256, 271, 356, 32_768, 65_535, 65_536, 65_551,
        65_636, 131_072,
    ];
    // With 31 bits and with 32; the last but two is -100 in two's complement.
    let far_over = [
        0x7fff_ffff,
        0x8000_0000,
        0x8000_000f,
        0xffff_ff9c,
        0xffff_ff9d,
        0xffff_ffff,
    ];
    let with = |discount| {
        let name = format!("five runs, {discount} percent off");
        let sheet = five_priced_runs();
        (name, ChargeCall { discount, ..sheet })
    };
    let all = right.into_iter().chain(over).chain(far_over);
    all.map(with).collect()
}

fn price_counts() -> Vec<Named> {
    let mut calls = Vec::new();
    let mut with = |name: &str, sheet: &ChargeCall, counts: &[usize]| {
        for &count in counts {
            let name = format!("{name} and {count} column prices");
            calls.push((name, sheet.clone().priced(7, &vec![10; count], 0)));
        }
    };
    // 5 is the number of runs, and 15 that of the entries.
    with("three columns", &five_runs(), &[0, 1, 2, 3, 4, 5, 15, 255]);
    with("one column", &of_digits("0 1"), &[0, 1, 2]);
    let wide = sheet(2, 128, &[3; 128], &[0, 1, 2]);
    with("128 columns", &wide, &[0, 127, 128, 129]);
    let mut longer_list = five_runs();
    longer_list.levels.push(3);
    with("three columns, four level counts", &longer_list, &[3, 4]);
    for count in [2, 4] {
        let name = format!("three columns, {count} column prices, nothing to pay");
        calls.push((name, five_runs().priced(7, &vec![10; count], 100)));
    }
    calls
}

/// Prices and sums that need more bits than sixteen, or than 32.
fn numbers_of_32_bits() -> Vec<Named> {
    let mut calls = Vec::new();
    for price in [65_535, 65_536, 65_537, 131_071, 0x7fff_ffff, 0x8000_0000] {
        let name = format!("a run price and a column price of {price}");
        calls.push((name, of_digits("0 1").priced(price, &[price], 0)));
    }
    // 100 times the first is below 2^32, and 100 times the second is not.
    for sum in [42_949_672, 42_949_673] {
        for discount in [0, 1, 50] {
            let name = format!("a sum of {sum}, {discount} percent off");
            calls.push((name, one_price(sum, discount)));
        }
    }
    let most = u32::MAX;
    let tall = |pattern| sheet(512, 1, &[2], pattern);
    calls.extend([
        named(
            "two runs that cost 2^32",
            of_digits("0 0").priced(0x8000_0000, &[1], 0),
        ),
        named(
            "two changes that cost 2^32",
            of_digits("0 1 0").priced(1, &[0x8000_0000], 0),
        ),
        named(
            "a run price and a change that cost 2^32",
            of_digits("0 1").priced(1, &[most - 1], 0),
        ),
        named(
            "512 runs at the highest price",
            tall(&[]).priced(most, &[most], 0),
        ),
        named(
            "511 changes at the highest price",
            tall(&[0, 1]).priced(0, &[most], 0),
        ),
        named(
            "512 runs and 511 changes, half the price",
            tall(&[0, 1]).priced(most, &[most], 50),
        ),
    ]);
    calls
}

/// 512 runs of 128 columns. 3 does not go into 128, so that with the levels 0, 1, 2 over and over every
/// column changes in every run.
fn largest_sheet() -> Vec<Named> {
    let largest = |pattern| sheet(512, 128, &[3; 128], pattern);
    let most = u32::MAX;
    let mut calls = Vec::new();
    for discount in [0, 1, 50, 100, 101] {
        let name = format!("the largest sheet at the highest prices, {discount} percent off");
        let call = largest(&[0, 1, 2]).priced(most, &[most; 128], discount);
        calls.push((name, call));
    }
    for column in [0, 127] {
        let name = format!("the largest sheet, column {} alone", column + 1);
        let mut prices = [0; 128];
        prices[column] = most;
        calls.push((name, largest(&[0, 1, 2]).priced(0, &prices, 0)));
    }
    let mut nearly_most = [most; 128];
    nearly_most[127] = most - 1;
    calls.push(named(
        "the largest sheet, a half",
        largest(&[0, 1, 2]).priced(most, &nearly_most, 50),
    ));
    let rising: Vec<u32> = (1..=128).map(|column| column * column).collect();
    calls.push(named(
        "the largest sheet, each column at another price",
        largest(&[0, 1, 2]).priced(0, &rising, 0),
    ));
    calls.push(named(
        "the largest sheet, no changes",
        largest(&[0, 1]).priced(most, &[most; 128], 0),
    ));
    calls
}

/// Table and level list are long enough, if nothing else is said.
fn sizes_at_their_limits() -> Vec<Named> {
    let mut calls = Vec::new();
    for (runs, columns) in [
        (1, 1),
        (512, 1),
        (513, 1),
        (0, 1),
        (65_535, 1),
        (1, 128),
        (1, 129),
        (1, 0),
        (0, 0),
        (508, 129),
        (513, 127),
    ] {
        let name = format!("{runs} runs of {columns} columns");
        let levels = vec![2; columns.max(1)];
        let sheet = sheet(runs, columns, &levels, &[0, 1, 1]);
        calls.push((name, sheet.priced(100, &vec![10; columns], 0)));
    }
    for (runs, columns) in [(0, 0), (512, 128), (513, 128), (256, 256), (65_535, 65_535)] {
        let name = format!("{runs} runs of {columns} columns, and no table");
        let mut sheet = sheet(runs, columns.min(3), &[2; 3], &[]);
        sheet.columns = columns;
        sheet.table_size = [0, 0];
        calls.push((name, sheet));
    }
    calls
}

/// Of each of three columns, the others having 3 levels.
fn levels_at_their_limits() -> Vec<Named> {
    let mut calls = Vec::new();
    for column in 0..3 {
        for level in [0, 1, 2, 64, 65, 255] {
            let name = format!("{level} levels in column {}", column + 1);
            let mut call = of_digits("000 000").priced(100, &[1; 3], 0);
            call.levels[column] = level;
            calls.push((name, call));
        }
    }
    calls
}

fn entries_at_their_levels() -> Vec<Named> {
    let with = |place: usize, entry: u8| {
        let mut entries = [1, 4, 63].repeat(4);
        entries[place] = entry;
        let name = format!("entry {place} is {entry}");
        let sheet = sheet(4, 3, &[2, 5, 64], &entries);
        (name, sheet.priced(100, &[1, 10, 1_000], 0))
    };
    vec![
        // All are just below their levels.
        with(0, 1),
        with(0, 2),
        with(4, 5),
        with(11, 64),
        with(9, 2),
        with(2, 64),
        with(11, 255),
        // Below the level count of another column.
        with(3, 4),
    ]
}

/// Of table and level list. What they hold beyond the sheet is not looked at.
fn lengths() -> Vec<Named> {
    let mut calls = Vec::new();
    for table_size in [
        [15, 1],
        [3, 5],
        [14, 1],
        [4, 3],
        [1, 1],
        [0, 3],
        [6, 3],
        [90, 1],
    ] {
        let [a, b] = table_size;
        let name = format!("five runs of three columns in a table of {a} × {b} bytes");
        let sheet = five_priced_runs();
        calls.push((
            name,
            ChargeCall {
                table_size,
                ..sheet
            },
        ));
    }
    for length in [3, 2, 1, 0, 4, 255] {
        let name = format!("three columns with {length} level counts");
        let levels = vec![3; length];
        let sheet = five_priced_runs();
        calls.push((name, ChargeCall { levels, ..sheet }));
    }
    let mut longer = five_priced_runs();
    longer.levels.extend([0, 1, 65, 255]);
    longer.pattern.extend([255, 3, 64]);
    longer.table_size = [18, 1];
    calls.push(named("bytes that are no levels beyond the sheet", longer));
    let largest = sheet(512, 128, &[3; 128], &[0, 1, 2]).priced(1, &[1; 128], 0);
    for table_size in [[256, 256], [65_535, 1]] {
        let [a, b] = table_size;
        let name = format!("the largest sheet in a table of {a} × {b} bytes");
        let sheet = largest.clone();
        calls.push((
            name,
            ChargeCall {
                table_size,
                ..sheet
            },
        ));
    }
    calls
}

/// Sheets that are refused as 1, each in another way, with price lists that would be refused as 15; then
/// these with a sheet that is right.
fn turn_of_refusals() -> Vec<Named> {
    let right = five_priced_runs();
    let mut wrong_level = right.clone();
    wrong_level.levels[2] = 65;
    let mut wrong_entry = right.clone();
    wrong_entry.pattern[14] = 3;
    let no_runs = ChargeCall {
        runs: 0,
        ..right.clone()
    };
    let many_columns = ChargeCall {
        columns: 129,
        ..right.clone()
    };
    let short_table = ChargeCall {
        table_size: [14, 1],
        ..right.clone()
    };
    let short_levels = ChargeCall {
        levels: vec![3; 2],
        ..right.clone()
    };
    let mut calls = Vec::new();
    for (what, sheet) in [
        ("no runs", no_runs),
        ("129 columns", many_columns),
        ("a wrong level count", wrong_level),
        ("a wrong entry", wrong_entry),
        ("a table too short", short_table),
        ("a level list too short", short_levels),
        ("nothing wrong", right),
    ] {
        for (count, discount) in [(3, 101), (2, 0), (4, 100), (0, u32::MAX)] {
            let name = format!("{what}, {count} column prices, {discount} percent off");
            calls.push((name, sheet.clone().priced(7, &vec![10; count], discount)));
        }
    }
    calls
}
