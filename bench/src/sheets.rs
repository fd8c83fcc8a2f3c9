//! The sheets that are timed, with the pages that are printed of them and the prices that they are
//! charged by.

use second::maker::Random;
use second::pages::page_count;

/// A sheet as it is handed in. None is even.
pub struct Sheet {
    pub table: Vec<u8>,
    pub levels: Vec<u8>,
    pub runs: usize,
    pub columns: usize,
}

impl Sheet {
    fn of(levels: Vec<u8>, runs: usize, mut entry: impl FnMut(usize, usize) -> usize) -> Sheet {
        let columns = levels.len();
        let places = (0..runs).flat_map(|run| (0..columns).map(move |column| (run, column)));
        let entries = places.map(|(run, column)| entry(run, column) as u8);
        Sheet {
            table: entries.collect(),
            levels,
            runs,
            columns,
        }
    }

    /// Of 2 to 64 levels, nearly all of which change from every run to the next.
    fn of_size(runs: usize, columns: usize) -> Sheet {
        let level = |column: usize| 2 + 5 * column % 63;
        let levels = (0..columns).map(|column| level(column) as u8).collect();
        Sheet::of(levels, runs, |run, column| 7 * run % level(column))
    }

    /// Of two levels, half of which change from a run to the next, in no order.
    fn half_changing(runs: usize, columns: usize) -> Sheet {
        let mut random = Random::new(1);
        Sheet::of(vec![2; columns], runs, |_, _| random.below(2))
    }
}

/// Pages of a sheet that are timed together.
pub struct PageCase {
    pub name: String,
    pub sheet: Sheet,
    pub numbers: Vec<usize>,
}

/// All cases, in the order in which they are printed.
pub fn page_cases() -> Vec<PageCase> {
    let (runs, columns) = (512, 128);
    let all = Vec::from_iter(1..=page_count(runs, columns));
    vec![
        page_case("54 pages of 512 runs and 128 columns", runs, columns, all),
        page_case("1,000 pages of 9 runs and 4 columns", 9, 4, vec![1; 1_000]),
    ]
}

fn page_case(name: &str, runs: usize, columns: usize, numbers: Vec<usize>) -> PageCase {
    PageCase {
        name: name.to_string(),
        sheet: Sheet::of_size(runs, columns),
        numbers,
    }
}

/// A sheet that is charged by a price list, so many times.
pub struct ChargeCase {
    pub name: String,
    pub sheet: Sheet,
    pub run_price: u32,
    pub prices: Vec<u32>,
    pub discount: u32,
    pub times: usize,
}

/// All cases, in the order in which they are printed.
pub fn charge_cases() -> Vec<ChargeCase> {
    let small = Sheet::of_size(9, 4);
    let middle = Sheet::of_size(36, 13);
    let most = Sheet::of_size(512, 128);
    let half = Sheet::half_changing(512, 128);
    vec![
        charge_case("1,000 charges of 9 runs and 4 columns", small, 1_000),
        charge_case("1,000 charges of 36 runs and 13 columns", middle, 1_000),
        charge_case("512 runs and 128 columns, most change", most, 10),
        charge_case("512 runs and 128 columns, half change", half, 10),
    ]
}

/// With prices up to the largest that there is.
fn charge_case(name: &str, sheet: Sheet, times: usize) -> ChargeCase {
    let price = |column: usize| u32::MAX - 7_919 * column as u32;
    ChargeCase {
        name: name.to_string(),
        run_price: 4_500,
        prices: (0..sheet.columns).map(price).collect(),
        discount: 15,
        sheet,
        times,
    }
}
