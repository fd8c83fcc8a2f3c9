//! Charges worked out through the static library: document 02, K7.
use yurbantze::{charge, plan, ChargeRefusal, Table};

/// The most that a sheet costs: 512 runs, and 511 changes of 128 columns, at 4,294,967,295 pence each.
const MOST_PENCE: u64 = 283_124_244_086_400;

/// A sheet handed in, with the size that is said of it.
#[derive(Clone)]
struct Sheet {
    table: Vec<u8>,
    levels: Vec<u8>,
    runs: usize,
    columns: usize,
}

impl Sheet {
    /// Each run is a text with a digit for each column.
    fn of_runs(runs: &[&str]) -> Sheet {
        Sheet {
            table: runs.concat().bytes().map(|digit| digit - b'0').collect(),
            levels: vec![10; runs[0].len()],
            runs: runs.len(),
            columns: runs[0].len(),
        }
    }

    /// Every level changes from every run to the next.
    fn all_changing(runs: usize, columns: usize) -> Sheet {
        let entry = |place: usize| (place / columns % 2 * 63) as u8;
        Sheet { table: (0..runs * columns).map(entry).collect(), levels: vec![64; columns], runs, columns }
    }

    fn charge(&self, run_price: u32, prices: &[u32], discount: u32) -> Result<u64, ChargeRefusal> {
        charge(&self.table, &self.levels, self.runs, self.columns, run_price, prices, discount)
    }

    /// Refused as no sheet, whatever the price list is.
    fn assert_not_a_sheet(&self) {
        for count in [self.columns.min(200), 0, 3, 4, 5] {
            for discount in [0, 100, 101, u32::MAX] {
                assert_eq!(self.charge(1, &vec![1; count], discount), Err(ChargeRefusal::NotASheet), "{count} prices, discount {discount}");
            }
        }
    }
}

/// The runs 000, 011, 101, 110. One level changes in column 1, three in column 2, and two in column 3.
fn four_runs() -> Sheet {
    Sheet::of_runs(&["000", "011", "101", "110"])
}

fn house_table(number: u16) -> Table {
    plan(&[0, 1, 1, number]).expect("the order is filled")
}

#[test]
fn the_house_tables() {
    // 4 × 1,000 + 10 + 3 × 200 + 2 × 3,000; 85 percent of that is 9,018.50.
    let prices = [10, 200, 3000];
    assert_eq!(house_table(101).charge(1000, &prices, 0), Some(10_610));
    assert_eq!(house_table(101).charge(1000, &prices, 15), Some(9_019));
    // 9 × 1,000 + 2 × 1 + 8 × 20 + 8 × 300 + 6 × 4,000; 75 percent of that is 26,671.50.
    let prices = [1, 20, 300, 4000];
    assert_eq!(house_table(102).charge(1000, &prices, 0), Some(35_562));
    assert_eq!(house_table(102).charge(1000, &prices, 25), Some(26_672));
    // 12 × 4,500 + 2 × 1,250 + 11 × 300 + 6 × 300 + 8 × 75 + 6 × 999; 85 percent of that is 57,964.90.
    let prices = [1250, 300, 300, 75, 999];
    assert_eq!(house_table(103).charge(4500, &prices, 0), Some(68_194));
    assert_eq!(house_table(103).charge(4500, &prices, 15), Some(57_965));
}

#[test]
fn the_changes_of_each_column() {
    // Read by twos from the right, a charge has the changes of column 1, column 2 and so on.
    let prices = [1, 100, 10_000, 1_000_000, 100_000_000];
    assert_eq!(house_table(101).charge(0, &prices[..3], 0), Some(20_301));
    assert_eq!(house_table(102).charge(0, &prices[..4], 0), Some(6_080_802));
    assert_eq!(house_table(103).charge(0, &prices[..5], 0), Some(608_061_102));
    assert_eq!(house_table(104).charge(0, &prices[..3], 0), Some(61_105));
}

#[test]
fn what_a_change_is() {
    // Of column 1, and a hundred times those of column 2.
    let changes = |runs: &[&str]| Sheet::of_runs(runs).charge(0, &[1, 100], 0);
    // Equal runs have none, though the columns differ and so do the ends of two runs.
    assert_eq!(changes(&["01", "01", "01"]), Ok(0));
    // However far the level goes, up or down, and also back to an earlier one.
    assert_eq!(changes(&["00", "90", "80", "08"]), Ok(103));
    assert_eq!(changes(&["00", "10", "00", "10"]), Ok(3));
    // From the last run to the first there is none.
    assert_eq!(changes(&["00", "11"]), Ok(101));
    // From the first to the second, and from the last but one to the last.
    assert_eq!(changes(&["00", "10", "10", "11"]), Ok(101));
}

#[test]
fn planned_tables_with_prices_that_do_not_fit() {
    let table = house_table(102);
    for count in [0, 3, 5, 129] {
        assert_eq!(table.charge(1, &vec![1; count], 0), None);
    }
    assert_eq!(table.charge(1, &[1; 4], 100), Some(0));
    assert_eq!(table.charge(1, &[1; 4], 101), None);
}

#[test]
fn halves_go_up() {
    // One run of one column costs the run price.
    let less = |discount, run_price| Sheet::of_runs(&["0"]).charge(run_price, &[7], discount);
    let at_99 = [(0, 0), (49, 0), (50, 1), (51, 1), (100, 1), (149, 1), (150, 2), (151, 2), (u32::MAX, 42_949_673)];
    for (run_price, wanted) in at_99 {
        assert_eq!(less(99, run_price), Ok(wanted), "a hundredth of {run_price}");
    }
    for (run_price, wanted) in [(1, 1), (2, 1), (3, 2), (4, 2), (u32::MAX, 2_147_483_648)] {
        assert_eq!(less(50, run_price), Ok(wanted), "half of {run_price}");
    }
    // 0.99, 48.51, 49.50 and 50.49.
    for (run_price, wanted) in [(1, 1), (49, 49), (50, 50), (51, 50)] {
        assert_eq!(less(1, run_price), Ok(wanted), "99 hundredths of {run_price}");
    }
    // 0.33, 0.66 and 16.50.
    for (run_price, wanted) in [(1, 0), (2, 1), (50, 17)] {
        assert_eq!(less(67, run_price), Ok(wanted), "33 hundredths of {run_price}");
    }
}

#[test]
fn rounded_once_at_the_end() {
    // Two runs at a halfpenny, and three.
    assert_eq!(Sheet::of_runs(&["0", "0"]).charge(1, &[0], 50), Ok(1));
    assert_eq!(Sheet::of_runs(&["0", "0", "0"]).charge(1, &[0], 50), Ok(2));
    // Two runs and two changes at a halfpenny.
    assert_eq!(Sheet::of_runs(&["00", "11"]).charge(1, &[1, 1], 50), Ok(2));
    // Two changes alone, and one beside three runs.
    assert_eq!(Sheet::of_runs(&["00", "11"]).charge(0, &[1, 1], 50), Ok(1));
    assert_eq!(Sheet::of_runs(&["0", "0", "1"]).charge(1, &[1], 50), Ok(2));
    // Ten runs at 0.49: none by itself would be a penny.
    assert_eq!(Sheet::of_runs(&["0"; 10]).charge(49, &[0], 99), Ok(5));
    // Four runs and six changes at 1.49: 14.90.
    assert_eq!(four_runs().charge(149, &[149; 3], 99), Ok(15));
}

#[test]
fn every_discount() {
    // 10,610 pence in all.
    let prices = [10, 200, 3000];
    let mut before = u64::MAX;
    for discount in 0..=100 {
        let pence = four_runs().charge(1000, &prices, discount).expect("the prices fit");
        assert_eq!(pence, (10_610 * (100 - u64::from(discount)) + 50) / 100);
        assert!(pence <= before);
        before = pence;
    }
    assert_eq!(before, 0);
    for discount in [101, 102, 156, 200, 256, 356, 65_536, 65_636, 1 << 31, u32::MAX - 1, u32::MAX] {
        assert_eq!(four_runs().charge(1000, &prices, discount), Err(ChargeRefusal::UnfitPrices), "{discount}");
    }
}

#[test]
fn one_run_has_no_changes() {
    let sheet = Sheet::of_runs(&["9876"]);
    assert_eq!(sheet.charge(1234, &[u32::MAX; 4], 0), Ok(1234));
    assert_eq!(sheet.charge(0, &[u32::MAX; 4], 0), Ok(0));
    assert_eq!(Sheet::all_changing(1, 128).charge(u32::MAX, &[u32::MAX; 128], 0), Ok(4_294_967_295));
}

#[test]
fn a_price_for_each_column_and_no_more() {
    for columns in [1, 2, 3, 127, 128] {
        let sheet = Sheet::all_changing(2, columns);
        assert_eq!(sheet.charge(5, &vec![1; columns], 0), Ok(10 + columns as u64));
        for count in [0, columns - 1, columns + 1, columns + 256] {
            if count != columns {
                assert_eq!(sheet.charge(5, &vec![1; count], 0), Err(ChargeRefusal::UnfitPrices), "{count} prices for {columns} columns");
            }
        }
        assert_eq!(sheet.charge(5, &vec![1; columns + 1], 101), Err(ChargeRefusal::UnfitPrices));
    }
}

#[test]
fn prices_of_0() {
    assert_eq!(four_runs().charge(0, &[0; 3], 0), Ok(0));
    assert_eq!(four_runs().charge(1, &[0; 3], 0), Ok(4));
    assert_eq!(four_runs().charge(0, &[1, 0, 0], 0), Ok(1));
    assert_eq!(four_runs().charge(0, &[0, 1, 0], 0), Ok(3));
    assert_eq!(four_runs().charge(0, &[0, 0, 1], 0), Ok(2));
}

#[test]
fn the_dearest_sheet() {
    let charge = |discount| Sheet::all_changing(512, 128).charge(u32::MAX, &[u32::MAX; 128], discount);
    assert_eq!(charge(0), Ok(MOST_PENCE));
    assert_eq!(charge(1), Ok(280_293_001_645_536));
    assert_eq!(charge(50), Ok(141_562_122_043_200));
    assert_eq!(charge(99), Ok(2_831_242_440_864));
    assert_eq!(charge(100), Ok(0));
    assert_eq!(charge(101), Err(ChargeRefusal::UnfitPrices));
}

#[test]
fn sizes_beyond_the_limits() {
    let right = Sheet::all_changing(512, 128);
    for runs in [0, 513, 65_536, usize::MAX / 128 + 1, usize::MAX] {
        Sheet { runs, ..right.clone() }.assert_not_a_sheet();
    }
    for columns in [0, 129, 65_536, usize::MAX / 512 + 1, usize::MAX] {
        Sheet { columns, ..right.clone() }.assert_not_a_sheet();
    }
    for (runs, columns) in [(0, 0), (513, 1), (1, 129), (1 << 32, 1 << 32), (usize::MAX, usize::MAX)] {
        Sheet { table: vec![], levels: vec![], runs, columns }.assert_not_a_sheet();
    }
    Sheet::all_changing(513, 1).assert_not_a_sheet();
    Sheet::all_changing(1, 129).assert_not_a_sheet();
}

#[test]
fn level_counts_and_entries_at_their_limits() {
    for level in [0, 1, 65, 255] {
        let mut sheet = Sheet { table: vec![0; 36], levels: vec![3; 4], runs: 9, columns: 4 };
        sheet.levels[3] = level;
        sheet.assert_not_a_sheet();
    }
    for place in [0, 17, 35] {
        let mut sheet = Sheet::all_changing(9, 4);
        sheet.table[place] = 64;
        sheet.assert_not_a_sheet();
    }
    let mut sheet = Sheet::all_changing(512, 128);
    *sheet.table.last_mut().expect("it has entries") = 64;
    sheet.assert_not_a_sheet();
}

#[test]
fn tables_and_level_lists_too_short_and_longer() {
    let right = Sheet::all_changing(9, 4);
    for length in [35, 32, 0] {
        Sheet { table: right.table[..length].to_vec(), ..right.clone() }.assert_not_a_sheet();
    }
    for length in [3, 0] {
        Sheet { levels: right.levels[..length].to_vec(), ..right.clone() }.assert_not_a_sheet();
    }
    let longer = Sheet { table: [&right.table[..], &[255; 4]].concat(), levels: [&right.levels[..], &[0]].concat(), ..right };
    // 9 runs and 8 changes of each column.
    assert_eq!(longer.charge(10_000, &[1, 10, 100, 1000], 0), Ok(98_888));
}

#[test]
fn refusals_as_lines() {
    assert_eq!(ChargeRefusal::NotASheet.to_string(), "refused 1 0 0 0 0 0 0");
    assert_eq!(ChargeRefusal::UnfitPrices.to_string(), "refused 15 0 0 0 0 0 0");
}

// The exported function itself: a refusal of the package has no charge that could be looked at.
extern "C" {
    fn yurbantze_charge(
        table: *const u8,
        table_length: usize,
        levels: *const u8,
        levels_length: usize,
        runs: usize,
        columns: usize,
        run_price: u32,
        prices: *const u32,
        prices_length: usize,
        discount: u32,
        charge: *mut u64,
    ) -> usize;
}

/// Number and charge of a run price of 1,000, of which the latter was another number before the call.
fn number_and_charge(sheet: &Sheet, prices: &[u32], discount: u32) -> (usize, u64) {
    let Sheet { table, levels, runs, columns } = sheet;
    let mut pence = u64::MAX;
    // SAFETY: each pointer is that of a vector or a slice, with its length, or of a local variable, and none lies over another.
    let number = unsafe {
        yurbantze_charge(
            table.as_ptr(),
            table.len(),
            levels.as_ptr(),
            levels.len(),
            *runs,
            *columns,
            1000,
            prices.as_ptr(),
            prices.len(),
            discount,
            &mut pence,
        )
    };
    (number, pence)
}

#[test]
fn the_charge_is_written_whatever_was_there() {
    let right = four_runs();
    let prices = [10, 200, 3000];
    assert_eq!(number_and_charge(&right, &prices, 0), (0, 10_610));
    assert_eq!(number_and_charge(&right, &prices, 100), (0, 0));
    assert_eq!(number_and_charge(&right, &prices, 101), (15, 0));
    assert_eq!(number_and_charge(&right, &prices[..2], 0), (15, 0));
    assert_eq!(number_and_charge(&right, &[], 0), (15, 0));
    // 1 before 15.
    let short = Sheet { table: right.table[..11].to_vec(), ..right };
    assert_eq!(number_and_charge(&short, &prices, 0), (1, 0));
    assert_eq!(number_and_charge(&short, &prices, 101), (1, 0));
    assert_eq!(number_and_charge(&short, &prices[..2], 0), (1, 0));
}
