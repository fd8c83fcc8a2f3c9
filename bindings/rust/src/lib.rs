//! Plans mixed orthogonal run tables, prints them on pages, says what they cost, and checks tables: a safe wrapper of `yurbantze_plan`, `yurbantze_page`,
//! `yurbantze_charge` and `yurbantze_check_table`, which are written in Rattle and proved. Their promises are their contracts in
//! crates/exported/src/lib.rt; include/yurbantze.h says the same in words.
use std::fmt;

/// How long the three buffers must be for an order to be planned.
pub const TABLE_LENGTH: usize = 65536;
pub const LEVELS_LENGTH: usize = 128;
pub const SCRATCH_LENGTH: usize = 65536;

/// How long a page is: 60 lines of 79 characters and a line feed.
pub const PAGE_LENGTH: usize = 4800;

// A slice is handed over as a pointer and a length.
extern "C" {
    fn yurbantze_plan(
        list: *const u16,
        list_length: usize,
        table: *mut u8,
        table_length: usize,
        levels: *mut u8,
        levels_length: usize,
        scratch: *mut u8,
        scratch_length: usize,
        answer: *mut [usize; 7],
        spare: *mut i64,
    ) -> usize;

    fn yurbantze_page(
        table: *const u8,
        table_length: usize,
        levels: *const u8,
        levels_length: usize,
        runs: usize,
        columns: usize,
        number: usize,
        page: *mut u8,
        page_length: usize,
    ) -> usize;

    fn yurbantze_charge(
        table: *const u8,
        table_length: usize,
        levels: *const u8,
        levels_length: usize,
        runs: usize,
        columns: usize,
        run_price: u32,
        prices: *const u32,
        prices_length: usize,
        discount: u32,
        charge: *mut u64,
    ) -> usize;

    fn yurbantze_check_table(list: *const u16, list_length: usize, answer: *mut [usize; 7], gap: *mut i64, pairs: *mut usize) -> usize;
}

/// A run table: in any two columns with s and t levels each pair of levels stands in exactly runs ÷ (s × t) runs, and in each column each level in
/// runs ÷ s runs.
#[derive(Clone, Debug, PartialEq, Eq)]
pub struct Table {
    runs: usize,
    levels: Vec<u8>,
    spare: i64,
    entries: Vec<u8>,
}

impl Table {
    /// How many runs it has.
    pub fn run_count(&self) -> usize {
        self.runs
    }

    /// How many columns it has.
    pub fn column_count(&self) -> usize {
        self.levels.len()
    }

    /// The level count of each column.
    pub fn levels(&self) -> &[u8] {
        &self.levels
    }

    /// How much the table could still hold: runs - 1 less the sum over the columns of (levels - 1). It is never negative; a table whose spare is 0 is
    /// saturated.
    pub fn spare(&self) -> i64 {
        self.spare
    }

    /// The runs in order, each with an entry for each column.
    pub fn runs(&self) -> impl Iterator<Item = &[u8]> {
        self.entries.chunks_exact(self.levels.len())
    }

    /// The page of a number, from 1, if the table has it: 60 lines of 79 characters, each closed by a line feed.
    pub fn page(&self, number: usize) -> Option<String> {
        let mut buffer = vec![0; PAGE_LENGTH];
        match page(&self.entries, &self.levels, self.runs, self.levels.len(), number, &mut buffer) {
            Ok(()) => Some(String::from_utf8(buffer).expect("a page is digits, blanks and line feeds")),
            Err(refusal) => {
                assert_eq!(refusal, PageRefusal::NoSuchPage, "a table that was planned is refused by no other number");
                None
            }
        }
    }

    /// All pages in order.
    pub fn pages(&self) -> impl Iterator<Item = String> + '_ {
        (1..).map_while(|number| self.page(number))
    }

    /// What the table costs, in pence: by the price of a run, the price of a changed level in each column, and a discount in percent. There is a charge if
    /// there are as many prices as columns and the discount is at most 100.
    pub fn charge(&self, run_price: u32, prices: &[u32], discount: u32) -> Option<u64> {
        match charge(&self.entries, &self.levels, self.runs, self.levels.len(), run_price, prices, discount) {
            Ok(pence) => Some(pence),
            Err(refusal) => {
                assert_eq!(refusal, ChargeRefusal::UnfitPrices, "a table that was planned is refused by no other number");
                None
            }
        }
    }
}

/// Why an order is refused, or a table that is checked by itself, which is ingredient 1 then. Columns, factors, steps, ingredients and members count from
/// 1; places, runs, levels and values from 0; `times` is a number of runs.
#[derive(Clone, Copy, Debug, PartialEq, Eq)]
pub enum Refusal {
    ShortBuffers,
    Unreadable { place: usize },
    EntryOutOfRange { place: usize },
    UnevenLevel { ingredient: usize, column: usize, level: usize, times: usize },
    /// The columns are the first two that fail, in the order 1-2, 1-3 and so on. The levels are those that are farthest off in them, s × t × times being
    /// farthest from the number of runs, and the lowest two among equals.
    UnevenPair { ingredient: usize, first: usize, second: usize, first_level: usize, second_level: usize, times: usize },
    UnevenDifference { ingredient: usize, first: usize, second: usize, difference: usize, times: usize },
    /// The coefficients are read base s, the first highest; an only factor has 0 in the place of a second.
    Dependent { ingredient: usize, first: usize, second: usize, coefficients: usize },
    StepNotAllowed { step: usize },
    PartsDoNotFit { step: usize },
    /// The check ended at that run, the first that is wrong, and needed `run` + 1 runs.
    NotTheSum { step: usize, run: usize, member: usize },
    TooLarge { step: usize, runs: usize, columns: usize },
    /// Of a CROSS: the ingredient is the first of its matrices that serves a column of the sheet and holds a value too often or not often enough. Column
    /// and value are the lowest.
    UnevenValue { step: usize, ingredient: usize, column: usize, value: usize },
}

impl Refusal {
    // The refusal of seven numbers, of which the first is not 0. The promise says that there are no others.
    fn from_numbers(numbers: [usize; 7]) -> Refusal {
        let [number, a, b, c, d, e, f] = numbers;
        match number {
            1 => Refusal::ShortBuffers,
            2 => Refusal::Unreadable { place: a },
            3 => Refusal::EntryOutOfRange { place: a },
            4 => Refusal::UnevenLevel { ingredient: a, column: b, level: c, times: d },
            5 => Refusal::UnevenPair { ingredient: a, first: b, second: c, first_level: d, second_level: e, times: f },
            6 => Refusal::UnevenDifference { ingredient: a, first: b, second: c, difference: d, times: e },
            7 => Refusal::Dependent { ingredient: a, first: b, second: c, coefficients: d },
            8 => Refusal::StepNotAllowed { step: a },
            9 => Refusal::PartsDoNotFit { step: a },
            10 => Refusal::NotTheSum { step: a, run: b, member: c },
            11 => Refusal::TooLarge { step: a, runs: b, columns: c },
            14 => Refusal::UnevenValue { step: a, ingredient: b, column: c, value: d },
            _ => unreachable!("no refusal has the number {number}"),
        }
    }

    /// The number of the refusal and its six details, unused ones 0.
    pub fn numbers(self) -> [usize; 7] {
        match self {
            Refusal::ShortBuffers => [1, 0, 0, 0, 0, 0, 0],
            Refusal::Unreadable { place } => [2, place, 0, 0, 0, 0, 0],
            Refusal::EntryOutOfRange { place } => [3, place, 0, 0, 0, 0, 0],
            Refusal::UnevenLevel { ingredient, column, level, times } => [4, ingredient, column, level, times, 0, 0],
            Refusal::UnevenPair { ingredient, first, second, first_level, second_level, times } => {
                [5, ingredient, first, second, first_level, second_level, times]
            }
            Refusal::UnevenDifference { ingredient, first, second, difference, times } => [6, ingredient, first, second, difference, times, 0],
            Refusal::Dependent { ingredient, first, second, coefficients } => [7, ingredient, first, second, coefficients, 0, 0],
            Refusal::StepNotAllowed { step } => [8, step, 0, 0, 0, 0, 0],
            Refusal::PartsDoNotFit { step } => [9, step, 0, 0, 0, 0, 0],
            Refusal::NotTheSum { step, run, member } => [10, step, run, member, 0, 0, 0],
            Refusal::TooLarge { step, runs, columns } => [11, step, runs, columns, 0, 0, 0],
            Refusal::UnevenValue { step, ingredient, column, value } => [14, step, ingredient, column, value, 0, 0],
        }
    }
}

impl fmt::Display for Refusal {
    /// The line that the planner prints, without its line feed.
    fn fmt(&self, f: &mut fmt::Formatter<'_>) -> fmt::Result {
        write!(f, "refused")?;
        self.numbers().iter().try_for_each(|number| write!(f, " {number}"))
    }
}

impl std::error::Error for Refusal {}

/// Why a page is not printed.
#[derive(Clone, Copy, Debug, PartialEq, Eq)]
pub enum PageRefusal {
    /// Runs, columns or a level count outside 1 to 512, 1 to 128 or 2 to 64, an entry that is not below its level, or a table or a level list shorter
    /// than runs × columns or columns bytes.
    NotASheet,
    /// The page buffer is shorter than `PAGE_LENGTH`.
    ShortPage,
    /// Page 0, or one past the last.
    NoSuchPage,
}

impl PageRefusal {
    // The refusal of a number that is not 0. The promise says that there are no others.
    fn from_number(number: usize) -> PageRefusal {
        match number {
            1 => PageRefusal::NotASheet,
            12 => PageRefusal::ShortPage,
            13 => PageRefusal::NoSuchPage,
            _ => unreachable!("no page is refused by the number {number}"),
        }
    }

    /// The number of the refusal. It has no details.
    pub fn number(self) -> usize {
        match self {
            PageRefusal::NotASheet => 1,
            PageRefusal::ShortPage => 12,
            PageRefusal::NoSuchPage => 13,
        }
    }
}

impl fmt::Display for PageRefusal {
    /// The line that a program prints, without its line feed.
    fn fmt(&self, f: &mut fmt::Formatter<'_>) -> fmt::Result {
        write!(f, "refused {} 0 0 0 0 0 0", self.number())
    }
}

impl std::error::Error for PageRefusal {}

/// Why a sheet has no charge.
#[derive(Clone, Copy, Debug, PartialEq, Eq)]
pub enum ChargeRefusal {
    /// As `PageRefusal::NotASheet`, whatever the price list is.
    NotASheet,
    /// The discount is over 100, or there are more or fewer prices than columns.
    UnfitPrices,
}

impl ChargeRefusal {
    // The refusal of a number that is not 0. The promise says that there are no others.
    fn from_number(number: usize) -> ChargeRefusal {
        match number {
            1 => ChargeRefusal::NotASheet,
            15 => ChargeRefusal::UnfitPrices,
            _ => unreachable!("no charge is refused by the number {number}"),
        }
    }

    /// The number of the refusal. It has no details.
    pub fn number(self) -> usize {
        match self {
            ChargeRefusal::NotASheet => 1,
            ChargeRefusal::UnfitPrices => 15,
        }
    }
}

impl fmt::Display for ChargeRefusal {
    /// The line that a program prints, without its line feed.
    fn fmt(&self, f: &mut fmt::Formatter<'_>) -> fmt::Result {
        write!(f, "refused {} 0 0 0 0 0 0", self.number())
    }
}

impl std::error::Error for ChargeRefusal {}

/// The numbers of runs and columns of a table that was written into buffers, and how much it could still hold (`Table::spare`).
#[derive(Clone, Copy, Debug, PartialEq, Eq)]
pub struct Size {
    pub runs: usize,
    pub columns: usize,
    pub spare: i64,
}

/// Plans an order into buffers that the caller lends. Filled: the runs lie one after the other in `table`, the level counts in `levels`, and zeros
/// after them. Refused: both are zeros. The scratch is zeros after every call. What the buffers hold before it does not matter.
pub fn plan_into(list: &[u16], table: &mut [u8], levels: &mut [u8], scratch: &mut [u8]) -> Result<Size, Refusal> {
    let mut answer = [0; 7];
    let mut spare = 0;
    // SAFETY: each pointer is a reference's, with the length of its slice, and so is not null, is aligned, and points to initialised elements; the
    // references are borrowed until the call returns, those that are written without another. The function requires nothing else, and its proof says
    // that it reads and writes within those lengths.
    let number = unsafe {
        yurbantze_plan(
            list.as_ptr(),
            list.len(),
            table.as_mut_ptr(),
            table.len(),
            levels.as_mut_ptr(),
            levels.len(),
            scratch.as_mut_ptr(),
            scratch.len(),
            &mut answer,
            &mut spare,
        )
    };
    match number {
        0 => Ok(Size { runs: answer[1], columns: answer[2], spare }),
        _ => Err(Refusal::from_numbers(answer)),
    }
}

/// Plans an order: the run table that the list orders, or why there is none.
pub fn plan(list: &[u16]) -> Result<Table, Refusal> {
    let mut entries = vec![0; TABLE_LENGTH];
    let mut levels = vec![0; LEVELS_LENGTH];
    let mut scratch = vec![0; SCRATCH_LENGTH];
    let Size { runs, columns, spare } = plan_into(list, &mut entries, &mut levels, &mut scratch)?;
    entries.truncate(runs * columns);
    levels.truncate(columns);
    Ok(Table { runs, levels, spare, entries })
}

/// Prints a page of a sheet into a buffer that the caller lends: the entries are in `table`, run by run, the level counts in `levels`, and the page has a
/// number from 1. Any numbers and bytes are answered, and the sheet need not be even. Printed: the page lies in the first `PAGE_LENGTH` bytes, and zeros
/// after them. Refused: the buffer is zeros. What it holds before does not matter.
pub fn page(table: &[u8], levels: &[u8], runs: usize, columns: usize, number: usize, buffer: &mut [u8]) -> Result<(), PageRefusal> {
    // SAFETY: each pointer is a reference's, with the length of its slice, and so is not null, and points to initialised bytes; the references are
    // borrowed until the call returns, the one that is written without another. The function requires nothing else, and its proof says that it reads
    // and writes within those lengths.
    let answer = unsafe {
        yurbantze_page(
            table.as_ptr(),
            table.len(),
            levels.as_ptr(),
            levels.len(),
            runs,
            columns,
            number,
            buffer.as_mut_ptr(),
            buffer.len(),
        )
    };
    match answer {
        0 => Ok(()),
        _ => Err(PageRefusal::from_number(answer)),
    }
}

/// What a sheet costs, in pence: the entries are in `table`, run by run, and the level counts in `levels`. The sum is runs × `run_price` and, for each run
/// after the first and each column whose level differs from the run before, that column's price in `prices`; the charge is the sum less `discount` percent,
/// rounded to the nearest penny, halves up, once at the end. Any numbers and bytes are answered, and the sheet need not be even.
pub fn charge(table: &[u8], levels: &[u8], runs: usize, columns: usize, run_price: u32, prices: &[u32], discount: u32) -> Result<u64, ChargeRefusal> {
    let mut pence = 0;
    // SAFETY: each of the first three pointers is a reference's, with the length of its slice, and so is not null, is aligned, and points to initialised
    // elements; the references are borrowed until the call returns. The last is that of a local variable, which nothing else borrows. The function requires
    // nothing else, and its proof says that it reads and writes within those lengths.
    let answer = unsafe {
        yurbantze_charge(
            table.as_ptr(),
            table.len(),
            levels.as_ptr(),
            levels.len(),
            runs,
            columns,
            run_price,
            prices.as_ptr(),
            prices.len(),
            discount,
            &mut pence,
        )
    };
    match answer {
        0 => Ok(pence),
        _ => Err(ChargeRefusal::from_number(answer)),
    }
}

/// What the check of a table answers.
#[derive(Clone, Copy, Debug, PartialEq, Eq)]
pub struct TableCheck {
    /// That the table passes, or why it does not: `Unreadable`, `EntryOutOfRange`, `UnevenLevel` or `UnevenPair`. The ingredient is 1, and places count
    /// in the list that was handed in.
    pub verdict: Result<(), Refusal>,
    /// After `UnevenPair`, s × t × times less the number of runs, where s and t are the level counts of the two columns: below zero where the pair of
    /// levels is short, above where it is over, and never 0. Divided by s × t it is how many runs the pair has too many. In every other case it is 0.
    pub gap: i64,
    /// How many pairs of columns were counted: of a table of m columns that passes all m × (m − 1) ÷ 2, and after `UnevenPair` the position of its two
    /// columns, from 1, in the order 1-2, 1-3 and so on. In every other case it is 0. It is never above 8,128, which 128 columns have.
    pub pairs: usize,
}

/// Checks one table, written as an ingredient of an order is: 1, the number of runs, the number of columns, the level count of each column, then the
/// entries run by run, and nothing after them. Any list is answered. The call needs up to 90,000 bytes of stack.
pub fn check_table(list: &[u16]) -> TableCheck {
    let mut answer = [0; 7];
    let mut gap = 0;
    let mut pairs = 0;
    // SAFETY: the list's pointer is a reference's, with the length of its slice, and so is not null, is aligned, and points to initialised numbers; the
    // other three are those of local variables, which nothing else borrows. The function requires nothing else, and its proof says that it reads and writes
    // within those lengths.
    let number = unsafe { yurbantze_check_table(list.as_ptr(), list.len(), &mut answer, &mut gap, &mut pairs) };
    let verdict = match number {
        0 => Ok(()),
        _ => Err(Refusal::from_numbers(answer)),
    };
    TableCheck { verdict, gap, pairs }
}
