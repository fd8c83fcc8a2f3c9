//! `compare N SEED`: N made orders, N made calls for pages, N made tables and N made calls for charges,
//! with the seeds from SEED on, through the static library, with other bytes in the buffers before each
//! call. Answer, six details, the spare of a filled order, the gap of a table and the pairs of columns
//! that were counted of it, the charge and every byte of the buffers are compared with the second
//! implementation's.

#![forbid(unsafe_code)]

use bench::checkers;
use bench::planners::{plain, proved, Buffers};
use bench::pricers::{self, Pricer};
use bench::printers::proved as proved_page;
use second::charge_calls;
use second::maker::{self, make, make_crossing, make_uneven, Call, Random};
use second::page_calls::{self, PageCall};
use second::table_calls;
use std::collections::BTreeMap;
use std::env;
use std::ops::Range;
use std::process::ExitCode;

fn main() -> ExitCode {
    let arguments: Vec<String> = env::args().skip(1).collect();
    let numbers: Option<Vec<u64>> = arguments.iter().map(|word| word.parse().ok()).collect();
    match numbers.as_deref() {
        Some(&[count, seed]) => compare(seed..seed + count),
        _ => {
            eprintln!("compare N SEED");
            ExitCode::from(2)
        }
    }
}

fn compare(seeds: Range<u64>) -> ExitCode {
    let orders = Findings::of(seeds.clone(), try_order);
    orders.print("orders", "filled", &seeds);
    let pages = Findings::of(seeds.clone(), try_page);
    pages.print("calls for pages", "printed", &seeds);
    let tables = Findings::of(seeds.clone(), try_table);
    tables.print("tables", "passing", &seeds);
    let charges = Findings::of(seeds.clone(), try_charge);
    charges.print("calls for charges", "charged", &seeds);
    let findings = [orders, pages, tables, charges];
    let all_agree = findings.iter().all(|of| of.differing.is_empty());
    ExitCode::from(u8::from(!all_agree))
}

/// The number that is answered, and whether all agrees.
struct Trial {
    number: usize,
    agrees: bool,
}

/// How often each number was answered, and the seeds of the calls that differ.
#[derive(Default)]
struct Findings {
    answers: BTreeMap<usize, usize>,
    differing: Vec<u64>,
}

impl Findings {
    fn of(seeds: Range<u64>, mut trial: impl FnMut(u64) -> Trial) -> Findings {
        let mut findings = Findings::default();
        for seed in seeds {
            let Trial { number, agrees } = trial(seed);
            *findings.answers.entry(number).or_default() += 1;
            if !agrees {
                findings.differing.push(seed);
            }
        }
        findings
    }

    fn print(&self, what: &str, not_refused: &str, seeds: &Range<u64>) {
        println!(
            "{} {what}, seeds from {} on",
            seeds.end - seeds.start,
            seeds.start
        );
        for (number, times) in &self.answers {
            match number {
                0 => println!("  {not_refused}: {times}"),
                _ => println!("  refused {number}: {times}"),
            }
        }
        println!("{} differ", self.differing.len());
        for seed in self.differing.iter().take(20) {
            println!("  seed {seed}");
        }
    }
}

/// Every tenth order has an uneven table, which few of the others have, and every tenth a CROSS, which
/// none of them has but where a number was changed to 6.
fn try_order(seed: u64) -> Trial {
    let call = match seed % 10 {
        9 => make_uneven(seed),
        8 => make_crossing(seed, &maker::ANY),
        _ => make(seed),
    };
    let mut wanted_bytes = Buffers::zeros(call.lengths);
    let wanted = plain(&call.list, &mut wanted_bytes);
    let mut bytes = other_bytes(&call, seed);
    let outcome = proved(&call.list, &mut bytes);
    Trial {
        number: wanted.numbers[0],
        agrees: outcome == wanted && bytes == wanted_bytes,
    }
}

fn try_page(seed: u64) -> Trial {
    let call = page_calls::make(seed, &page_calls::ANY);
    let mut wanted_bytes = vec![0; call.room];
    let wanted = call.answer_into(&mut wanted_bytes);
    let mut bytes = random_bytes(&mut Random::new(!seed), call.room);
    let PageCall { runs, columns, .. } = call;
    let table = call.table();
    let number = proved_page(&table, &call.levels, runs, columns, call.number, &mut bytes);
    Trial {
        number: wanted,
        agrees: number == wanted && bytes == wanted_bytes,
    }
}

/// Right and wrong ones, compared in all nine numbers: by the proved check, and by the fastest one, which
/// is written for any table.
fn try_table(seed: u64) -> Trial {
    let list = table_calls::make(seed, &table_calls::ANY);
    let wanted = checkers::plain(&list);
    Trial {
        number: wanted.numbers[0],
        agrees: checkers::ALL.iter().all(|checker| checker(&list) == wanted),
    }
}

/// The proved charge, and the fastest one, which is written for any call.
fn try_charge(seed: u64) -> Trial {
    let call = charge_calls::make(seed, &charge_calls::ANY);
    let wanted = call.quote();
    let table = call.table();
    let agrees = |pricer: &Pricer| {
        let quote = pricer(
            &table,
            &call.levels,
            call.runs,
            call.columns,
            call.run_price,
            &call.prices,
            call.discount,
        );
        quote == wanted
    };
    Trial {
        number: wanted.answer,
        agrees: pricers::ALL.iter().all(agrees),
    }
}

/// Buffers full of random bytes, so that one that should be written and is not is seen.
fn other_bytes(call: &Call, seed: u64) -> Buffers {
    let random = &mut Random::new(!seed);
    let [table, levels, scratch] = call.lengths.map(|length| random_bytes(random, length));
    Buffers {
        table,
        levels,
        scratch,
    }
}

fn random_bytes(random: &mut Random, length: usize) -> Vec<u8> {
    let mut buffer = vec![0; length];
    for bytes in buffer.chunks_mut(8) {
        bytes.copy_from_slice(&random.word().to_le_bytes()[..bytes.len()]);
    }
    buffer
}
