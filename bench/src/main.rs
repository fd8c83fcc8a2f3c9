//! `bench [PLANNER]`: how long the proved planner, a proved page, the proved check of a table and a
//! proved charge take, always as a ratio to something else.

#![forbid(unsafe_code)]

use bench::checkers;
use bench::fast;
use bench::orders::{cases, least_order, merge_cases, table_order, Case, MergeCase};
use bench::planners::{plain, proved, Buffers, Outcome};
use bench::pricers::{self, Pricer};
use bench::printers::{self, Printer};
use bench::sheets::{charge_cases, page_cases, ChargeCase, PageCase, Sheet};
use bench::tables::{table_cases, TableCase};
use bench::timing::{least_times, ratio, time_of, Effort};
use second::charges::Quote;
use second::pages::PAGE_LENGTH;
use second::LEAST;
use std::env;
use std::ffi::OsStr;
use std::fs::{create_dir, remove_dir_all, write, File};
use std::hint::black_box;
use std::io;
use std::path::{Path, PathBuf};
use std::process::{self, Command, Stdio};
use std::time::Duration;

type Planner = fn(&[u16], &mut Buffers) -> Outcome;

const CALLS: Effort = Effort {
    rounds: 10,
    time: Duration::from_secs(1),
};

const PROGRAMS: Effort = Effort {
    rounds: 3,
    time: Duration::from_secs(1),
};

fn main() -> io::Result<()> {
    let cases = cases();
    println!("proved planner / second implementation, and / fast safe Rust");
    for case in &cases {
        print_against_rust(case);
    }
    println!(
        "\nproved planner / fast safe Rust, what a MERGE takes beyond one that is refused at run 0"
    );
    for case in merge_cases() {
        print_merge_times(&case);
    }
    println!("\nproved page / second implementation, and / fast safe Rust");
    for case in page_cases() {
        print_page_times(&case);
    }
    println!("\nproved check of a table by itself / second implementation, and / fast safe Rust");
    for case in table_cases() {
        print_check_times(&case);
    }
    println!("\nproved charge / second implementation, and / fast safe Rust");
    for case in charge_cases() {
        print_charge_times(&case);
    }
    println!("\nproved planner / pairs counted by common bits, what a later request could gain");
    for case in &cases[..2] {
        let times = times_of_planners(&[proved, by_common_bits], &case.lists);
        print_line(&case.name, &[ratio(times[0], times[1])]);
    }
    println!("\nproved planner, TAKE of a two-level table / the line before, and the same without");
    println!("the time of the least order, which is that of clearing the buffers");
    print_growth([(512, 8), (512, 16), (512, 32), (512, 63)]);
    print_growth([(64, 63), (128, 63), (256, 63), (512, 63)]);
    if let Some(program) = env::args_os().nth(1) {
        println!("\nproved program / cat of the same bytes, from start to end");
        for case in &cases {
            print_against_cat(&program, case)?;
        }
    }
    Ok(())
}

fn print_line(name: &str, ratios: &[f64]) {
    let ratios: String = ratios.iter().map(|ratio| format!("{ratio:>8.2}")).collect();
    println!("{}", format!("{name:<40}{ratios}").trim_end());
}

fn print_against_rust(case: &Case) {
    let mut planners: Vec<Planner> = vec![proved, plain];
    if case.fast {
        planners.push(by_fast);
    }
    let times = times_of_planners(&planners, &case.lists);
    let ratios: Vec<f64> = times[1..].iter().map(|&t| ratio(times[0], t)).collect();
    print_line(&case.name, &ratios);
}

/// By the time of an order less that of the same order with a member wrong in run 0.
fn print_merge_times(case: &MergeCase) {
    let planners: [Planner; 2] = [proved, by_fast];
    let lists = [&case.list, &case.wrong_at_once];
    for list in lists {
        assert_all_agree(&planners, list);
    }
    let mut buffers = Buffers::zeros(LEAST);
    let times = least_times(CALLS, 4, |which| {
        buffers.clear();
        time_of(|| planners[which / 2](lists[which % 2], &mut buffers))
    });
    let (by_proved, by_fast) = (times[0] - times[1], times[2] - times[3]);
    print_line(&case.name, &[ratio(by_proved, by_fast)]);
}

fn by_fast(list: &[u16], buffers: &mut Buffers) -> Outcome {
    fast::plan(list, buffers).expect("it is written for this order")
}

fn by_common_bits(list: &[u16], buffers: &mut Buffers) -> Outcome {
    fast::common_bits::plan(list, buffers).expect("it is written for this order")
}

/// The least time of each planner for all of the lists, once they are seen to agree.
fn times_of_planners(planners: &[Planner], lists: &[Vec<u16>]) -> Vec<Duration> {
    for list in lists {
        assert_all_agree(planners, list);
    }
    let mut buffers = Buffers::zeros(LEAST);
    let all_lists = |which: usize| {
        let times = lists.iter().map(|list| {
            buffers.clear();
            time_of(|| planners[which](list, &mut buffers))
        });
        times.sum()
    };
    least_times(CALLS, planners.len(), all_lists)
}

fn assert_all_agree(planners: &[Planner], list: &[u16]) {
    let answers = planners.iter().map(|planner| {
        let mut buffers = Buffers::zeros(LEAST);
        (planner(list, &mut buffers), buffers)
    });
    let answers: Vec<(Outcome, Buffers)> = answers.collect();
    assert!(
        answers.windows(2).all(|two| two[0] == two[1]),
        "an answer or a byte differs"
    );
}

fn print_page_times(case: &PageCase) {
    let mut buffer = vec![0; PAGE_LENGTH];
    for &number in &case.numbers {
        assert_pages_agree(case, number);
    }
    let times = least_times(CALLS, printers::ALL.len(), |which| {
        time_of(|| {
            for &number in &case.numbers {
                put_page(printers::ALL[which], case, number, &mut buffer);
                black_box(&buffer);
            }
        })
    });
    let ratios: Vec<f64> = times[1..].iter().map(|&t| ratio(times[0], t)).collect();
    print_line(&case.name, &ratios);
}

fn put_page(printer: Printer, case: &PageCase, number: usize, buffer: &mut [u8]) -> usize {
    let Sheet { runs, columns, .. } = case.sheet;
    let Sheet { table, levels, .. } = &case.sheet;
    printer(table, levels, runs, columns, number, buffer)
}

/// Also on the bytes past the page.
fn assert_pages_agree(case: &PageCase, number: usize) {
    let answers = printers::ALL.map(|printer| {
        let mut buffer = vec![255; PAGE_LENGTH + 80];
        (put_page(printer, case, number, &mut buffer), buffer)
    });
    assert!(
        answers.windows(2).all(|two| two[0] == two[1]),
        "an answer or a byte differs"
    );
}

fn print_check_times(case: &TableCase) {
    for list in &case.lists {
        let answers = checkers::ALL.map(|checker| checker(list));
        assert!(
            answers.windows(2).all(|two| two[0] == two[1]),
            "a number differs"
        );
    }
    let times = least_times(CALLS, checkers::ALL.len(), |which| {
        time_of(|| {
            for list in &case.lists {
                black_box(checkers::ALL[which](black_box(list)));
            }
        })
    });
    let ratios: Vec<f64> = times[1..].iter().map(|&t| ratio(times[0], t)).collect();
    print_line(&case.name, &ratios);
}

fn print_charge_times(case: &ChargeCase) {
    let quotes = pricers::ALL.map(|pricer| quote(pricer, case));
    assert!(
        quotes.windows(2).all(|two| two[0] == two[1]),
        "an answer or a charge differs"
    );
    assert_eq!(quotes[0].answer, 0, "there is a charge");
    let times = least_times(CALLS, pricers::ALL.len(), |which| {
        time_of(|| {
            for _ in 0..case.times {
                black_box(quote(pricers::ALL[which], black_box(case)));
            }
        })
    });
    let ratios: Vec<f64> = times[1..].iter().map(|&t| ratio(times[0], t)).collect();
    print_line(&case.name, &ratios);
}

fn quote(pricer: Pricer, case: &ChargeCase) -> Quote {
    let Sheet { runs, columns, .. } = case.sheet;
    let Sheet { table, levels, .. } = &case.sheet;
    let ChargeCase {
        run_price,
        discount,
        ..
    } = *case;
    pricer(
        table,
        levels,
        runs,
        columns,
        run_price,
        &case.prices,
        discount,
    )
}

/// Tables of so many runs and columns, each with its time against that of the one before.
fn print_growth(sizes: [(usize, usize); 4]) {
    let mut lists = vec![least_order()];
    lists.extend(sizes.map(|(runs, columns)| table_order(runs, columns)));
    let mut buffers = Buffers::zeros(LEAST);
    let times = least_times(CALLS, lists.len(), |which| {
        buffers.clear();
        time_of(|| proved(&lists[which], &mut buffers))
    });
    let (least, times) = (times[0], &times[1..]);
    for (place, (runs, columns)) in sizes.iter().enumerate() {
        let name = format!("{runs} runs and {columns} columns");
        let ratios = match place {
            0 => vec![],
            _ => {
                let (before, now) = (times[place - 1], times[place]);
                vec![ratio(now, before), ratio(now - least, before - least)]
            }
        };
        print_line(&name, &ratios);
    }
}

fn print_against_cat(program: &OsStr, case: &Case) -> io::Result<()> {
    let texts = Texts::of(&case.lists)?;
    let programs = [program, OsStr::new("cat")];
    let times = least_times(PROGRAMS, programs.len(), |which| {
        let times = texts.paths.iter().map(|path| {
            let run = || run_to_its_end(programs[which], path);
            time_of(|| run().expect("the program runs"))
        });
        times.sum()
    });
    print_line(&case.name, &[ratio(times[0], times[1])]);
    Ok(())
}

fn run_to_its_end(program: &OsStr, input: &Path) -> io::Result<()> {
    let mut command = Command::new(program);
    command.stdin(File::open(input)?).stdout(Stdio::null());
    match command.status()?.success() {
        true => Ok(()),
        false => Err(io::Error::other("the program failed")),
    }
}

/// Orders as texts in files, which are removed with this.
struct Texts {
    directory: PathBuf,
    paths: Vec<PathBuf>,
}

impl Texts {
    fn of(lists: &[Vec<u16>]) -> io::Result<Texts> {
        let directory = env::temp_dir().join(format!("bench-{}", process::id()));
        create_dir(&directory)?;
        let mut texts = Texts {
            directory,
            paths: Vec::new(),
        };
        for (index, list) in lists.iter().enumerate() {
            let path = texts.directory.join(index.to_string());
            let words: Vec<String> = list.iter().map(u16::to_string).collect();
            write(&path, words.join(" ") + "\n")?;
            texts.paths.push(path);
        }
        Ok(texts)
    }
}

impl Drop for Texts {
    fn drop(&mut self) {
        // Nothing is lost if some files stay.
        let _ = remove_dir_all(&self.directory);
    }
}
