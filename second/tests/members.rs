//! Question 7 by itself: the run and the member that it names, and the runs that it needs (02, K4).

mod common;
use common::*;
use second::field::digits;
use second::maker::{make, Random};
use second::order::{self, Step, Table};
use second::{check_members, Answer, MemberCheck};
use std::collections::BTreeMap;

const PRIMES: [usize; 4] = [2, 3, 5, 7];

/// What K4 says, of all runs at once: every wrong member of every run, and the lowest run of them.
fn said_of_all_runs(sheet: &Table, p: usize, members: &[usize]) -> MemberCheck {
    let mut wrong = Vec::new();
    for (number, run) in sheet.runs.iter().enumerate() {
        let of_members: Vec<usize> = members.iter().map(|&c| run[c - 1]).collect();
        let mut sum = of_members[0];
        for h in 3..=p + 1 {
            sum += of_members[1];
            if sum % p != of_members[h - 1] {
                wrong.push((number, h));
            }
        }
    }
    let first = wrong.into_iter().min();
    MemberCheck {
        wrong: first,
        runs_needed: first.map_or(sheet.runs.len(), |(run, _)| run + 1),
    }
}

/// The check of these members, seen to be what K4 says.
fn checked(sheet: &Table, p: usize, members: &[usize]) -> MemberCheck {
    let check = check_members(sheet, p, members);
    assert_eq!(
        check,
        said_of_all_runs(sheet, p, members),
        "{members:?} {sheet:?}"
    );
    let n = sheet.runs.len();
    assert!(check.runs_needed <= n);
    match check.wrong {
        Some((run, member)) => {
            assert_eq!(check.runs_needed, run + 1);
            assert!((3..=p + 1).contains(&member));
        }
        None => assert_eq!(check.runs_needed, n),
    }
    check
}

/// The same of a sheet that has the members alone, in order.
fn checked_in_order(p: usize, sheet: &Table) -> MemberCheck {
    checked(sheet, p, &Vec::from_iter(1..=p + 1))
}

fn finds(wrong: Option<(usize, usize)>, runs_needed: usize) -> MemberCheck {
    MemberCheck { wrong, runs_needed }
}

/// a, b, a + b, .., a + (p - 1) × b for all a and b, over and over to so many runs.
fn sums(p: usize, runs: usize) -> Table {
    let run = |number: usize| {
        let (a, b) = (number / p % p, number % p);
        let members = (1..p).map(|h| (a + h * b) % p);
        [a, b].into_iter().chain(members).collect()
    };
    Table {
        levels: vec![p; p + 1],
        runs: (0..runs).map(run).collect(),
    }
}

/// Makes a member wrong: another level than its sum, for each `by` below p another one.
fn spoil(sheet: &mut Table, p: usize, run: usize, member: usize, by: usize) {
    assert!((1..p).contains(&by));
    let cell = &mut sheet.runs[run][member - 1];
    *cell = (*cell + by) % p;
}

#[test]
fn all_runs_are_needed_where_all_are_sums() {
    for p in PRIMES {
        for runs in [1, 2, p, p * p, p * p + 1, 512 / (p * p) * p * p, 512] {
            assert_eq!(checked_in_order(p, &sums(p, runs)), finds(None, runs));
        }
    }
}

#[test]
fn one_wrong_member() {
    for p in PRIMES {
        let n = 2 * p * p;
        for run in [0, 1, n / 2, n - 2, n - 1] {
            for member in 3..=p + 1 {
                for by in 1..p {
                    let mut sheet = sums(p, n);
                    spoil(&mut sheet, p, run, member, by);
                    assert_eq!(
                        checked_in_order(p, &sheet),
                        finds(Some((run, member)), run + 1)
                    );
                }
            }
        }
    }
}

/// The lower run is named, also where the member that is wrong in the other is lower.
#[test]
fn two_wrong_runs() {
    for p in PRIMES {
        let n = p * p;
        for (first, second) in [(0, 1), (0, n - 1), (1, n / 2 + 1), (n - 2, n - 1)] {
            for in_first in 3..=p + 1 {
                for in_second in 3..=p + 1 {
                    let mut sheet = sums(p, n);
                    spoil(&mut sheet, p, first, in_first, 1);
                    spoil(&mut sheet, p, second, in_second, p - 1);
                    assert_eq!(
                        checked_in_order(p, &sheet),
                        finds(Some((first, in_first)), first + 1)
                    );
                }
            }
        }
    }
}

#[test]
fn two_wrong_members_of_one_run() {
    for p in [3, 5, 7] {
        let n = p * p;
        for run in [0, n / 2, n - 1] {
            for lower in 3..=p {
                for higher in lower + 1..=p + 1 {
                    let mut sheet = sums(p, n);
                    spoil(&mut sheet, p, run, lower, 1);
                    spoil(&mut sheet, p, run, higher, p - 1);
                    assert_eq!(
                        checked_in_order(p, &sheet),
                        finds(Some((run, lower)), run + 1)
                    );
                }
            }
        }
    }
}

/// With another c1 the third member is wrong, and with another c2 too.
#[test]
fn another_first_or_second_member() {
    for p in PRIMES {
        let n = p * p;
        for run in [0, n - 1] {
            for changed in [1, 2] {
                for by in 1..p {
                    let mut sheet = sums(p, n);
                    spoil(&mut sheet, p, run, changed, by);
                    assert_eq!(checked_in_order(p, &sheet), finds(Some((run, 3)), run + 1));
                }
            }
        }
    }
}

/// Every run that there is, and with p = 7 some of them at random.
#[test]
fn sheets_of_one_run() {
    let random = &mut Random::new(1);
    let with_seven: Vec<usize> = (0..20_000).map(|_| random.below(7usize.pow(8))).collect();
    for p in PRIMES {
        let numbers = match p {
            7 => with_seven.clone(),
            _ => Vec::from_iter(0..p.pow(p as u32 + 1)),
        };
        let one_run = |&number: &usize| Table {
            levels: vec![p; p + 1],
            runs: vec![digits(number, p, p + 1)],
        };
        let checks = numbers.iter().map(|n| checked_in_order(p, &one_run(n)));
        let checks: Vec<MemberCheck> = checks.collect();
        assert!(checks.iter().all(|check| check.runs_needed == 1));
        if p < 7 {
            let right = checks.iter().filter(|check| check.wrong.is_none());
            assert_eq!(right.count(), p * p);
        }
    }
}

/// Columns put apart and in another order, others with any number of levels between them: the sheet,
/// and where the members stand on it now.
fn scattered(random: &mut Random, sheet: &Table) -> (Table, Vec<usize>) {
    let others = random.below(8);
    let width = sheet.levels.len() + others;
    let mut places = Vec::from_iter(0..width);
    random.shuffle(&mut places);
    let mut levels: Vec<usize> = (0..width).map(|_| random.between(2, 64)).collect();
    for (&place, &level) in places.iter().zip(&sheet.levels) {
        levels[place] = level;
    }
    let mut runs = Vec::new();
    for old in &sheet.runs {
        let mut run: Vec<usize> = levels.iter().map(|&level| random.below(level)).collect();
        for (&place, &cell) in places.iter().zip(old) {
            run[place] = cell;
        }
        runs.push(run);
    }
    let members = places.iter().take(sheet.levels.len());
    let members = members.map(|place| place + 1).collect();
    (Table { levels, runs }, members)
}

#[test]
fn members_anywhere_on_the_sheet() {
    let random = &mut Random::new(4);
    let mut right = 0;
    for number in 0..4_000 {
        let p = PRIMES[number % 4];
        let n = random.between(1, 4 * p * p);
        let mut sheet = sums(p, n);
        random.shuffle(&mut sheet.runs);
        for _ in 0..random.below(4) {
            let (run, member) = (random.below(n), random.between(3, p + 1));
            spoil(&mut sheet, p, run, member, 1);
        }
        let in_order = checked_in_order(p, &sheet);
        let (wider, members) = scattered(random, &sheet);
        assert_eq!(checked(&wider, p, &members), in_order);
        right += usize::from(in_order.wrong.is_none());
    }
    assert!(right > 1_000 && right < 3_000, "{right}");
}

/// The wrong runs after the first are not needed, whatever they hold.
#[test]
fn what_follows_the_first_wrong_run_changes_nothing() {
    let random = &mut Random::new(5);
    for number in 0..400 {
        let p = PRIMES[number % 4];
        let n = 2 * p * p;
        let run = random.below(n);
        let mut sheet = sums(p, n);
        spoil(&mut sheet, p, run, p + 1, 1);
        let check = checked_in_order(p, &sheet);
        for later in &mut sheet.runs[run + 1..] {
            later.fill_with(|| random.below(p));
        }
        assert_eq!(checked_in_order(p, &sheet), check);
        sheet.runs.truncate(run + 1);
        assert_eq!(checked_in_order(p, &sheet), check);
    }
}

/// TAKE of a sheet, and MERGE of these members.
fn merge_order(sheet: &Table, p: usize, members: &[usize]) -> Vec<u16> {
    let numbers = |list: &[usize]| -> Vec<u16> { list.iter().map(|&n| n as u16).collect() };
    let runs: Vec<Vec<u16>> = sheet.runs.iter().map(|run| numbers(run)).collect();
    let step = [vec![4, p as u16], numbers(members)].concat();
    order(&[table(&numbers(&sheet.levels), &runs)], &[&[1, 1], &step])
}

/// Two copies of all a and b. The levels of one member are changed about in one copy, so that the sheet
/// stays even.
#[test]
fn an_order_is_refused_at_the_last_run_needed() {
    for p in PRIMES {
        let n = 2 * p * p;
        let members = Vec::from_iter(1..=p + 1);
        assert_eq!(
            shape(&planned(&merge_order(&sums(p, n), p, &members))),
            (n, vec![(p * p) as u8])
        );
        for copy in 0..2 {
            for member in 3..=p + 1 {
                let mut sheet = sums(p, n);
                for run in copy * p * p..(copy + 1) * p * p {
                    spoil(&mut sheet, p, run, member, 1);
                }
                let check = checked(&sheet, p, &members);
                assert_eq!(check, finds(Some((copy * p * p, member)), copy * p * p + 1));
                let run = check.runs_needed as u32 - 1;
                assert_eq!(
                    planned(&merge_order(&sheet, p, &members)),
                    refusal(10, &[2, run, member as u32])
                );
            }
        }
    }
}

/// The sheet of a filled answer.
fn sheet_of(answer: &Answer) -> Table {
    let (_, levels) = shape(answer);
    let Answer::Filled { table, .. } = answer else {
        unreachable!()
    };
    let cells: Vec<usize> = table.iter().map(|&cell| cell.into()).collect();
    Table {
        runs: cells.chunks(levels.len()).map(<[usize]>::to_vec).collect(),
        levels: levels.iter().map(|&level| level.into()).collect(),
    }
}

/// Every MERGE of random orders whose question 7 is asked: N runs are needed where the step is carried
/// out, and the run of refusal 10 plus 1 where it is not.
#[test]
fn every_merge_of_random_orders() {
    let mut times: BTreeMap<(usize, bool), usize> = BTreeMap::new();
    for seed in 7_000_000..7_006_000 {
        let call = make(seed);
        let answer = planned(&call.list);
        let asked = match answer {
            Answer::Filled { .. } => usize::MAX,
            Answer::Refused {
                number: 10,
                details,
            } => details[0] as usize,
            _ => continue,
        };
        let answers = answers_by_step(&call.list);
        let steps = order::read(&call.list).unwrap().steps;
        for (index, step) in steps.iter().enumerate().take(asked) {
            let Step::Merge { p, members } = step else {
                continue;
            };
            let check = checked(&sheet_of(&answers[index - 1]), *p, members);
            if let Some((run, member)) = check.wrong {
                let details = [index + 1, run, member].map(|detail| detail as u32);
                assert_eq!(answer, refusal(10, &details));
            } else {
                assert!(matches!(answers[index], Answer::Filled { .. }));
            }
            *times.entry((*p, check.wrong.is_none())).or_default() += 1;
        }
    }
    assert_eq!(times.len(), 8, "{times:?}");
    assert!(times.values().all(|&count| count > 10), "{times:?}");
}
