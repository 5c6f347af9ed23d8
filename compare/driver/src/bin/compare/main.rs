//! Holds two implementations of document 01 against each other on generated inputs.
//!
//! `compare [seed] [scale]` runs the boundaries and then random cases; `compare --case SEED` runs one random case again, `compare --boundary
//! INDEX` one of the boundaries; `compare --faults [seed]` shows that planted faults are seen.

mod faults;
mod judge;
mod tally;

use driver::boundaries;
use driver::inputs::{drawn, Input};
use driver::rng::case_seed;
use engine::Engine;
use faults::{Faulty, FAULTS};
use judge::{compare, dump, minimised, Difference};
use std::collections::BTreeMap;
use std::time::Instant;
use tally::Tally;

/// Random cases at scale 1.
const CASES: f64 = 600_000.0;

/// How many differences are shown in all, and of one sort of input; those past the second limit are only counted, so that one fault which
/// shows everywhere does not hide another.
const MOST_SHOWN: usize = 20;
const MOST_SHOWN_OF_SORT: usize = 4;
const MOST_COUNTED: usize = 1_000;

fn engines() -> [&'static dyn Engine; 2] {
    [&reference::Reference, &ours::Ours]
}

/// One input with its name for a replay.
struct Case {
    replay: String,
    sort: &'static str,
    input: Input,
}

fn random_case(seed: u64) -> Case {
    let (sort, input) = drawn(seed);
    Case { replay: format!("--case {seed}"), sort, input }
}

/// The boundaries, and then random cases without end.
fn all_cases(seed: u64) -> impl Iterator<Item = Case> {
    let fixed = boundaries::all().into_iter().enumerate();
    let fixed = fixed.map(|(index, (sort, input))| Case { replay: format!("--boundary {index}"), sort, input });
    fixed.chain((0..).map(move |index| random_case(case_seed(seed, index))))
}

fn report(case: &Case, difference: &Difference, engines: [&dyn Engine; 2]) {
    println!("DIFFERENCE in {} (compare {}): {}", case.sort, case.replay, difference.what);
    println!("    {}: {}\n    {}: {}", engines[0].name(), difference.one, engines[1].name(), difference.other);
    let least = minimised(&case.input, engines);
    println!("{}", dump(&least));
    if let Some(again) = compare(&least, engines, &mut Tally::default(), case.sort) {
        println!("    so made smaller: {}\n    {}: {}\n    {}: {}", again.what, engines[0].name(), again.one, engines[1].name(), again.other);
    }
}

fn count(case: &Case, tally: &mut Tally) {
    if !matches!(case.input, Input::History(..)) {
        tally.texts += 1;
    }
}

/// Differences found so far, by sort.
#[derive(Default)]
struct Found {
    by_sort: BTreeMap<&'static str, usize>,
    shown: usize,
}

impl Found {
    fn count(&self) -> usize {
        self.by_sort.values().sum()
    }

    fn add(&mut self, case: &Case, difference: &Difference) {
        let of_sort = self.by_sort.entry(case.sort).or_default();
        *of_sort += 1;
        if *of_sort <= MOST_SHOWN_OF_SORT {
            self.shown += 1;
            report(case, difference, engines());
        }
    }

    fn is_enough(&self) -> bool {
        self.shown >= MOST_SHOWN || self.count() >= MOST_COUNTED
    }
}

/// Runs all cases; the number of differences.
fn run(seed: u64, scale: f64) -> usize {
    let start = Instant::now();
    let engines = engines();
    let (mut tally, mut found) = (Tally::default(), Found::default());
    let fixed = boundaries::all().len();
    let random = (CASES * scale) as usize;
    println!("seed {seed}: {fixed} boundaries, {random} random cases; {} against {}", engines[0].name(), engines[1].name());
    for case in all_cases(seed).take(fixed + random) {
        count(&case, &mut tally);
        if let Some(difference) = compare(&case.input, engines, &mut tally, case.sort) {
            found.add(&case, &difference);
            if found.is_enough() {
                println!("stopped: enough differences");
                break;
            }
        }
    }
    tally.print();
    if found.count() > 0 {
        println!("\ndifferences by sort: {:?}", found.by_sort);
    }
    println!("\n{:.1} seconds", start.elapsed().as_secs_f64());
    println!("{} texts, {} calls, {} differences", tally.texts, tally.calls, found.count());
    found.count()
}

/// Runs one case again, and shows it whole.
fn run_one(case: Case) -> usize {
    let mut tally = Tally::default();
    println!("{}\n{}", case.sort, dump(&case.input));
    let Some(difference) = compare(&case.input, engines(), &mut tally, case.sort) else {
        println!("no difference");
        tally.print();
        return 0;
    };
    report(&case, &difference, engines());
    1
}

/// The first of these cases in which a fault is seen, and how many were run.
fn seen(fault: usize, cases: impl Iterator<Item = Case>) -> Option<(usize, String)> {
    let right: &dyn Engine = &reference::Reference;
    let faulty = Faulty { inner: right, fault };
    for (place, case) in cases.enumerate() {
        if compare(&case.input, [right, &faulty], &mut Tally::default(), case.sort).is_some() {
            return Some((place + 1, case.replay));
        }
    }
    None
}

/// Plants each fault; how many were not seen by the random cases.
fn run_faults(seed: u64) -> usize {
    println!("seed {seed}: each fault against the engine without it");
    let fixed = boundaries::all().len();
    let mut unseen = 0;
    for (fault, what) in FAULTS.iter().enumerate() {
        let random = seen(fault, all_cases(seed).skip(fixed).take(60_000));
        let systematic = seen(fault, all_cases(seed).take(fixed));
        let shown =
            |found: &Option<(usize, String)>| found.as_ref().map_or("not seen".to_string(), |(place, replay)| format!("case {place} ({replay})"));
        println!("fault {}: {what}: random {}; boundaries {}", fault + 1, shown(&random), shown(&systematic));
        unseen += random.is_none() as usize;
    }
    println!("{} faults, {unseen} not seen", FAULTS.len());
    unseen
}

fn chosen_seed() -> u64 {
    std::time::SystemTime::now().duration_since(std::time::UNIX_EPOCH).map_or(1, |since| since.as_nanos() as u64 % 1_000_000_000)
}

fn main() {
    let arguments: Vec<String> = std::env::args().skip(1).collect();
    let words: Vec<&str> = arguments.iter().map(String::as_str).collect();
    let seed = |word: &str| word.parse::<u64>().ok();
    let found = match words[..] {
        [] => Some(run(chosen_seed(), 1.0)),
        ["--faults"] => Some(run_faults(1)),
        ["--faults", word] => seed(word).map(run_faults),
        ["--case", word] => seed(word).map(|seed| run_one(random_case(seed))),
        ["--boundary", word] => seed(word).and_then(|index| all_cases(0).nth(index as usize)).map(run_one),
        [word] => seed(word).map(|seed| run(seed, 1.0)),
        [word, scale] => seed(word).zip(scale.parse().ok()).map(|(seed, scale)| run(seed, scale)),
        _ => None,
    };
    match found {
        None => {
            eprintln!("usage: compare [seed] [scale] | --case SEED | --boundary INDEX | --faults [seed]");
            std::process::exit(2);
        }
        Some(differences) => std::process::exit((differences > 0) as i32),
    }
}

#[cfg(test)]
mod tests {
    use super::*;

    /// No text and no call gives a book that breaks a rule, so the engine that tests them answers as the one that does not.
    #[test]
    fn testing_each_book_changes_no_answer() {
        let engines: [&dyn Engine; 2] = [&reference::Reference, &reference::Testing];
        let mut histories = 0;
        for case in (0..20_000).map(|index| random_case(case_seed(1, index))) {
            histories += matches!(case.input, Input::History(..)) as usize;
            if let Some(difference) = compare(&case.input, engines, &mut Tally::default(), case.sort) {
                panic!("{} ({}), {}: {} and {}", case.sort, case.replay, difference.what, difference.one, difference.other);
            }
        }
        assert!(histories > 1_000);
    }
}
