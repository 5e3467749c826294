//! Holds the module, linked as an archive, against the second simulator.
//!
//!     harness SEED TRIES         tries from this seed; ends with status 1 if any call differs
//!     harness --on SEED          goes on with new seeds until a call differs
//!     harness --cases FOLDER     the cases of the corpus, and each fault that a cycle can have
//!
//! A try makes many calls; each is held against the second simulator in its
//! answer and in every byte of every part lent. What was tried is printed by
//! kind and outcome. A failure is printed with its seed: `harness SEED 1`
//! repeats it alone.

mod altered;
mod arms;
mod corpus;
mod decimals;
mod deep;
mod differences;
mod faults;
mod fields;
mod forged;
mod held;
mod module;
mod runs;
mod spoiled;
mod texts;
mod untold;
mod walls;

use second::trials::random::Random;
use std::collections::BTreeMap;
use std::env;
use std::fmt::Display;
use std::fs;
use std::panic::{catch_unwind, AssertUnwindSafe};
use std::path::Path;
use std::process::ExitCode;
use std::thread;

/// Why a try failed.
pub type Failure = String;

/// As much as an ordinary thread has: the deepest image must find room in it.
const STACK: usize = 8 << 20;
/// The tries after which the mode that goes on tells what it did.
const BATCH: u64 = 5_000;

#[derive(Default)]
pub struct Tally {
    outcomes: BTreeMap<String, usize>,
    cases: usize,
}

pub struct Harness<'a> {
    pub random: Random,
    tally: &'a mut Tally,
}

impl Harness<'_> {
    /// One call of this kind came out so.
    pub fn note(&mut self, what: String) {
        self.tally.cases += 1;
        self.remark(what);
    }

    pub fn remark(&mut self, what: String) {
        *self.tally.outcomes.entry(what).or_default() += 1;
    }
}

fn attempt(harness: &mut Harness) -> Result<(), Failure> {
    match harness.random.below(22) {
        0 => decimals::some_decimals(harness),
        20 => arms::some_arms(harness),
        21 => differences::some_differences(harness),
        1..=6 => texts::any_text(harness),
        7..=11 => runs::some_cycles(harness),
        12..=14 => spoiled::some_spoiled(harness),
        15..=17 => forged::some_forged(harness),
        18 => runs::all_lookups(harness),
        _ => deep::some_deep(harness),
    }
}

/// True if no call differs; stops at the first try that fails. Each try has
/// a name and a seed of its own.
fn tried<T: Display>(
    tries: impl Iterator<Item = (T, u64)>,
    attempt: impl Fn(&mut Harness, &T) -> Result<(), Failure>,
) -> bool {
    let mut tally = Tally::default();
    let (mut count, mut agree) = (0, true);
    for (name, seed) in tries {
        count += 1;
        let mut harness = Harness { random: Random::new(seed), tally: &mut tally };
        let tried = catch_unwind(AssertUnwindSafe(|| attempt(&mut harness, &name)));
        if let Err(failure) = tried.unwrap_or(Err("panicked".to_string())) {
            println!("{name}: {failure}");
            agree = false;
            break;
        }
    }
    for (what, times) in &tally.outcomes {
        println!("{times:8} {what}");
    }
    println!("harness: {count} tries, {} cases, {}", tally.cases, if agree { "all agree" } else { "the last differs" });
    agree
}

fn random_tries(seed: u64, tries: u64) -> bool {
    let seeds = seed..seed.saturating_add(tries);
    tried(seeds.map(|seed| (format!("seed {seed}"), seed)), |harness, _| attempt(harness))
}

fn cases_tried(folder: &str) -> Result<bool, String> {
    let entries = fs::read_dir(folder).map_err(|error| format!("{folder}: {error}"))?;
    let mut cases: Vec<_> = entries.flatten().map(|entry| entry.path()).collect();
    cases.sort();
    let named = cases.iter().map(|case| (case.display(), 1));
    let corpus = tried(named, |harness, case| corpus::one_case(harness, Path::new(&case.to_string())));
    let texts = faults::texts(&mut Random::new(1));
    let numbered = (0..texts.len()).map(|number| (number, number as u64));
    let faulty = |harness: &mut Harness, number: &usize| {
        faults::each_fault(harness, &texts[*number]).map_err(|failure| format!("with faults: {failure}"))
    };
    Ok(corpus && tried(numbered, faulty))
}

fn harness(arguments: &[String]) -> Result<bool, String> {
    let number = |word: &String| word.parse::<u64>().map_err(|_| format!("{word} is no number"));
    match arguments {
        [on, seed] if on == "--on" => {
            let mut seed = number(seed)?;
            while random_tries(seed, BATCH) {
                seed = seed.wrapping_add(BATCH);
            }
            Ok(false)
        }
        [cases, folder] if cases == "--cases" => cases_tried(folder),
        [seed, tries] => Ok(random_tries(number(seed)?, number(tries)?)),
        _ => Err("usage: harness SEED TRIES, harness --on SEED, or harness --cases FOLDER".to_string()),
    }
}

fn main() -> ExitCode {
    let arguments: Vec<String> = env::args().skip(1).collect();
    let work = thread::Builder::new().stack_size(STACK).spawn(move || harness(&arguments));
    match work.map(|work| work.join()) {
        Ok(Ok(Ok(true))) => ExitCode::SUCCESS,
        Ok(Ok(Err(error))) => {
            eprintln!("harness: {error}");
            ExitCode::from(2)
        }
        _ => ExitCode::FAILURE,
    }
}
