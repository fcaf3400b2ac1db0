//! A program that compares library and reference case by case: its options, its loop and its exit status.
//!
//! PROGRAM --jobs N --seed S [--out FOLDER] [--exact] [--verbose] [--no-fixed]
//! PROGRAM --case NAME [--out FOLDER] [--exact]
//!
//! The exit status is 0 only if nothing differed and, from 100,000 random cases on, everything occurred
//! that should. Another program may name its cases otherwise than --jobs.

use std::path::{Path, PathBuf};
use std::process::ExitCode;
use std::time::Instant;

use crate::random::case_seed;

/// After so many failing cases the program gives up.
const MOST_FAILURES: u64 = 10;

/// From so many random cases on, everything must have occurred at least once.
const FULL_COVERAGE: u64 = 100_000;

/// The cases of a program, what is done with one, and what was counted.
pub trait Comparison: Default {
    type Case;

    /// The program's name and what its random cases are: "jobs" for the option --jobs.
    const PROGRAM: &'static str;
    const CASES: &'static str;

    fn fixed() -> Vec<Self::Case>;
    fn random(seed: u64) -> Self::Case;
    fn name(case: &Self::Case) -> &str;

    /// Says what differed. The margin is the number of words kept on both sides of each area.
    fn check(&mut self, case: &Self::Case, margin: usize) -> Result<(), String>;
    fn report(case: &Self::Case, difference: &str, folder: &Path);

    fn cases(&self) -> u64;
    fn print(&self);

    /// What never occurred although it should in a long run.
    fn missing(&self) -> Vec<String>;
}

struct Options {
    count: u64,
    seed: u64,
    out: PathBuf,
    /// Words kept on both sides of each area; none with --exact.
    margin: usize,
    verbose: bool,
    fixed: bool,
    only: Option<String>,
}

struct Program<C: Comparison> {
    options: Options,
    comparison: C,
    failures: u64,
}

pub fn main<C: Comparison>() -> ExitCode {
    match options(C::CASES) {
        Ok(options) => Program { options, comparison: C::default(), failures: 0 }.run(),
        Err(error) => {
            let (program, cases) = (C::PROGRAM, C::CASES);
            eprintln!(
                "{error}\nusage: {program} --{cases} N --seed S [--out FOLDER] [--exact] [--verbose] \
                 [--no-fixed]\n       {program} --case NAME [--out FOLDER] [--exact]"
            );
            ExitCode::from(2)
        }
    }
}

fn options(cases: &str) -> Result<Options, String> {
    let mut options = Options {
        count: 0,
        seed: 1,
        out: PathBuf::from("."),
        margin: 8,
        verbose: false,
        fixed: true,
        only: None,
    };
    let mut words = std::env::args().skip(1);
    while let Some(word) = words.next() {
        let mut value = || words.next().ok_or(format!("{word} needs a value"));
        match word.as_str() {
            "--seed" => options.seed = number(&value()?)?,
            "--out" => options.out = PathBuf::from(value()?),
            "--case" => options.only = Some(value()?),
            "--exact" => options.margin = 0,
            "--verbose" => options.verbose = true,
            "--no-fixed" => options.fixed = false,
            other if other.strip_prefix("--") == Some(cases) => options.count = number(&value()?)?,
            _ => return Err(format!("unknown argument {word}")),
        }
    }
    Ok(options)
}

fn number(text: &str) -> Result<u64, String> {
    text.parse().map_err(|error| format!("{text}: {error}"))
}

impl<C: Comparison> Program<C> {
    fn run(&mut self) -> ExitCode {
        let start = Instant::now();
        match self.options.only.take() {
            Some(name) => self.run_one(&name),
            None => self.run_all(),
        }
        self.comparison.print();
        println!("time {:.1} s", start.elapsed().as_secs_f64());
        let complete = self.is_complete();
        println!("failing cases: {}", self.failures);
        if self.failures == 0 && self.comparison.cases() > 0 && complete {
            ExitCode::SUCCESS
        } else {
            ExitCode::FAILURE
        }
    }

    /// A fixed case has a name such as fixed-12, a random one its seed.
    fn run_one(&mut self, name: &str) {
        if let Ok(seed) = name.parse() {
            self.check(&C::random(seed));
        } else if let Some(case) = C::fixed().iter().find(|case| C::name(case) == name) {
            self.check(case);
        } else {
            println!("there is no case {name}");
        }
    }

    fn run_all(&mut self) {
        let (count, seed) = (self.options.count, self.options.seed);
        println!("{}: {count} random {}, seed {seed}", C::PROGRAM, C::CASES);
        if self.options.fixed {
            for case in C::fixed() {
                self.check(&case);
            }
        }
        for number in 0..count {
            if self.failures >= MOST_FAILURES {
                println!("given up after {number} random {}", C::CASES);
                break;
            }
            self.check(&C::random(case_seed(seed, number)));
        }
    }

    fn check(&mut self, case: &C::Case) {
        if self.failures >= MOST_FAILURES {
            return;
        }
        if self.options.verbose {
            println!("case {}", C::name(case));
        }
        if let Err(difference) = self.comparison.check(case, self.options.margin) {
            self.failures += 1;
            C::report(case, &difference, &self.options.out);
        }
    }

    /// False if something never occurred in a run that is long enough for everything.
    fn is_complete(&self) -> bool {
        if self.options.count < FULL_COVERAGE {
            return true;
        }
        let missing = self.comparison.missing();
        for name in &missing {
            println!("never occurred: {name}");
        }
        missing.is_empty()
    }
}
