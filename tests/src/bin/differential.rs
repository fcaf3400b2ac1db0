//! Differential runs of the library against the reference, with demands 2 and 3 and the claims of requests F-3, F-4, F-6
//! and F-7 tried on the library. The options are those of `comparison`; with 100,000 jobs each stop, verdict, pair word,
//! outcome of a test load, refusal, kind of table, kind of observation and event of a store outside memory must occur.

use std::path::Path;
use std::process::ExitCode;

use checker_tests::cases::{random_case, Case};
use checker_tests::check::check_case;
use checker_tests::comparison::{self, Comparison};
use checker_tests::fixed;
use checker_tests::report::report;
use checker_tests::tally::Tally;

#[derive(Default)]
struct Differential {
    tally: Tally,
}

fn main() -> ExitCode {
    comparison::main::<Differential>()
}

impl Comparison for Differential {
    type Case = Case;

    const PROGRAM: &'static str = "differential";
    const CASES: &'static str = "jobs";

    fn fixed() -> Vec<Case> {
        fixed::all()
    }

    fn random(seed: u64) -> Case {
        random_case(seed)
    }

    fn name(case: &Case) -> &str {
        &case.name
    }

    fn check(&mut self, case: &Case, margin: usize) -> Result<(), String> {
        check_case(case, margin, &mut self.tally)
    }

    fn report(case: &Case, difference: &str, folder: &Path) {
        report(case, difference, folder);
    }

    fn cases(&self) -> u64 {
        self.tally.cases
    }

    fn print(&self) {
        self.tally.print();
    }

    fn missing(&self) -> Vec<String> {
        self.tally.missing()
    }
}
