//! Reading and printing of texts by the library against the reference, with the claim of request F-1 tried
//! on the library: a printed text reads back as the program it was printed from. The options are those of
//! `comparison`; with 100,000 texts each answer, refusal and fault must occur.

use std::path::Path;
use std::process::ExitCode;

use checker_tests::comparison::{self, Comparison};
use checker_tests::report::report_text;
use checker_tests::text::cases::{random_text_case, TextCase};
use checker_tests::text::check::check_text_case;
use checker_tests::text::fixed;
use checker_tests::text::tally::TextTally;

#[derive(Default)]
struct Texts {
    tally: TextTally,
}

fn main() -> ExitCode {
    comparison::main::<Texts>()
}

impl Comparison for Texts {
    type Case = TextCase;

    const PROGRAM: &'static str = "texts";
    const CASES: &'static str = "texts";

    fn fixed() -> Vec<TextCase> {
        fixed::all()
    }

    fn random(seed: u64) -> TextCase {
        random_text_case(seed)
    }

    fn name(case: &TextCase) -> &str {
        &case.name
    }

    fn check(&mut self, case: &TextCase, margin: usize) -> Result<(), String> {
        check_text_case(case, margin, &mut self.tally)
    }

    fn report(case: &TextCase, difference: &str, folder: &Path) {
        report_text(case, difference, folder);
    }

    fn cases(&self) -> u64 {
        self.tally.cases
    }

    fn print(&self) {
        self.tally.print();
    }

    fn missing(&self) -> Vec<String> {
        self.tally.missing()
    }
}
