//! The optimised implementation against the reference: answer and areas compared whole.

use checker_tests::calls::{exactly, Operation};
use checker_tests::cases::{random_case, Case};
use checker_tests::fixed;
use checker_tests::lend::Area;
use checker_tests::random::case_seed;

use crate::fast::Checker;

/// Words kept around each area.
const MARGIN: usize = 4;

/// Runs the fixed cases and so many random ones; says which case differs.
pub fn agrees_with_reference(jobs: u64, seed: u64) -> Result<u64, String> {
    let mut checker = Checker::default();
    let mut count = 0;
    let random = (0..jobs).map(|number| random_case(case_seed(seed, number)));
    for case in fixed::all().into_iter().chain(random) {
        check(&case, &mut checker)?;
        count += 1;
    }
    Ok(count)
}

fn check(case: &Case, checker: &mut Checker) -> Result<(), String> {
    let call = case.call(Operation::Run, MARGIN);
    let mut made = call.prepared();
    let [trace, end, work] = made.areas.each_mut().map(Area::lent);
    made.number =
        checker.run(&case.job, &case.costs, trace, end, work, exactly(made.answer.lent()));
    if made == call.by_reference() {
        Ok(())
    } else {
        Err(format!(
            "the optimised implementation differs from the reference in case {}",
            case.name
        ))
    }
}
