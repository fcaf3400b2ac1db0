//! One case checked: the four calls of library and reference compared whole, then the demands and claims.

use crate::calls::{Operation, Outcome};
use crate::cases::Case;
use crate::cost_claims::costs_are_as_claimed;
use crate::demands::{plain_agrees, states_alike};
use crate::first_claims::firsts_are_as_claimed;
use crate::load_claims::load_is_as_claimed;
use crate::outside_claims::outside_is_as_claimed;
use crate::random::Random;
use crate::tally::Tally;

/// Says what differed or which demand failed.
pub fn check_case(case: &Case, margin: usize, tally: &mut Tally) -> Result<(), String> {
    tally.count_case(case);
    let run = compared(case, Operation::Run, margin, tally)?;
    let plain = compared(case, Operation::Plain, margin, tally)?;
    compared(case, Operation::Pair, margin, tally)?;
    let load = compared(case, Operation::Load, margin, tally)?;
    if run.number != 0 {
        return Ok(());
    }
    tally.demand_2 += 1;
    plain_agrees(case, &run, &plain)?;
    tally.outside_claims += 1;
    outside_is_as_claimed(case, &run, margin)?;
    outside_is_as_claimed(case, &plain, margin)?;
    let mut random = Random::new(case.salt);
    tally.demand_3 += 1;
    states_alike(case, &run, margin, &mut random, tally)?;
    tally.first_claims += 1;
    firsts_are_as_claimed(case, &run, margin, &mut random)?;
    tally.cost_claims += 1;
    costs_are_as_claimed(case, &run, &plain, margin, &mut random)?;
    if load.number != 0 {
        return Ok(());
    }
    tally.load_claims += 1;
    load_is_as_claimed(case, &run, &plain, &load, margin, &mut random)
}

/// The library's outcome, if it is the reference's in every word.
fn compared(
    case: &Case,
    operation: Operation,
    margin: usize,
    tally: &mut Tally,
) -> Result<Outcome, String> {
    let call = case.call(operation, margin);
    let outcome = call.by_library();
    match outcome.difference(&call.by_reference()) {
        Some(difference) => Err(difference),
        None => {
            tally.count_outcome(case, &outcome);
            Ok(outcome)
        }
    }
}
