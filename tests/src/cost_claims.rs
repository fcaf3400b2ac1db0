//! What request F-7 says of tables of window costs, and what the window rules say of any two tables, as statements about
//! the library alone: every run here is the library's. Only the listing, which has eight ones, is the reference's.

use check_box_reference::listing;

use crate::calls::{Call, Lengths, Operation, Outcome};
use crate::cases::Case;
use crate::cost_tables::{random_table, BARRIER, BRANCH, KINDS, MOST_COST, ONES};
use crate::demands::plain_agrees;
use crate::first_claims::{depends_of, instructions_of};
use crate::job_file::{field, set_field, Field, MAX_WINDOW};
use crate::listed::listing_of;
use crate::outside::Remembered;
use crate::outside_claims::cells_of;
use crate::random::Random;

/// The instruction of each kind.
const WORDS: [&str; KINDS] = ["skip", "set", "load", "store", "jmp", "beqz", "cset", "spbarr"];

/// The printing program lends 512 observations.
const LISTED_TRACE: usize = 1_024;

/// The run and the plain run are those of the same case, none of them refused.
pub fn costs_are_as_claimed(
    case: &Case,
    run: &Outcome,
    plain: &Outcome,
    margin: usize,
    random: &mut Random,
) -> Result<(), String> {
    let claims = few_are_open(case, run)
        .and_then(|()| free_entries(case, run, margin, random))
        .and_then(|()| any_table_has_the_plain_run(case, plain, margin, random))
        .and_then(|()| a_dearer_one_shows_no_more(case, run, margin, random))
        .and_then(|()| multiples_are_wider_windows(case, run, margin, random));
    claims?;
    if random.one_in(4) {
        ones_are_listed(case, margin)?;
    }
    Ok(())
}

fn holds(condition: bool, what: &str, costs: &[u8]) -> Result<(), String> {
    if condition {
        Ok(())
    } else {
        Err(format!("the claim on window costs fails: {what}; the other table is {costs:?}"))
    }
}

fn with_table(case: &Case, costs: &[u8], margin: usize) -> Outcome {
    Call { costs, ..case.call(Operation::Run, margin) }.by_library()
}

/// No table lets more than w + 1 branches be open.
fn few_are_open(case: &Case, run: &Outcome) -> Result<(), String> {
    let window = field(&case.job, Field::Window) as usize;
    holds(most_open(case, run) <= window + 1, "at most w + 1 branches are open", &case.costs)
}

/// Entries without effect may be any others, and all is left the same.
fn free_entries(
    case: &Case,
    run: &Outcome,
    margin: usize,
    random: &mut Random,
) -> Result<(), String> {
    let mut costs = case.costs.clone();
    for (cost, free) in costs.iter_mut().zip(free_kinds(case, run)) {
        if free {
            *cost = random.between(1, u64::from(MOST_COST)) as u8;
        }
    }
    holds(with_table(case, &costs, margin) == *run, "entries without effect", &costs)
}

/// A barrier leaves 0 whatever its entry is; no instruction of the kind is there; a branch that is opened with nothing
/// open costs nothing; and with nothing open there is no window.
fn free_kinds(case: &Case, run: &Outcome) -> [bool; KINDS] {
    let routine = instructions_of(&case.job);
    let deepest = most_open(case, run);
    std::array::from_fn(|kind| {
        let there = routine.iter().any(|word| word == WORDS[kind]);
        !there || kind == BARRIER || deepest == 0 || (kind == BRANCH && deepest == 1)
    })
}

/// The most branches that are open at one time.
fn most_open(case: &Case, run: &Outcome) -> usize {
    let mut remembered = Remembered::nothing(cells_of(case));
    let mut most = 0;
    for (kind, value) in run.observations() {
        remembered.observe(kind, value);
        most = most.max(remembered.open_branches());
    }
    most
}

/// The plain run takes no table: struck out, the trace of a run with any other one is that of the same plain run.
fn any_table_has_the_plain_run(
    case: &Case,
    plain: &Outcome,
    margin: usize,
    random: &mut Random,
) -> Result<(), String> {
    let costs = random_table(random);
    let other = with_table(case, &costs, margin);
    holds(other.number == 0, "whether the job is accepted", &costs)?;
    plain_agrees(case, &other, plain).map_err(|text| format!("{text}, with the table {costs:?}"))
}

/// A place on a wrong path has what is left of w after the costs of the way to it. So with higher costs no place is
/// reached that was not: a run that finishes does so again, within its counts and its D, and with the same plain set.
fn a_dearer_one_shows_no_more(
    case: &Case,
    run: &Outcome,
    margin: usize,
    random: &mut Random,
) -> Result<(), String> {
    if !run.is_finished() {
        return Ok(());
    }
    let raised = |&cost: &u8| match random.below(3) {
        0 => random.between(u64::from(cost), u64::from(MOST_COST)) as u8,
        1 => (cost + 1).min(MOST_COST),
        _ => cost,
    };
    let costs: Vec<u8> = case.costs.iter().map(raised).collect();
    let other = with_table(case, &costs, margin);
    let no_more = (1..4).all(|at| other.answer()[at] <= run.answer()[at]);
    let within =
        depends_of(&other).iter().zip(depends_of(run)).all(|(less, more)| less & !more == 0);
    holds(other.is_finished() && no_more && within, "higher costs", &costs)?;
    holds(other.answer()[8..12] == run.answer()[8..12], "the plain set", &costs)
}

/// A table whose entries are all multiples of a number does to a window what the quotients do to the window divided by
/// it and rounded up.
fn multiples_are_wider_windows(
    case: &Case,
    run: &Outcome,
    margin: usize,
    random: &mut Random,
) -> Result<(), String> {
    let Some((costs, window)) = multiple(case, random).or_else(|| quotient(case)) else {
        return Ok(());
    };
    let mut job = case.job.clone();
    set_field(&mut job, Field::Window, window);
    let call = Call { costs: &costs, ..case.call(Operation::Run, margin) };
    let other = Call { job: &job, ..call }.by_library();
    holds(other == *run, "multiples of the entries", &costs)
}

/// A multiple of the table, with one of the windows that give the job's if they are divided and rounded up.
fn multiple(case: &Case, random: &mut Random) -> Option<(Vec<u8>, u16)> {
    let most_by = MOST_COST / case.costs.iter().max()?;
    let by = random.between(1, u64::from(most_by));
    let widest = by * u64::from(field(&case.job, Field::Window));
    let (least, widest) = (widest.saturating_sub(by - 1), widest.min(u64::from(MAX_WINDOW)));
    let costs = || case.costs.iter().map(|cost| cost * by as u8).collect();
    (by > 1 && least <= widest).then(|| (costs(), random.between(least, widest) as u16))
}

/// The table divided by a number that divides all its entries, with the job's window divided and rounded up.
fn quotient(case: &Case) -> Option<(Vec<u8>, u16)> {
    let divides = |by: &u8| case.costs.iter().all(|cost| cost % by == 0);
    let by = (2..=MOST_COST).rev().find(divides)?;
    let costs = case.costs.iter().map(|cost| cost / by).collect();
    Some((costs, field(&case.job, Field::Window).div_ceil(u16::from(by))))
}

/// With eight ones the run is the one that the reference lists, as the printing program does.
fn ones_are_listed(case: &Case, margin: usize) -> Result<(), String> {
    let lengths = Lengths { trace: LISTED_TRACE, ..case.lengths };
    let call = Call { costs: &ONES, lengths, ..case.call(Operation::Run, margin) };
    let lines = listing_of(&case.job, &call.by_library());
    holds(lines.into_bytes() == listing(&case.job), "the listing", &ONES)
}
