//! What request F-4 says of stores outside memory, as statements about the library alone: every run here is the
//! library's. The values and sets of the remembered stores are left to the comparison with the reference.

use crate::calls::{Call, Lengths, Operation, Outcome};
use crate::cases::{Case, MOST_ADDRESSES, OUTSIDE_WORDS};
use crate::job_file::{field, set_budget, Field, REGISTERS};
use crate::outside::Remembered;

const SPENT: u64 = 1;
const TRACE_FULL: u64 = 2;
pub const OUTSIDE_FULL: u64 = 3;

/// A run or a plain run that was not refused.
pub fn outside_is_as_claimed(case: &Case, run: &Outcome, margin: usize) -> Result<(), String> {
    let remembered = Remembered::after(&run.observations(), cells_of(case));
    table_is_of_the_trace(case, run, &remembered)?;
    if run.answer()[0] != OUTSIDE_FULL {
        return Ok(());
    }
    holds(remembered.addresses().len() == MOST_ADDRESSES, "the count at the stop")?;
    let unmade = full_comes_last(case, run, margin)?;
    let open = remembered.open_branches() > 0;
    holds(gains_fit(run, &unmade, open), "what the sets gain by the stopping store")
}

fn holds(condition: bool, what: &str) -> Result<(), String> {
    if condition {
        Ok(())
    } else {
        Err(format!("the claim on stores outside fails: {what} is not as it must be"))
    }
}

pub fn cells_of(case: &Case) -> u64 {
    u64::from(field(&case.job, Field::Cells))
}

/// The words of the end area behind registers and cells.
pub fn table_of<'a>(case: &Case, run: &'a Outcome) -> &'a [u64] {
    let image = REGISTERS + cells_of(case) as usize;
    &run.areas[1].content()[image..image + OUTSIDE_WORDS]
}

/// The count and the addresses at the front of a table, which has no more than 64.
pub fn addresses_in(table: &[u64]) -> Vec<u64> {
    let count = (table[0] as usize).min(MOST_ADDRESSES);
    table[1..].iter().step_by(2).take(count).copied().collect()
}

/// The entries are those that the trace tells, in its order, and zeros come after them.
fn table_is_of_the_trace(
    case: &Case,
    run: &Outcome,
    remembered: &Remembered,
) -> Result<(), String> {
    let table = table_of(case, run);
    let count = remembered.addresses().len();
    holds(table[0] == count as u64, "the count")?;
    holds(addresses_in(table) == remembered.addresses(), "the order of the addresses")?;
    holds(table[1 + 2 * count..].iter().all(|&word| word == 0), "what comes after the entries")
}

/// With no budget for the step that stopped the run it is spent, with no room for its observation trace full, and
/// with neither spent: each with the same trace, counts and end area. Gives the last of these.
fn full_comes_last(case: &Case, run: &Outcome, margin: usize) -> Result<Outcome, String> {
    let (observations, steps) = (run.answer()[1], run.answer()[2]);
    let room = Lengths { trace: 2 * observations as usize + 1, ..case.lengths };
    let mut short = case.job.clone();
    set_budget(&mut short, steps as u32);
    let call = case.call(run.operation, margin);
    let spent = Call { job: &short, ..call }.by_library();
    let full = Call { lengths: room, ..call }.by_library();
    let both = Call { job: &short, lengths: room, ..call }.by_library();
    let stopped = |other: &Outcome, stop: u64| {
        other.number == 0
            && other.answer()[0] == stop
            && other.answer()[1..3] == run.answer()[1..3]
            && other.observations() == run.observations()
            && other.areas[1] == run.areas[1]
    };
    holds(stopped(&spent, SPENT), "the run with just its steps as budget")?;
    holds(stopped(&full, TRACE_FULL), "the run with just its observations lent")?;
    holds(stopped(&both, SPENT), "the run with just its steps and observations")?;
    holds(spent.answer()[1..] == full.answer()[1..], "what a step not made adds")?;
    holds(spent.answer()[1..] == both.answer()[1..], "what a step not made adds")?;
    Ok(both)
}

/// What D gains by the stopping store the plain set has too with nothing open; else the plain set gains nothing.
fn gains_fit(run: &Outcome, unmade: &Outcome, open: bool) -> bool {
    let sets = |of: &Outcome| match of.operation {
        Operation::Plain => (of.answer()[3..7].to_vec(), of.answer()[3..7].to_vec()),
        _ => (of.answer()[4..8].to_vec(), of.answer()[8..12].to_vec()),
    };
    let ((full, plain), (full_before, plain_before)) = (sets(run), sets(unmade));
    let within = |less: &[u64], more: &[u64]| less.iter().zip(more).all(|(a, b)| a & !b == 0);
    let gained: Vec<u64> = full.iter().zip(&full_before).map(|(now, was)| now & !was).collect();
    let plain_fits = if open { plain == plain_before } else { within(&gained, &plain) };
    within(&full_before, &full) && within(&plain_before, &plain) && plain_fits
}
