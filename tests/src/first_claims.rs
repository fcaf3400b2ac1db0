//! What request F-6 says of first observations, as statements about the library alone: every run here is the library's.
//! Which instruction stands at a label is told by the routine's text. That two states which agree on D get the same
//! reports is tried with demand 3, which compares the whole answer.

use check_box_reference::print_text;

use crate::calls::{Call, Lengths, Outcome};
use crate::cases::Case;
use crate::demands::has;
use crate::library::{LOCATIONS, REPORT_WORDS};
use crate::outside_claims::OUTSIDE_FULL;
use crate::random::Random;

const BRANCH: u64 = 0;
const JUMP: u64 = 1;
const STORE: u64 = 3;

/// The instruction of each cause, and the kind of the observation at which its set stands: start, pc, load or store.
const INSTRUCTIONS: [&str; 4] = ["beqz", "jmp", "load", "store"];
const KINDS: [u64; 4] = [0, 2, 3, 4];

const START: u64 = 0;
const ROLLBACK: u64 = 1;

/// What a run says of one location.
type Report = [u64; REPORT_WORDS];

/// A run that was not refused.
pub fn firsts_are_as_claimed(
    case: &Case,
    run: &Outcome,
    margin: usize,
    random: &mut Random,
) -> Result<(), String> {
    let (trace, routine) = (run.observations(), instructions_of(&case.job));
    let depends = depends_of(run);
    for (location, &report) in run.reports().iter().enumerate() {
        let fits = if has(depends, location) {
            is_observed(run, &trace, report) && is_of_instruction(&routine, report)
        } else {
            report == [0; REPORT_WORDS]
        };
        holds(fits, location, "its report")?;
    }
    cut_around_one(case, run, margin, random)
}

fn holds(condition: bool, location: usize, what: &str) -> Result<(), String> {
    if condition {
        Ok(())
    } else {
        Err(format!("the claim on first observations fails: {what}, location {location}"))
    }
}

pub fn depends_of(run: &Outcome) -> [u64; 4] {
    run.answer()[4..8].try_into().expect("four words")
}

/// The word that each line of the routine's text begins with.
pub fn instructions_of(job: &[u8]) -> Vec<String> {
    let mut out = vec![0; 8 * job.len()];
    let length = print_text(job, &mut out).expect("the job was accepted");
    let text = String::from_utf8_lossy(&out[..length]);
    text.lines().filter_map(|line| line.split(' ').next()).map(str::to_string).collect()
}

/// The observation is of the kind that the cause has; a jump's pc follows no start and no rollback. The store that
/// stopped the run has the index after the last.
fn is_observed(run: &Outcome, trace: &[(u64, u64)], [index, cause, _]: Report) -> bool {
    let at = index as usize;
    match trace.get(at) {
        Some(&(kind, _)) => {
            let second = at > 0 && [START, ROLLBACK].contains(&trace[at - 1].0);
            KINDS.get(cause as usize) == Some(&kind) && !(cause == JUMP && second)
        }
        None => at == trace.len() && cause == STORE && run.answer()[0] == OUTSIDE_FULL,
    }
}

fn is_of_instruction(routine: &[String], [_, cause, label]: Report) -> bool {
    let instruction = routine.get(label as usize).map(String::as_str);
    instruction.is_some() && instruction == INSTRUCTIONS.get(cause as usize).copied()
}

/// The observations that a trace area has to have room for if the step of a report is made in it.
fn room_of([index, cause, _]: Report) -> u64 {
    index + if cause == BRANCH { 2 } else { 1 }
}

/// With a trace area that ends just before the observation that brought a location in, and with one that ends just
/// after its step, D and the reports are those of the observations that have room.
fn cut_around_one(
    case: &Case,
    run: &Outcome,
    margin: usize,
    random: &mut Random,
) -> Result<(), String> {
    let depends = depends_of(run);
    let members: Vec<usize> = (0..LOCATIONS).filter(|&location| has(depends, location)).collect();
    if members.is_empty() {
        return Ok(());
    }
    let location = random.pick(&members);
    let report = run.reports()[location];
    for observations in [report[0], room_of(report)] {
        let lengths = Lengths { trace: 2 * observations as usize, ..case.lengths };
        let cut = Call { lengths, ..case.call(run.operation, margin) }.by_library();
        let same = cut.number == 0 && is_front_of(&cut, run, observations);
        holds(same, location, "the run in a shorter trace area")?;
    }
    Ok(())
}

/// True if the cut run reports what the run does of the locations whose observations have room, and nothing else.
fn is_front_of(cut: &Outcome, run: &Outcome, observations: u64) -> bool {
    let (depends, less) = (depends_of(run), depends_of(cut));
    let pairs = run.reports().iter().zip(cut.reports()).enumerate();
    pairs.into_iter().all(|(location, (&report, &left))| {
        let stays = has(depends, location) && room_of(report) <= observations;
        let expected = if stays { report } else { [0; REPORT_WORDS] };
        has(less, location) == stays && left == expected
    })
}
