//! The comparison of two states under one program.

use crate::answer::{PairAnswer, PairWord, RunAnswer, RunCounts, Stop};
use crate::job::{read_job, Job};
use crate::refusal::{self, require};
use crate::run::{sequential_run, speculative_run, WORKING_WORDS};
use crate::trace::observations;
use crate::window_costs::WindowCosts;

/// Makes the mispredicting run of the job's state and of the second state, both with the same
/// table of window costs, and compares them.
/// Both runs are made and both traces written whatever the word is.
pub fn compare(
    job: &[u8],
    second: &[u8],
    costs: &[u8],
    first_trace: &mut [u64],
    second_trace: &mut [u64],
    work: &mut [u64],
) -> Result<PairAnswer, u32> {
    let first_job = read_job(job)?;
    let second_job = first_job.with_state(second)?;
    let costs = WindowCosts::read(costs)?;
    check_areas(first_trace, second_trace, work)?;

    let (first, _) = speculative_run(&first_job, costs, first_trace);
    let (second, _) = speculative_run(&second_job, costs, second_trace);
    work[..WORKING_WORDS].fill(0);

    let word = if !alike_in_public(&first_job, &second_job) {
        PairWord::NotComparable
    } else if first.stop != Stop::Finished || second.stop != Stop::Finished {
        PairWord::Undecided
    } else if plain_traces_differ(&first_job, &second_job, first_trace.len()) {
        PairWord::PlainDiffers
    } else if observations(first_trace, first.observations)
        != observations(second_trace, second.observations)
    {
        PairWord::LeakShown
    } else {
        PairWord::Equal
    };
    Ok(PairAnswer { word, first: counts(&first), second: counts(&second) })
}

/// The area test of 10 with the areas of a pair.
pub fn check_areas(first_trace: &[u64], second_trace: &[u64], work: &[u64]) -> Result<(), u32> {
    let areas_fit = work.len() >= WORKING_WORDS && first_trace.len() == second_trace.len();
    require(areas_fit, refusal::AREAS)
}

/// What is reported of a run that is one of two.
pub fn counts(answer: &RunAnswer) -> RunCounts {
    RunCounts {
        stop: answer.stop,
        steps: answer.steps,
        rollbacks: answer.rollbacks,
        observations: answer.observations,
    }
}

fn alike_in_public(first: &Job, second: &Job) -> bool {
    first.public.locations().all(|location| first.initial[location] == second.initial[location])
}

/// The plain runs are made in areas of the same length as the lent traces.
fn plain_traces_differ(first: &Job, second: &Job, trace_words: usize) -> bool {
    plain_trace(first, trace_words) != plain_trace(second, trace_words)
}

fn plain_trace(job: &Job, trace_words: usize) -> Vec<(u64, u64)> {
    let mut area = vec![0; trace_words];
    let (answer, _) = sequential_run(job, &mut area);
    observations(&area, answer.observations)
}
