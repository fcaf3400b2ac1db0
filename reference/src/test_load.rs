//! A test load that can be repeated: request F-3 of document 02, with refusals 12 and 13.

use crate::answer::{LoadAnswer, PairWord, Stop};
use crate::job::{read_job, Job};
use crate::location_set::LocationSet;
use crate::pair::{check_areas, compare, counts};
use crate::refusal::{self, require, Refusal};
use crate::run::{speculative_run, WORKING_WORDS};
use crate::window_costs::WindowCosts;

/// Makes the job's own run and, if it finishes, the pair check with a new state made from the seed.
/// All its mispredicting runs have the same table of window costs.
/// The new state is written to the front of `state`; bytes past it keep their contents.
/// If the own run does not finish, its trace alone is written and no state is made.
pub fn test_load(
    job: &[u8],
    seed: u64,
    costs: &[u8],
    first_trace: &mut [u64],
    second_trace: &mut [u64],
    work: &mut [u64],
    state: &mut [u8],
) -> Result<LoadAnswer, Refusal> {
    let own_job = read_job(job)?;
    let own_costs = WindowCosts::read(costs)?;
    check_areas(first_trace, second_trace, work)?;
    require(seed != 0, refusal::SEED)?;
    let state_bytes = 8 * own_job.initial.len();
    require(state.len() >= state_bytes, refusal::OUTPUT_AREA)?;

    let (own, _) = speculative_run(&own_job, own_costs, first_trace);
    work[..WORKING_WORDS].fill(0);
    if own.stop != Stop::Finished {
        return Ok(LoadAnswer { word: PairWord::Undecided, first: counts(&own), second: None });
    }
    let second_state = &mut state[..state_bytes];
    let words = new_state(&own_job, LocationSet::from_words(own.plain), seed);
    second_state.copy_from_slice(&bytes(&words));
    // The pair check makes the own run once more and writes the same first trace.
    let pair = compare(job, second_state, costs, first_trace, second_trace, work)
        .expect("1 to 8, 14 and 10 are tried above, and the new state is as long as the own");
    Ok(LoadAnswer { word: pair.word, first: pair.first, second: Some(pair.second) })
}

/// The next word at each location neither public nor in the plain set, lowest location first;
/// the job's own word at the others, which use up no word.
fn new_state(job: &Job, plain: LocationSet, seed: u64) -> Vec<u64> {
    let mut state = job.initial.clone();
    let mut word = seed;
    for (location, value) in state.iter_mut().enumerate() {
        if !job.public.contains(location) && !plain.contains(location) {
            word = xorshift(word);
            *value = word;
        }
    }
    state
}

/// The word after a word; bits shifted past either end are lost.
fn xorshift(mut word: u64) -> u64 {
    word ^= word << 13;
    word ^= word >> 7;
    word ^= word << 17;
    word
}

fn bytes(words: &[u64]) -> Vec<u8> {
    words.iter().flat_map(|word| word.to_le_bytes()).collect()
}
