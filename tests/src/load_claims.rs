//! What request F-3 claims of a test load, as statements about the library alone: every run here is the
//! library's, and the new state is held to the rule written out here once more.

use crate::calls::{pairs, Call, Operation, Outcome};
use crate::cases::Case;
use crate::demands::{has, hexadecimal, public_of, state_of, with_state};
use crate::lend::Fill;
use crate::random::Random;

const UNDECIDED: u64 = 1;
const LEAK_SHOWN: u64 = 3;
const EQUAL: u64 = 4;

/// The run and the plain run are those of the same case, none of the three refused.
pub fn load_is_as_claimed(
    case: &Case,
    run: &Outcome,
    plain: &Outcome,
    load: &Outcome,
    margin: usize,
    random: &mut Random,
) -> Result<(), String> {
    let answer = load.answer();
    let own_trace = pairs(load.areas[0].content(), answer[2]);
    holds([UNDECIDED, LEAK_SHOWN, EQUAL].contains(&answer[0]), "the word")?;
    holds(answer[1..5] == run.answer()[..4], "the counts of the own run")?;
    holds(own_trace == run.observations(), "the trace of the own run")?;
    holds(answer[9] == u64::from(run.is_finished()), "whether a state was made")?;
    if !run.is_finished() {
        return own_run_alone(case, load, margin);
    }
    let length = state_of(&case.job).len();
    let state = &load.state.content()[..length];
    holds(state == state_by_rule(case, run), "the new state")?;
    let claims = same_plain_trace(case, plain, state, margin, random)
        .and_then(|()| same_as_pair(case, load, state, margin))
        .and_then(|()| same_again(case, load, length, margin, random));
    claims.map_err(|text| format!("{text}; the new state: {}", hexadecimal(state)))
}

fn holds(condition: bool, what: &str) -> Result<(), String> {
    if condition {
        Ok(())
    } else {
        Err(format!("the claim on test loads fails: {what} is not as it must be"))
    }
}

/// After an own run that did not finish: the word undecided, nothing of a second run and no state.
fn own_run_alone(case: &Case, load: &Outcome, margin: usize) -> Result<(), String> {
    let answer = load.answer();
    holds(answer[0] == UNDECIDED && answer[5..9] == [0; 4], "the answer after an unfinished run")?;
    let before = case.call(Operation::Load, margin).prepared();
    holds(load.areas[1] == before.areas[1], "the second trace")?;
    holds(load.state == before.state, "the state area")
}

/// The job's state with the next word at each location neither public nor in the plain set.
fn state_by_rule(case: &Case, run: &Outcome) -> Vec<u8> {
    let public = public_of(&case.job);
    let plain: [u64; 4] = run.answer()[8..12].try_into().expect("four words");
    let mut state = state_of(&case.job).to_vec();
    let mut word = case.load_seed;
    for (location, bytes) in state.chunks_exact_mut(8).enumerate() {
        if !has(public, location) && !has(plain, location) {
            word = next_word(word);
            bytes.copy_from_slice(&word.to_le_bytes());
        }
    }
    state
}

/// Xorshift with its shifts as products and quotients, in 128 bits of which the low 64 are kept.
pub fn next_word(word: u64) -> u64 {
    let left = |word: u64, by: u32| (u128::from(word) * 2_u128.pow(by) % 2_u128.pow(64)) as u64;
    let word = word ^ left(word, 13);
    let word = word ^ (word / 128);
    word ^ left(word, 17)
}

/// The plain run of the job with the new state leaves the plain trace of the job, in areas of the same lengths.
fn same_plain_trace(
    case: &Case,
    plain: &Outcome,
    state: &[u8],
    margin: usize,
    random: &mut Random,
) -> Result<(), String> {
    let job = with_state(&case.job, state);
    let fill = Fill { salt: random.word(), margin };
    let other = Call { job: &job, fill, ..case.call(Operation::Plain, margin) }.by_library();
    holds(other.number == 0 && other.observations() == plain.observations(), "the plain trace")
}

/// The pair of the job's state and the new one has the same word and counts and leaves the same areas.
fn same_as_pair(case: &Case, load: &Outcome, state: &[u8], margin: usize) -> Result<(), String> {
    let pair = Call { second: state, ..case.call(Operation::Pair, margin) }.by_library();
    let same = pair.number == 0 && pair.answer() == &load.answer()[..9] && pair.areas == load.areas;
    holds(same, "checker_compare with the new state")
}

/// The same seed gives the same again, whatever the areas hold before the call.
fn same_again(
    case: &Case,
    load: &Outcome,
    length: usize,
    margin: usize,
    random: &mut Random,
) -> Result<(), String> {
    let fill = Fill { salt: random.word(), margin };
    let again = Call { fill, ..case.call(Operation::Load, margin) }.by_library();
    let trace =
        |of: &Outcome, at: usize, count: usize| pairs(of.areas[at].content(), of.answer()[count]);
    let same = again.number == 0
        && again.answer() == load.answer()
        && trace(&again, 0, 2) == trace(load, 0, 2)
        && trace(&again, 1, 6) == trace(load, 1, 6)
        && again.state.content()[..length] == load.state.content()[..length];
    holds(same, "the repeated call")
}
