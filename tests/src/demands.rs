//! Demands 2 and 3 of document 01 as statements about the library alone: every run here is the
//! library's, and nothing is compared with the reference. Two runs that are compared have the same table.

use check_box_reference::strike_out;

use crate::calls::{pairs, Call, Lengths, Operation, Outcome};
use crate::cases::Case;
use crate::job_file::{field, Field, LIST_BYTES, TRAILER_BYTES};
use crate::lend::Fill;
use crate::outside::Remembered;
use crate::outside_claims::{addresses_in, cells_of, table_of, OUTSIDE_FULL};
use crate::random::Random;
use crate::tally::Tally;

const FINISHED: u64 = 0;
const CLEAN: u64 = 1;

/// Demand 2: without its wrong paths, the trace of a run is the trace of the plain run in areas of
/// the same lengths. If the run finished, so does the plain run, with the same end area, remembered
/// stores included, and plain set; likewise if it stopped as outside full with nothing open. Else
/// what is left of its trace is the front of the plain trace.
pub fn plain_agrees(case: &Case, run: &Outcome, plain: &Outcome) -> Result<(), String> {
    let struck = strike_out(&run.observations());
    let expected = plain.observations();
    if !run.is_finished() && !is_full_with_nothing_open(case, run) {
        return holds(expected.starts_with(&struck), "struck out, the trace of the stopped run");
    }
    holds(struck == expected, "struck out, the trace of the run")?;
    holds(plain.answer()[0] == run.answer()[0], "the stop of the plain run")?;
    holds(run.areas[1] == plain.areas[1], "the end area of the plain run")?;
    holds(run.answer()[8..12] == plain.answer()[3..7], "the plain set of the plain run")
}

fn is_full_with_nothing_open(case: &Case, run: &Outcome) -> bool {
    let remembered = Remembered::after(&run.observations(), cells_of(case));
    run.answer()[0] == OUTSIDE_FULL && remembered.open_branches() == 0
}

fn holds(condition: bool, what: &str) -> Result<(), String> {
    if condition {
        Ok(())
    } else {
        Err(format!("demand 2 fails: {what} is not as it must be"))
    }
}

/// Demand 3: a state that is changed outside D gives the same answer, with the same first observations,
/// and the same trace, and stores at the same addresses outside are remembered in the same order; after
/// the verdict clean, so does one that is changed at every location that is not public.
pub fn states_alike(
    case: &Case,
    run: &Outcome,
    margin: usize,
    random: &mut Random,
    tally: &mut Tally,
) -> Result<(), String> {
    let depends: [u64; 4] = run.answer()[4..8].try_into().expect("four words");
    let changed = changed_outside(&case.job, depends, 2, random);
    tally.states_changed_outside_d += u64::from(changed != state_of(&case.job));
    same_run(case, run, &changed, margin, random)?;
    same_pair(case, run, &changed, margin, random)?;
    if run.answer()[12] == CLEAN {
        let changed = changed_outside(&case.job, public_of(&case.job), 1, random);
        tally.clean_states_changed += u64::from(changed != state_of(&case.job));
        same_run(case, run, &changed, margin, random)?;
        same_pair(case, run, &changed, margin, random)?;
    }
    Ok(())
}

pub fn state_of(job: &[u8]) -> &[u8] {
    let offset = |which| usize::from(field(job, which));
    &job[offset(Field::StateOffset)..offset(Field::ListOffset)]
}

pub fn public_of(job: &[u8]) -> [u64; 4] {
    let list = &job[job.len() - TRAILER_BYTES - LIST_BYTES..][..LIST_BYTES];
    let mut words = [0; 4];
    for (word, bytes) in words.iter_mut().zip(list.chunks_exact(8)) {
        *word = u64::from_le_bytes(bytes.try_into().expect("eight bytes"));
    }
    words
}

pub fn has(set: [u64; 4], location: usize) -> bool {
    set[location / 64] >> (location % 64) & 1 == 1
}

/// The state's bytes with other words at about one in so many of the locations outside the set.
fn changed_outside(job: &[u8], kept: [u64; 4], one_in: u64, random: &mut Random) -> Vec<u8> {
    let mut state = state_of(job).to_vec();
    for (location, bytes) in state.chunks_exact_mut(8).enumerate() {
        if !has(kept, location) && random.one_in(one_in) {
            let old = u64::from_le_bytes((&*bytes).try_into().expect("eight bytes"));
            bytes.copy_from_slice(&other_word(old, random).to_le_bytes());
        }
    }
    state
}

fn other_word(old: u64, random: &mut Random) -> u64 {
    let word = if random.one_in(3) { random.word() } else { random.below(9) };
    if word == old {
        old ^ 1
    } else {
        word
    }
}

/// The job with other bytes as its state.
pub fn with_state(job: &[u8], state: &[u8]) -> Vec<u8> {
    let mut changed = job.to_vec();
    let offset = usize::from(field(job, Field::StateOffset));
    changed[offset..offset + state.len()].copy_from_slice(state);
    changed
}

/// The second run has the same table. Its areas held other words before it; only what is written must be the same.
fn same_run(
    case: &Case,
    run: &Outcome,
    state: &[u8],
    margin: usize,
    random: &mut Random,
) -> Result<(), String> {
    let job = with_state(&case.job, state);
    let fill = Fill { salt: random.word(), margin };
    let call = case.call(Operation::Run, margin);
    let other = Call { job: &job, fill, ..call }.by_library();
    let same = other.number == 0
        && other.answer() == run.answer()
        && other.observations() == run.observations()
        && addresses_in(table_of(case, &other)) == addresses_in(table_of(case, run));
    if same {
        Ok(())
    } else {
        Err(format!("demand 3 fails for the state {}", hexadecimal(state)))
    }
}

/// The pair of the job's state and one alike in D is never "plain differs" or "leak shown".
fn same_pair(
    case: &Case,
    run: &Outcome,
    state: &[u8],
    margin: usize,
    random: &mut Random,
) -> Result<(), String> {
    let fill = Fill { salt: random.word(), margin };
    let lengths = Lengths { second_trace: case.lengths.trace, ..case.lengths };
    let call = case.call(Operation::Pair, margin);
    let pair = Call { second: state, lengths, fill, ..call }.by_library();
    let answer = pair.answer();
    let counts = &run.answer()[..4];
    let same = pair.number == 0
        && answer[0] == expected_word(case, run, state)
        && &answer[1..5] == counts
        && &answer[5..9] == counts
        && (0..2).all(|at| pairs(pair.areas[at].content(), counts[1]) == run.observations());
    if same {
        Ok(())
    } else {
        Err(format!("demand 3 fails for the pair with the state {}", hexadecimal(state)))
    }
}

/// Not comparable, undecided or equal, by their numbers.
fn expected_word(case: &Case, run: &Outcome, state: &[u8]) -> u64 {
    let public = public_of(&case.job);
    let words = state_of(&case.job).chunks_exact(8).zip(state.chunks_exact(8)).enumerate();
    let differ = words.into_iter().any(|(at, (one, two))| has(public, at) && one != two);
    match run.answer()[0] {
        _ if differ => 0,
        FINISHED => 4,
        _ => 1,
    }
}

pub fn hexadecimal(bytes: &[u8]) -> String {
    bytes.iter().map(|byte| format!("{byte:02x}")).collect()
}
