//! Test loads that can be repeated: request F-3 of document 02, with its reading and refusals 12 and 13.

mod common;

use check_box_reference::{
    strike_out, test_load, LoadAnswer, PairWord, RunAnswer, RunCounts, Stop, Verdict, WINDOW_COSTS,
};
use common::random::Random;
use common::T::{C, R};
use common::*;

/// The first ten words from seed 1, computed outside this package.
const FROM_1: [u64; 10] = [
    1_082_269_761,
    1_152_992_998_833_853_505,
    11_177_516_664_432_764_457,
    17_678_023_832_001_937_445,
    9_659_130_143_999_365_733,
    17_775_799_001_133_815_809,
    11_693_034_620_340_510_321,
    14_279_964_170_112_293_133,
    9_024_654_201_992_055_039,
    8_332_670_729_032_836_398,
];

/// The first five words from seed 2^64 - 1, computed outside this package.
const FROM_MAX: [u64; 5] = [
    1_065_361_344,
    1_152_851_127_339_773_951,
    508_277_857_751_731_680,
    3_609_534_427_018_334_203,
    2_094_262_820_038_369_316,
];

/// A test load with everything it wrote; `second` is there if a new state was made.
struct Loaded {
    answer: LoadAnswer,
    first_trace: Trace,
    second: Option<Second>,
}

/// The new state, as a job of its own, and the trace of its run.
struct Second {
    parts: JobParts,
    trace: Trace,
}

/// The words of a state in the order of the locations.
fn words(parts: &JobParts) -> Vec<u64> {
    parts.registers.iter().chain(&parts.cells).copied().collect()
}

/// The same job with the words of another state.
fn with_words(parts: &JobParts, words: &[u64]) -> JobParts {
    let mut other = parts.clone();
    other.registers.copy_from_slice(&words[..16]);
    other.cells.copy_from_slice(&words[16..]);
    other
}

fn with_state_bytes(parts: &JobParts, bytes: &[u8]) -> JobParts {
    let word = |bytes: &[u8]| u64::from_le_bytes(bytes.try_into().expect("8 bytes"));
    with_words(parts, &bytes.chunks_exact(8).map(word).collect::<Vec<u64>>())
}

/// A test load with two trace areas of that many words; the other areas are longer than needed.
/// All that is not named as written is checked to be as it was.
fn loaded_in(parts: &JobParts, seed: u64, trace_words: usize) -> Loaded {
    let (mut first, mut second) = (area(trace_words), area(trace_words));
    let state_bytes = parts.state_bytes().len();
    let (mut work, mut state) = (area(WORK + 5), byte_area(state_bytes + 5));
    let job = parts.bytes();
    let answer =
        test_load(&job, seed, &WINDOW_COSTS, &mut first, &mut second, &mut work, &mut state)
            .expect("accepted");
    assert_eq!(written(&work, WORK), vec![0; WORK]);
    let first_trace = pairs(&written(&first, 2 * answer.first.observations as usize));
    let observations = answer.second.as_ref().map(|second| second.observations as usize);
    let second_trace = pairs(&written(&second, 2 * observations.unwrap_or(0)));
    let state_written = if observations.is_some() { state_bytes } else { 0 };
    assert_eq!(state, byte_area_with(&state[..state_written], state.len()), "state area");
    let second = observations.map(|_| Second {
        parts: with_state_bytes(parts, &state[..state_bytes]),
        trace: second_trace,
    });
    Loaded { answer, first_trace, second }
}

fn loaded(parts: &JobParts, seed: u64) -> Loaded {
    loaded_in(parts, seed, 1_024)
}

/// The words of the new state of a job whose own run finishes.
fn new_words(parts: &JobParts, seed: u64) -> Vec<u64> {
    words(&loaded(parts, seed).second.expect("a new state").parts)
}

/// The next word, with shifts as products and quotients of powers of two modulo 2^64.
fn next_word(word: u64) -> u64 {
    let word = word ^ word.wrapping_mul(1 << 13);
    let word = word ^ (word / (1 << 7));
    word ^ word.wrapping_mul(1 << 17)
}

/// The rule of the new state, applied to any job and any set of locations that keep their words.
fn changed_by_rule(parts: &JobParts, kept: &[usize], seed: u64) -> JobParts {
    let mut next = std::iter::successors(Some(next_word(seed)), |&word| Some(next_word(word)));
    let mut new = words(parts);
    for (location, word) in new.iter_mut().enumerate() {
        if !kept.contains(&location) {
            *word = next.next().expect("the words do not end");
        }
    }
    with_words(parts, &new)
}

/// The public locations and those of a plain set.
fn kept_locations(parts: &JobParts, plain: [u64; 4]) -> Vec<usize> {
    [parts.public.clone(), locations(plain)].concat()
}

fn counts(answer: &RunAnswer) -> RunCounts {
    let RunAnswer { stop, observations, steps, rollbacks, .. } = *answer;
    RunCounts { stop, steps, rollbacks, observations }
}

/// The first word used is the one after the seed; m is 0 and no location is kept.
#[test]
fn first_words_from_seed_1() {
    let parts = job(vec![skip()], 0);
    assert_eq!(new_words(&parts, 1)[..10], FROM_1);
}

#[test]
fn first_words_from_the_largest_seed() {
    let parts = job(vec![skip()], 0);
    assert_eq!(new_words(&parts, u64::MAX)[..5], FROM_MAX);
}

#[test]
fn every_location_from_every_seed() {
    for m in [0, 1, 240] {
        let parts = job(vec![skip()], m);
        for seed in [1, 2, 1 << 63, u64::MAX - 1, u64::MAX] {
            let expected = changed_by_rule(&parts, &[], seed);
            assert_eq!(new_words(&parts, seed), words(&expected));
        }
    }
}

/// Location 1 is in the plain set and not public, location 3 is public and not in the plain set,
/// location 16 is both.
#[test]
fn a_kept_location_uses_up_no_word() {
    let mut parts = job(vec![load(2, &[C(0)]), load(4, &[R(1), R(2), ADD])], 2);
    parts.registers = std::array::from_fn(|register| 100 + register as u64);
    parts.cells = vec![116, 117];
    parts.public = vec![3, 16];
    assert_eq!(locations(run_of(&parts).answer.plain), [1, 16]);
    let new = new_words(&parts, 1);
    assert_eq!((new[1], new[3], new[16]), (101, 103, 116));
    let taken = [0, 2, 4, 5, 6, 7, 8, 9, 10, 11];
    assert_eq!(taken.map(|location| new[location]), FROM_1);
    assert_eq!(words(&changed_by_rule(&parts, &[1, 3, 16], 1)), new);
}

#[test]
fn every_location_public() {
    let mut parts = printed();
    parts.public = (0..20).collect();
    let loaded = loaded(&parts, 1);
    let second = loaded.second.expect("a new state");
    assert_eq!(second.parts.state_bytes(), parts.state_bytes());
    assert_eq!(loaded.answer.word, PairWord::Equal);
    assert_eq!(loaded.answer.second, Some(loaded.answer.first));
    assert_eq!(second.trace, loaded.first_trace);
}

#[test]
fn without_cells() {
    let mut parts = job(vec![beqz(0, 2), load(1, &[R(2)])], 0);
    parts.registers[2] = 7;
    let loaded = loaded(&parts, 1);
    assert_eq!(loaded.first_trace, observed("start 0, pc 1, load 7, rollback 0, pc 2"));
    let second = loaded.second.expect("a new state");
    assert_eq!(second.parts.state_bytes().len(), 128);
    // Register 0 is in the plain set, so register 2 takes the second word.
    let secret = FROM_1[1];
    let trace = format!("start 0, pc 1, load {secret}, rollback 0, pc 2");
    assert_eq!(second.trace, observed(&trace));
    assert_eq!(loaded.answer.word, PairWord::LeakShown);
}

/// Cell 1 takes the 16th word, to which the load of label 3 adds 2.
#[test]
fn the_printed_program() {
    let loaded = loaded(&printed(), 1);
    assert_eq!(loaded.first_trace, observed("start 0, pc 2, load 1, load 3, rollback 0, pc 4"));
    let second = loaded.second.expect("a new state");
    assert_eq!(second.parts.cells[1], 14_960_181_732_260_564_859);
    assert_eq!(second.parts.registers[..2], [1, 1]);
    assert_eq!(
        second.trace,
        observed("start 0, pc 2, load 1, load 14960181732260564861, rollback 0, pc 4")
    );
    let counts = RunCounts { stop: Stop::Finished, steps: 5, rollbacks: 1, observations: 6 };
    let answer =
        LoadAnswer { word: PairWord::LeakShown, first: counts.clone(), second: Some(counts) };
    assert_eq!(loaded.answer, answer);
}

/// A barrier hides the secret load: the verdict is clean and the traces are equal.
#[test]
fn the_printed_program_with_a_barrier() {
    let mut parts = printed();
    parts.program[1] = beqz(2, 5);
    parts.program.insert(2, spbarr());
    let loaded = loaded(&parts, 1);
    assert_eq!(loaded.answer.word, PairWord::Equal);
    assert_eq!(loaded.second.expect("a new state").trace, loaded.first_trace);
}

/// `loaded_in` checks that the second trace and the state bytes are as they were.
#[test]
fn own_run_unfinished() {
    let unfinished = |budget, trace_words| {
        let loaded = loaded_in(&JobParts { budget, ..printed() }, 1, trace_words);
        assert_eq!((loaded.answer.word, &loaded.answer.second), (PairWord::Undecided, &None));
        (loaded.answer.first, loaded.first_trace)
    };
    let spent = RunCounts { stop: Stop::Spent, steps: 4, rollbacks: 0, observations: 4 };
    let four = observed("start 0, pc 2, load 1, load 3");
    assert_eq!(unfinished(4, 64), (spent, four.clone()));
    let full = RunCounts { stop: Stop::TraceFull, steps: 4, rollbacks: 0, observations: 4 };
    assert_eq!(unfinished(5, 10), (full.clone(), four.clone()));
    assert_eq!(unfinished(5, 11), (full, four));
    let nothing = RunCounts { stop: Stop::Spent, steps: 0, rollbacks: 0, observations: 0 };
    assert_eq!(unfinished(0, 64), (nothing, Vec::new()));
    let no_room = RunCounts { stop: Stop::TraceFull, steps: 1, rollbacks: 0, observations: 0 };
    assert_eq!(unfinished(100, 1), (no_room, Vec::new()));
    assert!(loaded_in(&JobParts { budget: 5, ..printed() }, 1, 12).second.is_some());
}

/// The own run finishes and the new state's does not: the jump of the wrong path goes to END
/// while register 1 is below 1,000, and otherwise back to the branch.
#[test]
fn second_run_unfinished() {
    let mut parts = job(vec![beqz(0, 2), jmp(&[R(1), C(1_000), ULT, C(2), MUL])], 0);
    parts.registers[1] = 5;
    let own = RunCounts { stop: Stop::Finished, steps: 3, rollbacks: 1, observations: 5 };
    for (budget, trace_words, stop) in [(3, 64, Stop::Spent), (100, 10, Stop::TraceFull)] {
        let loaded = loaded_in(&JobParts { budget, ..parts.clone() }, 1, trace_words);
        assert_eq!(loaded.answer.word, PairWord::Undecided);
        assert_eq!(loaded.answer.first, own);
        let counts = RunCounts { stop, steps: 3, rollbacks: 0, observations: 5 };
        assert_eq!(loaded.answer.second, Some(counts));
        let second = loaded.second.expect("a new state");
        assert_eq!((second.parts.registers[0], second.parts.registers[1]), (0, FROM_1[0]));
        assert_eq!(second.trace, observed("start 0, pc 1, pc 0, start 1, pc 1"));
    }
    assert_eq!(loaded(&parts, 1).answer.word, PairWord::LeakShown);
}

/// Why an unfinished run is answered without a new state: the wrong path of the skip uses up the
/// budget or the trace area, so that the load of register 1 is not in the own run's plain set,
/// and the plain run comes to the load.
#[test]
fn the_rule_fails_for_an_unfinished_run() {
    let mut parts = job(vec![beqz(0, 2), skip(), load(2, &[R(1)])], 0);
    parts.registers[1] = 7;
    for (budget, trace_words, stop) in [(2, 64, Stop::Spent), (100, 4, Stop::TraceFull)] {
        let parts = JobParts { budget, ..parts.clone() };
        let own = run_in(&parts, trace_words);
        assert_eq!((own.answer.stop, locations(own.answer.plain)), (stop, vec![0]));
        let second = changed_by_rule(&parts, &kept_locations(&parts, own.answer.plain), 1);
        assert_eq!(plain_in(&parts, trace_words).trace, observed("pc 2, load 7"));
        assert_eq!(plain_in(&second, trace_words).trace, observed("pc 2, load 1082269761"));
        assert!(loaded_in(&parts, 1, trace_words).second.is_none());
    }
}

/// What the lent areas of a refused or accepted call measure.
#[derive(Clone, Copy)]
struct Lent {
    first_trace: usize,
    second_trace: usize,
    work: usize,
    state: usize,
}

impl Lent {
    const ENOUGH: Lent = Lent { first_trace: 64, second_trace: 64, work: WORK, state: 2_048 };
}

/// The refusal number, with a check that no area changed; 0 if the load is accepted.
fn load_refusal(bytes: &[u8], seed: u64, lent: Lent) -> u32 {
    let before = || {
        let words = [lent.first_trace, lent.second_trace, lent.work].map(area);
        (words, byte_area(lent.state))
    };
    let ([mut first, mut second, mut work], mut state) = before();
    match test_load(bytes, seed, &WINDOW_COSTS, &mut first, &mut second, &mut work, &mut state) {
        Ok(_) => 0,
        Err(number) => {
            assert_eq!(([first, second, work], state), before());
            number
        }
    }
}

#[test]
fn refusals_of_the_job() {
    let refusal = |bytes: &[u8]| load_refusal(bytes, 1, Lent::ENOUGH);
    let of_program = |program| refusal(&job(program, 2).bytes());
    assert_eq!(refusal(&printed().bytes()), 0);
    assert_eq!((refusal(&[]), refusal(&[0; 15]), refusal(&vec![0; 16_385])), (1, 1, 1));
    assert_eq!(refusal(&JobParts { window: 201, ..printed() }.bytes()), 2);
    assert_eq!(refusal(&[vec![0], printed().bytes()].concat()), 3);
    assert_eq!(of_program(vec![vec![8]]), 4);
    assert_eq!(of_program(vec![jmp(&[ADD])]), 5);
    assert_eq!(of_program(vec![beqz(0, 1)]), 6);
    assert_eq!(of_program(vec![[skip(), skip()].concat()]), 7);
    assert_eq!(refusal(&JobParts { public: vec![20], ..printed() }.bytes()), 8);
    assert_eq!(refusal(&JobParts { public: vec![19], ..printed() }.bytes()), 0);
}

#[test]
fn refusal_10() {
    let bytes = printed().bytes();
    for (first_trace, second_trace, work, number) in [
        (64, 64, WORK, 0),
        (0, 0, WORK, 0),
        (63, 63, WORK, 0),
        (63, 64, WORK, 10),
        (64, 63, WORK, 10),
        (0, 1, WORK, 10),
        (64, 64, WORK - 1, 10),
        (64, 64, 0, 10),
        (64, 64, WORK + 1, 0),
    ] {
        let lent = Lent { first_trace, second_trace, work, ..Lent::ENOUGH };
        assert_eq!(load_refusal(&bytes, 1, lent), number);
    }
}

#[test]
fn refusal_13() {
    for parts in [printed(), JobParts { budget: 0, ..printed() }] {
        let refusal = |seed| load_refusal(&parts.bytes(), seed, Lent::ENOUGH);
        assert_eq!((refusal(0), refusal(1), refusal(u64::MAX)), (13, 0, 0));
    }
}

/// The state area is tested before the own run, so also where no state would be made.
#[test]
fn refusal_12() {
    for m in [0, 1, 4, 240] {
        let length = 128 + 8 * m;
        let finished = job(vec![skip()], m);
        let all_public = JobParts { public: (0..16 + m).collect(), ..finished.clone() };
        let unfinished = JobParts { budget: 0, ..finished.clone() };
        for parts in [finished, all_public, unfinished] {
            let refusal = |state| load_refusal(&parts.bytes(), 1, Lent { state, ..Lent::ENOUGH });
            assert_eq!((refusal(0), refusal(length - 8), refusal(length - 1)), (12, 12, 12));
            assert_eq!((refusal(length), refusal(length + 1)), (0, 0));
        }
    }
}

/// 1 to 8, 10, 13, 12: each cause is added while all later ones stand.
/// The place of 14 is tried in `window_costs.rs`.
#[test]
fn order_of_the_numbers() {
    let mut parts = printed();
    let no_state = Lent { state: 159, ..Lent::ENOUGH };
    assert_eq!(load_refusal(&parts.bytes(), 1, no_state), 12);
    assert_eq!(load_refusal(&parts.bytes(), 0, no_state), 13);
    let short_work = Lent { work: WORK - 1, ..no_state };
    let unequal = Lent { second_trace: 65, ..no_state };
    let all_short = Lent { second_trace: 65, ..short_work };
    for lent in [short_work, unequal, all_short] {
        assert_eq!(load_refusal(&parts.bytes(), 0, lent), 10);
        assert_eq!(load_refusal(&parts.bytes(), 1, lent), 10);
    }
    let refusal = |parts: &JobParts| load_refusal(&parts.bytes(), 0, all_short);
    parts.public = vec![20];
    assert_eq!(refusal(&parts), 8);
    parts.program[3].push(0);
    assert_eq!(refusal(&parts), 7);
    parts.program[1] = beqz(2, 2);
    assert_eq!(refusal(&parts), 6);
    parts.program[0] = assign(2, &[ADD]);
    assert_eq!(refusal(&parts), 5);
    parts.program[0] = assign(16, &[ADD]);
    assert_eq!(refusal(&parts), 4);
    let misplaced = |parts: &JobParts| [vec![0], parts.bytes()].concat();
    assert_eq!(load_refusal(&misplaced(&parts), 0, all_short), 3);
    parts.window = 201;
    assert_eq!(load_refusal(&misplaced(&parts), 0, all_short), 2);
    let too_long = [vec![0; 16_384], parts.bytes()].concat();
    assert_eq!(load_refusal(&too_long, 0, all_short), 1);
}

const JOBS: usize = 20_000;

/// A random job with a seed, the length of its trace areas and its own run.
struct Case {
    parts: JobParts,
    seed: u64,
    trace_words: usize,
    own: Ran<RunAnswer>,
}

impl Case {
    /// In every second case an own run that finishes uses up its budget and its trace area.
    fn random(random: &mut Random) -> Case {
        let (mut parts, seed) = (random.job(), 1 + random.below(1 << 48));
        let mut trace_words = random.below(400) as usize;
        if random.below(2) == 0 {
            let answer = run_of(&parts).answer;
            parts.budget = answer.steps as u32;
            trace_words = 2 * answer.observations as usize;
        }
        let own = run_in(&parts, trace_words);
        Case { parts, seed, trace_words, own }
    }

    fn kept(&self) -> Vec<usize> {
        kept_locations(&self.parts, self.own.answer.plain)
    }

    /// The job with the state that the rule makes, whether or not the own run finished.
    fn changed_by_rule(&self) -> JobParts {
        changed_by_rule(&self.parts, &self.kept(), self.seed)
    }

    fn plain(&self, parts: &JobParts) -> (Stop, Trace) {
        let plain = plain_in(parts, self.trace_words);
        (plain.answer.stop, plain.trace)
    }
}

/// What is claimed of a test load whose own run finished.
fn check_finished(case: &Case, loaded: &Loaded) {
    let second = loaded.second.as_ref().expect("a new state");
    for location in case.kept() {
        assert_eq!(words(&case.parts)[location], words(&second.parts)[location]);
    }
    assert_eq!(words(&second.parts), words(&case.changed_by_rule()));

    let plain = (Stop::Finished, strike_out(&case.own.trace));
    assert_eq!(case.plain(&case.parts), plain);
    assert_eq!(case.plain(&second.parts), plain);

    let (pair, first_trace, second_trace) = pair_of(&case.parts, &second.parts, case.trace_words);
    let of_pair = LoadAnswer { word: pair.word, first: pair.first, second: Some(pair.second) };
    assert_eq!(loaded.answer, of_pair);
    assert_eq!((&loaded.first_trace, &second.trace), (&first_trace, &second_trace));
    assert_ne!(loaded.answer.word, PairWord::NotComparable);
    assert_ne!(loaded.answer.word, PairWord::PlainDiffers);
    if case.own.answer.verdict != Verdict::Speculative {
        assert_eq!(loaded.answer.word, PairWord::Equal, "the new state is alike in D");
    }
}

/// For an unfinished run the rule of the new state is seen to fail in some cases.
#[test]
fn random_jobs() {
    let mut random = Random(5);
    let mut words_given = [0; 5];
    let mut plain_traces_differ = 0;
    for _ in 0..JOBS {
        let case = Case::random(&mut random);
        let loaded = loaded_in(&case.parts, case.seed, case.trace_words);
        assert_eq!(loaded.answer.first, counts(&case.own.answer));
        assert_eq!(loaded.first_trace, case.own.trace);
        if case.own.answer.stop == Stop::Finished {
            check_finished(&case, &loaded);
            words_given[loaded.answer.word.number() as usize] += 1;
        } else {
            assert_eq!((loaded.answer.word, loaded.answer.second), (PairWord::Undecided, None));
            let (own, new) = (case.plain(&case.parts), case.plain(&case.changed_by_rule()));
            plain_traces_differ += usize::from(own.1 != new.1);
        }
    }
    let [_, undecided, _, leak_shown, equal] = words_given;
    assert!(undecided > 0 && leak_shown > 50 && equal > 50, "too few of a word: {words_given:?}");
    assert!(plain_traces_differ > 50, "only {plain_traces_differ} differ");
}
