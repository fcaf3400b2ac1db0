//! Window costs of the buyer's processor: request F-7 of document 02, with its reading and
//! refusal 14. The expected traces and counts are worked out by hand.

mod common;

use check_box_reference::{
    compare, run, strike_out, test_load, LoadAnswer, PairWord, RunCounts, Stop, Verdict,
    WINDOW_COSTS,
};
use common::random::Random;
use common::T::{C, R};
use common::*;

/// The kind bytes that the tests name.
const OF_LOAD: usize = 2;
const OF_BRANCH: usize = 5;
const OF_BARRIER: usize = 7;

/// A table of eight different entries.
const ONE_TO_EIGHT: [u8; 8] = [1, 2, 3, 4, 5, 6, 7, 8];

/// A table with one other entry.
fn with_entry(mut costs: [u8; 8], kind: usize, cost: u8) -> [u8; 8] {
    costs[kind] = cost;
    costs
}

fn ones_but(kind: usize, cost: u8) -> [u8; 8] {
    with_entry(WINDOW_COSTS, kind, cost)
}

/// Checks the trace and the steps of a run with that window, which has to finish.
fn assert_run(parts: &JobParts, window: u16, costs: [u8; 8], trace: &str, steps: u64) {
    let ran = run_under(&JobParts { window, ..parts.clone() }, &costs, 1_024);
    let context = format!("window {window}, costs {costs:?}");
    assert_eq!(ran.trace, observed(trace), "{context}");
    assert_eq!((ran.answer.stop, ran.answer.steps), (Stop::Finished, steps), "{context}");
}

#[test]
fn the_table_of_document_01() {
    assert_eq!(WINDOW_COSTS, [1, 1, 1, 1, 1, 1, 1, 1]);
}

// Refusal 14.

/// The lengths of the areas of a call, the state's in bytes.
#[derive(Clone, Copy)]
struct Lent {
    first_trace: usize,
    second_trace: usize,
    end: usize,
    work: usize,
    state: usize,
}

impl Lent {
    /// Accepted with the printed program; no shorter end, working or state area is.
    const ENOUGH: Lent =
        Lent { first_trace: 64, second_trace: 64, end: 149, work: WORK, state: 160 };

    /// Refused by 10 in a run, a pair and a test load, and by 12 in a test load.
    const SHORT: Lent =
        Lent { first_trace: 64, second_trace: 64, end: 148, work: WORK - 1, state: 159 };
}

/// The refusal of a run, with a check that no area changed; 0 if it is accepted.
fn run_refusal(job: &[u8], costs: &[u8], lent: Lent) -> u32 {
    let lengths = [lent.first_trace, lent.end, lent.work];
    let [mut trace, mut end, mut work] = lengths.map(area);
    match run(job, costs, &mut trace, &mut end, &mut work) {
        Ok(_) => 0,
        Err(number) => {
            assert_eq!([trace, end, work], lengths.map(area));
            number
        }
    }
}

/// The same of a pair.
fn pair_refusal(job: &[u8], second: &[u8], costs: &[u8], lent: Lent) -> u32 {
    let lengths = [lent.first_trace, lent.second_trace, lent.work];
    let [mut first, mut other, mut work] = lengths.map(area);
    match compare(job, second, costs, &mut first, &mut other, &mut work) {
        Ok(_) => 0,
        Err(number) => {
            assert_eq!([first, other, work], lengths.map(area));
            number
        }
    }
}

/// The same of a test load.
fn load_refusal(job: &[u8], seed: u64, costs: &[u8], lent: Lent) -> u32 {
    let lengths = [lent.first_trace, lent.second_trace, lent.work];
    let [mut first, mut second, mut work] = lengths.map(area);
    let mut state = byte_area(lent.state);
    match test_load(job, seed, costs, &mut first, &mut second, &mut work, &mut state) {
        Ok(_) => 0,
        Err(number) => {
            assert_eq!([first, second, work], lengths.map(area));
            assert_eq!(state, byte_area(lent.state));
            number
        }
    }
}

/// The refusals of a run, a pair and a test load that are given nothing else to refuse.
fn refusals(parts: &JobParts, costs: &[u8]) -> [u32; 3] {
    let (job, second) = (parts.bytes(), parts.state_bytes());
    [
        run_refusal(&job, costs, Lent::ENOUGH),
        pair_refusal(&job, &second, costs, Lent::ENOUGH),
        load_refusal(&job, 1, costs, Lent::ENOUGH),
    ]
}

/// Tables that 14 refuses: another length, or one entry outside 1 to 16.
fn refused_tables() -> Vec<Vec<u8>> {
    let lengths = [0, 1, 2, 3, 4, 5, 6, 7, 9, 16, 264];
    let of_length = lengths.map(|length| vec![1; length]).into_iter();
    let entry = |kind| [0, 17, 255].map(|cost| ones_but(kind, cost).to_vec());
    of_length.chain((0..8).flat_map(entry)).collect()
}

#[test]
fn refusal_14() {
    for costs in refused_tables() {
        assert_eq!(refusals(&printed(), &costs), [14; 3], "{costs:?}");
    }
    for kind in 0..8 {
        for cost in 0..=255 {
            let number = if (1..=16).contains(&cost) { 0 } else { 14 };
            assert_eq!(refusals(&printed(), &ones_but(kind, cost)), [number; 3]);
        }
    }
    assert_eq!(refusals(&printed(), &[16; 8]), [0; 3]);
    assert_eq!(refusals(&printed(), &ONE_TO_EIGHT), [0; 3]);
    assert_eq!(refusals(&printed(), &[[17; 8], [1; 8]].concat()), [14; 3]);
}

/// The table is tested also where no window is ever lowered.
#[test]
fn refusal_14_without_a_step_or_a_branch() {
    let no_step = JobParts { budget: 0, ..printed() };
    let no_branch = job(vec![skip()], 4);
    for parts in [no_step, no_branch] {
        for costs in refused_tables() {
            assert_eq!(refusals(&parts, &costs), [14; 3]);
        }
    }
}

/// Jobs that 1 to 8 refuse.
fn refused_jobs() -> Vec<(u32, Vec<u8>)> {
    let of_program = |program| job(program, 4).bytes();
    vec![
        (1, Vec::new()),
        (2, JobParts { window: 201, ..printed() }.bytes()),
        (3, [vec![0], printed().bytes()].concat()),
        (4, of_program(vec![vec![8]])),
        (5, of_program(vec![jmp(&[ADD])])),
        (6, of_program(vec![beqz(0, 1)])),
        (7, of_program(vec![[skip(), skip()].concat()])),
        (8, JobParts { public: vec![20], ..printed() }.bytes()),
    ]
}

/// 1 to 8, 14, 10.
#[test]
fn order_in_a_run() {
    let job = printed().bytes();
    let [short_end, short_work] =
        [Lent { end: 148, ..Lent::ENOUGH }, Lent { work: WORK - 1, ..Lent::ENOUGH }];
    for lent in [short_end, short_work, Lent::SHORT] {
        assert_eq!(run_refusal(&job, &WINDOW_COSTS, lent), 10);
        for costs in refused_tables() {
            assert_eq!(run_refusal(&job, &costs, lent), 14);
            for (number, job) in refused_jobs() {
                assert_eq!(run_refusal(&job, &costs, lent), number);
            }
        }
    }
}

/// 1 to 8, 9, 14, 10.
#[test]
fn order_in_a_pair() {
    let (job, second) = (printed().bytes(), printed().state_bytes());
    let unequal = Lent { second_trace: 65, ..Lent::ENOUGH };
    for lent in [unequal, Lent::SHORT] {
        assert_eq!(pair_refusal(&job, &second, &WINDOW_COSTS, lent), 10);
        for costs in refused_tables() {
            assert_eq!(pair_refusal(&job, &second, &costs, lent), 14);
            for wrong_length in [&second[..159], &[]] {
                assert_eq!(pair_refusal(&job, wrong_length, &costs, lent), 9);
                assert_eq!(pair_refusal(&job, wrong_length, &costs, Lent::ENOUGH), 9);
            }
            for (number, job) in refused_jobs() {
                assert_eq!(pair_refusal(&job, &[], &costs, lent), number);
            }
        }
    }
}

/// 1 to 8, 14, 10, 13, 12.
#[test]
fn order_in_a_test_load() {
    let job = printed().bytes();
    let short_state = Lent { state: 159, ..Lent::ENOUGH };
    assert_eq!(load_refusal(&job, 1, &WINDOW_COSTS, short_state), 12);
    assert_eq!(load_refusal(&job, 0, &WINDOW_COSTS, short_state), 13);
    assert_eq!(load_refusal(&job, 0, &WINDOW_COSTS, Lent::SHORT), 10);
    for costs in refused_tables() {
        assert_eq!(load_refusal(&job, 1, &costs, short_state), 14, "before 12");
        assert_eq!(load_refusal(&job, 0, &costs, Lent::ENOUGH), 14, "before 13");
        assert_eq!(load_refusal(&job, 1, &costs, Lent::SHORT), 14, "before 10 and 12");
        assert_eq!(load_refusal(&job, 0, &costs, Lent::SHORT), 14, "before 10, 13 and 12");
        for (number, job) in refused_jobs() {
            assert_eq!(load_refusal(&job, 0, &costs, Lent::SHORT), number);
        }
    }
}

// The entry of each kind. Register 0 is 0, so that the wrong path begins at the next label.

/// An instruction at a label that goes on to the next one, and what it observes.
fn instruction(kind: usize, label: u64) -> (Vec<u8>, String) {
    match kind {
        0 => (skip(), String::new()),
        1 => (assign(5, &[C(9)]), String::new()),
        2 => (load(5, &[C(40)]), "load 40, ".to_string()),
        3 => (store(5, &[C(40)]), "store 40, ".to_string()),
        4 => (jmp(&[C(label + 1)]), format!("pc {}, ", label + 1)),
        6 => (conditional(5, &[C(1)], &[C(9)]), String::new()),
        _ => panic!("branches and barriers have tests of their own"),
    }
}

/// Two instructions of one kind on a wrong path, then two of another kind that are observed.
/// With 16 at that kind and 1 elsewhere the two end the window at 16 and 32; one below ends it
/// too, and one above leaves room for one more instruction.
/// With 1 at that kind and 16 elsewhere they end it at 1 and 2, and the next one ends it at 18.
#[test]
fn sixteen_at_one_kind_and_at_all_others() {
    for kind in [0, 1, 2, 3, 4, 6] {
        let [(first, seen), (second, seen_second)] = [1, 2].map(|label| instruction(kind, label));
        let mark = |address| match kind {
            OF_LOAD => (store(6, &[C(address)]), format!("store {address}, ")),
            _ => (load(6, &[C(address)]), format!("load {address}, ")),
        };
        let [(third, seen_third), (fourth, seen_fourth)] = [50, 51].map(mark);
        let parts = job(vec![beqz(0, 5), first, second, third, fourth], 0);
        let seen = [seen, seen_second, seen_third, seen_fourth];
        let assert_count = |window, costs, count: usize| {
            let trace = format!("start 0, pc 1, {}rollback 0, pc 5", seen[..count].concat());
            assert_run(&parts, window, costs, &trace, count as u64 + 2);
        };
        let costs = ones_but(kind, 16);
        let counts = [(0, 0), (1, 1), (15, 1), (16, 1), (17, 2), (31, 2), (32, 2), (33, 3)];
        for (window, count) in counts.into_iter().chain([(34, 4), (35, 4), (200, 4)]) {
            assert_count(window, costs, count);
        }
        let costs = with_entry([16; 8], kind, 1);
        let counts = [(0, 0), (1, 1), (2, 2), (3, 3), (17, 3), (18, 3), (19, 4), (200, 4)];
        for (window, count) in counts {
            assert_count(window, costs, count);
        }
    }
}

/// A conditional assignment that is not taken lowers the window as one that is taken.
#[test]
fn a_conditional_assignment_not_taken() {
    for condition in [0, 1] {
        let cset = conditional(5, &[C(condition)], &[C(9)]);
        let parts = job(vec![beqz(0, 3), cset, load(6, &[C(50)])], 0);
        for window in [15, 16] {
            assert_run(&parts, window, ones_but(6, 16), "start 0, pc 1, rollback 0, pc 3", 3);
        }
        let trace = "start 0, pc 1, load 50, rollback 0, pc 3";
        assert_run(&parts, 17, ones_but(6, 16), trace, 4);
    }
}

/// A branch with 16 inside a wrong path ends both windows at 16, and at one below; one above
/// leaves 1 to the new branch and 1 to the old top.
#[test]
fn sixteen_at_the_branch() {
    let mark = |address| load(5, &[C(address)]);
    let program = vec![beqz(0, 6), beqz(0, 4), mark(50), mark(51), mark(52), mark(53)];
    let parts = job(program, 0);
    let costs = ones_but(OF_BRANCH, 16);
    for window in [1, 15, 16] {
        let trace = "start 0, pc 1, start 1, pc 2, rollback 1, pc 4, rollback 0, pc 6";
        assert_run(&parts, window, costs, trace, 4);
    }
    let trace =
        "start 0, pc 1, start 1, pc 2, load 50, rollback 1, pc 4, load 52, rollback 0, pc 6";
    assert_run(&parts, 17, costs, trace, 6);
    // With 1 at the branch and 16 elsewhere the windows from 2 to 17 give the same trace.
    for window in 2..=17 {
        assert_run(&parts, window, with_entry([16; 8], OF_BRANCH, 1), trace, 6);
    }
    assert_run(&parts, 0, costs, "start 0, pc 1, rollback 0, pc 6", 2);
}

/// The eight entries are told apart. Skip, assign, load, store, jmp and cset end the window at
/// 1, 3, 6, 10, 15 and 22; the two loads after them at 25 and 28.
#[test]
fn eight_different_entries() {
    let program = vec![
        beqz(0, 9),
        skip(),
        assign(5, &[C(9)]),
        load(5, &[C(40)]),
        store(5, &[C(41)]),
        jmp(&[C(6)]),
        conditional(5, &[C(1)], &[C(9)]),
        load(6, &[C(50)]),
        load(6, &[C(51)]),
    ];
    let parts = job(program, 0);
    for (windows, steps, seen) in [
        (0..=0, 2, ""),
        (1..=1, 3, ""),
        (2..=3, 4, ""),
        (4..=6, 5, "load 40, "),
        (7..=10, 6, "load 40, store 41, "),
        (11..=15, 7, "load 40, store 41, pc 6, "),
        (16..=22, 8, "load 40, store 41, pc 6, "),
        (23..=25, 9, "load 40, store 41, pc 6, load 50, "),
        (26..=200, 10, "load 40, store 41, pc 6, load 50, load 51, "),
    ] {
        let trace = format!("start 0, pc 1, {seen}rollback 0, pc 9");
        for window in windows {
            assert_run(&parts, window, ONE_TO_EIGHT, &trace, steps);
        }
    }
}

// Barriers, outermost openings and nested openings.

/// The top's window is 0 after a barrier, above and below what its entry would leave;
/// no other window is lowered.
#[test]
fn the_entry_of_the_barrier_has_no_effect() {
    let one_open = job(vec![beqz(0, 3), spbarr(), load(5, &[C(50)])], 0);
    let program = vec![beqz(0, 5), beqz(1, 4), load(2, &[R(3)]), skip(), spbarr()];
    let mut two_open = job(program, 0);
    two_open.registers[1] = 1;
    let nothing_open = job(vec![spbarr(), beqz(0, 3), load(5, &[C(50)]), spbarr()], 0);
    for entry in 1..=16 {
        let costs = ones_but(OF_BARRIER, entry);
        for window in [1, 2, 15, 16, 17, 200] {
            assert_run(&one_open, window, costs, "start 0, pc 1, rollback 0, pc 3", 3);
        }
        // Two openings, barrier, rollback, load, skip, barrier, rollback.
        let trace = "start 0, pc 1, start 1, pc 4, rollback 1, pc 2, load 0, rollback 0, pc 5";
        for window in [4, 10, 16, 17, 18, 200] {
            assert_run(&two_open, window, costs, trace, 8);
        }
        // The last barrier is carried out with the branch open if w is above 1, and after it.
        let trace = "start 0, pc 2, load 50, rollback 0, pc 3";
        assert_run(&nothing_open, 1, costs, trace, 5);
        assert_run(&nothing_open, 2, costs, trace, 6);
    }
}

/// With nothing open a branch has the window w, whatever its entry is, also after a rollback;
/// what is carried out before it lowers nothing.
#[test]
fn an_outermost_opening_costs_nothing() {
    let mark = |address| load(5, &[C(address)]);
    let program = vec![mark(40), beqz(0, 4), mark(50), mark(51), beqz(0, 7), mark(52), mark(53)];
    let parts = job(program, 0);
    for entry in 1..=16 {
        let costs = ones_but(OF_BRANCH, entry);
        let trace = "load 40, start 0, pc 2, rollback 0, pc 4, start 1, pc 5, rollback 1, pc 7";
        assert_run(&parts, 0, costs, trace, 5);
        let trace = "load 40, start 0, pc 2, load 50, rollback 0, pc 4, \
                     start 1, pc 5, load 52, rollback 1, pc 7";
        assert_run(&parts, 1, costs, trace, 7);
        assert_run(&parts, 1, with_entry([16; 8], OF_BRANCH, entry), trace, 7);
        assert_run(&parts, 16, with_entry([16; 8], OF_BRANCH, entry), trace, 7);
        let trace = "load 40, start 0, pc 2, load 50, load 51, rollback 0, pc 4, \
                     start 1, pc 5, load 52, load 53, rollback 1, pc 7";
        assert_run(&parts, 2, costs, trace, 9);
    }
}

/// With 3 at the branch and w 5 both windows are 2 after the nested opening.
#[test]
fn a_nested_opening_lowers_the_old_top_by_the_branch_entry() {
    let mark = |address| load(5, &[C(address)]);
    let program = [
        vec![beqz(0, 8), beqz(0, 5), mark(50), mark(51), mark(52)],
        vec![mark(53), mark(54), mark(55)],
    ];
    let parts = job(program.concat(), 0);
    let trace = "start 0, pc 1, start 1, pc 2, load 50, load 51, rollback 1, pc 5, \
                 load 53, load 54, rollback 0, pc 8";
    assert_run(&parts, 5, ones_but(OF_BRANCH, 3), trace, 8);
    // With 2 at the load too, each window of 2 has room for one load.
    let costs = with_entry(ones_but(OF_BRANCH, 3), OF_LOAD, 2);
    let trace =
        "start 0, pc 1, start 1, pc 2, load 50, rollback 1, pc 5, load 53, rollback 0, pc 8";
    assert_run(&parts, 5, costs, trace, 6);
    // What the window has lost before the nested opening counts too: 7 - 2 - 3 leaves 2.
    let program = vec![beqz(0, 5), mark(50), beqz(0, 4), mark(51), mark(52)];
    let trace = "start 0, pc 1, load 50, start 1, pc 3, load 51, rollback 1, pc 4, \
                 load 52, rollback 0, pc 5";
    assert_run(&job(program, 0), 7, costs, trace, 7);
}

/// With 3 at the branch and w 7 the openings leave 7; 4, 4; and 4, 1, 1: each one lowers the
/// branch below it and no other one.
#[test]
fn three_deep() {
    let mark = |address| load(5, &[C(address)]);
    let branches = vec![beqz(0, 10), beqz(0, 5), beqz(0, 4)];
    let program = [branches, (50..57).map(mark).collect()].concat();
    let trace = "start 0, pc 1, start 1, pc 2, start 2, pc 3, load 50, rollback 2, pc 4, \
                 load 51, rollback 1, pc 5, load 52, load 53, load 54, load 55, rollback 0, pc 10";
    assert_run(&job(program, 0), 7, ones_but(OF_BRANCH, 3), trace, 12);
}

// Two tables for one job.

/// The first load of the printed program ends the window of 10 if its entry is 10 or more.
#[test]
fn two_tables_give_different_traces() {
    let short = observed("start 0, pc 2, load 1, rollback 0, pc 4");
    let long = observed("start 0, pc 2, load 1, load 3, rollback 0, pc 4");
    for (entry, window) in [(10, 10), (16, 10), (2, 2), (16, 16)] {
        let parts = JobParts { window, ..printed() };
        let ran = run_under(&parts, &ones_but(OF_LOAD, entry), 1_024);
        assert_eq!((ran.trace, ran.answer.steps), (short.clone(), 4));
        assert_eq!(
            (locations(ran.answer.depends), ran.answer.verdict),
            (vec![0, 1], Verdict::Clean)
        );
        assert_eq!(ran.answer.firsts[17], None);
    }
    for (entry, window) in [(1, 10), (9, 10), (1, 2), (15, 16)] {
        let parts = JobParts { window, ..printed() };
        let ran = run_under(&parts, &ones_but(OF_LOAD, entry), 1_024);
        assert_eq!((ran.trace, ran.answer.steps), (long.clone(), 5));
        assert_eq!(locations(ran.answer.depends), [0, 1, 17]);
        assert_eq!(ran.answer.verdict, Verdict::Speculative);
    }
}

/// The costs are no steps: a straight program uses up its budget as before.
#[test]
fn costs_do_not_count_against_the_budget() {
    let parts = JobParts { budget: 40, ..job(vec![load(5, &[C(7)]); 40], 0) };
    let ran = run_under(&parts, &[16; 8], 1_024);
    assert_eq!((ran.answer.stop, ran.answer.steps), (Stop::Finished, 40));
    assert_eq!(ran.trace, plain_of(&parts).trace);
}

fn finished(steps: u64, observations: u64) -> RunCounts {
    RunCounts { stop: Stop::Finished, steps, rollbacks: 1, observations }
}

/// Both runs of a pair take the table: where it keeps the second load away, no leak is shown.
#[test]
fn a_pair_with_two_tables() {
    let mut second = printed();
    second.cells[1] = 0;
    for (entry, word, counts) in [
        (1, PairWord::LeakShown, finished(5, 6)),
        (9, PairWord::LeakShown, finished(5, 6)),
        (10, PairWord::Equal, finished(4, 5)),
        (16, PairWord::Equal, finished(4, 5)),
    ] {
        let costs = ones_but(OF_LOAD, entry);
        let (answer, first_trace, second_trace) = pair_under(&printed(), &second, &costs, 64);
        assert_eq!(answer.word, word);
        assert_eq!((answer.first, answer.second), (counts.clone(), counts));
        assert_eq!(first_trace, run_under(&printed(), &costs, 64).trace);
        assert_eq!(second_trace, run_under(&second, &costs, 64).trace);
    }
}

/// A test load from seed 1 with everything it wrote. The state's bytes are there if it was made.
struct Loaded {
    answer: LoadAnswer,
    first_trace: Trace,
    second_trace: Trace,
    state: Option<Vec<u8>>,
}

fn loaded_under(parts: &JobParts, costs: &[u8], trace_words: usize) -> Loaded {
    let (mut first, mut second) = (area(trace_words), area(trace_words));
    let (mut work, state_bytes) = (area(WORK + 5), parts.state_bytes().len());
    let mut state = byte_area(state_bytes + 5);
    let job = parts.bytes();
    let answer = test_load(&job, 1, costs, &mut first, &mut second, &mut work, &mut state)
        .expect("accepted");
    assert_eq!(written(&work, WORK), vec![0; WORK]);
    let made = answer.second.as_ref().map(|_| state[..state_bytes].to_vec());
    assert_eq!(state, byte_area_with(made.as_deref().unwrap_or(&[]), state.len()));
    let observations = answer.second.as_ref().map_or(0, |second| second.observations);
    let first_trace = pairs(&written(&first, 2 * answer.first.observations as usize));
    let second_trace = pairs(&written(&second, 2 * observations as usize));
    Loaded { answer, first_trace, second_trace, state: made }
}

/// The same job with another state.
fn with_state(parts: &JobParts, bytes: &[u8]) -> JobParts {
    let word = |bytes: &[u8]| u64::from_le_bytes(bytes.try_into().expect("8 bytes"));
    let words: Vec<u64> = bytes.chunks_exact(8).map(word).collect();
    let mut other = parts.clone();
    other.registers.copy_from_slice(&words[..16]);
    other.cells.copy_from_slice(&words[16..]);
    other
}

/// Both runs of a test load take the table; the new state is the same, because the plain set is.
#[test]
fn a_test_load_with_two_tables() {
    let state = loaded_under(&printed(), &WINDOW_COSTS, 64).state;
    assert!(state.is_some());
    for (entry, word, counts) in [
        (1, PairWord::LeakShown, finished(5, 6)),
        (9, PairWord::LeakShown, finished(5, 6)),
        (10, PairWord::Equal, finished(4, 5)),
        (16, PairWord::Equal, finished(4, 5)),
    ] {
        let loaded = loaded_under(&printed(), &ones_but(OF_LOAD, entry), 64);
        assert_eq!(loaded.answer.word, word);
        assert_eq!((loaded.answer.first, loaded.answer.second), (counts.clone(), Some(counts)));
        assert_eq!(loaded.state, state);
    }
}

/// Four steps or five observations are enough for the own run with one table alone.
#[test]
fn a_test_load_that_one_table_lets_finish() {
    for (budget, trace_words, stop) in [(4, 64, Stop::Spent), (100, 10, Stop::TraceFull)] {
        let parts = JobParts { budget, ..printed() };
        let with_ones = loaded_under(&parts, &WINDOW_COSTS, trace_words);
        let counts = RunCounts { stop, steps: 4, rollbacks: 0, observations: 4 };
        assert_eq!((with_ones.answer.word, with_ones.answer.first), (PairWord::Undecided, counts));
        assert_eq!(with_ones.answer.second, None);
        let with_ten = loaded_under(&parts, &ones_but(OF_LOAD, 10), trace_words);
        assert_eq!(
            (with_ten.answer.word, with_ten.answer.first),
            (PairWord::Equal, finished(4, 5))
        );
        assert_eq!(with_ten.answer.second, Some(finished(4, 5)));
    }
}

// Plain runs take no table.

const TABLES: [[u8; 8]; 4] = [WINDOW_COSTS, ONE_TO_EIGHT, [16; 8], [16, 1, 16, 1, 16, 1, 16, 1]];

/// Register 2 decides a load on the wrong path alone, register 1 the last load of the plain run.
/// That one is the 32nd instruction after the branch: some of the wrong paths come to it.
fn long_routine() -> JobParts {
    let branch = vec![beqz(0, 2), load(4, &[R(2)])];
    let program = [branch, vec![load(5, &[C(7)]); 30], vec![load(4, &[R(1)])]].concat();
    let mut parts = job(program, 0);
    parts.registers[1..3].copy_from_slice(&[20, 30]);
    parts
}

/// The plain traces of a pair are compared whole, whatever the table and the window are.
#[test]
fn plain_runs_of_a_pair() {
    for costs in TABLES {
        for window in [0, 1, 16, 32, 200] {
            let parts = JobParts { window, ..long_routine() };
            let word_with = |register: usize| {
                let mut second = parts.clone();
                second.registers[register] = 1;
                pair_under(&parts, &second, &costs, 1_024).0.word
            };
            let on_wrong_path = if window == 0 { PairWord::Equal } else { PairWord::LeakShown };
            assert_eq!(word_with(1), PairWord::PlainDiffers);
            assert_eq!(word_with(2), on_wrong_path);
            assert_eq!(word_with(3), PairWord::Equal);
        }
    }
}

/// Register 1 is in the plain set and keeps its word; register 2 takes a new one.
#[test]
fn plain_runs_of_a_test_load() {
    let state = loaded_under(&long_routine(), &WINDOW_COSTS, 1_024).state.expect("a new state");
    let second = with_state(&long_routine(), &state);
    assert_eq!(second.registers[..2], [0, 20]);
    assert_ne!(second.registers[2], 30);
    let plain = plain_of(&long_routine()).trace;
    assert_eq!(plain_of(&second).trace, plain);
    for costs in TABLES {
        for window in [0, 1, 16, 32, 200] {
            let parts = JobParts { window, ..long_routine() };
            let loaded = loaded_under(&parts, &costs, 1_024);
            let on_wrong_path = if window == 0 { PairWord::Equal } else { PairWord::LeakShown };
            assert_eq!(loaded.answer.word, on_wrong_path);
            assert_eq!(loaded.state.as_ref(), Some(&state));
            assert_eq!(strike_out(&loaded.first_trace), plain);
            assert_eq!(strike_out(&loaded.second_trace), plain);
        }
    }
}

// Random jobs with random tables.

const JOBS: usize = 5_000;

/// A job with a window up to 59, and a table of small entries or of any.
fn random_job(random: &mut Random) -> (JobParts, [u8; 8]) {
    let parts = JobParts { window: random.below(60) as u16, ..random.job() };
    let largest = if random.below(2) == 0 { 4 } else { 16 };
    (parts, std::array::from_fn(|_| 1 + random.below(largest) as u8))
}

/// Another state that agrees with the job's in the given locations.
fn changed_outside(parts: &JobParts, kept: &[usize], random: &mut Random) -> JobParts {
    let mut second = parts.clone();
    let words = second.registers.iter_mut().chain(&mut second.cells);
    for (location, word) in words.enumerate() {
        if !kept.contains(&location) {
            *word = random.below(4);
        }
    }
    second
}

/// With c at every kind a window holds as many instructions as one of w / c, rounded up, does
/// with ones.
#[test]
fn eight_equal_entries_are_a_smaller_window() {
    let mut random = Random(13);
    for _ in 0..JOBS {
        let (parts, _) = random_job(&mut random);
        let cost = 1 + random.below(16) as u8;
        let smaller = JobParts { window: parts.window.div_ceil(u16::from(cost)), ..parts.clone() };
        assert_eq!(run_under(&parts, &[cost; 8], 800), run_in(&smaller, 800));
    }
}

#[test]
fn the_entry_of_the_barrier_has_no_effect_on_any_job() {
    let mut random = Random(14);
    for _ in 0..JOBS {
        let (parts, costs) = random_job(&mut random);
        let other = with_entry(costs, OF_BARRIER, 1 + random.below(16) as u8);
        assert_eq!(run_under(&parts, &costs, 800), run_under(&parts, &other, 800));
    }
}

/// Demand 2 with any table.
#[test]
fn strike_out_is_the_plain_trace() {
    let mut random = Random(15);
    let (mut finished, mut unlike_ones) = (0, 0);
    for _ in 0..JOBS {
        let (parts, costs) = random_job(&mut random);
        let words = random.below(800) as usize;
        let (ran, plain) = (run_under(&parts, &costs, words), plain_in(&parts, words));
        let struck = strike_out(&ran.trace);
        assert_eq!(struck[..], plain.trace[..struck.len()]);
        unlike_ones += usize::from(ran.trace != run_in(&parts, words).trace);
        if ran.answer.stop == Stop::Finished {
            finished += 1;
            assert_eq!((plain.answer.stop, &plain.trace), (Stop::Finished, &struck));
            assert_eq!((plain.end, plain.outside), (ran.end, ran.outside));
            assert_eq!(plain.answer.plain, ran.answer.plain);
        }
    }
    assert!(finished > 1_000 && unlike_ones > 1_000, "only {finished} and {unlike_ones}");
}

/// Demand 3: secrecy holds for two runs with the same table.
#[test]
fn states_alike_in_the_dependency_set_have_equal_runs() {
    let mut random = Random(16);
    let mut differing_states = 0;
    for _ in 0..JOBS {
        let (parts, costs) = random_job(&mut random);
        let ran = run_under(&parts, &costs, 800);
        let second = changed_outside(&parts, &locations(ran.answer.depends), &mut random);
        differing_states += usize::from(second.state_bytes() != parts.state_bytes());
        let other = run_under(&second, &costs, 800);
        assert_eq!((ran.answer, ran.trace), (other.answer, other.trace));
    }
    assert!(differing_states > JOBS / 2);
}

/// Pairs and test loads have the traces of runs with their table.
#[test]
fn pairs_and_test_loads_agree_with_their_runs() {
    let mut random = Random(17);
    let mut seen = [0; 5];
    for _ in 0..JOBS {
        let (parts, costs) = random_job(&mut random);
        let trace_of = |parts: &JobParts| run_under(parts, &costs, 800).trace;
        let second = changed_outside(&parts, &parts.public, &mut random);
        let (_, first_trace, second_trace) = pair_under(&parts, &second, &costs, 800);
        assert_eq!((first_trace, second_trace), (trace_of(&parts), trace_of(&second)));

        let loaded = loaded_under(&parts, &costs, 800);
        assert_eq!(loaded.first_trace, trace_of(&parts));
        seen[loaded.answer.word.number() as usize] += 1;
        if let Some(state) = loaded.state {
            let new = with_state(&parts, &state);
            assert_eq!(loaded.second_trace, trace_of(&new));
            let pair = pair_under(&parts, &new, &costs, 800).0;
            assert_eq!(loaded.answer.word, pair.word);
            assert_eq!(loaded.answer.second, Some(pair.second));
        }
    }
    let [not_comparable, undecided, plain_differs, leak_shown, equal] = seen;
    assert_eq!((not_comparable, plain_differs), (0, 0));
    assert!(undecided > 50 && leak_shown > 50 && equal > 50, "too few of a word: {seen:?}");
}
