//! Which observation brought it in: request F-6 of document 02, with its reading.

mod common;

use check_box_reference::{listing, Cause, First, RunAnswer, Stop};
use common::random::Random;
use common::T::{C, R};
use common::*;

/// A location's report: location, index, rule, label.
type Report = (usize, u64, Cause, u64);

const BRANCH: Cause = Cause::Branch;
const JUMP: Cause = Cause::Jump;
const BY_LOAD: Cause = Cause::Load;
const BY_STORE: Cause = Cause::Store;

/// The reports of a run in ascending location, with a check that D has one for each of its
/// locations and no other location has any.
fn reports(answer: &RunAnswer) -> Vec<Report> {
    let reported = |location: &usize| answer.firsts[*location].is_some();
    assert_eq!((0..256).filter(reported).collect::<Vec<_>>(), locations(answer.depends));
    let report = |location: usize| {
        let First { index, cause, label } = answer.firsts[location].expect("a location of D");
        (location, index, cause, label)
    };
    locations(answer.depends).into_iter().map(report).collect()
}

/// The reports of a job's run, with a check of its trace, such as "start 0, pc 2".
fn reports_at(parts: &JobParts, trace: &str) -> Vec<Report> {
    let ran = run_of(parts);
    assert_eq!(ran.trace, observed(trace));
    reports(&ran.answer)
}

fn listing_of(parts: &JobParts) -> String {
    String::from_utf8(listing(&parts.bytes())).expect("text")
}

/// What a listing has after the line of the verdict.
fn lines_after_verdict(parts: &JobParts) -> Vec<String> {
    let text = listing_of(parts);
    let lines = text.lines().skip_while(|line| !line.starts_with("verdict ")).skip(1);
    lines.map(str::to_string).collect()
}

#[test]
fn numbers_and_words() {
    let causes = [BRANCH, JUMP, BY_LOAD, BY_STORE];
    assert_eq!(causes.map(Cause::number), [0, 1, 2, 3]);
    assert_eq!(causes.map(Cause::word), ["branch", "jump", "load", "store"]);
    assert_eq!(First::default(), First { index: 0, cause: BRANCH, label: 0 });
}

#[test]
fn the_run_that_document_01_prints() {
    let expected = [(0, 0, BRANCH, 1), (1, 0, BRANCH, 1), (17, 3, BY_LOAD, 3)];
    assert_eq!(reports(&run_of(&printed()).answer), expected);
    let lines = ["first r0 0 branch 1", "first r1 0 branch 1", "first m1 3 load 3"];
    assert_eq!(lines_after_verdict(&printed()), lines);
}

/// The worked cases that are near it: a window, the registers or a barrier are other ones.
#[test]
fn the_worked_cases_near_it() {
    let branch = [(0, 0, BRANCH, 1), (1, 0, BRANCH, 1)];
    for window in [0, 1] {
        assert_eq!(reports(&run_of(&JobParts { window, ..printed() }).answer), branch);
    }
    let mut barrier = printed();
    barrier.program[1] = beqz(2, 5);
    barrier.program.insert(2, spbarr());
    assert_eq!(reports(&run_of(&barrier).answer), branch);
    // The loads stand on the true side, behind the rollback and its pc.
    let mut inside = printed();
    inside.registers[0] = 0;
    let trace = "start 0, pc 4, rollback 0, pc 2, load 0, load 2";
    let expected = [branch.to_vec(), vec![(16, 5, BY_LOAD, 3)]].concat();
    assert_eq!(reports_at(&inside, trace), expected);
}

#[test]
fn a_branch_stands_at_its_start() {
    let parts = job(vec![load(9, &[C(3)]), beqz(5, 3), skip()], 0);
    let trace = "load 3, start 0, pc 2, rollback 0, pc 3";
    assert_eq!(reports_at(&parts, trace), [(5, 1, BRANCH, 1)]);
    // A branch inside a wrong path does so too.
    let parts = job(vec![beqz(5, 3), skip(), beqz(6, 0)], 0);
    let parts = JobParts { window: 2, ..parts };
    let trace = "start 0, pc 1, start 1, pc 3, rollback 1, pc 0, rollback 0, pc 3";
    let ran = run_of(&JobParts { budget: 5, ..parts });
    assert_eq!(ran.trace, observed(trace));
    assert_eq!(reports(&ran.answer), [(5, 0, BRANCH, 0), (6, 2, BRANCH, 2)]);
}

/// With window 0 the branch is rolled back at once and is reported all the same.
#[test]
fn a_branch_with_window_0() {
    let parts = JobParts { window: 0, ..job(vec![beqz(5, 2), load(6, &[R(7)])], 0) };
    assert_eq!(reports_at(&parts, "start 0, pc 1, rollback 0, pc 2"), [(5, 0, BRANCH, 0)]);
}

#[test]
fn the_first_of_several_observations() {
    let program = vec![
        load(9, &[R(3)]),
        store(1, &[R(3)]),
        load(10, &[R(3), R(4), ADD]),
        jmp(&[R(3), R(4), ADD, C(4), ADD]),
        beqz(3, 6),
    ];
    let parts = JobParts { window: 0, ..job([program, vec![skip()]].concat(), 1) };
    let trace = "load 0, store 0, load 0, pc 4, start 0, pc 5, rollback 0, pc 6";
    assert_eq!(reports_at(&parts, trace), [(3, 0, BY_LOAD, 0), (4, 2, BY_LOAD, 2)]);
}

/// The same instruction is carried out again and again; its first time counts.
#[test]
fn the_first_round_of_a_loop() {
    let parts = job(vec![load(9, &[R(3)]), jmp(&[C(0)])], 0);
    let ran = run_of(&JobParts { budget: 7, ..parts });
    assert_eq!((ran.trace.len(), reports(&ran.answer)), (7, vec![(3, 0, BY_LOAD, 0)]));
    // In the second round the same load sees the cell that the first one brought into r3.
    let mut parts = job(vec![load(3, &[R(3)]), jmp(&[C(0)])], 2);
    parts.budget = 6;
    assert_eq!(
        reports_at(&parts, "load 0, pc 0, load 0, pc 0, load 0, pc 0"),
        [(3, 0, BY_LOAD, 0), (16, 2, BY_LOAD, 0)]
    );
}

/// D is not restored by a rollback, and neither is the report.
#[test]
fn a_wrong_path_that_is_rolled_back_keeps_its_report() {
    let program = vec![beqz(0, 2), load(9, &[R(3)]), store(1, &[R(4)]), jmp(&[R(3), C(4), ADD])];
    let parts = JobParts { window: 1, ..job(program.clone(), 1) };
    let trace = "start 0, pc 1, load 0, rollback 0, pc 2, store 0, pc 4";
    let expected = [(0, 0, BRANCH, 0), (3, 2, BY_LOAD, 1), (4, 5, BY_STORE, 2)];
    assert_eq!(reports_at(&parts, trace), expected);
    // Without the wrong path the jump is the first to see register 3.
    let parts = JobParts { window: 0, ..parts };
    let trace = "start 0, pc 1, rollback 0, pc 2, store 0, pc 4";
    let expected = [(0, 0, BRANCH, 0), (3, 5, JUMP, 3), (4, 4, BY_STORE, 2)];
    assert_eq!(reports_at(&parts, trace), expected);
}

/// What the wrong path assigned is gone after the rollback: its set is not seen there.
#[test]
fn a_set_that_a_rollback_restored_is_not_seen() {
    let program = vec![beqz(0, 2), assign(3, &[R(4)]), load(9, &[R(3)])];
    let parts = JobParts { window: 1, ..job(program, 0) };
    let trace = "start 0, pc 1, rollback 0, pc 2, load 0";
    assert_eq!(reports_at(&parts, trace), [(0, 0, BRANCH, 0), (3, 4, BY_LOAD, 2)]);
}

#[test]
fn a_jump_stands_at_its_pc() {
    for (target, place) in [(2, 2), (3, 3), (9, 3)] {
        let mut parts = job(vec![load(9, &[C(0)]), jmp(&[R(5)]), skip()], 0);
        parts.registers[5] = target;
        assert_eq!(reports_at(&parts, &format!("load 0, pc {place}")), [(5, 1, JUMP, 1)]);
        assert_eq!(lines_after_verdict(&parts), ["first r5 1 jump 1"]);
    }
}

/// The address is observed, not what is loaded; that is seen when it is an address itself.
#[test]
fn a_load() {
    for m in [0, 3] {
        let parts = job(vec![skip(), load(9, &[R(5), C(2), ADD])], m);
        assert_eq!(reports_at(&parts, "load 2"), [(5, 0, BY_LOAD, 1)]);
    }
    let parts = job(vec![load(9, &[C(2)]), load(9, &[R(9)])], 3);
    assert_eq!(reports_at(&parts, "load 2, load 0"), [(18, 1, BY_LOAD, 1)]);
}

#[test]
fn a_store_in_the_image_and_outside() {
    for address in [0, 2, 3, u64::MAX] {
        let mut parts = job(vec![skip(), load(9, &[C(1)]), store(6, &[R(5)])], 3);
        parts.registers[5] = address;
        let trace = format!("load 1, store {address}");
        assert_eq!(reports_at(&parts, &trace), [(5, 1, BY_STORE, 2)]);
        assert_eq!(lines_after_verdict(&parts), ["first r5 1 store 2"]);
    }
}

/// A word that comes back from outside has the set that it was stored with.
#[test]
fn a_word_remembered_outside() {
    let parts = job(vec![store(6, &[C(70)]), load(7, &[C(70)]), load(8, &[R(7)])], 3);
    assert_eq!(reports_at(&parts, "store 70, load 70, load 0"), [(6, 2, BY_LOAD, 2)]);
}

/// A job that fills the table outside by 64 stores at constant addresses, with more after them;
/// register 2 is an address that needs a 65th entry.
fn after_spills(program: Vec<Vec<u8>>) -> JobParts {
    let spills = (0..64).map(|k| store(1, &[C(1_000 + k)])).collect();
    let mut parts = JobParts { budget: 1_000, ..job([spills, program].concat(), 2) };
    parts.registers[2] = 2_000;
    parts
}

/// The reports of a run that is outside full, and its observation count.
fn reports_outside_full(parts: &JobParts) -> (u64, Vec<Report>) {
    let ran = run_of(parts);
    assert_eq!(ran.answer.stop, Stop::OutsideFull);
    (ran.answer.observations, reports(&ran.answer))
}

#[test]
fn a_store_that_stopped_the_run() {
    let parts = after_spills(vec![skip(), store(3, &[R(2)]), load(9, &[R(4)])]);
    assert_eq!(reports_outside_full(&parts), (64, vec![(2, 64, BY_STORE, 65)]));
    assert_eq!(lines_after_verdict(&parts), ["first r2 64 store 65"]);
    // Neither budget nor trace area may end before it, or it is looked at by no test.
    let spent = run_of(&JobParts { budget: 65, ..parts.clone() });
    assert_eq!((spent.answer.stop, reports(&spent.answer)), (Stop::Spent, vec![]));
    let full = run_in(&parts, 128);
    assert_eq!((full.answer.stop, reports(&full.answer)), (Stop::TraceFull, vec![]));
}

#[test]
fn a_store_that_stopped_the_run_with_a_branch_open() {
    let parts = after_spills(vec![beqz(0, 67), load(9, &[R(4)]), store(3, &[R(2)])]);
    let expected = vec![(0, 64, BRANCH, 64), (2, 67, BY_STORE, 66), (4, 66, BY_LOAD, 65)];
    assert_eq!(reports_outside_full(&parts), (67, expected));
    let lines = ["first r0 64 branch 64", "first r2 67 store 66", "first r4 66 load 65"];
    assert_eq!(lines_after_verdict(&parts), lines);
}

/// A location seen before keeps its report; the others of the address's set get the stop's.
#[test]
fn a_store_that_stopped_the_run_takes_no_report() {
    let stopping = store(3, &[R(2), R(4), ADD]);
    let parts = after_spills(vec![load(9, &[R(2)]), stopping.clone()]);
    let expected = vec![(2, 64, BY_LOAD, 64), (4, 65, BY_STORE, 65)];
    assert_eq!(reports_outside_full(&parts), (65, expected));
    let parts = after_spills(vec![beqz(0, 67), load(9, &[R(2)]), stopping.clone()]);
    let expected = vec![(0, 64, BRANCH, 64), (2, 66, BY_LOAD, 65), (4, 67, BY_STORE, 66)];
    assert_eq!(reports_outside_full(&parts), (67, expected));
    let parts = after_spills(vec![load(9, &[R(4), R(2), ADD]), stopping]);
    let expected = vec![(2, 64, BY_LOAD, 64), (4, 64, BY_LOAD, 64)];
    assert_eq!(reports_outside_full(&parts), (65, expected));
}

/// The label is that of the instruction itself: not the next one, the target or the true side.
#[test]
fn the_label_is_the_instructions_own() {
    let program = vec![
        jmp(&[R(1), C(4), ADD]),
        store(6, &[R(2)]),
        load(9, &[R(3)]),
        jmp(&[R(4), C(9), ADD]),
        beqz(5, 1),
    ];
    let parts = JobParts { window: 0, ..job(program, 1) };
    let trace = "pc 4, start 0, pc 5, rollback 0, pc 1, store 0, load 0, pc 5";
    let expected = [
        (1, 0, JUMP, 0),
        (2, 5, BY_STORE, 1),
        (3, 6, BY_LOAD, 2),
        (4, 7, JUMP, 3),
        (5, 1, BRANCH, 4),
    ];
    assert_eq!(reports_at(&parts, trace), expected);
}

/// The last of 512 labels, and an index beyond what a byte holds.
#[test]
fn large_labels_and_indexes() {
    let mut program = vec![load(9, &[C(0)]); 511];
    program.push(store(6, &[R(2)]));
    let parts = JobParts { budget: 1_000, ..job(program, 0) };
    assert_eq!(reports(&run_of(&parts).answer), [(2, 511, BY_STORE, 511)]);
    assert_eq!(lines_after_verdict(&parts), ["first r2 511 store 511"]);
}

#[test]
fn two_locations_first_seen_by_one_observation() {
    let program = vec![load(9, &[C(1)]), load(10, &[R(9), R(4), ADD]), store(9, &[R(4)])];
    let trace = "load 1, load 0, store 0";
    assert_eq!(reports_at(&job(program, 2), trace), [(4, 1, BY_LOAD, 1), (17, 1, BY_LOAD, 1)]);
}

/// Ascending location, whatever the order of the observations; cells come after registers.
#[test]
fn order_of_the_lines() {
    let program = vec![
        load(9, &[C(239)]),
        load(10, &[C(0)]),
        load(8, &[R(9)]),
        load(8, &[R(15)]),
        load(8, &[R(10)]),
        load(8, &[R(2)]),
        load(8, &[R(14)]),
    ];
    let lines = [
        "first r2 5 load 5",
        "first r14 6 load 6",
        "first r15 3 load 3",
        "first m0 4 load 4",
        "first m239 2 load 2",
    ];
    assert_eq!(lines_after_verdict(&job(program, 240)), lines);
}

/// All 256 locations: each register is an address once, then each cell's word is, in register 0.
#[test]
fn every_location() {
    let cells = (0..240).flat_map(|cell| [load(0, &[C(cell)]), load(0, &[R(0)])]);
    let registers = (0..16).map(|register| load(register, &[R(register)]));
    let program: Vec<Vec<u8>> = registers.chain(cells).collect();
    let parts = JobParts { budget: 1_000, ..job(program, 240) };
    let register = |location: u64| (location as usize, location, BY_LOAD, location);
    let cell = |cell: u64| (16 + cell as usize, 17 + 2 * cell, BY_LOAD, 17 + 2 * cell);
    let expected: Vec<Report> = (0..16).map(register).chain((0..240).map(cell)).collect();
    assert_eq!(reports(&run_of(&parts).answer), expected);
    assert_eq!(lines_after_verdict(&parts).len(), 256);
}

#[test]
fn an_empty_set_has_no_line() {
    let parts = job(vec![load(9, &[C(0)]), store(3, &[C(0)]), jmp(&[C(3)])], 1);
    assert_eq!(reports_at(&parts, "load 0, store 0, pc 3"), []);
    let text = "load 0\nstore 0\npc end\nstop finished\nsteps 3\nrollbacks 0\ndepends\nplain\n\
verdict clean\n";
    assert_eq!(listing_of(&parts), text);
    let nothing_made = JobParts { budget: 0, ..printed() };
    assert_eq!(lines_after_verdict(&nothing_made), [""; 0]);
    assert_eq!(listing(&[]), b"refused 1\n");
}

/// The step that a stop left unmade reports nothing.
#[test]
fn spent_and_trace_full() {
    let branch = [(0, 0, BRANCH, 1), (1, 0, BRANCH, 1)];
    let made = [branch.to_vec(), vec![(17, 3, BY_LOAD, 3)]].concat();
    for (budget, expected) in [(1, &[][..]), (2, &branch[..]), (3, &branch[..]), (4, &made[..])] {
        let ran = run_of(&JobParts { budget, ..printed() });
        assert_eq!((ran.answer.stop, reports(&ran.answer)), (Stop::Spent, expected.to_vec()));
    }
    // A branch needs room for two observations, a load for one; an odd last word is no room.
    let lent = [(0, &[][..]), (3, &[][..]), (4, &branch[..]), (7, &branch[..]), (8, &made[..])];
    for (words, expected) in lent {
        let ran = run_in(&printed(), words);
        assert_eq!((ran.answer.stop, reports(&ran.answer)), (Stop::TraceFull, expected.to_vec()));
    }
}

/// The largest budget: the reports are there after a million steps too.
#[test]
fn a_million_steps() {
    let mut parts = job(vec![load(9, &[R(3)]), jmp(&[C(2)]), store(1, &[R(4)]), jmp(&[C(0)])], 2);
    parts.budget = 1_000_000;
    let ran = run_in(&parts, 2_000_000);
    assert_eq!((ran.answer.stop, ran.answer.observations), (Stop::Spent, 1_000_000));
    assert_eq!(reports(&ran.answer), [(3, 0, BY_LOAD, 0), (4, 2, BY_STORE, 2)]);
}

/// The label of the next instruction after one more step, by what the trace and the counts show.
fn place_after(
    parts: &JobParts,
    place: usize,
    before: &RunAnswer,
    after: &Ran<RunAnswer>,
) -> usize {
    let rolled_back = after.answer.rollbacks > before.rollbacks;
    let last_place = || after.trace.last().expect("an observation").1 as usize;
    match parts.program.get(place) {
        _ if rolled_back => last_place(),
        Some(instruction) if [4, 5].contains(&instruction[0]) => last_place(),
        _ => place + 1,
    }
}

/// The rule of an instruction by its kind byte.
fn rule(instruction: &[u8]) -> Cause {
    match instruction[0] {
        2 => BY_LOAD,
        3 => BY_STORE,
        4 => JUMP,
        5 => BRANCH,
        kind => panic!("kind {kind} is not observed"),
    }
}

/// What D has after a step and had not before it, reported with that step.
fn grown(parts: &JobParts, place: usize, before: &RunAnswer, after: &RunAnswer) -> Vec<Report> {
    let had = locations(before.depends);
    let new = locations(after.depends).into_iter().filter(|location| !had.contains(location));
    let report =
        |location| (location, before.observations, rule(&parts.program[place]), place as u64);
    new.map(report).collect()
}

/// The reports from D alone: the run is made anew with every budget, so that D is seen to grow.
fn recomputed(parts: &JobParts, trace_words: usize) -> Vec<Report> {
    let whole = run_in(parts, trace_words).answer;
    let with_budget = |budget| run_in(&JobParts { budget, ..parts.clone() }, trace_words);
    let (mut reports, mut place, mut before) = (Vec::new(), 0, with_budget(0).answer);
    for steps in 1..=whole.steps {
        let after = with_budget(steps as u32);
        reports.extend(grown(parts, place, &before, &after.answer));
        place = place_after(parts, place, &before, &after);
        before = after.answer;
    }
    // A store that stopped the run is no step; it comes after the last one.
    reports.extend(grown(parts, place, &before, &whole));
    reports.sort_by_key(|report| report.0);
    reports
}

/// Whether the observation at the report's index is of its rule; the index of a store that stopped
/// the run is that of no observation.
fn fits_its_observation(ran: &Ran<RunAnswer>, index: u64, cause: Cause) -> bool {
    match ran.trace.get(index as usize) {
        Some(&(kind, _)) => kind == [START, PC, LOAD, STORE][cause.number() as usize],
        None => {
            let next = index == ran.answer.observations && cause == BY_STORE;
            next && ran.answer.stop == Stop::OutsideFull
        }
    }
}

const JOBS: usize = 3_000;

/// Every second job starts with a table that is full but for a few entries.
fn random_job(random: &mut Random, index: usize) -> JobParts {
    if index.is_multiple_of(2) {
        random.job()
    } else {
        random.spilling_job()
    }
}

#[test]
fn reports_are_those_of_the_growth_of_the_dependency_set() {
    let mut random = Random(10);
    let (mut seen, mut at_a_stop, mut on_wrong_path) = ([0; 4], 0, 0);
    for index in 0..JOBS {
        let parts = JobParts { budget: 120, ..random_job(&mut random, index) };
        let words = 2 * random.below(400) as usize;
        let ran = run_in(&parts, words);
        let expected = recomputed(&parts, words);
        assert_eq!(reports(&ran.answer), expected);
        let plain = locations(ran.answer.plain);
        for (location, index, cause, _) in expected {
            assert!(fits_its_observation(&ran, index, cause));
            seen[cause.number() as usize] += 1;
            at_a_stop += usize::from(index == ran.answer.observations);
            on_wrong_path += usize::from(!plain.contains(&location));
        }
    }
    assert!(seen.iter().all(|&count| count > 200), "too few of a rule: {seen:?}");
    assert!(at_a_stop > 100 && on_wrong_path > 200, "only {at_a_stop} and {on_wrong_path}");
}

/// Another state that agrees with the job's in D.
fn alike_in(depends: [u64; 4], parts: &JobParts, random: &mut Random) -> JobParts {
    let (kept, mut second) = (locations(depends), parts.clone());
    let words = second.registers.iter_mut().chain(&mut second.cells);
    for (location, word) in words.enumerate() {
        if !kept.contains(&location) {
            *word = random.below(4);
        }
    }
    second
}

#[test]
fn states_that_agree_on_the_dependency_set_get_the_same_reports() {
    let mut random = Random(11);
    let (mut reported, mut differing_states, mut other_ends) = (0, 0, 0);
    for index in 0..20_000 {
        let parts = random_job(&mut random, index);
        let words = 2 * random.below(400) as usize;
        let ran = run_in(&parts, words);
        let second = alike_in(ran.answer.depends, &parts, &mut random);
        let other = run_in(&second, words);
        assert_eq!(reports(&ran.answer), reports(&other.answer));
        reported += usize::from(ran.answer.depends != [0; 4]);
        differing_states += usize::from(second.state_bytes() != parts.state_bytes());
        other_ends += usize::from(ran.end != other.end);
    }
    assert!(reported > 10_000, "only {reported} runs report");
    assert!(differing_states > 10_000 && other_ends > 10_000);
}

/// The listing of any run: the lines are the reports, at its end and nowhere else.
#[test]
fn the_listing_has_the_reports() {
    let mut random = Random(12);
    for index in 0..JOBS {
        let parts = random_job(&mut random, index);
        let line = |(location, index, cause, label): Report| {
            let (kind, number) = if location < 16 { ("r", location) } else { ("m", location - 16) };
            format!("first {kind}{number} {index} {} {label}", cause.word())
        };
        let lines: Vec<String> = reports(&run_of(&parts).answer).into_iter().map(line).collect();
        assert_eq!(lines_after_verdict(&parts), lines);
        let text = listing_of(&parts);
        assert_eq!(text.lines().filter(|line| line.starts_with("first")).count(), lines.len());
    }
}
