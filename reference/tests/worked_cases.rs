//! The cases of the section "A run printed whole".

mod common;

use check_box_reference::{listing, PairWord, Stop, Verdict};
use common::*;

const PRINTED: &str = "start 0\npc 2\nload 1\nload 3\nrollback 0\npc end\nstop finished\nsteps 5\n\
rollbacks 1\ndepends r0 r1 m1\nplain r0 r1\nverdict speculative\n\
first r0 0 branch 1\nfirst r1 0 branch 1\nfirst m1 3 load 3\n";

fn printed_trace() -> Trace {
    observed("start 0, pc 2, load 1, load 3, rollback 0, pc 4")
}

#[test]
fn offsets_are_those_of_the_document() {
    let bytes = printed().bytes();
    assert_eq!(bytes.len(), 236);
    assert_eq!(bytes[220..224], [28, 0, 188, 0]);
}

#[test]
fn printed_whole() {
    assert_eq!(String::from_utf8(listing(&printed().bytes())).unwrap(), PRINTED);
    let ran = run_of(&printed());
    assert_eq!(ran.trace, printed_trace());
    assert_eq!(locations(ran.answer.depends), [0, 1, 17]);
    assert_eq!(locations(ran.answer.plain), [0, 1]);
    let mut end = printed().registers.to_vec();
    end.extend(printed().cells);
    assert_eq!(ran.end, end);
}

#[test]
fn window_0() {
    let ran = run_of(&JobParts { window: 0, ..printed() });
    assert_eq!(ran.trace, observed("start 0, pc 2, rollback 0, pc 4"));
    assert_eq!((ran.answer.steps, ran.answer.verdict), (3, Verdict::Clean));
}

#[test]
fn window_1() {
    let ran = run_of(&JobParts { window: 1, ..printed() });
    assert_eq!(ran.trace, observed("start 0, pc 2, load 1, rollback 0, pc 4"));
    assert_eq!((ran.answer.steps, ran.answer.verdict), (4, Verdict::Clean));
}

#[test]
fn window_2() {
    let parts = JobParts { window: 2, ..printed() };
    assert_eq!(String::from_utf8(listing(&parts.bytes())).unwrap(), PRINTED);
}

#[test]
fn budget_0() {
    let ran = run_of(&JobParts { budget: 0, ..printed() });
    assert_eq!((ran.answer.stop, ran.answer.steps), (Stop::Spent, 0));
    assert_eq!((ran.answer.observations, ran.answer.verdict), (0, Verdict::Undecided));
}

#[test]
fn budget_4() {
    let ran = run_of(&JobParts { budget: 4, ..printed() });
    assert_eq!((ran.answer.stop, ran.answer.steps), (Stop::Spent, 4));
    assert_eq!(ran.trace, printed_trace()[..4]);
}

#[test]
fn budget_5() {
    let ran = run_of(&JobParts { budget: 5, ..printed() });
    assert_eq!((ran.answer.stop, ran.answer.steps), (Stop::Finished, 5));
}

#[test]
fn five_observations_lent() {
    for words in [10, 11] {
        let ran = run_in(&printed(), words);
        assert_eq!((ran.answer.stop, ran.answer.steps), (Stop::TraceFull, 4));
        assert_eq!(ran.trace, printed_trace()[..4]);
    }
}

#[test]
fn inside_the_bound() {
    let mut parts = printed();
    parts.registers[0] = 0;
    let ran = run_of(&parts);
    let trace = observed("start 0, pc 4, rollback 0, pc 2, load 0, load 2");
    assert_eq!(ran.trace, trace);
    assert_eq!((ran.answer.steps, ran.answer.verdict), (5, Verdict::Plain));
}

#[test]
fn barrier_after_the_branch() {
    let mut parts = printed();
    parts.program[1] = beqz(2, 5);
    parts.program.insert(2, spbarr());
    let ran = run_of(&parts);
    assert_eq!(ran.trace, observed("start 0, pc 2, rollback 0, pc 5"));
    assert_eq!((ran.answer.steps, ran.answer.verdict), (4, Verdict::Clean));
}

#[test]
fn second_state_shows_the_leak() {
    let mut second = printed();
    second.cells[1] = 0;
    let (answer, first_trace, second_trace) = pair_of(&printed(), &second, 1_024);
    assert_eq!(answer.word, PairWord::LeakShown);
    assert_eq!(first_trace, printed_trace());
    assert_eq!(second_trace[3], (LOAD, 2));
}

fn nested() -> JobParts {
    let mut parts = job(vec![beqz(0, 3), beqz(1, 3), skip()], 0);
    parts.window = 2;
    parts
}

#[test]
fn nested_branches() {
    let ran = run_of(&nested());
    let trace = observed("start 0, pc 1, start 1, pc 2, rollback 1, pc 3, rollback 0, pc 3");
    assert_eq!(ran.trace, trace);
    assert_eq!((ran.answer.steps, ran.answer.rollbacks), (5, 2));
}

#[test]
fn memory_limit() {
    assert_eq!(refusal_of(&job(vec![skip()], 240).bytes()), 0);
    assert_eq!(refusal_of(&job(vec![skip()], 241).bytes()), 2);
}

#[test]
fn branch_to_the_next_label() {
    let mut parts = nested();
    parts.program[0] = beqz(0, 1);
    assert_eq!(refusal_of(&parts.bytes()), 6);
}
