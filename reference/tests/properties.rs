//! Properties of all runs, tried on random jobs: the strike-out, dependency sets and limits.

mod common;

use check_box_reference::{strike_out, PairWord, Stop};
use common::random::Random;
use common::T::C;
use common::*;

/// Another state that agrees with the job's in the given locations.
fn changed_outside(parts: &JobParts, kept: &[usize], random: &mut Random) -> JobParts {
    let mut second = parts.clone();
    let words = second.registers.iter_mut().chain(&mut second.cells);
    for (location, word) in words.enumerate() {
        if !kept.contains(&location) {
            *word = random.below(4);
        }
    }
    second
}

const JOBS: usize = 20_000;

#[test]
fn strike_out_is_the_plain_trace() {
    let mut random = Random(1);
    let mut finished = 0;
    for _ in 0..JOBS {
        let parts = random.job();
        let words = random.below(400) as usize;
        let (run, plain) = (run_in(&parts, words), plain_in(&parts, words));
        let struck = strike_out(&run.trace);
        assert_eq!(struck[..], plain.trace[..struck.len()]);
        if run.answer.stop == Stop::Finished {
            finished += 1;
            assert_eq!(struck, plain.trace);
            assert_eq!((plain.answer.stop, &plain.end), (Stop::Finished, &run.end));
            assert_eq!(plain.outside, run.outside);
            assert_eq!(plain.answer.plain, run.answer.plain);
        }
    }
    assert!(finished > JOBS / 4, "only {finished} runs finished");
}

#[test]
fn states_alike_in_the_dependency_set_have_equal_runs() {
    let mut random = Random(2);
    let mut differing_states = 0;
    for _ in 0..JOBS {
        let parts = random.job();
        let run = run_in(&parts, 1_024);
        let second = changed_outside(&parts, &locations(run.answer.depends), &mut random);
        differing_states += usize::from(second.state_bytes() != parts.state_bytes());
        let other = run_in(&second, 1_024);
        assert_eq!((run.answer, run.trace), (other.answer, other.trace));
    }
    assert!(differing_states > JOBS / 2);
}

#[test]
fn a_pair_agrees_with_its_runs() {
    let mut random = Random(3);
    let mut seen = [0; 5];
    for _ in 0..JOBS {
        let parts = random.job();
        let kept = if random.below(8) == 0 { &[][..] } else { &parts.public };
        let second = changed_outside(&parts, kept, &mut random);
        let (answer, first_trace, second_trace) = pair_of(&parts, &second, 800);
        assert_eq!(first_trace, run_in(&parts, 800).trace);
        assert_eq!(second_trace, run_in(&second, 800).trace);
        match answer.word {
            PairWord::Equal => assert_eq!(first_trace, second_trace),
            PairWord::LeakShown => assert_eq!(strike_out(&first_trace), strike_out(&second_trace)),
            PairWord::PlainDiffers => {
                assert_ne!(strike_out(&first_trace), strike_out(&second_trace))
            }
            PairWord::Undecided | PairWord::NotComparable => {}
        }
        seen[answer.word.number() as usize] += 1;
    }
    assert!(seen.iter().all(|&count| count > 50), "too few of a word: {seen:?}");
}

/// Readings 9, 16 and 19: ids, nesting, at most w + 1 open branches, the plain set within D.
#[test]
fn limits_of_a_run() {
    let mut random = Random(4);
    for _ in 0..JOBS {
        let parts = random.job();
        let run = run_of(&parts);
        let (mut open, mut opened, mut rollbacks) = (Vec::new(), 0, 0);
        for &(kind, value) in &run.trace {
            if kind == START {
                assert_eq!(value, opened);
                open.push(value);
                opened += 1;
            } else if kind == ROLLBACK {
                assert_eq!(open.pop(), Some(value));
                rollbacks += 1;
            }
            assert!(open.len() <= usize::from(parts.window) + 1);
        }
        assert_eq!(run.answer.rollbacks, rollbacks);
        assert!(run.answer.steps <= u64::from(parts.budget));
        for (plain, depends) in run.answer.plain.iter().zip(run.answer.depends) {
            assert_eq!(plain & !depends, 0);
        }
    }
}

/// The largest budget, window and memory, with the branches nested as deep as they go.
#[test]
fn a_million_steps() {
    let mut parts = job(vec![beqz(0, 0), jmp(&[C(0)])], 240);
    parts.registers[0] = 1;
    parts.window = 200;
    parts.budget = 1_000_000;
    let run = run_in(&parts, 4_000_000);
    assert_eq!((run.answer.stop, run.answer.steps), (Stop::Spent, 1_000_000));
}
