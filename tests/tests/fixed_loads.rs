//! The fixed cases of test loads hold what they are there for: one test for each function that
//! `fixed_loads::add` calls. The calls are the reference's, with the lengths of each case.

use check_box_reference::run;
use checker_tests::calls::{Operation, Outcome};
use checker_tests::cases::{Case, MOST_END_WORDS, WORKING_WORDS};
use checker_tests::cost_tables::ONES;
use checker_tests::demands::state_of;
use checker_tests::fixed::examples;
use checker_tests::fixed_loads;
use checker_tests::job_file::{set_budget, REGISTERS};

const FINISHED: u64 = 0;
const SPENT: u64 = 1;
const TRACE_FULL: u64 = 2;

struct Load {
    case: Case,
    outcome: Outcome,
}

fn loads() -> Vec<Load> {
    let mut cases = Vec::new();
    fixed_loads::add(&mut cases);
    let load = |case: Case| Load { outcome: case.call(Operation::Load, 0).by_reference(), case };
    cases.into_iter().map(load).collect()
}

impl Load {
    fn areas_fit(&self) -> bool {
        let lengths = self.case.lengths;
        lengths.work >= WORKING_WORDS && lengths.trace == lengths.second_trace
    }

    /// The cells, and how many bytes more than it takes are lent for the state; none if the file is refused.
    fn room(&self) -> Option<(usize, i64)> {
        let bytes = || state_of(&self.case.job).len();
        let room = || (bytes() / 8 - REGISTERS, self.case.lengths.state as i64 - bytes() as i64);
        [0, 12, 13].contains(&self.outcome.number).then(room)
    }

    /// The stops of the own run and of the second, if there was one.
    fn stops(&self) -> Option<(u64, Option<u64>)> {
        let answer = self.outcome.answer();
        let second = (answer[9] == 1).then_some(answer[5]);
        (self.outcome.number == 0).then_some((answer[1], second))
    }

    /// The cells, and the locations at which the new state differs; none if no state was made.
    fn changed(&self) -> Option<(usize, Vec<usize>)> {
        self.stops()?.1?;
        let own = state_of(&self.case.job).chunks_exact(8);
        let cells = own.len() - REGISTERS;
        let words = own.zip(self.outcome.state.content().chunks_exact(8)).enumerate();
        let differing = words.filter(|(_, (own, new))| own != new);
        Some((cells, differing.map(|(location, _)| location).collect()))
    }
}

/// Each refusal with all that come after it: those of the file, 10, 13 and 12.
#[test]
fn first_refusal() {
    let loads = loads();
    let refused_first = |number: u32, fit: bool, seed: u64| {
        let alike = |case: &Case| case.load_seed == seed && case.lengths.state == 0;
        let mut refused = loads.iter().filter(|load| load.outcome.number == number);
        refused.any(|load| load.areas_fit() == fit && alike(&load.case))
    };
    for number in 1..=8 {
        assert!(refused_first(number, false, 0), "refusal {number}");
    }
    assert!(refused_first(10, false, 0), "refusal 10");
    assert!(refused_first(13, true, 0), "refusal 13");
    assert!(refused_first(12, true, 1), "refusal 12");
}

#[test]
fn state_lengths() {
    let loads = loads();
    for cells in [0, 1, 4, 239, 240] {
        for (more, number) in [(-9, 12), (-8, 12), (-1, 12), (0, 0), (1, 0), (9, 0)] {
            let there = loads
                .iter()
                .any(|load| load.outcome.number == number && load.room() == Some((cells, more)));
            assert!(there, "{cells} cells, {more} bytes more");
        }
    }
}

#[test]
fn seeds() {
    let loads = loads();
    let with_seed = |seed| loads.iter().filter(move |load| load.case.load_seed == seed);
    for bit in 0..64 {
        for seed in [1 << bit, !(1 << bit), u64::MAX] {
            assert!(with_seed(seed).any(|load| load.outcome.number == 0), "seed {seed}");
        }
    }
    assert!(with_seed(0).any(|load| load.outcome.number == 13), "seed 0");
}

/// Each example spent after every number of steps, its trace full in every length of area, and finished with just
/// what it needs.
#[test]
fn own_runs_cut() {
    let loads = loads();
    for parts in examples() {
        let job = parts.bytes();
        let ran = run(&job, &ONES, &mut [0; 100], &mut [0; MOST_END_WORDS], &mut [0; 4_096])
            .expect("accepted");
        let stopped = |stop, job: &[u8], trace: Option<usize>| {
            let of_job = loads.iter().filter(|load| load.case.job == job);
            let of_trace =
                of_job.filter(|load| trace.is_none_or(|trace| load.case.lengths.trace == trace));
            of_trace.filter_map(Load::stops).any(|(own, _)| own == stop)
        };
        for budget in 0..=ran.steps {
            let mut cut = job.clone();
            set_budget(&mut cut, budget as u32);
            let stop = if budget == ran.steps { FINISHED } else { SPENT };
            assert!(stopped(stop, &cut, None), "budget {budget}");
        }
        let needed = 2 * ran.observations as usize;
        for trace in 0..=needed {
            let stop = if trace == needed { FINISHED } else { TRACE_FULL };
            assert!(stopped(stop, &job, Some(trace)), "trace of {trace} words");
        }
    }
}

#[test]
fn second_runs_cut() {
    let stops: Vec<_> = loads().iter().filter_map(Load::stops).collect();
    for stop in [FINISHED, SPENT, TRACE_FULL] {
        assert!(stops.contains(&(FINISHED, Some(stop))), "no second run has the stop {stop}");
    }
}

/// No word changes, only that of the last register, or only that of the last cell.
#[test]
fn all_public() {
    let changed: Vec<_> = loads().iter().filter_map(Load::changed).collect();
    for cells in [0, 4, 48, 240] {
        for locations in [vec![], vec![15], vec![REGISTERS + cells - 1]] {
            assert!(changed.contains(&(cells, locations)), "{cells} cells");
        }
    }
}

/// Every word changes, every second one, or all but the last.
#[test]
fn words_of_every_location() {
    let changed: Vec<_> = loads().iter().filter_map(Load::changed).collect();
    for cells in [0, 1, 47, 48, 49, 111, 112, 113, 175, 176, 177, 239, 240] {
        let every = 0..REGISTERS + cells;
        let (second, but_last) = (every.clone().skip(1).step_by(2), 0..every.end - 1);
        for locations in [every.collect(), second.collect(), but_last.collect()] {
            assert!(changed.contains(&(cells, locations)), "{cells} cells");
        }
    }
}
