//! The fixed cases of tables of window costs hold what they are there for: the reference makes the steps that are known
//! of each job, in all calls that take a table, and the cases cover the kinds, the entries, the lengths and the order
//! of the refusals.

use std::collections::BTreeSet;

use check_box_reference::WINDOW_COSTS;
use checker_tests::calls::{pairs, Operation, Outcome};
use checker_tests::cases::{Case, WORKING_WORDS};
use checker_tests::cost_tables::{
    fits, style_of, TableStyle, BARRIER, KINDS, MOST_COST, ONES, TABLE_STYLES,
};
use checker_tests::fixed::{case_of, ROOMY};
use checker_tests::fixed_costs::{add, jobs, leaks, CostJob, GROUPS};

const ROLLBACK: u64 = 1;

fn cases() -> Vec<Case> {
    let mut cases = Vec::new();
    add(&mut cases);
    cases
}

fn number(case: &Case, operation: Operation) -> u32 {
    case.call(operation, 0).by_reference().number
}

/// Stop, observations, steps and rollbacks.
fn counts_of(job: &CostJob) -> [u64; 4] {
    let trace = job.trace();
    let rollbacks = trace.iter().filter(|observed| observed.0 == ROLLBACK).count();
    [job.stop, trace.len() as u64, job.steps.len() as u64, rollbacks as u64]
}

/// True if the first observations in one of the areas are those that are known.
fn has_trace(outcome: &Outcome, area: usize, job: &CostJob) -> bool {
    let trace = job.trace();
    pairs(outcome.areas[area].content(), trace.len() as u64) == trace
}

#[test]
fn the_table_of_document_01_is_eight_ones() {
    assert_eq!(WINDOW_COSTS, ONES);
}

#[test]
fn runs_make_the_known_steps() {
    for (name, group) in GROUPS {
        let mut jobs = Vec::new();
        group(&mut jobs);
        for (at, job) in jobs.iter().enumerate() {
            let run = job.case().call(Operation::Run, 0).by_reference();
            assert_eq!((run.number, &run.answer()[..4]), (0, &counts_of(job)[..]), "{name}: {at}");
            assert!(has_trace(&run, 0, job), "{name}: job {at}");
        }
    }
}

/// No address depends on a cell, so the second state of each pair, and that of each test load, has the same run.
#[test]
fn pairs_and_test_loads_make_the_known_steps_twice() {
    for (at, job) in jobs().iter().enumerate() {
        let counts = counts_of(job);
        let pair = job.case().call(Operation::Pair, 0).by_reference();
        assert_eq!(
            (&pair.answer()[1..5], &pair.answer()[5..9]),
            (&counts[..], &counts[..]),
            "{at}"
        );
        assert!(has_trace(&pair, 0, job) && has_trace(&pair, 1, job), "pair {at}");
        let load = job.case().call(Operation::Load, 0).by_reference();
        assert_eq!(load.answer()[1..5], counts, "test load {at}");
        assert!(has_trace(&load, 0, job), "test load {at}");
        let made = job.stop == 0;
        assert_eq!(
            (load.answer()[9] == 1, !made || has_trace(&load, 1, job)),
            (made, true),
            "{at}"
        );
    }
}

#[test]
fn leaks_depend_on_the_table() {
    for (at, leak) in leaks().into_iter().enumerate() {
        let case = Case { costs: leak.costs.to_vec(), ..case_of(&leak.parts, ROOMY) };
        let run = case.call(Operation::Run, 0).by_reference();
        let pair = case.call(Operation::Pair, 0).by_reference();
        assert_eq!((run.answer()[12], pair.answer()[0]), (leak.verdict, leak.word), "leak {at}");
    }
}

/// For each kind and each entry there are runs that would make other steps with one more or one less there.
#[test]
fn every_entry_counts() {
    let jobs = jobs();
    for kind in (0..KINDS).filter(|&kind| kind != BARRIER) {
        for cost in 1..=MOST_COST {
            for other in [cost - 1, cost + 1].into_iter().filter(|cost| (1..=16).contains(cost)) {
                let differs = |job: &&CostJob| {
                    let mut case = job.case();
                    case.costs[kind] = other;
                    let run = case.call(Operation::Run, 0).by_reference();
                    run.answer()[..4] != counts_of(job)
                };
                let of_entry = jobs.iter().filter(|job| job.costs[kind] == cost);
                assert!(of_entry.into_iter().any(|job| differs(&job)), "{cost} for kind {kind}");
            }
        }
    }
}

/// Any entry of the barrier, with a barrier on a wrong path, leaves the same.
#[test]
fn the_entry_of_the_barrier_does_not_count() {
    let jobs = jobs();
    let with_barrier = |job: &&CostJob| job.parts.program.contains(&vec![7]);
    let entries: BTreeSet<u8> =
        jobs.iter().filter(with_barrier).map(|job| job.costs[BARRIER]).collect();
    assert_eq!(entries, (1..=16).collect());
    for job in jobs.iter().filter(with_barrier).step_by(7) {
        let mut case = job.case();
        case.costs[BARRIER] = 17 - case.costs[BARRIER];
        let run = case.call(Operation::Run, 0).by_reference();
        assert_eq!(run.answer()[..4], counts_of(job));
    }
}

/// Every style of table; each byte at each place, refused or not; every length from 0 to 9.
#[test]
fn tables_of_every_kind() {
    let cases = cases();
    let styles: BTreeSet<usize> = cases.iter().map(|case| style_of(&case.costs) as usize).collect();
    assert_eq!(styles.len(), TABLE_STYLES.len());
    let accepts_all_else = |case: &&Case| number(case, Operation::Plain) == 0;
    let accepted: Vec<&Case> = cases.iter().filter(accepts_all_else).collect();
    for kind in 0..KINDS {
        for byte in 0..=255 {
            let there = |case: &&&Case| {
                let only = |(at, &cost): (usize, &u8)| at == kind || cost == 1;
                let costs = &case.costs;
                costs.len() == KINDS && costs[kind] == byte && costs.iter().enumerate().all(only)
            };
            let expected = if (1..=16).contains(&byte) { 0 } else { 14 };
            let case = accepted.iter().find(there).expect("a case for each byte");
            assert_eq!(number(case, Operation::Run), expected, "{byte} for kind {kind}");
        }
    }
    for length in (0..=9).chain([264, 65_544]) {
        let there = |case: &&&Case| case.costs == vec![1; length];
        let case = accepted.iter().find(there).expect("a case for each length");
        assert_eq!(number(case, Operation::Run), if length == KINDS { 0 } else { 14 });
    }
}

/// The table with all that is tested before and after it: 1 to 8, 9, 14, 10, 13 and 12.
#[test]
fn first_refusal() {
    let cases = cases();
    let bad: Vec<&Case> = cases.iter().filter(|case| !fits(&case.costs)).collect();
    let refused = |number_of: u32, operation: Operation, holds: fn(&Case) -> bool| {
        let mut found = bad.iter().filter(|case| holds(case));
        found.any(|case| number(case, operation) == number_of)
    };
    for (operation, numbers) in
        [(Operation::Run, 1..=8), (Operation::Pair, 1..=9), (Operation::Load, 1..=8)]
    {
        for number in numbers {
            assert!(refused(number, operation, |_| true), "{number} before 14, {operation:?}");
        }
        assert!(refused(14, operation, short_work), "14 before 10, {operation:?}");
    }
    assert!(refused(14, Operation::Run, short_end), "14 before 10 for the end area");
    for operation in [Operation::Pair, Operation::Load] {
        assert!(refused(14, operation, unequal_traces), "14 before 10 for the traces");
    }
    assert!(refused(14, Operation::Load, |case| case.load_seed == 0), "14 before 13");
    let short = |case: &Case| case.load_seed != 0 && case.lengths.state == 159;
    assert!(refused(14, Operation::Load, short), "14 before 12");
    assert!(refused(0, Operation::Plain, |_| true), "a plain run takes no table");
    let ones = |case: &&Case| style_of(&case.costs) == TableStyle::Ones;
    let numbers: BTreeSet<u32> =
        cases.iter().filter(ones).map(|case| number(case, Operation::Load)).collect();
    assert_eq!(numbers, (0..=8).chain([10, 12, 13]).collect());
}

fn short_work(case: &Case) -> bool {
    case.lengths.work < WORKING_WORDS
}

fn short_end(case: &Case) -> bool {
    case.lengths.end == 148 && !short_work(case)
}

fn unequal_traces(case: &Case) -> bool {
    case.lengths.trace != case.lengths.second_trace && !short_work(case)
}
