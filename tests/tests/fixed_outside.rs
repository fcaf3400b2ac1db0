//! The fixed cases of stores outside memory hold what they are there for. The calls are the reference's, with the
//! lengths of each case.

use checker_tests::calls::{Operation, Outcome};
use checker_tests::cases::Case;
use checker_tests::demands::has;
use checker_tests::fixed_outside;
use checker_tests::job_file::budget;
use checker_tests::outside::{Event, Remembered};
use checker_tests::outside_claims::{addresses_in, cells_of, table_of, OUTSIDE_FULL};

const FINISHED: u64 = 0;
const SPENT: u64 = 1;
const TRACE_FULL: u64 = 2;

/// A fixed case with its run, and what its trace tells of stores outside.
struct Ran {
    case: Case,
    run: Outcome,
    remembered: Remembered,
    events: Vec<Event>,
}

fn all() -> Vec<Ran> {
    let mut cases = Vec::new();
    fixed_outside::add(&mut cases);
    cases.into_iter().map(ran).collect()
}

fn ran(case: Case) -> Ran {
    let run = case.call(Operation::Run, 0).by_reference();
    assert_eq!(run.number, 0, "a job that is refused");
    let mut remembered = Remembered::nothing(cells_of(&case));
    let observe = |&(kind, value): &(u64, u64)| remembered.observe(kind, value);
    let events = run.observations().iter().filter_map(observe).collect();
    Ran { case, run, remembered, events }
}

impl Ran {
    fn stop(&self) -> u64 {
        self.run.answer()[0]
    }

    fn entries(&self) -> usize {
        self.remembered.addresses().len()
    }

    fn is_open(&self) -> bool {
        self.remembered.open_branches() > 0
    }

    fn has(&self, event: Event) -> bool {
        self.events.contains(&event)
    }

    fn set(&self, at: usize) -> [u64; 4] {
        self.run.answer()[at..at + 4].try_into().expect("four words")
    }
}

#[test]
fn the_table_is_that_of_the_trace() {
    for Ran { case, run, remembered, .. } in all() {
        assert_eq!(addresses_in(table_of(&case, &run)), remembered.addresses());
    }
}

/// 63, 64 and more addresses, with no cell, some and the most, with nothing open and on a wrong path.
#[test]
fn around_64_addresses() {
    let all = all();
    for cells in [0, 240] {
        let of_cells = || all.iter().filter(|ran| cells_of(&ran.case) == cells);
        for entries in [0, 1, 63, 64] {
            let finished = |ran: &Ran| ran.stop() == FINISHED && ran.entries() == entries;
            assert!(of_cells().any(finished), "{cells} cells, {entries} addresses");
        }
        for open in [false, true] {
            let full = |ran: &Ran| ran.stop() == OUTSIDE_FULL && ran.is_open() == open;
            assert!(of_cells().any(full), "{cells} cells, full, open {open}");
        }
    }
    let top = |ran: &Ran| ran.entries() == 64 && ran.remembered.addresses().contains(&u64::MAX);
    assert!(all.iter().any(top), "the topmost address");
}

/// Runs that finish although they store at 65 addresses or more, since a rollback frees some.
#[test]
fn freed_by_rollbacks() {
    let all = all();
    let firsts = |ran: &Ran| ran.events.iter().filter(|&&event| event == Event::FirstStore).count();
    let freed = |ran: &&Ran| ran.stop() == FINISHED && ran.has(Event::Forget) && firsts(ran) > 64;
    assert!(all.iter().filter(freed).count() > 10);
    let at_the_end = |ran: &&Ran| freed(ran) && ran.entries() == 64;
    assert!(all.iter().any(|ran| at_the_end(&ran)), "64 in the end");
}

#[test]
fn restored_by_rollbacks() {
    let all = all();
    for event in
        [Event::StoreAgain, Event::StoreAgainOnWrongPath, Event::Load, Event::LoadForgotten]
    {
        let runs = all.iter().filter(|ran| ran.stop() == FINISHED && ran.has(event)).count();
        assert!(runs > 20, "{event:?}: {runs}");
    }
}

/// One job is spent, trace full or outside full at one and the same step, by its budget and its room alone.
#[test]
fn stops_at_one_step() {
    let all = all();
    for open in [false, true] {
        let full = all.iter().filter(|ran| ran.stop() == OUTSIDE_FULL && ran.is_open() == open);
        let step = |ran: &Ran| (ran.run.answer()[1], ran.run.answer()[2]);
        let without_budget = |job: &[u8]| job[..job.len() - 4].to_vec();
        let others = |ran: &Ran, stop: u64| {
            let job = without_budget(&ran.case.job);
            let alike = |other: &&Ran| {
                other.stop() == stop
                    && step(other) == step(ran)
                    && without_budget(&other.case.job) == job
            };
            all.iter().filter(alike).count()
        };
        let together = |ran: &Ran| [SPENT, TRACE_FULL].iter().all(|&stop| others(ran, stop) > 0);
        assert!(full.into_iter().any(together), "open {open}");
    }
    let spent_in_full_trace = |ran: &Ran| {
        let (observations, steps) = (ran.run.answer()[1], ran.run.answer()[2]);
        ran.stop() == SPENT
            && ran.entries() == 64
            && steps == u64::from(budget(&ran.case.job))
            && observations as usize == ran.case.lengths.trace / 2
    };
    assert!(all.iter().any(spent_in_full_trace), "all three at one step");
}

/// The stopping store alone brings r2 into D, and into the plain set with nothing open.
#[test]
fn sets_of_the_stopping_store() {
    let all = all();
    let r2 = |ran: &Ran, at: usize| has(ran.set(at), 2);
    let full = |open: bool| {
        all.iter().filter(move |ran| ran.stop() == OUTSIDE_FULL && ran.is_open() == open)
    };
    assert!(full(false).any(|ran| r2(ran, 4) && r2(ran, 8)), "nothing open");
    assert!(full(true).any(|ran| r2(ran, 4) && !r2(ran, 8)), "on a wrong path");
    let made = |ran: &Ran| ran.entries() == 64 && ran.stop() != OUTSIDE_FULL && !r2(ran, 4);
    assert!(all.iter().any(made), "not looked at");
}

/// Second runs that stop as outside full where the first finishes, and firsts where the second would finish.
#[test]
fn second_runs() {
    let (mut pairs, mut loads) = (Vec::new(), Vec::new());
    let mut cases = Vec::new();
    fixed_outside::add(&mut cases);
    for case in cases {
        let pair = case.call(Operation::Pair, 0).by_reference();
        pairs.push((pair.answer()[1], pair.answer()[5]));
        let load = case.call(Operation::Load, 0).by_reference();
        loads.push((load.answer()[1], load.answer()[5], load.answer()[9]));
    }
    assert!(pairs.contains(&(FINISHED, OUTSIDE_FULL)) && pairs.contains(&(OUTSIDE_FULL, FINISHED)));
    assert!(loads.contains(&(FINISHED, OUTSIDE_FULL, 1)) && loads.contains(&(OUTSIDE_FULL, 0, 0)));
}
