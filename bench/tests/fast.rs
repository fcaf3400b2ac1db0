//! The optimised implementation agrees with the reference, whole areas compared, on fixed and random
//! cases, with tables of all kinds; the job that is measured with stores outside memory remembers as many as there can
//! be, and the one with another table than eight ones runs otherwise with those.

use check_box_reference::{run, RunAnswer};
use checker_bench::jobs::{workloads, Workload};
use checker_bench::verify::agrees_with_reference;
use checker_tests::calls::pairs;
use checker_tests::cases::{MOST_END_WORDS, WORKING_WORDS};
use checker_tests::cost_tables::ONES;
use checker_tests::job_file::{field, Field};
use checker_tests::outside::{Event, Remembered};

const START: u64 = 0;
const ROLLBACK: u64 = 1;

#[test]
fn optimised_implementation_agrees_with_the_reference() {
    let count = agrees_with_reference(30_000, 9).expect("no case differs");
    assert!(count > 30_000);
}

/// The run of a job with a table, and its observations.
fn ran(job: &[u8], costs: &[u8]) -> (RunAnswer, Vec<(u64, u64)>) {
    let (mut trace, mut end) = (vec![0; 200_000], vec![0; MOST_END_WORDS]);
    let answer = run(job, costs, &mut trace, &mut end, &mut [0; WORKING_WORDS]).expect("accepted");
    let observed = pairs(&trace, answer.observations);
    (answer, observed)
}

/// The first branch is free. From there a turn takes 4 of the window 200 with eight ones, and 9 with the other table.
#[test]
fn another_table_nests_less() {
    let other = |workload: &Workload| workload.costs != ONES;
    let workload = workloads().into_iter().find(other).expect("a job with another table");
    let opened = |costs: &[u8]| {
        let (_, observed) = ran(&workload.jobs[0], costs);
        let before = observed.iter().take_while(|&&(kind, _)| kind != ROLLBACK);
        before.filter(|&&(kind, _)| kind == START).count()
    };
    assert_eq!((opened(&ONES), opened(&workload.costs)), (51, 23));
}

#[test]
fn nested_branches_remember_64_addresses() {
    let named = |name: &str| name == "deep nesting, w 200, 64 addresses outside";
    let workload = workloads().into_iter().find(|workload| named(&workload.name)).expect("the job");
    let job = &workload.jobs[0];
    let (answer, observed) = ran(job, &workload.costs);
    let mut remembered = Remembered::nothing(u64::from(field(job, Field::Cells)));
    let (mut most, mut events) = (0, Vec::new());
    for (kind, value) in observed {
        events.extend(remembered.observe(kind, value));
        most = most.max(remembered.addresses().len());
    }
    assert_eq!((answer.stop.number(), most), (1, 64));
    for event in [Event::FirstStore, Event::StoreAgainOnWrongPath, Event::Load, Event::Forget] {
        let count = events.iter().filter(|&&other| other == event).count();
        assert!(count > 100, "{event:?}: {count}");
    }
}
