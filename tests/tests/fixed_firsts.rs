//! The fixed cases of first observations hold what they are there for: the reference gives the reports that are known of
//! each job, and these cover the rules, the edges and the stops.

use std::collections::BTreeSet;

use checker_tests::calls::{Operation, Outcome};
use checker_tests::demands::has;
use checker_tests::first_claims::depends_of;
use checker_tests::fixed::case_of;
use checker_tests::fixed_firsts::{add, jobs, FirstJob, GROUPS};
use checker_tests::outside_claims::OUTSIDE_FULL;
use checker_tests::straight::{Report, RULES};

struct Ran {
    job: FirstJob,
    run: Outcome,
}

fn all() -> Vec<Ran> {
    jobs().into_iter().map(ran).collect()
}

fn ran(job: FirstJob) -> Ran {
    let run = case_of(&job.parts, job.lengths).call(Operation::Run, 0).by_reference();
    assert_eq!(run.number, 0, "a job that is refused");
    Ran { job, run }
}

impl Ran {
    fn stop(&self) -> u64 {
        self.run.answer()[0]
    }

    fn observations(&self) -> u64 {
        self.run.answer()[1]
    }

    fn reported(&self) -> Vec<Report> {
        let depends = depends_of(&self.run);
        let report = |(location, &[index, cause, label]): (usize, &[u64; 3])| {
            let rule = RULES[cause as usize];
            has(depends, location).then_some(Report { location, index, rule, label })
        };
        self.run.reports().iter().enumerate().filter_map(report).collect()
    }

    fn is_plain(&self, location: usize) -> bool {
        has(self.run.answer()[8..12].try_into().expect("four words"), location)
    }
}

#[test]
fn the_reports_are_as_known() {
    for (name, group) in GROUPS {
        let mut jobs = Vec::new();
        group(&mut jobs);
        for (number, job) in jobs.into_iter().enumerate() {
            let ran = ran(job);
            assert_eq!(ran.reported(), ran.job.reports, "{name}: job {number}");
        }
    }
}

/// The cases are those of the jobs, and then jobs that are refused: each number from 1 to 8, and 10; one is accepted.
#[test]
fn cases_of_the_jobs() {
    let (mut cases, jobs) = (Vec::new(), jobs());
    add(&mut cases);
    for (case, job) in cases.iter().zip(&jobs) {
        assert!(case.job == job.parts.bytes());
    }
    let call = |case: &checker_tests::cases::Case| case.call(Operation::Run, 0).by_reference();
    let numbers: BTreeSet<u32> = cases[jobs.len()..].iter().map(|case| call(case).number).collect();
    assert_eq!(numbers, (0..=8).chain([10]).collect());
}

/// Each rule brings in a location at the very first step and at the very last one of a run, and at each of these labels.
#[test]
fn rules_steps_and_labels() {
    let all = all();
    for rule in RULES {
        let of_rule = || {
            let reports =
                all.iter().flat_map(|ran| ran.job.reports.iter().map(move |of| (ran, of)));
            reports.filter(|(_, report)| report.rule == rule)
        };
        assert!(of_rule().any(|(_, report)| (report.index, report.label) == (0, 0)), "{rule:?}");
        let width = if rule as u64 == 0 { 2 } else { 1 };
        let last = |ran: &Ran, report: &Report| {
            let steps = u64::from(ran.job.parts.budget) == ran.run.answer()[2];
            report.index + width == ran.observations() && steps
        };
        assert!(of_rule().any(|(ran, report)| last(ran, report)), "{rule:?} in the last step");
        for label in [1, 127, 128, 255, 256, 510, 511] {
            assert!(of_rule().any(|(_, report)| report.label == label), "{rule:?} at {label}");
        }
        for index in [1, 127, 128, 255, 256, 257] {
            assert!(of_rule().any(|(_, report)| report.index == index), "{rule:?}, index {index}");
        }
    }
}

#[test]
fn high_indexes() {
    let indexes: BTreeSet<u64> =
        jobs().iter().flat_map(|job| &job.reports).map(|report| report.index).collect();
    for index in [65_535, 65_536, 131_071, 131_072, 1_996_998] {
        assert!(indexes.contains(&index), "{index}");
    }
}

/// Each location is brought in, those at the edges of words by each rule; all 256 in one run, with as many indexes and
/// labels, and all by one observation.
#[test]
fn every_location() {
    let jobs = jobs();
    for rule in RULES {
        for location in [0, 15, 16, 63, 64, 127, 128, 191, 192, 255] {
            let alone = |job: &&FirstJob| job.reports.len() == 1;
            let found = |job: &FirstJob| {
                let report = job.reports[0];
                (report.location, report.rule) == (location, rule)
            };
            assert!(jobs.iter().filter(alone).any(found), "{location} by {rule:?}");
        }
    }
    let whole = || jobs.iter().filter(|job| job.reports.len() == 256);
    let distinct = |job: &FirstJob| {
        let indexes: BTreeSet<u64> = job.reports.iter().map(|report| report.index).collect();
        indexes.len()
    };
    let counts: BTreeSet<usize> = whole().map(distinct).collect();
    assert_eq!(counts, BTreeSet::from([1, 2, 256]));
}

/// A report of a wrong path alone; one of a wrong path for a location that the plain path shows later; each rule.
#[test]
fn wrong_paths() {
    let all = all();
    for rule in RULES {
        let of_rule = |plain: bool| {
            move |ran: &Ran| {
                let mut reports = ran.job.reports.iter().filter(|report| report.rule == rule);
                reports.any(|report| {
                    let inside = open_at(ran, report.index) > 0;
                    inside && ran.is_plain(report.location) == plain
                })
            }
        };
        assert!(all.iter().any(of_rule(false)), "{rule:?} on a wrong path alone");
        assert!(all.iter().any(of_rule(true)), "{rule:?} on a wrong path, then on the plain one");
    }
    let deepest = all.iter().flat_map(|ran| {
        let inside = ran.job.reports.iter().map(|report| open_at(ran, report.index));
        inside.max()
    });
    assert!(deepest.max() >= Some(198), "deep nesting");
}

/// The branches that are open before an observation.
fn open_at(ran: &Ran, index: u64) -> usize {
    let trace = ran.run.observations();
    let front = &trace[..(index as usize).min(trace.len())];
    let of_kind = |kind: u64| front.iter().filter(|seen| seen.0 == kind).count();
    of_kind(0) - of_kind(1)
}

/// The stopping store brings in a location with nothing open and with branches open, and none where it is known; the
/// same run is spent or trace full beside it.
#[test]
fn stops() {
    let all = all();
    let stopping = |ran: &Ran, location: usize| {
        let mut reports = ran.job.reports.iter();
        reports.any(|of| of.location == location && of.index == ran.observations())
    };
    let full = || all.iter().filter(|ran| ran.stop() == OUTSIDE_FULL);
    for open in [0, 1, 2, 3] {
        let at = |ran: &&Ran| open_at(ran, ran.observations()) == open;
        assert!(full().filter(at).any(|ran| stopping(ran, 2) && stopping(ran, 3)), "{open} open");
        assert!(full().filter(at).any(|ran| !stopping(ran, 2) && stopping(ran, 3)), "r2 known");
    }
    for stop in [0, 1, 2] {
        let stopped: Vec<&Ran> = all.iter().filter(|ran| ran.stop() == stop).collect();
        assert!(stopped.len() > 100, "stop {stop}: {}", stopped.len());
        let counts: BTreeSet<usize> = stopped.iter().map(|ran| ran.job.reports.len()).collect();
        assert!(counts.contains(&1) && counts.contains(&2), "stop {stop}: {counts:?}");
    }
}
