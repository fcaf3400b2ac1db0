//! Fixed cases of first observations (request F-6), each with the reports that its run must give: every rule; the first
//! of several observations; several locations by one, and some of them known before; labels and indexes at the edges
//! of bytes and words, and the highest; locations at the edges of a set's words, all 256 one by one and at once; wrong
//! paths, whose reports stay, with windows from 0 on, nested branches and barriers; stores that stop the run; budgets
//! and trace areas that end around each step that brings a location in; refused jobs.

use crate::calls::Lengths;
use crate::fixed::{case_of, file_of_each_refusal, raw_case, Cases, ROOMY};
use crate::job_file::{
    assign, beqz, jmp, load, skip, spbarr, store, Instruction, Parts, Token, ADD, EQ, MAX_BUDGET,
    MUL, REGISTERS, SUB,
};
use crate::straight::{job_of, see, Report, Rule, Straight, RULES, WORD};

const LOCATIONS: usize = 256;

/// A job with what its run must report: all of D, in ascending order.
#[derive(Clone)]
pub struct FirstJob {
    pub parts: Parts,
    pub lengths: Lengths,
    pub reports: Vec<Report>,
}

pub fn add(cases: &mut Cases) {
    cases.extend(jobs().iter().map(|job| case_of(&job.parts, job.lengths)));
    refused(cases);
}

/// Makes the jobs of a group.
pub type Group = fn(&mut Vec<FirstJob>);

/// The groups of jobs with their names, in the order of the cases.
pub const GROUPS: [(&str, Group); 17] = [
    ("every rule", every_rule),
    ("first of several", first_of_several),
    ("several by one", several_by_one),
    ("labels", labels),
    ("indexes", indexes),
    ("the latest index", the_latest_index),
    ("edges of words", edges_of_words),
    ("all one by one", all_one_by_one),
    ("all at once", all_at_once),
    ("wrong paths", wrong_paths),
    ("wrong paths by window", wrong_paths_by_window),
    ("nested branches", nested_branches),
    ("branches back", branches_back),
    ("after rollbacks", after_rollbacks),
    ("stopping stores", stopping_stores),
    ("stops beside the stopping store", stops_beside_the_stopping_store),
    ("cuts", cuts),
];

pub fn jobs() -> Vec<FirstJob> {
    let mut jobs = Vec::new();
    for (_, group) in GROUPS {
        group(&mut jobs);
    }
    jobs
}

fn r(register: u8) -> Token {
    Token::Register(register)
}

fn c(value: u64) -> Token {
    Token::Constant(value)
}

/// A job of a routine whose reports it knows.
fn push(jobs: &mut Vec<FirstJob>, straight: &Straight, cells: usize) {
    let parts = job_of(straight.program.clone(), cells);
    jobs.push(FirstJob { parts, lengths: ROOMY, reports: straight.reports() });
}

/// A job with what is reported of each location: index, rule and label. Of the registers, r0 to r2 have the words given.
fn push_known(
    jobs: &mut Vec<FirstJob>,
    program: Vec<Instruction>,
    window: u16,
    registers: &[u64],
    known: &[(usize, u64, Rule, u64)],
) {
    let mut parts = Parts { window, ..job_of(program, 8) };
    parts.state[..registers.len()].copy_from_slice(registers);
    let report =
        |&(location, index, rule, label): &(_, _, _, _)| Report { location, index, rule, label };
    jobs.push(FirstJob { parts, lengths: ROOMY, reports: known.iter().map(report).collect() });
}

/// Each rule at the very first step, index 0 and label 0; after steps that are not observed, so that label and index
/// differ; and after observations with the empty set. It is the last step too.
fn every_rule(jobs: &mut Vec<FirstJob>) {
    for rule in RULES {
        for register in [0, 1, 7, 14] {
            for (skips, takes) in [(0, 0), (1, 0), (3, 0), (0, 1), (2, 1), (1, 5), (0, 6)] {
                let mut straight = Straight::default();
                straight.skips(skips);
                (0..takes).for_each(|cell| straight.take(13, cell));
                straight.observe(rule, register, &[usize::from(register)]);
                push(jobs, &straight, 8);
            }
        }
    }
}

/// Two registers, each observed in several ways: the first one counts. All orders of three rules.
fn first_of_several(jobs: &mut Vec<FirstJob>) {
    let pairs = RULES.into_iter().flat_map(|one| RULES.map(|two| (one, two)));
    for (one, two, three) in pairs.flat_map(|(one, two)| RULES.map(|three| (one, two, three))) {
        let mut straight = Straight::default();
        for (rule, register) in [(one, 1), (two, 1), (three, 2), (two, 1), (one, 2), (three, 1)] {
            straight.observe(rule, register, &[usize::from(register)]);
        }
        push(jobs, &straight, 0);
    }
}

/// Two locations by one observation; then one of them alone; then both with a third, which alone is new; then that.
fn several_by_one(jobs: &mut Vec<FirstJob>) {
    for (one, two) in RULES.into_iter().flat_map(|one| RULES.map(|two| (one, two))) {
        let mut straight = Straight::default();
        straight.quiet(assign(3, &[r(1), r(2), ADD]));
        straight.observe(one, 3, &[1, 2]);
        straight.observe(two, 1, &[1]);
        straight.quiet(assign(4, &[r(3), r(5), ADD]));
        straight.observe(two, 4, &[1, 2, 5]);
        straight.observe(one, 5, &[5]);
        push(jobs, &straight, 0);
    }
}

/// An instruction at a label that is reached over skips or by a jump; it is the last of the routine, or not.
fn labels(jobs: &mut Vec<FirstJob>) {
    for label in [0, 1, 2, 127, 128, 254, 255, 256, 257, 510, 511] {
        for rule in RULES {
            for (jumps, count) in [(false, 0), (false, 512), (true, 0), (true, 512)] {
                let mut straight = Straight::default();
                match jumps && label > 0 {
                    true => straight.jump_to(label),
                    false => straight.skips(label),
                }
                straight.observe(rule, 2, &[2]);
                if count > straight.program.len() {
                    straight.program.resize(count, skip());
                }
                push(jobs, &straight, 0);
            }
        }
    }
}

/// A loop of so many jumps, which r1 counts down, and behind it a register that is observed: its index is that number.
fn looping(turns: u64, rule: Rule) -> FirstJob {
    let program =
        vec![assign(1, &[r(1), c(1), SUB]), jmp(&[r(1), c(0), EQ, c(2), MUL]), see(rule, 2, 2)];
    let mut parts = Parts { budget: 2 * turns as u32 + 2, ..job_of(program, 0) };
    parts.state[1] = turns;
    let trace = 2 * turns as usize + 8;
    let reports = vec![
        Report { location: 1, index: 0, rule: Rule::Jump, label: 1 },
        Report { location: 2, index: turns, rule, label: 2 },
    ];
    FirstJob { parts, lengths: Lengths { trace, second_trace: trace, ..ROOMY }, reports }
}

/// Indexes around 256, 65,536 and 131,072.
fn indexes(jobs: &mut Vec<FirstJob>) {
    for turns in [1, 2, 127, 128, 254, 255, 256, 257, 511, 512] {
        jobs.extend(RULES.map(|rule| looping(turns, rule)));
    }
    let long = [65_534, 65_535, 65_536, 65_537, 131_070, 131_071, 131_072, 131_073];
    jobs.extend(
        long.into_iter().zip(RULES.into_iter().cycle()).map(|(at, rule)| looping(at, rule)),
    );
}

/// Almost as high an index as there is: 998 turns of 500 branches, each rolled back at once, of a step that is not
/// observed and of a jump make 999,996 steps and 1,996,998 observations.
fn the_latest_index(jobs: &mut Vec<FirstJob>) {
    let (turns, branches) = (998, 500);
    let mut program: Vec<Instruction> = vec![beqz(0, 0); branches];
    program.push(assign(1, &[r(1), c(1), SUB]));
    program.push(jmp(&[r(1), c(0), EQ, c(branches as u64 + 2), MUL]));
    program.push(see(Rule::Load, 2, branches + 2));
    let mut parts = Parts { budget: MAX_BUDGET, ..job_of(program, 0) };
    parts.state[1] = turns;
    let index = turns * (4 * branches as u64 + 1);
    let trace = 2 * index as usize + 2;
    let reports = vec![
        Report { location: 0, index: 0, rule: Rule::Branch, label: 0 },
        Report { location: 1, index: 2_000, rule: Rule::Jump, label: 501 },
        Report { location: 2, index, rule: Rule::Load, label: 502 },
    ];
    jobs.push(FirstJob {
        parts,
        lengths: Lengths { trace, second_trace: trace, ..ROOMY },
        reports,
    });
}

/// Makes a register hold the set of this location alone: the register's own, or r14 with the set of the cell.
fn register_of(straight: &mut Straight, location: usize) -> u8 {
    match location.checked_sub(REGISTERS) {
        None => location as u8,
        Some(cell) => {
            straight.take(14, cell);
            14
        }
    }
}

/// One location at each edge of a set's words, in the largest memory and in the smallest that has it; then two of them
/// by one observation.
fn edges_of_words(jobs: &mut Vec<FirstJob>) {
    let edges: [usize; 17] =
        [0, 13, 15, 16, 17, 62, 63, 64, 65, 127, 128, 129, 191, 192, 193, 254, 255];
    for location in edges {
        for rule in RULES {
            for cells in [240, (location + 1).saturating_sub(REGISTERS)] {
                let mut straight = Straight::default();
                let register = register_of(&mut straight, location);
                straight.observe(rule, register, &[location]);
                push(jobs, &straight, cells);
            }
        }
    }
    for [one, two] in [[0, 255], [15, 16], [63, 64], [127, 128], [191, 192], [64, 191]] {
        for rule in RULES {
            let mut straight = Straight::default();
            let first = register_of(&mut straight, one);
            straight.quiet(assign(13, &[r(first)]));
            let second = register_of(&mut straight, two);
            straight.quiet(assign(12, &[r(13), r(second), ADD]));
            straight.observe(rule, 12, &[one, two]);
            straight.observe(Rule::Load, second, &[two]);
            push(jobs, &straight, 240);
        }
    }
}

/// All locations one by one, ascending, descending and scattered, by all rules in turn: each has another index and label.
/// r14 and r15, which loads change, come first.
fn all_one_by_one(jobs: &mut Vec<FirstJob>) {
    let orders: [fn(usize) -> usize; 3] =
        [|at| at, |at| LOCATIONS - 1 - at, |at| at * 77 % LOCATIONS];
    for (first, order) in orders.into_iter().enumerate() {
        let mut straight = Straight::default();
        let others = (0..LOCATIONS).map(order).filter(|location| ![14, 15].contains(location));
        for (number, location) in [15, 14].into_iter().chain(others).enumerate() {
            let register = register_of(&mut straight, location);
            straight.observe(RULES[(first + number) % 4], register, &[location]);
        }
        push(jobs, &straight, 240);
    }
}

/// All locations by one observation; and some of them by an earlier one, so that the later one brings in the others.
fn all_at_once(jobs: &mut Vec<FirstJob>) {
    for rule in RULES {
        for early in [None, Some(1), Some(16), Some(63), Some(64), Some(65), Some(200), Some(255)] {
            let mut straight = Straight::default();
            for location in 0..LOCATIONS {
                if early == Some(location) {
                    straight.observe(Rule::Store, 0, &(0..location).collect::<Vec<_>>());
                }
                let register = register_of(&mut straight, location);
                if location > 0 {
                    straight.quiet(assign(0, &[r(0), r(register), ADD]));
                }
            }
            straight.observe(rule, 0, &(0..LOCATIONS).collect::<Vec<_>>());
            push(jobs, &straight, 240);
        }
    }
}

/// r1 is observed on a wrong path and again after the rollback; or, with a window of 0, only there. The branch is on
/// r0, which is 0; or r0 is not 0, and the wrong path begins at the label.
fn wrong_paths(jobs: &mut Vec<FirstJob>) {
    for (wrong, right) in RULES.into_iter().flat_map(|wrong| RULES.map(|right| (wrong, right))) {
        for window in 0..=4 {
            let program = vec![beqz(0, 3), see(wrong, 1, 1), skip(), see(right, 1, 3)];
            let seen = if window == 0 { (1, 4, right, 3) } else { (1, 2, wrong, 1) };
            push_known(jobs, program, window, &[0], &[(0, 0, Rule::Branch, 0), seen]);
            let program = vec![beqz(0, 3), skip(), see(right, 1, 2), see(wrong, 1, 3)];
            let seen = if window == 0 { (1, 4, right, 2) } else { (1, 2, wrong, 3) };
            push_known(jobs, program, window, &[1], &[(0, 0, Rule::Branch, 0), seen]);
        }
    }
}

/// So many skips before r1 is observed on a wrong path: the window reaches it, or it is observed after the rollback.
/// A location that only a wrong path shows, r2, is reported too, or not in D.
fn wrong_paths_by_window(jobs: &mut Vec<FirstJob>) {
    for skips in 0..=5 {
        for rule in [Rule::Jump, Rule::Load, Rule::Store] {
            for window in 0..=8 {
                let label = skips as u64 + 1;
                let mut program = vec![beqz(0, skips as u16 + 3)];
                program.extend(vec![skip(); skips]);
                program.push(see(rule, 1, skips + 1));
                program.push(see(rule, 2, skips + 2));
                program.push(see(Rule::Load, 1, skips + 3));
                let mut known = vec![(0, 0, Rule::Branch, 0)];
                known.push(match u64::from(window) >= label {
                    true => (1, 2, rule, label),
                    false => (1, 4, Rule::Load, label + 2),
                });
                if u64::from(window) > label {
                    known.push((2, 3, rule, label + 1));
                }
                push_known(jobs, program, window, &[0], &known);
            }
        }
    }
}

/// A branch inside a wrong path: r2 and r3 on its wrong path, r4 on the outer one, r5 behind both. The windows decide
/// which of them are reached before a rollback.
fn nested_branches(jobs: &mut Vec<FirstJob>) {
    let [see_2, see_4, see_5] = [(2, 2), (4, 5), (5, 6)].map(|(at, to)| see(Rule::Load, at, to));
    let see_3 = see(Rule::Store, 3, 3);
    let program = vec![beqz(0, 6), beqz(1, 5), see_2, see_3, skip(), see_4, see_5];
    let outer = (0, 0, Rule::Branch, 0);
    let inner = (1, 2, Rule::Branch, 1);
    let two = (2, 4, Rule::Load, 2);
    let three = (3, 5, Rule::Store, 3);
    let four = |index| (4, index, Rule::Load, 5);
    let five = |index| (5, index, Rule::Load, 6);
    let mut push = |window, known: &[_]| {
        push_known(jobs, program.clone(), window, &[0, 0], known);
    };
    push(0, &[outer, five(4)]);
    push(1, &[outer, inner, five(8)]);
    push(2, &[outer, inner, two, four(7), five(10)]);
    push(3, &[outer, inner, two, three, four(8), five(9)]);
    push(4, &[outer, inner, two, three, four(8), five(9)]);
    for window in [5, 6] {
        push(window, &[outer, inner, two, three, four(6), five(if window == 5 { 10 } else { 7 })]);
    }
    push(200, &[outer, inner, two, three, four(6), five(7)]);
}

/// A branch back to itself opens w + 1 branches; two are rolled back, or the one there is, before r1 is observed.
fn branches_back(jobs: &mut Vec<FirstJob>) {
    for window in [0, 1, 2, 3, 10, 126, 127, 128, 199, 200] {
        for rule in [Rule::Jump, Rule::Load, Rule::Store] {
            let opened = u64::from(window) + 1;
            let known = [(0, 0, Rule::Branch, 0), (1, 2 * opened + 2 * opened.min(2), rule, 1)];
            push_known(jobs, vec![beqz(0, 0), see(rule, 1, 1)], window, &[1], &known);
        }
    }
}

/// Sets that a rollback restores, a barrier, a second branch after the rollback of the first, a branch whose location a
/// wrong path has shown.
fn after_rollbacks(jobs: &mut Vec<FirstJob>) {
    let (branch, loaded) = (Rule::Branch, Rule::Load);
    let seen = |register, label| see(Rule::Load, register, label);
    // r1 holds cell 7 on the wrong path, and its own word after it.
    let program = vec![beqz(0, 3), load(1, &[c(7)]), seen(1, 2), seen(1, 3)];
    let known = [(0, 0, branch, 0), (1, 7, loaded, 3), (23, 3, loaded, 2)];
    push_known(jobs, program, 5, &[0], &known);
    // The barrier ends the wrong path before r2.
    let program = vec![beqz(0, 4), seen(1, 1), spbarr(), seen(2, 3), seen(2, 4)];
    let known = [(0, 0, branch, 0), (1, 2, loaded, 1), (2, 5, loaded, 4)];
    push_known(jobs, program, 9, &[0], &known);
    // Two branches one after the other.
    let program = vec![beqz(0, 2), seen(1, 1), beqz(2, 4), seen(3, 3), skip()];
    let known = [(0, 0, branch, 0), (1, 2, loaded, 1), (2, 5, branch, 2), (3, 7, loaded, 3)];
    push_known(jobs, program, 1, &[0, WORD, 0], &known);
    // The register of the second branch was observed on the wrong path of the first. Its own wrong path, at label 0, opens
    // a third, and both are rolled back before r2.
    let program = vec![beqz(0, 2), seen(1, 1), beqz(1, 0), seen(2, 3)];
    let known = [(0, 0, branch, 0), (1, 2, loaded, 1), (2, 13, loaded, 3)];
    push_known(jobs, program, 1, &[0], &known);
}

/// 64 stores, then branches on r0 in one another, then a store at r2 and r3. The run stops there if the window reaches
/// it; r2 may be known from a load before. Else the branches are rolled back and the store is passed over.
fn stopping_job(known: bool, branches: usize, window: u16) -> FirstJob {
    let stores = (0..64).map(|number| store(9, &[c(WORD + 1 + number)]));
    let mut program: Vec<Instruction> = known.then(|| see(Rule::Load, 2, 0)).into_iter().collect();
    program.extend(stores);
    let (first, end) = (program.len() as u64, program.len() + branches + 1);
    program.extend(vec![beqz(0, end as u16); branches]);
    program.extend([store(9, &[r(2), r(3), ADD]), skip()]);
    let mut parts = Parts { window, ..job_of(program, 4) };
    parts.state[0] = 0;
    let report = |location, index, rule, label| Report { location, index, rule, label };
    let stopped = |location| {
        report(location, first + 2 * branches as u64, Rule::Store, first + branches as u64)
    };
    let reached = usize::from(window) >= branches;
    let mut reports = Vec::new();
    reports.extend((branches > 0).then(|| report(0, first, Rule::Branch, first)));
    reports.extend(match known {
        true => Some(report(2, 0, Rule::Load, 0)),
        false => reached.then(|| stopped(2)),
    });
    reports.extend(reached.then(|| stopped(3)));
    FirstJob { parts, lengths: ROOMY, reports }
}

fn stopping_stores(jobs: &mut Vec<FirstJob>) {
    for known in [false, true] {
        for branches in [0, 1, 2, 3] {
            for window in [0, 1, 2, 3, 4, 200] {
                jobs.push(stopping_job(known, branches, window));
            }
        }
    }
}

/// With no budget or no room for the stopping store it brings nothing in.
fn stops_beside_the_stopping_store(jobs: &mut Vec<FirstJob>) {
    for branches in [0, 1, 2] {
        let whole = stopping_job(false, branches, 200);
        let (steps, observations) = (64 + branches, 64 + 2 * branches);
        for budget in steps - 1..=steps + 2 {
            for trace in 2 * observations - 1..=2 * observations + 3 {
                let made = budget > steps && trace / 2 > observations;
                let mut job = whole.clone();
                job.parts.budget = budget as u32;
                job.lengths = Lengths { trace, second_trace: trace, ..ROOMY };
                let branched = budget + 1 > steps && trace / 2 >= observations;
                job.reports.retain(|report| match report.location {
                    0 => branches > 1 || branched,
                    _ => made,
                });
                jobs.push(job);
            }
        }
    }
}

/// Each budget and each length of the trace area up to the whole run's and beyond, for all pairs of rules.
fn cuts(jobs: &mut Vec<FirstJob>) {
    for (one, two) in RULES.into_iter().flat_map(|one| RULES.map(|two| (one, two))) {
        let mut straight = Straight::default();
        straight.skips(1);
        straight.observe(one, 1, &[1]);
        straight.observe(two, 2, &[2]);
        for budget in 0..=straight.steps + 1 {
            for trace in 0..=2 * straight.observations as usize + 2 {
                let lengths = Lengths { trace, second_trace: trace, ..ROOMY };
                let parts = Parts { budget, ..job_of(straight.program.clone(), 0) };
                let reports = straight.reports_cut(budget, lengths);
                jobs.push(FirstJob { parts, lengths, reports });
            }
        }
    }
}

/// A refusal leaves all words of the answer as they were: a file for each, and areas that are too short for a job
/// with all locations in D.
fn refused(cases: &mut Cases) {
    let second = vec![1; 160];
    for file in file_of_each_refusal() {
        cases.push(raw_case(file, second.clone(), ROOMY));
    }
    let mut all = Vec::new();
    all_one_by_one(&mut all);
    for job in all {
        for (end, work) in [(384, 4_096), (385, 4_095), (0, 4_096), (385, 0)] {
            cases.push(case_of(&job.parts, Lengths { end, work, ..ROOMY }));
        }
    }
}
