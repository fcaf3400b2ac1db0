//! Fixed cases of tables of window costs (request F-7). Those of runs come with every step that must be made: each kind of
//! instruction dear and all others cheap, and the reverse, with windows that end at, one above and one below each
//! instruction; each entry from 1 to 16 for each kind; one instruction of each kind in many orders; barriers, whose entry
//! has no effect; what is done with nothing open; outermost branches, which cost nothing, with the smallest windows;
//! branches up to three deep, with and without a barrier in the innermost; branches back to themselves; windows that are
//! lowered to 0 and not below; budgets and trace areas that end around each step. Then: jobs that leak by one table and
//! not by another; tables of every length around eight, and with every byte at each place; which refusal comes first.

use crate::calls::Lengths;
use crate::cases::Case;
use crate::cost_tables::{one_apart, BARRIER, BRANCH, KINDS, MOST_COST, ONES};
use crate::examples::{barrier, nested, printed, r0_zero, seldom};
use crate::fixed::{case_of, file_of_each_refusal, raw_case, Cases, ROOMY};
use crate::job_file::{
    assign, beqz, conditional, jmp, load, skip, spbarr, store, Instruction, Parts, Token, ADD,
};

const START: u64 = 0;
const ROLLBACK: u64 = 1;
const PC: u64 = 2;
const LOAD: u64 = 3;
const STORE: u64 = 4;

/// A kind by its byte.
const SET: usize = 1;
const LOADING: usize = 2;
const JUMP: usize = 4;
const CELLS: usize = 4;

/// What a step observes, each with its kind and value.
pub type Step = Vec<(u64, u64)>;

/// A job and a table, with every step that its run must make, and its stop.
#[derive(Clone)]
pub struct CostJob {
    pub parts: Parts,
    pub costs: [u8; KINDS],
    pub lengths: Lengths,
    pub steps: Vec<Step>,
    pub stop: u64,
}

pub fn add(cases: &mut Cases) {
    cases.extend(jobs().iter().map(CostJob::case));
    cases.extend(leaks().iter().map(|leak| with_table(case_of(&leak.parts, ROOMY), &leak.costs)));
    table_lengths(cases);
    table_bytes(cases);
    first_refusal(cases);
}

/// Makes the jobs of a group.
pub type Group = fn(&mut Vec<CostJob>);

/// The groups of jobs with their names, in the order of the cases.
pub const GROUPS: [(&str, Group); 10] = [
    ("one kind apart", one_kind_apart),
    ("every entry", every_entry),
    ("a kind after the other", a_kind_after_the_other),
    ("barriers", barriers),
    ("nothing open", nothing_open),
    ("outermost branches", outermost_branches),
    ("nested branches", nested_branches),
    ("branches back", branches_back),
    ("not below 0", not_below_0),
    ("cuts", cuts),
];

pub fn jobs() -> Vec<CostJob> {
    let mut jobs = Vec::new();
    for (_, group) in GROUPS {
        group(&mut jobs);
    }
    jobs
}

impl CostJob {
    pub fn trace(&self) -> Step {
        self.steps.concat()
    }

    pub fn case(&self) -> Case {
        with_table(case_of(&self.parts, self.lengths), &self.costs)
    }
}

fn with_table(case: Case, costs: &[u8]) -> Case {
    Case { costs: costs.to_vec(), ..case }
}

fn r(register: u8) -> Token {
    Token::Register(register)
}

fn c(value: u64) -> Token {
    Token::Constant(value)
}

/// A job whose r0 is 0; all other locations hold 1.
fn push(
    jobs: &mut Vec<CostJob>,
    program: Vec<Instruction>,
    window: u16,
    costs: [u8; KINDS],
    steps: Vec<Step>,
) {
    let mut parts = Parts::new(program, CELLS, window, 1_400);
    parts.state[1..].fill(1);
    jobs.push(CostJob { parts, costs, lengths: ROOMY, steps, stop: 0 });
}

/// An instruction of a kind other than a branch that goes on with the next label, in one of two forms: inside memory or
/// not, a condition that holds or not. With it, what is observed.
fn of_kind(kind: usize, form: usize, label: usize) -> (Instruction, Step) {
    let next = label as u64 + 1;
    match (kind, form % 2) {
        (0, _) => (skip(), vec![]),
        (SET, 0) => (assign(1, &[c(9)]), vec![]),
        (SET, _) => (assign(1, &[r(1), r(2), ADD]), vec![]),
        (LOADING, 0) => (load(1, &[c(2)]), vec![(LOAD, 2)]),
        (LOADING, _) => (load(1, &[c(600)]), vec![(LOAD, 600)]),
        (3, 0) => (store(2, &[c(3)]), vec![(STORE, 3)]),
        (3, _) => (store(2, &[c(700)]), vec![(STORE, 700)]),
        (JUMP, 0) => (jmp(&[c(next)]), vec![(PC, next)]),
        (JUMP, _) => (jmp(&[c(next), r(0), ADD]), vec![(PC, next)]),
        (6, 0) => (conditional(1, &[r(0)], &[c(4)]), vec![]),
        (6, _) => (conditional(1, &[c(1)], &[r(2)]), vec![]),
        _ => (spbarr(), vec![]),
    }
}

/// How many of these kinds are carried out one after the other in a window: each one that the costs of those before it
/// leave something to. A barrier leaves nothing.
fn reached(kinds: &[usize], costs: [u8; KINDS], window: u16) -> usize {
    let mut spent = 0;
    let carried_out = |kind: &&usize| {
        let left = spent < window;
        spent += if **kind == BARRIER { window } else { u16::from(costs[**kind]) };
        left
    };
    kinds.iter().take_while(carried_out).count()
}

/// Instructions with nothing open, then a branch on r0 to the end, whose wrong path has these kinds, and behind them a
/// load that shows whether it is reached.
fn push_path(
    jobs: &mut Vec<CostJob>,
    before: &[usize],
    path: &[usize],
    form: usize,
    costs: [u8; KINDS],
    window: u16,
) {
    let first = before.len() + 1;
    let end = first + path.len() + 1;
    let (mut program, mut steps) = (Vec::new(), Vec::new());
    for (label, &kind) in before.iter().enumerate() {
        let (instruction, observed) = of_kind(kind, form + label, label);
        program.push(instruction);
        steps.push(observed);
    }
    program.push(beqz(0, end as u16));
    steps.push(vec![(START, 0), (PC, first as u64)]);
    let kinds = [path, &[LOADING]].concat();
    let carried_out = reached(&kinds, costs, window);
    for (number, &kind) in path.iter().enumerate() {
        let (instruction, observed) = of_kind(kind, form + number, first + number);
        program.push(instruction);
        steps.extend((number < carried_out).then_some(observed));
    }
    program.push(load(3, &[c(77)]));
    steps.extend((kinds.len() == carried_out).then(|| vec![(LOAD, 77)]));
    steps.push(vec![(ROLLBACK, 0), (PC, end as u64)]);
    push(jobs, program, window, costs, steps);
}

/// Windows at, one above and one below each multiple of a cost up to the number of times.
fn around(cost: u8, times: u16) -> Vec<u16> {
    let multiple = |at: u16| at * u16::from(cost);
    let mut windows: Vec<u16> =
        (0..=times).flat_map(|at| multiple(at).saturating_sub(1)..=multiple(at) + 1).collect();
    windows.dedup();
    windows.retain(|&window| window <= 200);
    windows
}

/// All kinds but the branch, which opens another window.
fn other_kinds() -> impl Iterator<Item = usize> {
    (0..KINDS).filter(|&kind| kind != BRANCH)
}

/// Three instructions of a kind that costs 16 where all others cost 1, and the reverse; for branches, three in one another.
fn one_kind_apart(jobs: &mut Vec<CostJob>) {
    for (cost, others) in [(MOST_COST, 1), (1, MOST_COST), (3, 1), (1, 3)] {
        for window in around(cost, 3) {
            for kind in other_kinds() {
                let costs = one_apart(kind, cost, others);
                push_path(jobs, &[], &[kind; 3], 0, costs, window);
                push_path(jobs, &[], &[kind; 3], 1, costs, window);
            }
            push_nested(jobs, 3, false, one_apart(BRANCH, cost, others), window);
        }
    }
}

/// Each number from 1 to 16 for each kind, beside another one for all other kinds.
fn every_entry(jobs: &mut Vec<CostJob>) {
    for kind in other_kinds() {
        for cost in 1..=MOST_COST {
            for window in around(cost, 2) {
                let costs = one_apart(kind, cost, MOST_COST + 1 - cost);
                push_path(jobs, &[], &[kind; 2], usize::from(cost), costs, window);
            }
        }
    }
}

/// Tables whose entries all differ.
const DIFFERING: [[u8; KINDS]; 3] =
    [[1, 2, 4, 8, 16, 3, 5, 7], [8, 7, 6, 5, 4, 3, 2, 1], [3, 14, 9, 1, 12, 16, 6, 2]];

/// One instruction of each kind but branch and barrier, in six orders, and every window up to the whole cost and beyond.
fn a_kind_after_the_other(jobs: &mut Vec<CostJob>) {
    let mut kinds = [0, SET, LOADING, 3, JUMP, 6];
    for turn in 0..kinds.len() {
        kinds.rotate_left(1);
        for costs in DIFFERING {
            let whole: u16 = kinds.iter().map(|&kind| u16::from(costs[kind])).sum();
            for window in 0..=whole + 2 {
                push_path(jobs, &[], &kinds, turn, costs, window);
            }
        }
    }
}

/// A barrier first, in the middle and last, with each entry of its own.
fn barriers(jobs: &mut Vec<CostJob>) {
    for entry in 1..=MOST_COST {
        for path in [&[BARRIER, 0, 0][..], &[0, BARRIER, SET], &[SET, LOADING, BARRIER]] {
            for window in [0, 1, 2, 3, 4, 5, 15, 16, 17, 18, 19, 20, 199, 200] {
                push_path(jobs, &[], path, 0, one_apart(BARRIER, entry, 1), window);
                push_path(jobs, &[], path, 0, one_apart(BARRIER, entry, 4), window);
            }
        }
    }
}

/// With nothing open each kind is carried out whatever it costs, and the branch behind them has its whole window.
fn nothing_open(jobs: &mut Vec<CostJob>) {
    let all: Vec<usize> = other_kinds().collect();
    for costs in [ONES, [MOST_COST; KINDS]].into_iter().chain(DIFFERING) {
        for before in all.iter().map(std::slice::from_ref).chain([&all[..], &[JUMP; 40]]) {
            for window in [0, 1, 2, 16, 17, 32, 33] {
                push_path(jobs, before, &[0, SET], 0, costs, window);
            }
        }
    }
}

/// Two branches one after the other, with nothing open before each: the first load of their wrong paths uses up the
/// window. The window is 0 or 1 and every branch costs up to 16.
fn outermost_branches(jobs: &mut Vec<CostJob>) {
    let program =
        vec![beqz(0, 2), load(1, &[c(61)]), beqz(0, 4), load(1, &[c(62)]), load(1, &[c(63)])];
    for cost in 1..=MOST_COST {
        for others in [1, MOST_COST] {
            for window in [0, 1] {
                let mut steps = Vec::new();
                for (id, address) in [(0, 61), (1, 62)] {
                    steps.push(vec![(START, id), (PC, 2 * id + 1)]);
                    steps.extend((window == 1).then(|| vec![(LOAD, address)]));
                    steps.push(vec![(ROLLBACK, id), (PC, 2 * id + 2)]);
                }
                steps.push(vec![(LOAD, 63)]);
                let costs = one_apart(BRANCH, cost, others);
                push(jobs, program.clone(), window, costs, steps);
            }
        }
    }
}

/// What is left of the window at the opening of each of so many branches in one another. Only those are opened for which
/// the one before has something left.
fn windows_of(branches: usize, cost: u8, window: u16) -> Vec<u16> {
    let at = |number: usize| window.saturating_sub(number as u16 * u16::from(cost));
    (0..branches).filter(|&number| number == 0 || at(number - 1) > 0).map(at).collect()
}

/// So many branches in one another, all to the label behind the next instruction, a load or a barrier; then ten loads.
/// When a branch is rolled back the one below it goes on there with what it had left at the opening of that branch.
fn push_nested(
    jobs: &mut Vec<CostJob>,
    branches: usize,
    with_barrier: bool,
    costs: [u8; KINDS],
    window: u16,
) {
    let (target, loads) = (branches as u64 + 1, 10);
    let innermost = if with_barrier { BARRIER } else { LOADING };
    let mut program = vec![beqz(0, target as u16); branches];
    program.push(if with_barrier { spbarr() } else { load(1, &[c(80)]) });
    program.extend((1..=loads).map(|number| load(1, &[c(80 + number as u64)])));
    let kinds = [vec![innermost], vec![LOADING; loads]].concat();
    let step = |at: usize| match kinds[at] {
        BARRIER => vec![],
        _ => vec![(LOAD, 80 + at as u64)],
    };
    let windows = windows_of(branches, costs[BRANCH], window);
    let mut steps: Vec<Step> = Vec::new();
    steps.extend((0..windows.len() as u64).map(|id| vec![(START, id), (PC, id + 1)]));
    let left = windows[windows.len() - 1];
    steps.extend((0..reached(&kinds, costs, left)).map(step));
    for (id, &left) in windows.iter().enumerate().rev() {
        steps.push(vec![(ROLLBACK, id as u64), (PC, target)]);
        let more = if id == 0 { loads } else { reached(&kinds[1..], costs, left) };
        steps.extend((1..=more).map(step));
    }
    push(jobs, program, window, costs, steps);
}

/// One to three deep, with each entry of the branch, loads that cost 1, 5 or 16, and windows that end at, above and below
/// each branch and at the loads behind it.
fn nested_branches(jobs: &mut Vec<CostJob>) {
    for cost in 1..=MOST_COST {
        let mut windows = around(cost, 3);
        let deep = 2 * u16::from(cost);
        windows.extend([4, 6, 11, 16, 17, 33].map(|more| deep + more));
        for &window in &windows {
            for (branches, of_load) in [(1, 1), (2, 1), (3, 1), (2, 5), (3, 5), (3, 16)] {
                let mut costs = one_apart(BRANCH, cost, 2);
                costs[LOADING] = of_load;
                push_nested(jobs, branches, false, costs, window);
                push_nested(jobs, branches, true, costs, window);
            }
        }
    }
}

/// A branch back to itself on r1, which is not 0, and behind it a load. Each opening lowers the window; after each
/// rollback the branch below goes on with the load, if it has something left.
fn branches_back(jobs: &mut Vec<CostJob>) {
    for cost in 1..=MOST_COST {
        for window in [0, 1, 2, 15, 16, 17, 47, 48, 49, 127, 128, 199, 200] {
            let windows = windows_of(usize::from(window) + 1, cost, window);
            let opened = windows.len() as u64;
            let mut steps: Vec<Step> = (0..opened).map(|id| vec![(START, id), (PC, 0)]).collect();
            for (id, &left) in windows.iter().enumerate().rev() {
                steps.push(vec![(ROLLBACK, id as u64), (PC, 1)]);
                steps.extend((id == 0 || left > 0).then(|| vec![(LOAD, 77)]));
            }
            let program = vec![beqz(1, 0), load(3, &[c(77)])];
            push(jobs, program, window, one_apart(BRANCH, cost, 1), steps);
        }
    }
}

/// A window that is less than the cost of the first instruction, which is carried out all the same, and then nothing.
fn not_below_0(jobs: &mut Vec<CostJob>) {
    for window in 1..MOST_COST {
        for kind in other_kinds() {
            push_path(jobs, &[], &[kind; 5], 1, [MOST_COST; KINDS], u16::from(window));
        }
        for branches in [2, 3] {
            push_nested(jobs, branches, false, [MOST_COST; KINDS], u16::from(window));
        }
    }
}

/// Each budget and each length of the trace area up to the whole run's and beyond.
fn cuts(jobs: &mut Vec<CostJob>) {
    let mut whole = Vec::new();
    push_nested(&mut whole, 3, false, one_apart(BRANCH, 4, 3), 14);
    push_path(&mut whole, &[JUMP], &[LOADING, 0, JUMP, SET], 0, DIFFERING[1], 12);
    for job in whole {
        for budget in 0..=job.steps.len() + 1 {
            jobs.push(cut(&job, budget, ROOMY.trace));
        }
        for trace in 0..=2 * job.trace().len() + 2 {
            jobs.push(cut(&job, job.steps.len(), trace));
        }
    }
}

/// The job with this budget in trace areas of this length. A step is made if there is a budget for it and room for all
/// its observations.
fn cut(job: &CostJob, budget: usize, trace: usize) -> CostJob {
    let mut cut = job.clone();
    cut.parts.budget = budget as u32;
    cut.lengths = Lengths { trace, second_trace: trace, ..ROOMY };
    let mut room = trace / 2;
    let fits = |step: &&Step| {
        let fits = step.len() <= room;
        room = room.saturating_sub(step.len());
        fits
    };
    let with_room = job.steps.iter().take_while(fits).count();
    cut.steps.truncate(with_room.min(budget));
    cut.stop = match cut.steps.len() {
        made if made == job.steps.len() => 0,
        made if made == budget => 1,
        _ => 2,
    };
    cut
}

/// A job with a table, and what is known of it: the verdict, and the word of the pair with a state that differs in all
/// cells, by their numbers.
pub struct Leak {
    pub parts: Parts,
    pub costs: [u8; KINDS],
    pub verdict: u64,
    pub word: u64,
}

const CLEAN: u64 = 1;
const SPECULATIVE: u64 = 2;
const LEAK_SHOWN: u64 = 3;
const EQUAL: u64 = 4;

/// The second load of the printed job shows m1 if the first leaves something of the window 10. In the job with a jump that
/// depends on m1 a load and an assignment come before it.
pub fn leaks() -> Vec<Leak> {
    let mut leaks = Vec::new();
    let mut push = |parts: &Parts, costs, leaks_out: bool| {
        let (verdict, word) = if leaks_out { (SPECULATIVE, LEAK_SHOWN) } else { (CLEAN, EQUAL) };
        leaks.push(Leak { parts: parts.clone(), costs, verdict, word });
    };
    let mut jumping = seldom();
    jumping.state[17] = 5;
    for cost in 1..=MOST_COST {
        push(&printed(), one_apart(LOADING, cost, 1), cost < 10);
        push(&printed(), one_apart(LOADING, cost, MOST_COST), cost < 10);
        push(&printed(), one_apart(LOADING, 1, cost), true);
        push(&barrier(), one_apart(BARRIER, cost, 1), false);
        push(&nested(), one_apart(BRANCH, cost, 1), false);
        push(&jumping, one_apart(LOADING, cost, 1), cost < 9);
        push(&jumping, one_apart(SET, cost, 1), cost < 9);
        push(&jumping, one_apart(JUMP, cost, 1), true);
    }
    leaks
}

/// Tables of other lengths than eight: too short, too long, and such that a byte or four bits of the length are eight.
fn table_lengths(cases: &mut Cases) {
    for length in (0..=9).chain([10, 15, 16, 17, 24, 40, 255, 256, 257, 264, 65_536, 65_544]) {
        for entry in [1, 2, MOST_COST] {
            cases.push(with_table(case_of(&printed(), ROOMY), &vec![entry; length]));
        }
    }
    // Eight that fit and a ninth that does not; seven that fit, and the eighth not there.
    for more in [0, 17, 255] {
        cases.push(with_table(case_of(&printed(), ROOMY), &[&ONES[..], &[more]].concat()));
        cases.push(with_table(case_of(&printed(), ROOMY), &[&[more], &ONES[..]].concat()));
    }
}

/// Every byte at each of the eight places, the others 1; and those around the limits where the others are 16.
fn table_bytes(cases: &mut Cases) {
    for kind in 0..KINDS {
        for byte in 0..=255 {
            cases.push(with_table(case_of(&printed(), ROOMY), &one_apart(kind, byte, 1)));
        }
        for byte in [0, 1, 15, 16, 17, 32, 128, 255] {
            cases.push(with_table(case_of(&r0_zero(), ROOMY), &one_apart(kind, byte, 16)));
        }
    }
}

/// Each refusal of a file, tables that fit and do not, second states of other lengths, unfit areas, the seed 0 and too few
/// bytes for the new state, in every combination.
fn first_refusal(cases: &mut Cases) {
    let tables = [ONES.to_vec(), vec![1; 7], vec![1; 9], vec![0; 8], one_apart(3, 17, 1).to_vec()];
    let areas =
        [(4_096, 149, 40), (4_095, 149, 40), (4_096, 148, 40), (4_096, 149, 41), (0, 0, 39)];
    for job in file_of_each_refusal() {
        for costs in &tables {
            for second in [159, 160, 161] {
                for (work, end, second_trace) in areas {
                    for (load_seed, state) in [(0, 159), (0, 160), (1, 159), (1, 160)] {
                        let lengths = Lengths { trace: 40, second_trace, end, work, state };
                        let case = raw_case(job.clone(), vec![0; second], lengths);
                        cases.push(Case { load_seed, costs: costs.clone(), ..case });
                    }
                }
            }
        }
    }
}
