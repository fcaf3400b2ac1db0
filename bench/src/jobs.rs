//! The jobs that are measured, each with its table of window costs.

use checker_tests::cost_tables::{KINDS, ONES};
use checker_tests::examples::{barrier, nested, printed, r0_zero, seldom};
use checker_tests::job_file::{
    assign, beqz, conditional, jmp, load, skip, spbarr, store, Instruction, Parts, Token, ADD, AND,
    MUL, NOT, SHL, SHR, SUB, XOR,
};

/// Jobs that are run one after the other with one table, so many times in one round. Rounds are short, so that some
/// of them are not interrupted by other programs.
pub struct Workload {
    pub name: String,
    pub jobs: Vec<Vec<u8>>,
    pub costs: [u8; KINDS],
    pub repeats: usize,
}

/// Steps of a long job: enough to make the reading of the job small beside the run, and few enough
/// for the trace to stay in the processor's caches.
pub const STEPS: u32 = 20_000;

const CELLS: usize = 128;

/// A table other than eight ones; the entries of neighbouring kinds differ.
const MEASURED: [u8; KINDS] = [2, 3, 1, 2, 1, 3, 4, 1];

/// The bits of a register that are one of 64 addresses outside memory, if the topmost of them is set.
const OUTSIDE: u64 = 1 << 32 | 63;

pub fn workloads() -> Vec<Workload> {
    let mut all = vec![
        one("deep nesting, w 200, branches only", nesting(branches_only(), 200)),
        one("deep nesting, w 200, with changes", nesting(branches_and_changes(), 200)),
        with_table(
            "deep nesting, w 200, with changes, costs 2 3 1 2 1 3 4 1",
            nesting(branches_and_changes(), 200),
            MEASURED,
        ),
        one("deep nesting, w 200, m 240", with_cells(nesting(branches_and_changes(), 200), 240)),
        one(
            "deep nesting, w 200, 64 addresses outside",
            pointing_outside(nesting(branches_outside(), 200)),
        ),
        one("loads and stores, nothing open", spent_job(loads_and_stores())),
        one(
            "loads and stores outside, nothing open",
            pointing_outside(spent_job(loads_and_stores_outside())),
        ),
        one("long expressions, operand by operand", spent_job(long_chains())),
        one("long expressions, eight values held", spent_job(long_stacks())),
    ];
    // The optimised implementation has sets of as many words as the cells need: here one, then three.
    for cells in [16, 128] {
        for (name, parts) in by_kind() {
            all.push(one(&format!("{name}, m {cells}"), with_cells(parts, cells)));
        }
    }
    all.push(short_jobs());
    all
}

/// Jobs that are mostly of one kind of instruction, or of one rule.
fn by_kind() -> Vec<(&'static str, Parts)> {
    vec![
        ("one branch, then 200 changes", nesting(branch_and_changes(), 200)),
        ("a branch every 10th instruction", nesting(changes_and_branch(9), 200)),
        ("a branch every 200th instruction", nesting(changes_and_branch(199), 200)),
        ("conditional assignment, condition of 1 token", conditionals(&[r(1)], &[r(0)])),
        (
            "conditional assignment, condition of 5 tokens",
            conditionals(&[r(1), r(2), ADD, r(3), MUL], &[r(1), r(1), SUB, r(0), AND]),
        ),
        ("shifts by 1 to 106", spent_job(shifts())),
        ("jump of a register", zero_first(vec![jmp(&[r(0)])])),
        ("jump of a constant", spent_job(vec![jmp(&[c(0)])])),
        ("skip", spent_job(skips())),
        (
            "spbarr, skip and jmp in turn, nothing open",
            spent_job(vec![spbarr(), skip(), jmp(&[c(0)])]),
        ),
    ]
}

fn one(name: &str, parts: Parts) -> Workload {
    with_table(name, parts, ONES)
}

fn with_table(name: &str, parts: Parts, costs: [u8; KINDS]) -> Workload {
    Workload { name: name.to_string(), jobs: vec![parts.bytes()], costs, repeats: 1 }
}

/// A job that runs until its budget is spent, with small numbers in all registers.
pub fn spent_job(program: Vec<Instruction>) -> Parts {
    let mut parts = Parts::new(program, CELLS, 0, STEPS);
    for (location, word) in parts.state.iter_mut().enumerate() {
        *word = location as u64 * 7 + 1;
    }
    parts
}

fn r(register: u8) -> Token {
    Token::Register(register)
}

fn c(value: u64) -> Token {
    Token::Constant(value)
}

/// r0 is not 0, so each branch back to 0 is wrong and opens another inside.
pub fn nesting(program: Vec<Instruction>, window: u16) -> Parts {
    Parts { window, ..spent_job(program) }
}

fn with_cells(mut parts: Parts, cells: usize) -> Parts {
    parts.state.resize(16 + cells, 1);
    parts
}

fn branches_only() -> Vec<Instruction> {
    vec![beqz(0, 0), jmp(&[c(0)])]
}

pub fn branches_and_changes() -> Vec<Instruction> {
    vec![
        assign(2, &[r(2), c(1), ADD]),
        store(2, &[r(2), c(127), AND]),
        load(3, &[r(2), c(63), AND]),
        beqz(0, 0),
        jmp(&[c(0)]),
    ]
}

/// The last 16 of the addresses, then a branch back for each of the others: 48 of these deep there are 64 remembered,
/// and from there on they are replaced.
fn branches_outside() -> Vec<Instruction> {
    let address = [r(2), c(OUTSIDE), AND];
    let mut program: Vec<Instruction> =
        (48..64).map(|number| store(1, &[c(1 << 32 | number)])).collect();
    program.extend([
        store(2, &address),
        load(3, &address),
        assign(2, &[r(2), c(1), ADD]),
        beqz(0, 16),
        jmp(&[c(16)]),
    ]);
    program
}

fn loads_and_stores_outside() -> Vec<Instruction> {
    vec![
        load(1, &[r(2), c(OUTSIDE), AND]),
        store(1, &[r(4), c(OUTSIDE), AND]),
        load(3, &[r(4), c(OUTSIDE), AND]),
        store(2, &[r(2), c(OUTSIDE), AND]),
        assign(2, &[r(2), c(1), ADD]),
        assign(4, &[r(4), c(3), ADD]),
        jmp(&[c(0)]),
    ]
}

/// With r2 and r4 such that their bits are an address outside memory.
fn pointing_outside(mut parts: Parts) -> Parts {
    parts.state[2] = 1 << 32;
    parts.state[4] = 1 << 32;
    parts
}

fn loads_and_stores() -> Vec<Instruction> {
    vec![
        load(1, &[r(0), c(127), AND]),
        store(1, &[r(2), c(127), AND]),
        load(3, &[r(1), c(127), AND]),
        store(0, &[r(3), c(127), AND]),
        assign(0, &[r(0), c(1), ADD]),
        assign(2, &[r(2), c(3), ADD]),
        jmp(&[c(0)]),
    ]
}

/// Sixteen tokens: eight operands, each joined at once.
fn long_chains() -> Vec<Instruction> {
    let chain = |with: [Token; 3]| {
        let mut tokens = vec![r(1), NOT];
        for (register, at) in (2..9).zip(0..) {
            tokens.extend([r(register), with[at % 3]]);
        }
        tokens
    };
    vec![
        assign(9, &chain([ADD, XOR, SUB])),
        assign(10, &chain([MUL, ADD, XOR])),
        assign(11, &chain([XOR, SUB, ADD])),
        jmp(&[c(0)]),
    ]
}

/// Sixteen tokens: eight operands held together, then their operators.
fn long_stacks() -> Vec<Instruction> {
    let stack = |with: [Token; 3]| {
        let mut tokens: Vec<Token> = (1..9).map(r).collect();
        tokens.extend((0..7).map(|at| with[at % 3]));
        tokens.push(NOT);
        tokens
    };
    vec![
        assign(9, &stack([ADD, XOR, SUB])),
        assign(10, &stack([MUL, ADD, XOR])),
        assign(11, &stack([XOR, SUB, ADD])),
        jmp(&[c(0)]),
    ]
}

/// The wrong path of one branch is as long as its window, and each step on it is logged.
fn branch_and_changes() -> Vec<Instruction> {
    let mut program = vec![beqz(0, 2), jmp(&[c(0)])];
    program.extend((0..200).map(|number| assign(2 + number % 14, &[r(2), c(1), ADD])));
    program
}

/// So many changes, then a branch back to the first.
fn changes_and_branch(changes: u8) -> Vec<Instruction> {
    let mut program: Vec<Instruction> =
        (0..changes).map(|number| assign(2 + number % 14, &[r(2), c(1), ADD])).collect();
    program.extend([beqz(0, 0), jmp(&[c(0)])]);
    program
}

/// Three that assign and one that does not: r1 is not 0, and r0 is.
fn conditionals(taken: &[Token], not_taken: &[Token]) -> Parts {
    zero_first(vec![
        conditional(4, taken, &[r(5)]),
        conditional(5, taken, &[c(9)]),
        conditional(6, taken, &[r(4)]),
        conditional(7, not_taken, &[r(4)]),
        jmp(&[c(0)]),
    ])
}

/// Counts on both sides of 64, in a register and as a constant.
fn shifts() -> Vec<Instruction> {
    vec![
        assign(2, &[r(3), r(4), SHL]),
        assign(5, &[r(3), r(15), SHL]),
        assign(6, &[r(3), r(4), SHR]),
        assign(7, &[r(3), c(65), SHR]),
        assign(8, &[r(3), c(1), SHL]),
        jmp(&[c(0)]),
    ]
}

/// With 0 in r0.
fn zero_first(program: Vec<Instruction>) -> Parts {
    let mut parts = spent_job(program);
    parts.state[0] = 0;
    parts
}

/// A loop of skips, so long that its one jump does not count.
fn skips() -> Vec<Instruction> {
    let mut program = vec![skip(); 255];
    program.push(jmp(&[c(0)]));
    program
}

/// Five example jobs, of four to six steps each.
fn short_jobs() -> Workload {
    let jobs = [printed(), barrier(), nested(), r0_zero(), seldom()].map(|parts| parts.bytes());
    let name = "short jobs back to back".to_string();
    Workload { name, jobs: jobs.to_vec(), costs: ONES, repeats: 50 }
}

/// A small job: one instruction, one step, 16 cells.
pub fn small_job() -> Vec<u8> {
    Parts { budget: 1, ..with_cells(spent_job(vec![skip()]), 16) }.bytes()
}
