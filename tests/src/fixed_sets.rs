//! Fixed cases of the sets of expressions: every number of tokens and of values held, observed in
//! every way, from states that hold other words; constants whose bytes look like tokens; values
//! that are 0 whatever the registers hold; each operator in short and in long expressions; the
//! address of a store that stops the run; sets that a rollback restores. Before each expression
//! the registers get sets of their own.

use crate::fixed::{case_of, Cases, ROOMY};
use crate::job_file::{
    assign, beqz, conditional, jmp, load, skip, store, Instruction, Parts, Token, ADD, AND, EQ,
    MUL, NEG, NOT, REGISTERS, SUB, ULT, XOR,
};

const CELLS: usize = 240;
const WINDOW: u16 = 5;
const OR: Token = Token::Operator(23);

/// What a job does with the value of an expression, so that its set joins D.
#[derive(Clone, Copy, PartialEq, Eq, Debug)]
pub enum Way {
    Load,
    Store,
    Jump,
    Condition,
    Assigned,
    Assignment,
    /// The condition of an assignment to r6, which keeps its word where the condition is 0.
    Kept,
    Branch,
    /// A store that may be the 65th outside memory.
    Stop,
}

pub const WAYS: [Way; 6] =
    [Way::Load, Way::Store, Way::Jump, Way::Condition, Way::Assigned, Way::Assignment];

/// A job that observes an expression; on a wrong path first if it has a branch, on this word.
#[derive(Clone)]
pub struct SetJob {
    pub tokens: Vec<Token>,
    pub way: Way,
    pub branch: Option<u64>,
    pub parts: Parts,
}

pub fn add(cases: &mut Cases) {
    cases.extend(jobs().iter().map(|job| case_of(&job.parts, ROOMY)));
}

pub fn jobs() -> Vec<SetJob> {
    let mut jobs = Vec::new();
    counts(&mut jobs);
    operands(&mut jobs);
    observed(&mut jobs, &zeros(), &WAYS);
    observed(&mut jobs, &zeros(), &[Way::Kept, Way::Branch]);
    operators(&mut jobs);
    stopping_stores(&mut jobs);
    wrong_paths(&mut jobs);
    jobs
}

fn r(register: u8) -> Token {
    Token::Register(register)
}

fn c(value: u64) -> Token {
    Token::Constant(value)
}

/// Every word 0, every word all ones, and words that differ, some of them addresses of cells.
pub fn states() -> [Vec<u64>; 3] {
    let words: [fn(u64) -> u64; 3] = [|_| 0, |_| u64::MAX, |location| 37 * location % 257 + 1];
    words.map(|word| (0..(REGISTERS + CELLS) as u64).map(word).collect())
}

/// Gives the registers sets that differ and overlap, and observes no location. From r0 on, in
/// turn: its own set, a cell's, its own and the last cell's, a cell's and the last cell's. In the
/// end r3 has the empty set, and r15 that of a cell alone.
fn preamble() -> Vec<Instruction> {
    let cell = |register: u8| load(register, &[c(15 * u64::from(register))]);
    let join = |register: u8| conditional(register, &[r(15), c(0), AND], &[c(1)]);
    let mut program = vec![load(15, &[c(CELLS as u64 - 1)])];
    for register in 0..15 {
        program.extend((register % 2 == 1).then(|| cell(register)));
        program.extend((register % 4 > 1).then(|| join(register)));
    }
    program.extend([assign(3, &[c(0)]), cell(15)]);
    program
}

/// Instructions that observe the set of an expression alone, with that of r6 if its word is kept.
/// The other expression of a conditional assignment is long, with the empty set, and not 0.
fn observing(way: Way, tokens: &[Token]) -> Vec<Instruction> {
    let other = [r(3), NEG, c(1), OR];
    match way {
        Way::Load => vec![load(5, tokens)],
        Way::Store => vec![store(15, tokens)],
        Way::Jump => vec![jmp(tokens)],
        Way::Condition => vec![conditional(3, tokens, &other), load(5, &[r(3)])],
        Way::Assigned => vec![conditional(7, &other, tokens), load(5, &[r(7)])],
        Way::Assignment => vec![assign(7, tokens), load(5, &[r(7)])],
        Way::Kept => vec![conditional(6, tokens, &[r(13)]), load(5, &[r(6)])],
        Way::Branch => vec![assign(7, tokens), beqz(7, 0)],
        Way::Stop => {
            let addresses = (0..64).map(|number| store(3, &[c(1_000 + number)]));
            addresses.chain([store(15, tokens)]).collect()
        }
    }
}

/// The budget is that of one pass through the program, so that a jump back is the last step.
fn straight(tokens: &[Token], way: Way, state: &[u64]) -> SetJob {
    let program = [preamble(), observing(way, tokens)].concat();
    let budget = program.len() as u32;
    let parts = Parts { state: state.to_vec(), ..Parts::new(program, CELLS, WINDOW, budget) };
    SetJob { tokens: tokens.to_vec(), way, branch: None, parts }
}

fn from_each_state(jobs: &mut Vec<SetJob>, tokens: &[Token], way: Way) {
    jobs.extend(states().iter().map(|state| straight(tokens, way, state)));
}

/// Jobs of these expressions in each of these ways, from words that differ.
fn observed(jobs: &mut Vec<SetJob>, expressions: &[Vec<Token>], ways: &[Way]) {
    let [.., state] = states();
    for tokens in expressions {
        jobs.extend(ways.iter().map(|&way| straight(tokens, way, &state)));
    }
}

/// Constants whose bytes are numbers of registers, of the token of a constant, and of operators.
pub const LIKE_TOKENS: [u64; 5] = [
    u64::from_le_bytes([0, 1, 2, 3, 4, 5, 6, 7]),
    u64::from_le_bytes([8, 9, 10, 11, 12, 13, 14, 15]),
    u64::from_le_bytes([16; 8]),
    u64::from_le_bytes([17, 18, 19, 20, 21, 22, 23, 24]),
    u64::from_le_bytes([28, 27, 26, 25, 24, 23, 22, 21]),
];

/// An expression of so many tokens that holds so many values at most. Its registers are five
/// apart; every fourth operand is a constant; unary operators follow the first or last operand.
fn expression(count: usize, held: usize, first: usize) -> Vec<Token> {
    let mut operands = (0..).map(|number| match number % 4 {
        3 => c(LIKE_TOKENS[(first + number) % LIKE_TOKENS.len()]),
        _ => r(((first + 5 * number) % REGISTERS) as u8),
    });
    let mut operators = (first..).map(|number| Token::Operator(19 + (3 * number % 10) as u8));
    let mut tokens: Vec<Token> = operands.by_ref().take(held).collect();
    if held > 1 {
        for _ in 0..(count + 1 - 2 * held) / 2 {
            tokens.extend(operators.next().into_iter().chain(operands.next()));
        }
    }
    let unary_place = [1, tokens.len()][first % 2];
    tokens.extend(operators.take(held - 1));
    while tokens.len() < count {
        tokens.insert(unary_place, [NEG, NOT][tokens.len() % 2]);
    }
    tokens
}

/// Every number of tokens with every number of values that they can hold.
fn counts(jobs: &mut Vec<SetJob>) {
    let held = |count: usize| (1..=count.div_ceil(2)).map(move |held| (count, held));
    for (first, (count, held)) in (1..=16).flat_map(held).enumerate() {
        let tokens = expression(count, held, first);
        for way in WAYS {
            from_each_state(jobs, &tokens, way);
        }
    }
}

/// Such a constant, the first register, the last one, one with the empty set and one that occurs
/// twice: alone, under unary operators, and as first, middle and last operand.
fn operands(jobs: &mut Vec<SetJob>) {
    for operand in LIKE_TOKENS.map(c).into_iter().chain([0, 15, 3, 2].map(r)) {
        let expressions = [
            vec![operand],
            vec![operand, NEG],
            vec![operand, NOT, NEG],
            vec![operand, operand, ADD],
            vec![operand, r(2), ADD],
            vec![r(2), operand, XOR],
            vec![operand, NEG, r(1), ADD, r(2), XOR],
            vec![r(1), operand, NOT, XOR, r(2), ADD],
            vec![r(1), r(2), ADD, operand, SUB],
        ];
        observed(jobs, &expressions, &[Way::Load, Way::Assigned]);
    }
}

/// Expressions that rest on registers and are 0 whatever these hold.
pub fn zeros() -> Vec<Vec<Token>> {
    vec![
        vec![r(1), r(1), SUB],
        vec![r(1), r(1), XOR],
        vec![r(1), r(1), ULT],
        vec![r(1), c(0), MUL],
        vec![c(0), r(1), MUL],
        vec![r(1), c(0), AND],
        vec![r(1), c(0), ULT],
        vec![r(1), r(1), SUB, NEG],
        vec![r(1), NOT, r(1), AND],
        vec![r(1), r(2), ADD, c(0), MUL],
        vec![c(0), r(1), r(2), OR, AND],
        vec![r(1), c(1), OR, c(0), EQ],
        vec![r(0), r(15), XOR, r(0), XOR, r(15), XOR],
    ]
}

/// Each operator alone, with registers and constants as its operands, and in longer expressions.
fn operators(jobs: &mut Vec<SetJob>) {
    let mut expressions = Vec::new();
    for unary in [NEG, NOT] {
        expressions.extend([vec![r(2), unary], vec![c(9), unary]]);
        expressions.push(vec![r(2), r(1), unary, ADD, unary]);
    }
    for binary in (19..=28).map(Token::Operator) {
        let operands = [[r(2), r(1)], [r(2), c(9)], [c(9), r(2)]];
        expressions.extend(operands.map(|[left, right]| vec![left, right, binary]));
        expressions.push(vec![r(2), r(1), binary, r(10), binary]);
        expressions.push(vec![r(2), c(9), r(1), binary, binary, NOT]);
    }
    observed(jobs, &expressions, &[Way::Load, Way::Branch]);
}

/// With 64 addresses remembered, a store outside memory stops the run; all ones are outside.
fn stopping_stores(jobs: &mut Vec<SetJob>) {
    let registers = (0..16).map(|register| vec![r(register)]);
    let longer = (2..=16_usize).map(|count| expression(count, count.div_ceil(4), count));
    for tokens in registers.chain(longer) {
        from_each_state(jobs, &tokens, Way::Stop);
    }
}

/// The first register named gets another set, and the expression is observed; after this it is
/// observed again. A branch on 0 makes the first a wrong path, which is rolled back before the
/// second; a branch on 1 makes the second a wrong path, which is rolled back before both.
fn wrong_paths(jobs: &mut Vec<SetJob>) {
    for count in 1..=16_usize {
        let tokens = expression(count, count.div_ceil(4), count);
        for (way, word) in WAYS.into_iter().flat_map(|way| [(way, 0), (way, 1)]) {
            let seen = observing(way, &tokens);
            let mut program = [preamble(), vec![assign(3, &[c(word)])]].concat();
            program.push(beqz(3, (program.len() + seen.len() + 3) as u16));
            program.push(assign(count as u8 % 16, &[r(13), r(14), NOT, SUB]));
            program.extend([seen.clone(), vec![skip()], seen].concat());
            let state = states()[count % 3].clone();
            let parts = Parts { state, ..Parts::new(program, CELLS, WINDOW, 100) };
            jobs.push(SetJob { tokens: tokens.clone(), way, branch: Some(word), parts });
        }
    }
}
