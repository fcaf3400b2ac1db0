//! A small assembler for job files and areas filled with known words, shared by the tests.
#![allow(dead_code)]

pub mod random;
pub mod xorshift;

use check_box_reference::{
    compare, plain_run, run, PairAnswer, PlainAnswer, RunAnswer, WINDOW_COSTS,
};

pub const WORK: usize = 4_096;

/// The words of an end area after registers and cells: the count of the entries, then 64 pairs.
pub const OUTSIDE: usize = 129;

pub const START: u64 = 0;
pub const ROLLBACK: u64 = 1;
pub const PC: u64 = 2;
pub const LOAD: u64 = 3;
pub const STORE: u64 = 4;

/// A token of a postfix expression: a register, a constant, or any other byte.
#[derive(Clone, Copy)]
pub enum T {
    R(u8),
    C(u64),
    Op(u8),
}

pub const NEG: T = T::Op(17);
pub const NOT: T = T::Op(18);
pub const ADD: T = T::Op(19);
pub const SUB: T = T::Op(20);
pub const MUL: T = T::Op(21);
pub const AND: T = T::Op(22);
pub const OR: T = T::Op(23);
pub const XOR: T = T::Op(24);
pub const SHL: T = T::Op(25);
pub const SHR: T = T::Op(26);
pub const EQ: T = T::Op(27);
pub const ULT: T = T::Op(28);

pub fn expression(tokens: &[T]) -> Vec<u8> {
    let mut bytes = vec![tokens.len() as u8];
    for token in tokens {
        match *token {
            T::R(register) => bytes.push(register),
            T::C(value) => {
                bytes.push(16);
                bytes.extend(value.to_le_bytes());
            }
            T::Op(byte) => bytes.push(byte),
        }
    }
    bytes
}

fn with_expression(mut bytes: Vec<u8>, tokens: &[T]) -> Vec<u8> {
    bytes.extend(expression(tokens));
    bytes
}

pub fn skip() -> Vec<u8> {
    vec![0]
}

pub fn assign(register: u8, value: &[T]) -> Vec<u8> {
    with_expression(vec![1, register], value)
}

pub fn load(register: u8, address: &[T]) -> Vec<u8> {
    with_expression(vec![2, register], address)
}

pub fn store(register: u8, address: &[T]) -> Vec<u8> {
    with_expression(vec![3, register], address)
}

pub fn jmp(target: &[T]) -> Vec<u8> {
    with_expression(vec![4], target)
}

pub fn beqz(register: u8, label: u16) -> Vec<u8> {
    let mut bytes = vec![5, register];
    bytes.extend(label.to_le_bytes());
    bytes
}

pub fn conditional(register: u8, condition: &[T], value: &[T]) -> Vec<u8> {
    with_expression(with_expression(vec![6, register], condition), value)
}

pub fn spbarr() -> Vec<u8> {
    vec![7]
}

/// A job in parts; `bytes` puts the file together.
#[derive(Clone)]
pub struct JobParts {
    pub program: Vec<Vec<u8>>,
    pub registers: [u64; 16],
    pub cells: Vec<u64>,
    pub public: Vec<usize>,
    pub window: u16,
    pub budget: u32,
}

/// A job with zero registers, m zero cells, nothing public, window 10 and budget 100.
pub fn job(program: Vec<Vec<u8>>, m: usize) -> JobParts {
    JobParts {
        program,
        registers: [0; 16],
        cells: vec![0; m],
        public: Vec::new(),
        window: 10,
        budget: 100,
    }
}

impl JobParts {
    pub fn state_bytes(&self) -> Vec<u8> {
        self.registers.iter().chain(&self.cells).flat_map(|word| word.to_le_bytes()).collect()
    }

    pub fn bytes(&self) -> Vec<u8> {
        let mut bytes = self.program.concat();
        let state_offset = bytes.len() as u16;
        bytes.extend(self.state_bytes());
        let list_offset = bytes.len() as u16;
        let mut list = [0u8; 32];
        for &location in &self.public {
            list[location / 8] |= 1 << (location % 8);
        }
        bytes.extend(list);
        let counts = [self.program.len() as u16, self.cells.len() as u16, self.window, 0];
        for number in [state_offset, list_offset].into_iter().chain(counts) {
            bytes.extend(number.to_le_bytes());
        }
        bytes.extend(self.budget.to_le_bytes());
        bytes
    }
}

/// The program that document 01 prints whole.
pub fn printed() -> JobParts {
    let mut parts = job(
        vec![
            assign(2, &[T::R(0), T::R(1), ULT]),
            beqz(2, 4),
            load(3, &[T::R(0)]),
            load(4, &[T::R(3), T::C(2), ADD]),
        ],
        4,
    );
    parts.registers[0] = 1;
    parts.registers[1] = 1;
    parts.cells[1] = 1;
    parts.public = vec![0, 1];
    parts
}

/// The word that stands at index i of every area before a call.
pub fn filling(index: usize) -> u64 {
    (index as u64 + 1).wrapping_mul(0x9E37_79B9_7F4A_7C15)
}

pub fn area(length: usize) -> Vec<u64> {
    (0..length).map(filling).collect()
}

/// An area after a call that wrote `written` to its front and nothing else.
pub fn area_with(written: &[u64], length: usize) -> Vec<u64> {
    let mut words = area(length);
    words[..written.len()].copy_from_slice(written);
    words
}

/// An area of bytes before a call.
pub fn byte_area(length: usize) -> Vec<u8> {
    (0..length).map(|index| (index * 37 + 11) as u8).collect()
}

/// An area of bytes after a call that wrote `written` to its front and nothing else.
pub fn byte_area_with(written: &[u8], length: usize) -> Vec<u8> {
    let mut bytes = byte_area(length);
    bytes[..written.len()].copy_from_slice(written);
    bytes
}

/// A list of observations, each a kind and a value.
pub type Trace = Vec<(u64, u64)>;

/// The observations of a text such as "start 0, pc 2".
pub fn observed(text: &str) -> Trace {
    let kinds = ["start", "rollback", "pc", "load", "store"];
    let observation = |part: &str| {
        let (word, value) = part.trim().split_once(' ').expect("a kind and a value");
        let kind = kinds.iter().position(|kind| *kind == word).expect("a kind");
        (kind as u64, value.parse().expect("a value"))
    };
    text.split(',').map(observation).collect()
}

/// A run with everything it wrote.
#[derive(Debug, PartialEq, Eq)]
pub struct Ran<A> {
    pub answer: A,
    pub trace: Trace,
    /// Registers, then cells.
    pub end: Vec<u64>,
    /// Address and value of each remembered store outside, in order of first store.
    pub outside: Vec<(u64, u64)>,
}

pub fn pairs(words: &[u64]) -> Trace {
    words.chunks_exact(2).map(|pair| (pair[0], pair[1])).collect()
}

/// Checks that all words past the written ones kept their contents, and returns the written ones.
pub fn written(after: &[u64], count: usize) -> Vec<u64> {
    for (index, &word) in after.iter().enumerate().skip(count) {
        assert_eq!(word, filling(index), "word {index} changed");
    }
    after[..count].to_vec()
}

/// What an end area holds: registers and cells, and the entries of the table. Zeros come after.
fn end_parts(after: &[u64], locations: usize) -> (Vec<u64>, Vec<(u64, u64)>) {
    let words = written(after, locations + OUTSIDE);
    let (image, table) = words.split_at(locations);
    let (entries, zeros) = table[1..].split_at(2 * table[0] as usize);
    assert!(zeros.iter().all(|&word| word == 0), "zeros after the entries");
    (image.to_vec(), pairs(entries))
}

/// The mispredicting run with a table of window costs in a trace area of that many words;
/// other areas are longer than needed.
pub fn run_under(parts: &JobParts, costs: &[u8], trace_words: usize) -> Ran<RunAnswer> {
    let (mut trace, mut end, mut work) = (area(trace_words), area(400), area(WORK + 5));
    let answer = run(&parts.bytes(), costs, &mut trace, &mut end, &mut work).expect("accepted");
    assert_eq!(written(&work, WORK), vec![0; WORK]);
    let (end, outside) = end_parts(&end, 16 + parts.cells.len());
    let trace = pairs(&written(&trace, 2 * answer.observations as usize));
    Ran { answer, trace, end, outside }
}

/// The same with eight ones.
pub fn run_in(parts: &JobParts, trace_words: usize) -> Ran<RunAnswer> {
    run_under(parts, &WINDOW_COSTS, trace_words)
}

pub fn run_of(parts: &JobParts) -> Ran<RunAnswer> {
    run_in(parts, 1_024)
}

/// The plain run in a trace area of that many words; other areas are longer than needed.
pub fn plain_in(parts: &JobParts, trace_words: usize) -> Ran<PlainAnswer> {
    let (mut trace, mut end, mut work) = (area(trace_words), area(400), area(WORK + 5));
    let answer = plain_run(&parts.bytes(), &mut trace, &mut end, &mut work).expect("accepted");
    assert_eq!(written(&work, WORK), vec![0; WORK]);
    let (end, outside) = end_parts(&end, 16 + parts.cells.len());
    let trace = pairs(&written(&trace, 2 * answer.observations as usize));
    Ran { answer, trace, end, outside }
}

pub fn plain_of(parts: &JobParts) -> Ran<PlainAnswer> {
    plain_in(parts, 1_024)
}

/// The pair of a job and the state of another with a table of window costs, with both traces.
pub fn pair_under(
    parts: &JobParts,
    second: &JobParts,
    costs: &[u8],
    trace_words: usize,
) -> (PairAnswer, Trace, Trace) {
    let (mut first_trace, mut second_trace) = (area(trace_words), area(trace_words));
    let mut work = area(WORK + 5);
    let state = second.state_bytes();
    let answer =
        compare(&parts.bytes(), &state, costs, &mut first_trace, &mut second_trace, &mut work)
            .expect("accepted");
    assert_eq!(written(&work, WORK), vec![0; WORK]);
    let first = pairs(&written(&first_trace, 2 * answer.first.observations as usize));
    let second = pairs(&written(&second_trace, 2 * answer.second.observations as usize));
    (answer, first, second)
}

/// The same with eight ones.
pub fn pair_of(
    parts: &JobParts,
    second: &JobParts,
    trace_words: usize,
) -> (PairAnswer, Trace, Trace) {
    pair_under(parts, second, &WINDOW_COSTS, trace_words)
}

/// The refusal number of a run, with a check that no area changed; 0 if the job is accepted.
pub fn refusal_of(bytes: &[u8]) -> u32 {
    let (mut trace, mut end, mut work) = (area(64), area(400), area(WORK));
    match run(bytes, &WINDOW_COSTS, &mut trace, &mut end, &mut work) {
        Ok(_) => 0,
        Err(number) => {
            assert_eq!((trace, end, work), (area(64), area(400), area(WORK)));
            number
        }
    }
}

pub fn locations(words: [u64; 4]) -> Vec<usize> {
    (0..256).filter(|k| words[k / 64] >> (k % 64) & 1 == 1).collect()
}
