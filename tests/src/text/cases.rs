//! Random cases of reading and printing. The seed alone decides the whole case.

use crate::damage::{damaged_twice, flip_bits, overwrite, refused_with, truncate};
use crate::expressions::Pool;
use crate::generate::{random_job, random_style, Style};
use crate::job_file::{Parts, MAX_INSTRUCTIONS};
use crate::random::Random;
use crate::text::calls::TextOperation;
use crate::text::faults::Fault;
use crate::text::lines::{
    assemble, random_instruction, random_layout, written_conditional, Line, Written,
};
use crate::text::mutations::{mutate, random_bytes};

/// What a case is made of.
#[derive(Clone, Copy, PartialEq, Eq, Debug)]
pub enum Kind {
    ValidText,
    FaultyText,
    TwoFaults,
    MutatedText,
    RandomBytes,
    Job,
    DamagedJob,
    Fixed,
}

pub const KINDS: [Kind; 8] = [
    Kind::ValidText,
    Kind::FaultyText,
    Kind::TwoFaults,
    Kind::MutatedText,
    Kind::RandomBytes,
    Kind::Job,
    Kind::DamagedJob,
    Kind::Fixed,
];

/// What is known of a case whoever answers it; 12 is left out, which the length decides.
#[derive(Clone, PartialEq, Eq, Debug)]
pub enum Known {
    Nothing,
    Refused(u32),
    /// The bytes that are written, and for a text the number of its instructions.
    Written(Vec<u8>, usize),
}

/// One case: a text to read or a job to print, and the length of the output area.
pub struct TextCase {
    pub name: String,
    pub kind: Kind,
    pub fault: Option<Fault>,
    pub operation: TextOperation,
    pub input: Vec<u8>,
    pub known: Known,
    pub length: usize,
    pub salt: u64,
}

pub fn random_text_case(seed: u64) -> TextCase {
    let mut random = Random::new(seed);
    let kind = random_kind(&mut random);
    let mut case = TextCase {
        name: format!("{seed}"),
        kind,
        fault: None,
        operation: TextOperation::Read,
        input: Vec::new(),
        known: Known::Nothing,
        length: 0,
        salt: random.word(),
    };
    match kind {
        Kind::Job | Kind::DamagedJob => make_job(&mut case, &mut random),
        _ => make_text(&mut case, &mut random),
    }
    case.length = random_length(case.operation.written(&case.input), &mut random);
    case
}

fn random_kind(random: &mut Random) -> Kind {
    match random.below(100) {
        0..=24 => Kind::ValidText,
        25..=44 => Kind::FaultyText,
        45..=49 => Kind::TwoFaults,
        50..=69 => Kind::MutatedText,
        70..=74 => Kind::RandomBytes,
        75..=87 => Kind::Job,
        _ => Kind::DamagedJob,
    }
}

fn make_text(case: &mut TextCase, random: &mut Random) {
    let program = random_program(random);
    let mut lines: Vec<Line> = program.iter().map(|written| written.line.clone()).collect();
    let layout = random_layout(random);
    match case.kind {
        Kind::ValidText => {
            let bytes = program.into_iter().flat_map(|written| written.bytes).collect();
            case.known = Known::Written(bytes, lines.len());
        }
        Kind::FaultyText => {
            let fault = Fault::random(random);
            fault.put(&mut lines, random);
            case.fault = Some(fault);
            case.known = Known::Refused(11);
        }
        Kind::TwoFaults => {
            Fault::random(random).put(&mut lines, random);
            if !lines.is_empty() {
                Fault::random(random).put(&mut lines, random);
            }
        }
        _ => {}
    }
    case.input = assemble(&lines, layout, random);
    match case.kind {
        Kind::MutatedText => mutate(&mut case.input, random),
        Kind::RandomBytes => case.input = random_bytes(random),
        _ => {}
    }
}

/// Mostly a few instructions, at times as many as there may be.
fn random_program(random: &mut Random) -> Vec<Written> {
    let most = MAX_INSTRUCTIONS as u64;
    let instructions = match random.below(1_000) {
        0 => return long_program(random),
        1..=3 => most - random.below(2),
        4..=50 => random.between(20, 80),
        _ => random.between(1, 8),
    };
    let tokens = if random.one_in(3) { 16 } else { 5 };
    let pool = Pool { registers: 16, tokens, cells: 240, instructions };
    (0..instructions).map(|own| random_instruction(&pool, own, random)).collect()
}

/// Hundreds of instructions of 32 tokens each: more bytes than the program of a job can have.
fn long_program(random: &mut Random) -> Vec<Written> {
    let instructions = MAX_INSTRUCTIONS as u64 - random.pick(&[0, 0, 1, 100]);
    let pool = Pool { registers: 16, tokens: 16, cells: 240, instructions };
    let conditional = |_| {
        let (register, condition) = (pool.register(random), pool.expression_of(16, random));
        written_conditional(register, &condition, &pool.expression_of(16, random))
    };
    (0..instructions).map(conditional).collect()
}

/// A job of the generator, whole or damaged. A whole one prints as its program, which is known when it
/// is read back.
fn make_job(case: &mut TextCase, random: &mut Random) {
    let style = random_style(random);
    let parts = random_job(style, random);
    case.operation = TextOperation::Print;
    case.input =
        if case.kind == Kind::Job { parts.bytes() } else { damaged(parts, style, case, random) };
}

fn damaged(parts: Parts, style: Style, case: &mut TextCase, random: &mut Random) -> Vec<u8> {
    let mut job = parts.bytes();
    match random.below(8) {
        0..=3 => {
            let number = random.between(1, 8) as u32;
            // A large job has no room for some kinds of damage.
            if style != Style::Large {
                case.known = Known::Refused(number);
            }
            job = refused_with(number, parts, random);
        }
        4 => job = damaged_twice(parts, random),
        5 => flip_bits(&mut job, random),
        6 => truncate(&mut job, random),
        _ => overwrite(&mut job, random),
    }
    job
}

/// Lengths on both sides of the exact one; for what is refused any small ones.
fn random_length(written: Result<Vec<u8>, u32>, random: &mut Random) -> usize {
    let exact = written.map_or(random.index(200), |bytes| bytes.len());
    match random.below(8) {
        0 => exact.saturating_sub(1),
        1 => random.index(exact + 1),
        2..=4 => exact,
        5 => exact + 1,
        6 => exact + random.index(40),
        _ => exact + random.index(600),
    }
}
