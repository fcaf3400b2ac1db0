//! Reads a job file, with refusals 1 to 8, and a second state, with refusal 9.

use crate::expression::{BinaryOperator, Expression, Token, UnaryOperator};
use crate::location_set::LocationSet;
use crate::machine::{Instruction, REGISTERS};
use crate::refusal::{self, require};

const TRAILER_BYTES: usize = 16;
const LIST_BYTES: usize = 32;
const MAX_JOB_BYTES: usize = 16_384;
const MAX_TOKENS: usize = 16;
const MAX_VALUES: usize = 8;

/// A job that passed refusals 1 to 8.
#[derive(Debug, Clone, PartialEq, Eq)]
pub struct Job {
    pub program: Vec<Instruction>,
    /// The initial words in the order of the locations: registers, then cells.
    pub initial: Vec<u64>,
    pub public: LocationSet,
    pub window: u64,
    pub budget: u64,
}

/// The trailer; offsets and counts are widened so that sums cannot wrap.
struct Trailer {
    state_offset: usize,
    list_offset: usize,
    instructions: usize,
    cells: usize,
    window: u64,
    budget: u64,
}

/// Reads fields of the program; a field that is not wholly inside is refused.
struct Reader<'a> {
    program: &'a [u8],
    offset: usize,
}

impl Job {
    /// The same job with the words of another state.
    pub fn with_state(&self, bytes: &[u8]) -> Result<Job, u32> {
        require(bytes.len() == 8 * self.initial.len(), refusal::SECOND_STATE)?;
        Ok(Job { initial: words(bytes), ..self.clone() })
    }
}

pub fn read_job(bytes: &[u8]) -> Result<Job, u32> {
    let length = bytes.len();
    require((TRAILER_BYTES..=MAX_JOB_BYTES).contains(&length), refusal::LENGTH)?;
    let trailer = read_trailer(&bytes[length - TRAILER_BYTES..])?;
    let (state, list) = (trailer.state_offset, trailer.list_offset);
    let state_bytes = 8 * (REGISTERS + trailer.cells);
    let offsets_fit = state + state_bytes == list && list + LIST_BYTES + TRAILER_BYTES == length;
    require(offsets_fit, refusal::OFFSETS)?;
    let program = read_program(&bytes[..state], trailer.instructions)?;
    let public = read_public(&bytes[list..list + LIST_BYTES], REGISTERS + trailer.cells)?;
    Ok(Job {
        program,
        initial: words(&bytes[state..list]),
        public,
        window: trailer.window,
        budget: trailer.budget,
    })
}

fn read_trailer(bytes: &[u8]) -> Result<Trailer, u32> {
    let short = |at: usize| u16::from_le_bytes([bytes[at], bytes[at + 1]]);
    let (instructions, cells, window, zero) = (short(4), short(6), short(8), short(10));
    let budget = u32::from_le_bytes([bytes[12], bytes[13], bytes[14], bytes[15]]);
    let within_limits = (1..=512).contains(&instructions)
        && cells <= 240
        && window <= 200
        && zero == 0
        && budget <= 1_000_000;
    require(within_limits, refusal::TRAILER)?;
    Ok(Trailer {
        state_offset: usize::from(short(0)),
        list_offset: usize::from(short(2)),
        instructions: usize::from(instructions),
        cells: usize::from(cells),
        window: u64::from(window),
        budget: u64::from(budget),
    })
}

/// Bit k of byte j is location 8j + k, so eight bytes make one word of the set.
fn read_public(bytes: &[u8], locations: usize) -> Result<LocationSet, u32> {
    let mut set_words = [0; 4];
    set_words.copy_from_slice(&words(bytes));
    let public = LocationSet::from_words(set_words);
    require(public.locations().all(|location| location < locations), refusal::PUBLIC_BIT)?;
    Ok(public)
}

fn words(bytes: &[u8]) -> Vec<u64> {
    bytes.chunks_exact(8).map(word).collect()
}

fn word(bytes: &[u8]) -> u64 {
    bytes.iter().rev().fold(0, |word, &byte| word << 8 | u64::from(byte))
}

/// Refusals 4, 5 and 6 are tried on one instruction before the next is read.
pub fn read_program(bytes: &[u8], count: usize) -> Result<Vec<Instruction>, u32> {
    let mut reader = Reader { program: bytes, offset: 0 };
    let mut program = Vec::with_capacity(count);
    for own_label in 0..count {
        let instruction = reader.instruction()?;
        check_postfix(&instruction)?;
        check_branch_label(&instruction, own_label, count)?;
        program.push(instruction);
    }
    require(reader.offset == bytes.len(), refusal::BYTES_LEFT)?;
    Ok(program)
}

impl Reader<'_> {
    fn take(&mut self, count: usize) -> Result<&[u8], u32> {
        let start = self.offset;
        let field = self.program.get(start..start + count).ok_or(refusal::ENCODING)?;
        self.offset += count;
        Ok(field)
    }

    fn byte(&mut self) -> Result<u8, u32> {
        Ok(self.take(1)?[0])
    }

    fn register(&mut self) -> Result<usize, u32> {
        let register = usize::from(self.byte()?);
        require(register < REGISTERS, refusal::ENCODING)?;
        Ok(register)
    }

    fn label(&mut self) -> Result<usize, u32> {
        Ok(word(self.take(2)?) as usize)
    }

    /// Reads one instruction whole; only refusal 4 is possible here.
    fn instruction(&mut self) -> Result<Instruction, u32> {
        match self.byte()? {
            0 => Ok(Instruction::Skip),
            1 => Ok(Instruction::Assign { register: self.register()?, value: self.expression()? }),
            2 => Ok(Instruction::Load { register: self.register()?, address: self.expression()? }),
            3 => Ok(Instruction::Store { register: self.register()?, address: self.expression()? }),
            4 => Ok(Instruction::Jump { target: self.expression()? }),
            5 => Ok(Instruction::BranchIfZero { register: self.register()?, label: self.label()? }),
            6 => Ok(Instruction::ConditionalAssign {
                register: self.register()?,
                condition: self.expression()?,
                value: self.expression()?,
            }),
            7 => Ok(Instruction::Barrier),
            _ => Err(refusal::ENCODING),
        }
    }

    fn expression(&mut self) -> Result<Expression, u32> {
        let count = usize::from(self.byte()?);
        require((1..=MAX_TOKENS).contains(&count), refusal::ENCODING)?;
        let mut tokens = Vec::with_capacity(count);
        for _ in 0..count {
            tokens.push(self.token()?);
        }
        Ok(Expression(tokens))
    }

    fn token(&mut self) -> Result<Token, u32> {
        let token = match self.byte()? {
            register @ 0..=15 => Token::Register(usize::from(register)),
            16 => Token::Constant(word(self.take(8)?)),
            17 => Token::Unary(UnaryOperator::Neg),
            18 => Token::Unary(UnaryOperator::Not),
            19 => Token::Binary(BinaryOperator::Add),
            20 => Token::Binary(BinaryOperator::Sub),
            21 => Token::Binary(BinaryOperator::Mul),
            22 => Token::Binary(BinaryOperator::And),
            23 => Token::Binary(BinaryOperator::Or),
            24 => Token::Binary(BinaryOperator::Xor),
            25 => Token::Binary(BinaryOperator::Shl),
            26 => Token::Binary(BinaryOperator::Shr),
            27 => Token::Binary(BinaryOperator::Eq),
            28 => Token::Binary(BinaryOperator::Ult),
            _ => return Err(refusal::ENCODING),
        };
        Ok(token)
    }
}

fn check_postfix(instruction: &Instruction) -> Result<(), u32> {
    let keep_rule = match instruction {
        Instruction::Skip | Instruction::BranchIfZero { .. } | Instruction::Barrier => true,
        Instruction::Assign { value, .. } => keeps_postfix_rule(value),
        Instruction::Load { address, .. } => keeps_postfix_rule(address),
        Instruction::Store { address, .. } => keeps_postfix_rule(address),
        Instruction::Jump { target } => keeps_postfix_rule(target),
        Instruction::ConditionalAssign { condition, value, .. } => {
            keeps_postfix_rule(condition) && keeps_postfix_rule(value)
        }
    };
    require(keep_rule, refusal::POSTFIX)
}

/// No operand lacking, never more than 8 values held, one value left.
fn keeps_postfix_rule(expression: &Expression) -> bool {
    let mut held: usize = 0;
    for token in &expression.0 {
        let operands = match token {
            Token::Register(_) | Token::Constant(_) => 0,
            Token::Unary(_) => 1,
            Token::Binary(_) => 2,
        };
        if held < operands {
            return false;
        }
        held = held - operands + 1;
        if held > MAX_VALUES {
            return false;
        }
    }
    held == 1
}

fn check_branch_label(instruction: &Instruction, own_label: usize, end: usize) -> Result<(), u32> {
    match instruction {
        Instruction::BranchIfZero { label, .. } => {
            require(*label <= end && *label != own_label + 1, refusal::BRANCH_LABEL)
        }
        _ => Ok(()),
    }
}
