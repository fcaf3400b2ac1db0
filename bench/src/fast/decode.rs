//! Reading a job: refusals 1 to 8, and the program as instructions of fixed size.

use super::expression::{Expression, Operator, Step};

const LENGTH: u32 = 1;
const TRAILER: u32 = 2;
const OFFSETS: u32 = 3;
const ENCODING: u32 = 4;
const POSTFIX: u32 = 5;
const LABEL: u32 = 6;
const BYTES_LEFT: u32 = 7;
const PUBLIC_BIT: u32 = 8;

const TRAILER_BYTES: usize = 16;
const LIST_BYTES: usize = 32;
const REGISTERS: usize = 16;
const MOST_TOKENS: u8 = 16;
const MOST_VALUES: i32 = 8;

/// The trailer's numbers, once they have passed tests 1 to 3.
pub struct Header {
    pub state: usize,
    pub list: usize,
    pub instructions: usize,
    pub locations: usize,
    pub window: u8,
    pub budget: u32,
}

#[derive(Clone, Copy)]
pub enum Instruction {
    Skip,
    Assign { register: u8, value: Expression },
    Load { register: u8, address: Expression },
    Store { register: u8, address: Expression },
    Jump { target: Expression },
    Branch { register: u8, label: u16 },
    Conditional { register: u8, condition: Expression, value: Expression },
    Barrier,
    End,
}

/// The program, END behind its last instruction, and the steps of its longer expressions.
#[derive(Default)]
pub struct Decoded {
    pub instructions: Vec<Instruction>,
    pub steps: Vec<Step>,
}

fn ensure(condition: bool, number: u32) -> Result<(), u32> {
    if condition {
        Ok(())
    } else {
        Err(number)
    }
}

impl Header {
    pub fn read(job: &[u8]) -> Result<Header, u32> {
        ensure((TRAILER_BYTES..=16_384).contains(&job.len()), LENGTH)?;
        let (_, trailer) = job.split_last_chunk::<TRAILER_BYTES>().ok_or(LENGTH)?;
        let short = |at: usize| u16::from_le_bytes([trailer[at], trailer[at + 1]]);
        let (instructions, cells, window) = (short(4), short(6), short(8));
        let budget = u32::from_le_bytes([trailer[12], trailer[13], trailer[14], trailer[15]]);
        let counts_fit = (1..=512).contains(&instructions) && cells <= 240;
        ensure(counts_fit && window <= 200 && short(10) == 0 && budget <= 1_000_000, TRAILER)?;
        let (state, list) = (usize::from(short(0)), usize::from(short(2)));
        let locations = REGISTERS + usize::from(cells);
        let fit = state + 8 * locations == list && list + LIST_BYTES + TRAILER_BYTES == job.len();
        ensure(fit, OFFSETS)?;
        let (instructions, window) = (usize::from(instructions), window as u8);
        Ok(Header { state, list, instructions, locations, window, budget })
    }

    /// The public list as words of a set; test 8.
    pub fn public(&self, job: &[u8]) -> Result<[u64; 4], u32> {
        let (list, _) = job[self.list..].split_first_chunk::<LIST_BYTES>().ok_or(OFFSETS)?;
        let (words, _) = list.as_chunks::<8>();
        let public = [0, 1, 2, 3].map(|at| u64::from_le_bytes(words[at]));
        let beyond = |at: usize| match self.locations.saturating_sub(64 * at) {
            0 => public[at],
            within @ 1..64 => public[at] >> within,
            _ => 0,
        };
        ensure((0..4).all(|at| beyond(at) == 0), PUBLIC_BIT)?;
        Ok(public)
    }
}

/// The bytes of the program that are not read yet.
struct Reader<'a> {
    bytes: &'a [u8],
    steps: &'a mut Vec<Step>,
    /// False once an expression of this instruction has broken the postfix rule.
    postfix: bool,
}

impl Decoded {
    pub fn read(&mut self, program: &[u8], count: usize) -> Result<(), u32> {
        self.instructions.clear();
        self.steps.clear();
        let mut reader = Reader { bytes: program, steps: &mut self.steps, postfix: true };
        for own in 0..count {
            let instruction = reader.instruction()?;
            ensure(reader.postfix, POSTFIX)?;
            if let Instruction::Branch { label, .. } = instruction {
                let label = usize::from(label);
                ensure(label <= count && label != own + 1, LABEL)?;
            }
            self.instructions.push(instruction);
        }
        ensure(reader.bytes.is_empty(), BYTES_LEFT)?;
        self.instructions.push(Instruction::End);
        Ok(())
    }
}

impl Reader<'_> {
    #[inline(always)]
    fn byte(&mut self) -> Result<u8, u32> {
        let (&byte, rest) = self.bytes.split_first().ok_or(ENCODING)?;
        self.bytes = rest;
        Ok(byte)
    }

    fn register(&mut self) -> Result<u8, u32> {
        let register = self.byte()?;
        ensure(usize::from(register) < REGISTERS, ENCODING)?;
        Ok(register)
    }

    fn constant(&mut self) -> Result<u64, u32> {
        let (bytes, rest) = self.bytes.split_first_chunk::<8>().ok_or(ENCODING)?;
        self.bytes = rest;
        Ok(u64::from_le_bytes(*bytes))
    }

    fn instruction(&mut self) -> Result<Instruction, u32> {
        Ok(match self.byte()? {
            0 => Instruction::Skip,
            1 => Instruction::Assign { register: self.register()?, value: self.expression()? },
            2 => Instruction::Load { register: self.register()?, address: self.expression()? },
            3 => Instruction::Store { register: self.register()?, address: self.expression()? },
            4 => Instruction::Jump { target: self.expression()? },
            5 => Instruction::Branch {
                register: self.register()?,
                label: u16::from_le_bytes([self.byte()?, self.byte()?]),
            },
            6 => Instruction::Conditional {
                register: self.register()?,
                condition: self.expression()?,
                value: self.expression()?,
            },
            7 => Instruction::Barrier,
            _ => return Err(ENCODING),
        })
    }

    /// Reads an expression; a broken postfix rule is noted, since test 4 of the whole instruction
    /// comes first.
    fn expression(&mut self) -> Result<Expression, u32> {
        let count = self.byte()?;
        ensure((1..=MOST_TOKENS).contains(&count), ENCODING)?;
        let start = self.steps.len();
        let mut held = 0;
        let mut registers = 0;
        for _ in 0..count {
            let token = self.byte()?;
            let operands = match token {
                0..=15 => {
                    registers |= 1 << token;
                    self.steps.push(Step::Register(token));
                    0
                }
                16 => {
                    let value = self.constant()?;
                    self.steps.push(Step::Constant(value));
                    0
                }
                17 => self.push_unary(Step::Neg),
                18 => self.push_unary(Step::Not),
                _ => self.push_binary(Operator::of(token).ok_or(ENCODING)?),
            };
            self.postfix &= held >= operands;
            held += 1 - operands;
            self.postfix &= held <= MOST_VALUES;
        }
        self.postfix &= held == 1;
        Ok(self.shaped(start, registers))
    }

    fn push_unary(&mut self, step: Step) -> i32 {
        self.steps.push(step);
        1
    }

    /// Joins the operator to a right operand that stands just before it.
    fn push_binary(&mut self, operator: Operator) -> i32 {
        match self.steps.last_mut() {
            Some(last @ Step::Register(_)) => {
                let Step::Register(register) = *last else { return 2 };
                *last = Step::WithRegister(operator, register);
            }
            Some(last @ Step::Constant(_)) => {
                let Step::Constant(value) = *last else { return 2 };
                *last = Step::WithConstant(operator, value);
            }
            _ => self.steps.push(Step::Binary(operator)),
        }
        2
    }

    /// The expression of the steps from the start on; a short one needs no steps.
    fn shaped(&mut self, start: usize, registers: u16) -> Expression {
        let short = match self.steps[start..] {
            [Step::Register(register)] => Expression::Register(register),
            [Step::Constant(value)] => Expression::Constant(value),
            [Step::Register(left), Step::WithRegister(operator, right)] => {
                Expression::TwoRegisters(operator, left, right)
            }
            [Step::Register(left), Step::WithConstant(operator, right)] => {
                Expression::RegisterConstant(operator, left, right)
            }
            _ => {
                let count = (self.steps.len() - start) as u8;
                return Expression::Steps { start: start as u16, count, registers };
            }
        };
        self.steps.truncate(start);
        short
    }
}
