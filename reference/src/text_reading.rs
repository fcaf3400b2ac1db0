//! The grammar of a routine's text. All that it turns away is refusal 11.
//!
//! ```text
//! line        = [ instruction ] [ "#" any bytes but newline ]
//! instruction = "skip" | "set" register operand | "load" register operand
//!             | "store" register operand | "jmp" operand | "beqz" register number
//!             | "cset" register operand operand | "spbarr"
//! operand     = number | register | sign operand | "(" operand operator operand ")"
//! ```

use crate::expression::{BinaryOperator, Expression, Token, UnaryOperator};
use crate::machine::{Instruction, REGISTERS};
use crate::refusal::{self, require, Refusal};

const MAX_INSTRUCTIONS: usize = 512;

/// What is left to read of a line, the remark taken off.
struct Line<'a> {
    rest: &'a [u8],
}

/// What waits for the operand that is being read.
enum Waiting {
    Sign(UnaryOperator),
    /// A bracket stands open and this is its left operand.
    Bracket,
    /// This is the right operand of the operator.
    Operator(BinaryOperator),
}

/// Reads the instructions of a text; blank lines and remarks have no label.
pub fn read_routine(text: &[u8]) -> Result<Vec<Instruction>, Refusal> {
    let mut program = Vec::new();
    for bytes in text.split(|&byte| byte == b'\n') {
        let mut line = Line::without_remark(bytes);
        if let Some(word) = line.next_part() {
            program.push(line.instruction(word)?);
            require(program.len() <= MAX_INSTRUCTIONS, refusal::TEXT)?;
        }
    }
    require(!program.is_empty(), refusal::TEXT)?;
    Ok(program)
}

impl<'a> Line<'a> {
    fn without_remark(bytes: &'a [u8]) -> Line<'a> {
        let end = bytes.iter().position(|&byte| byte == b'#').unwrap_or(bytes.len());
        Line { rest: &bytes[..end] }
    }

    /// The next part of the line: a bracket, or all bytes up to the next bracket or blank.
    fn next_part(&mut self) -> Option<&'a [u8]> {
        let blanks = self.rest.iter().take_while(|&&byte| byte == b' ').count();
        let rest = &self.rest[blanks..];
        let length = match rest.first()? {
            b'(' | b')' => 1,
            _ => rest.iter().take_while(|byte| !b" ()".contains(byte)).count(),
        };
        let (part, rest) = rest.split_at(length);
        self.rest = rest;
        Some(part)
    }

    fn part(&mut self) -> Result<&'a [u8], Refusal> {
        self.next_part().ok_or(refusal::TEXT)
    }

    /// The instruction of the word that was read; it takes the whole line.
    fn instruction(&mut self, word: &[u8]) -> Result<Instruction, Refusal> {
        let instruction = match word {
            b"skip" => Instruction::Skip,
            b"set" => Instruction::Assign { register: self.register()?, value: self.operand()? },
            b"load" => Instruction::Load { register: self.register()?, address: self.operand()? },
            b"store" => Instruction::Store { register: self.register()?, address: self.operand()? },
            b"jmp" => Instruction::Jump { target: self.operand()? },
            b"beqz" => {
                Instruction::BranchIfZero { register: self.register()?, label: self.label()? }
            }
            b"cset" => Instruction::ConditionalAssign {
                register: self.register()?,
                condition: self.operand()?,
                value: self.operand()?,
            },
            b"spbarr" => Instruction::Barrier,
            _ => return Err(refusal::TEXT),
        };
        require(self.next_part().is_none(), refusal::TEXT)?;
        Ok(instruction)
    }

    fn register(&mut self) -> Result<usize, Refusal> {
        register(self.part()?).ok_or(refusal::TEXT)
    }

    fn label(&mut self) -> Result<usize, Refusal> {
        let label = number(self.part()?).ok_or(refusal::TEXT)?;
        usize::try_from(label).map_err(|_| refusal::TEXT)
    }

    /// Reads an operand into postfix. A list of what waits stands in for recursion,
    /// so that no depth of brackets or signs is too much for it.
    fn operand(&mut self) -> Result<Expression, Refusal> {
        let mut tokens = Vec::new();
        let mut waiting = Vec::new();
        loop {
            match self.part()? {
                b"(" => waiting.push(Waiting::Bracket),
                b"neg" => waiting.push(Waiting::Sign(UnaryOperator::Neg)),
                b"not" => waiting.push(Waiting::Sign(UnaryOperator::Not)),
                word => {
                    tokens.push(simple_operand(word).ok_or(refusal::TEXT)?);
                    self.after_operand(&mut tokens, &mut waiting)?;
                    if waiting.is_empty() {
                        return Ok(Expression(tokens));
                    }
                }
            }
        }
    }

    /// An operand has been read: completes all that ends with it.
    /// Afterwards another operand is due, or nothing waits and the outermost one is complete.
    fn after_operand(
        &mut self,
        tokens: &mut Vec<Token>,
        waiting: &mut Vec<Waiting>,
    ) -> Result<(), Refusal> {
        while let Some(last) = waiting.pop() {
            match last {
                Waiting::Sign(sign) => tokens.push(Token::Unary(sign)),
                Waiting::Bracket => {
                    let operator = operator(self.part()?).ok_or(refusal::TEXT)?;
                    waiting.push(Waiting::Operator(operator));
                    return Ok(());
                }
                Waiting::Operator(operator) => {
                    require(self.part()? == b")", refusal::TEXT)?;
                    tokens.push(Token::Binary(operator));
                }
            }
        }
        Ok(())
    }
}

/// A register or a constant.
fn simple_operand(word: &[u8]) -> Option<Token> {
    register(word).map(Token::Register).or_else(|| number(word).map(Token::Constant))
}

fn register(word: &[u8]) -> Option<usize> {
    let register = usize::try_from(number(word.strip_prefix(b"r")?)?).ok()?;
    (register < REGISTERS).then_some(register)
}

/// A decimal number below 2^64 without a needless leading zero.
fn number(digits: &[u8]) -> Option<u64> {
    let needless_zero = digits.len() > 1 && digits[0] == b'0';
    if digits.is_empty() || needless_zero {
        return None;
    }
    digits.iter().try_fold(0u64, |value, &byte| {
        let digit = byte.is_ascii_digit().then(|| u64::from(byte - b'0'))?;
        value.checked_mul(10)?.checked_add(digit)
    })
}

fn operator(word: &[u8]) -> Option<BinaryOperator> {
    match word {
        b"add" => Some(BinaryOperator::Add),
        b"sub" => Some(BinaryOperator::Sub),
        b"mul" => Some(BinaryOperator::Mul),
        b"and" => Some(BinaryOperator::And),
        b"or" => Some(BinaryOperator::Or),
        b"xor" => Some(BinaryOperator::Xor),
        b"shl" => Some(BinaryOperator::Shl),
        b"shr" => Some(BinaryOperator::Shr),
        b"eq" => Some(BinaryOperator::Eq),
        b"ult" => Some(BinaryOperator::Ult),
        _ => None,
    }
}
