//! Decoded expressions: shapes for the short ones, joined tokens for the others.

use super::outside::ENTRIES;

/// A binary operator, in the order of the token bytes from 19 on.
#[derive(Clone, Copy, PartialEq, Eq)]
pub enum Operator {
    Add,
    Sub,
    Mul,
    And,
    Or,
    Xor,
    Shl,
    Shr,
    Eq,
    Ult,
}

const OPERATORS: [Operator; 10] = [
    Operator::Add,
    Operator::Sub,
    Operator::Mul,
    Operator::And,
    Operator::Or,
    Operator::Xor,
    Operator::Shl,
    Operator::Shr,
    Operator::Eq,
    Operator::Ult,
];

impl Operator {
    /// The operator of a token byte from 19 to 28.
    pub fn of(byte: u8) -> Option<Operator> {
        OPERATORS.get(usize::from(byte.wrapping_sub(19))).copied()
    }

    #[inline(always)]
    pub fn apply(self, left: u64, right: u64) -> u64 {
        match self {
            Operator::Add => left.wrapping_add(right),
            Operator::Sub => left.wrapping_sub(right),
            Operator::Mul => left.wrapping_mul(right),
            Operator::And => left & right,
            Operator::Or => left | right,
            Operator::Xor => left ^ right,
            Operator::Shl => left << (right & 63),
            Operator::Shr => left >> (right & 63),
            Operator::Eq => u64::from(left == right),
            Operator::Ult => u64::from(left < right),
        }
    }
}

/// A step of a longer expression. A right operand that is a register or a constant stands in the
/// step of its operator.
#[derive(Clone, Copy)]
pub enum Step {
    Register(u8),
    Constant(u64),
    WithRegister(Operator, u8),
    WithConstant(Operator, u64),
    Binary(Operator),
    Neg,
    Not,
}

#[derive(Clone, Copy)]
pub enum Expression {
    Register(u8),
    Constant(u64),
    TwoRegisters(Operator, u8, u8),
    RegisterConstant(Operator, u8, u64),
    /// Steps in the pool, and the registers among them, bit r for register r.
    Steps {
        start: u16,
        count: u8,
        registers: u16,
    },
}

/// The registers, the cells, from 256 on the stores outside memory, and last how many of these there are.
pub const OPERANDS: usize = 256 + ENTRIES + 1;

/// The registers stand at the front of the values.
pub type Values = [u64; OPERANDS];

#[inline(always)]
pub fn register(values: &Values, register: u8) -> u64 {
    values[usize::from(register)]
}

/// Carries out the steps. The top value is kept apart from the seven others that may be held; the
/// first push puts a value that is never used below them.
pub fn evaluate(steps: &[Step], values: &Values) -> u64 {
    let mut held = [0; 8];
    let mut depth = 0;
    let mut top = 0;
    for step in steps {
        match *step {
            Step::Register(index) => {
                held[depth & 7] = top;
                depth += 1;
                top = register(values, index);
            }
            Step::Constant(value) => {
                held[depth & 7] = top;
                depth += 1;
                top = value;
            }
            Step::WithRegister(operator, index) => {
                top = operator.apply(top, register(values, index));
            }
            Step::WithConstant(operator, value) => top = operator.apply(top, value),
            Step::Binary(operator) => {
                depth = depth.wrapping_sub(1);
                top = operator.apply(held[depth & 7], top);
            }
            Step::Neg => top = top.wrapping_neg(),
            Step::Not => top = !top,
        }
    }
    top
}
