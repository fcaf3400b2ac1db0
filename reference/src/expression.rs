//! Postfix expressions: their dependency set, gathered ahead of the value, and their value.

use crate::location_set::LocationSet;
use crate::machine::REGISTERS;

/// One token of a postfix expression.
#[derive(Debug, Clone, Copy, PartialEq, Eq)]
pub enum Token {
    Register(usize),
    Constant(u64),
    Unary(UnaryOperator),
    Binary(BinaryOperator),
}

#[derive(Debug, Clone, Copy, PartialEq, Eq)]
pub enum UnaryOperator {
    Neg,
    Not,
}

#[derive(Debug, Clone, Copy, PartialEq, Eq)]
pub enum BinaryOperator {
    Add,
    Sub,
    Mul,
    And,
    Or,
    Xor,
    Shl,
    Shr,
    Eq,
    Ult,
}

/// A postfix expression that keeps the postfix rule: no operand is lacking and one value is left.
#[derive(Debug, Clone, PartialEq, Eq)]
pub struct Expression(pub Vec<Token>);

impl Expression {
    /// "A constant has the empty set; an operator's result has the union of its operands' sets."
    /// By the postfix rule every operand goes into the one value left,
    /// so that this is the union over all registers named. No register's value is looked at.
    pub fn dependency_set(&self, register_sets: &[LocationSet; REGISTERS]) -> LocationSet {
        let mut gathered = LocationSet::EMPTY;
        for &token in &self.0 {
            gathered = match token {
                Token::Register(register) => gathered.union(register_sets[register]),
                Token::Constant(_) | Token::Unary(_) | Token::Binary(_) => gathered,
            };
        }
        gathered
    }

    /// The postfix rule, checked when the job is read, keeps every pop from failing.
    pub fn value(&self, register_values: &[u64; REGISTERS]) -> u64 {
        let mut stack: Vec<u64> = Vec::with_capacity(8);
        for &token in &self.0 {
            let result = match token {
                Token::Register(register) => register_values[register],
                Token::Constant(value) => value,
                Token::Unary(operator) => {
                    let operand = stack.pop().expect("postfix rule");
                    operator.apply(operand)
                }
                Token::Binary(operator) => {
                    let right = stack.pop().expect("postfix rule");
                    let left = stack.pop().expect("postfix rule");
                    operator.apply(left, right)
                }
            };
            stack.push(result);
        }
        stack.pop().expect("postfix rule")
    }
}

impl UnaryOperator {
    fn apply(self, operand: u64) -> u64 {
        match self {
            UnaryOperator::Neg => operand.wrapping_neg(),
            UnaryOperator::Not => !operand,
        }
    }
}

impl BinaryOperator {
    fn apply(self, left: u64, right: u64) -> u64 {
        match self {
            BinaryOperator::Add => left.wrapping_add(right),
            BinaryOperator::Sub => left.wrapping_sub(right),
            BinaryOperator::Mul => left.wrapping_mul(right),
            BinaryOperator::And => left & right,
            BinaryOperator::Or => left | right,
            BinaryOperator::Xor => left ^ right,
            // "uses the shift count modulo 64": a shift by 64 gives the left operand.
            BinaryOperator::Shl => left << (right % 64),
            BinaryOperator::Shr => left >> (right % 64),
            BinaryOperator::Eq => u64::from(left == right),
            BinaryOperator::Ult => u64::from(left < right),
        }
    }
}

#[cfg(test)]
mod tests;
