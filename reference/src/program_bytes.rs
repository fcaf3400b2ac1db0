//! The bytes of a program as a job file holds them.

use crate::expression::{BinaryOperator, Expression, Token, UnaryOperator};
use crate::machine::Instruction;
use crate::refusal::{self, Refusal};

/// A token count or label that does not fit its field is refusal 11, as 4 or 6 would refuse it.
/// Smaller ones are judged when the bytes are read.
pub fn program_bytes(program: &[Instruction]) -> Result<Vec<u8>, Refusal> {
    let mut bytes = Vec::new();
    for instruction in program {
        put_instruction(instruction, &mut bytes)?;
    }
    Ok(bytes)
}

fn put_instruction(instruction: &Instruction, bytes: &mut Vec<u8>) -> Result<(), Refusal> {
    bytes.push(instruction.kind() as u8);
    match instruction {
        Instruction::Skip | Instruction::Barrier => Ok(()),
        Instruction::Assign { register, value: expression }
        | Instruction::Load { register, address: expression }
        | Instruction::Store { register, address: expression } => {
            bytes.push(*register as u8);
            put_expression(expression, bytes)
        }
        Instruction::Jump { target } => put_expression(target, bytes),
        Instruction::BranchIfZero { register, label } => {
            bytes.push(*register as u8);
            put_label(*label, bytes)
        }
        Instruction::ConditionalAssign { register, condition, value } => {
            bytes.push(*register as u8);
            put_expression(condition, bytes)?;
            put_expression(value, bytes)
        }
    }
}

fn put_label(label: usize, bytes: &mut Vec<u8>) -> Result<(), Refusal> {
    let label = u16::try_from(label).map_err(|_| refusal::TEXT)?;
    bytes.extend(label.to_le_bytes());
    Ok(())
}

fn put_expression(expression: &Expression, bytes: &mut Vec<u8>) -> Result<(), Refusal> {
    let count = u8::try_from(expression.0.len()).map_err(|_| refusal::TEXT)?;
    bytes.push(count);
    for token in &expression.0 {
        put_token(token, bytes);
    }
    Ok(())
}

fn put_token(token: &Token, bytes: &mut Vec<u8>) {
    match token {
        Token::Register(register) => bytes.push(*register as u8),
        Token::Constant(value) => {
            bytes.push(16);
            bytes.extend(value.to_le_bytes());
        }
        Token::Unary(sign) => bytes.push(sign_byte(*sign)),
        Token::Binary(operator) => bytes.push(operator_byte(*operator)),
    }
}

fn sign_byte(sign: UnaryOperator) -> u8 {
    match sign {
        UnaryOperator::Neg => 17,
        UnaryOperator::Not => 18,
    }
}

fn operator_byte(operator: BinaryOperator) -> u8 {
    match operator {
        BinaryOperator::Add => 19,
        BinaryOperator::Sub => 20,
        BinaryOperator::Mul => 21,
        BinaryOperator::And => 22,
        BinaryOperator::Or => 23,
        BinaryOperator::Xor => 24,
        BinaryOperator::Shl => 25,
        BinaryOperator::Shr => 26,
        BinaryOperator::Eq => 27,
        BinaryOperator::Ult => 28,
    }
}
