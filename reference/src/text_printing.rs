//! A program as text: one instruction a line, one space between parts, none just inside brackets.

use crate::expression::{BinaryOperator, Expression, Token, UnaryOperator};
use crate::machine::Instruction;

/// Each line ends with a newline.
pub fn routine_text(program: &[Instruction]) -> String {
    program.iter().map(|instruction| instruction_text(instruction) + "\n").collect()
}

fn instruction_text(instruction: &Instruction) -> String {
    match instruction {
        Instruction::Skip => "skip".to_string(),
        Instruction::Assign { register, value } => {
            format!("set r{register} {}", operand_text(value))
        }
        Instruction::Load { register, address } => {
            format!("load r{register} {}", operand_text(address))
        }
        Instruction::Store { register, address } => {
            format!("store r{register} {}", operand_text(address))
        }
        Instruction::Jump { target } => format!("jmp {}", operand_text(target)),
        Instruction::BranchIfZero { register, label } => format!("beqz r{register} {label}"),
        Instruction::ConditionalAssign { register, condition, value } => {
            format!("cset r{register} {} {}", operand_text(condition), operand_text(value))
        }
        Instruction::Barrier => "spbarr".to_string(),
    }
}

/// The postfix rule, checked when the job is read, keeps every pop from failing.
fn operand_text(expression: &Expression) -> String {
    let mut stack: Vec<String> = Vec::new();
    for token in &expression.0 {
        let text = match token {
            Token::Register(register) => format!("r{register}"),
            Token::Constant(value) => value.to_string(),
            Token::Unary(sign) => {
                let operand = stack.pop().expect("postfix rule");
                format!("{} {operand}", sign_name(*sign))
            }
            Token::Binary(operator) => {
                let right = stack.pop().expect("postfix rule");
                let left = stack.pop().expect("postfix rule");
                format!("({left} {} {right})", operator_name(*operator))
            }
        };
        stack.push(text);
    }
    stack.pop().expect("postfix rule")
}

fn sign_name(sign: UnaryOperator) -> &'static str {
    match sign {
        UnaryOperator::Neg => "neg",
        UnaryOperator::Not => "not",
    }
}

fn operator_name(operator: BinaryOperator) -> &'static str {
    match operator {
        BinaryOperator::Add => "add",
        BinaryOperator::Sub => "sub",
        BinaryOperator::Mul => "mul",
        BinaryOperator::And => "and",
        BinaryOperator::Or => "or",
        BinaryOperator::Xor => "xor",
        BinaryOperator::Shl => "shl",
        BinaryOperator::Shr => "shr",
        BinaryOperator::Eq => "eq",
        BinaryOperator::Ult => "ult",
    }
}
