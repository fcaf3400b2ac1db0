//! Valid texts: instructions as the parts of their lines together with the bytes of a program, and the
//! ways in which parts can be spaced and remarks put between them.

use crate::expressions::Pool;
use crate::job_file::{
    assign, beqz, conditional, jmp, load, skip, spbarr, store, Instruction, Token,
};
use crate::random::Random;

/// A word, a number or a bracket of a line.
pub type Part = Vec<u8>;
pub type Line = Vec<Part>;

/// An instruction as its line and as bytes.
#[derive(Clone)]
pub struct Written {
    pub line: Line,
    pub bytes: Instruction,
}

pub const SIGNS: [&str; 2] = ["neg", "not"];
pub const OPERATORS: [&str; 10] =
    ["add", "sub", "mul", "and", "or", "xor", "shl", "shr", "eq", "ult"];

pub fn part(text: &str) -> Part {
    text.as_bytes().to_vec()
}

/// The parts of an expression that keeps the postfix rule.
pub fn infix(tokens: &[Token]) -> Line {
    let mut stack: Vec<Line> = Vec::new();
    let pop = |stack: &mut Vec<Line>| stack.pop().expect("the postfix rule");
    for token in tokens {
        let operand = match *token {
            Token::Register(register) => vec![part(&format!("r{register}"))],
            Token::Constant(value) => vec![part(&value.to_string())],
            Token::Operator(sign @ (17 | 18)) => {
                [vec![part(SIGNS[usize::from(sign) - 17])], pop(&mut stack)].concat()
            }
            Token::Operator(byte) => {
                let (right, left) = (pop(&mut stack), pop(&mut stack));
                let operator = vec![part(OPERATORS[usize::from(byte) - 19])];
                [vec![part("(")], left, operator, right, vec![part(")")]].concat()
            }
        };
        stack.push(operand);
    }
    pop(&mut stack)
}

fn written(words: &[&str], expressions: &[&[Token]], bytes: Instruction) -> Written {
    let mut line: Line = words.iter().map(|word| part(word)).collect();
    line.extend(expressions.iter().flat_map(|tokens| infix(tokens)));
    Written { line, bytes }
}

pub fn written_branch(register: u8, label: u16) -> Written {
    let words = ["beqz", &format!("r{register}"), &label.to_string()];
    written(&words, &[], beqz(register, label))
}

pub fn written_assignment(register: u8, value: &[Token]) -> Written {
    written(&["set", &format!("r{register}")], &[value], assign(register, value))
}

pub fn written_conditional(register: u8, condition: &[Token], value: &[Token]) -> Written {
    let bytes = conditional(register, condition, value);
    written(&["cset", &format!("r{register}")], &[condition, value], bytes)
}

pub fn written_skip() -> Written {
    written(&["skip"], &[], skip())
}

/// The instruction with its own label, in a program of as many instructions as the pool says.
pub fn random_instruction(pool: &Pool, own: u64, random: &mut Random) -> Written {
    let register = pool.register(random);
    let name = format!("r{register}");
    let value = pool.expression(random);
    match random.below(9) {
        0 => written_skip(),
        1 | 2 => written_assignment(register, &value),
        3 => written(&["load", &name], &[&value], load(register, &value)),
        4 => written(&["store", &name], &[&value], store(register, &value)),
        5 => written(&["jmp"], &[&value], jmp(&value)),
        6 => written_branch(register, random_label(pool.instructions, own, random)),
        7 => written_conditional(register, &pool.expression(random), &value),
        _ => written(&["spbarr"], &[], spbarr()),
    }
}

/// Any label up to END but the next one, often one beside these bounds.
fn random_label(end: u64, own: u64, random: &mut Random) -> u16 {
    let any = random.below(end + 1);
    let label = random.pick(&[any, end, own, (own + 2).min(end), 0]);
    if label == own + 1 {
        own as u16
    } else {
        label as u16
    }
}

/// How the parts of a line are put together.
#[derive(Clone, Copy, PartialEq, Eq)]
pub enum Spacing {
    /// As printing does it.
    Printed,
    /// Spaces only where two words or numbers would touch.
    Tight,
    Loose,
    /// Now and then hundreds of spaces.
    Wide,
}

#[derive(Clone, Copy)]
pub struct Layout {
    pub spacing: Spacing,
    pub remarks: bool,
    pub blank_lines: bool,
    pub last_newline: bool,
}

/// What printing does.
pub const PRINTED: Layout =
    Layout { spacing: Spacing::Printed, remarks: false, blank_lines: false, last_newline: true };

pub fn random_layout(random: &mut Random) -> Layout {
    let spacings = [Spacing::Printed, Spacing::Tight, Spacing::Loose, Spacing::Loose];
    Layout {
        spacing: if random.one_in(12) { Spacing::Wide } else { random.pick(&spacings) },
        remarks: random.one_in(2),
        blank_lines: random.one_in(2),
        last_newline: !random.one_in(3),
    }
}

pub fn assemble(lines: &[Line], layout: Layout, random: &mut Random) -> Vec<u8> {
    let mut text = Vec::new();
    for line in lines {
        while layout.blank_lines && random.one_in(3) {
            put_line(&[], layout, random, &mut text);
        }
        put_line(line, layout, random, &mut text);
    }
    if layout.blank_lines && random.one_in(2) {
        put_line(&[], layout, random, &mut text);
    }
    if !layout.last_newline {
        text.pop();
    }
    text
}

fn put_line(line: &[Part], layout: Layout, random: &mut Random, text: &mut Vec<u8>) {
    put_blanks(outer_blanks(layout.spacing, random), text);
    for (at, part) in line.iter().enumerate() {
        if at > 0 {
            put_blanks(blanks_between(&line[at - 1], part, layout.spacing, random), text);
        }
        text.extend(part);
    }
    put_blanks(outer_blanks(layout.spacing, random), text);
    if layout.remarks && random.one_in(2) {
        put_remark(random, text);
    }
    text.push(b'\n');
}

fn put_blanks(count: u64, text: &mut Vec<u8>) {
    text.resize(text.len() + count as usize, b' ');
}

fn outer_blanks(spacing: Spacing, random: &mut Random) -> u64 {
    match spacing {
        Spacing::Printed | Spacing::Tight => 0,
        Spacing::Loose | Spacing::Wide => random.below(3),
    }
}

fn blanks_between(before: &Part, after: &Part, spacing: Spacing, random: &mut Random) -> u64 {
    let is_bracket = |part: &Part| part == b"(" || part == b")";
    let needed = u64::from(!is_bracket(before) && !is_bracket(after));
    match spacing {
        Spacing::Printed => u64::from(before != b"(" && after != b")"),
        Spacing::Tight => needed,
        Spacing::Wide if random.one_in(8) => random.between(1, 400),
        Spacing::Loose | Spacing::Wide => needed + random.below(3),
    }
}

/// Any bytes but a newline; half of the time what looks like an instruction.
fn put_remark(random: &mut Random, text: &mut Vec<u8>) {
    text.push(b'#');
    if random.one_in(2) {
        text.extend(b" set r1 (r2 add 3) # \t\r");
        return;
    }
    let length = if random.one_in(20) { random.below(600) } else { random.below(12) };
    let bytes = (0..length).map(|_| random.word() as u8).filter(|&byte| byte != b'\n');
    text.extend(bytes);
}

/// The parts of each line of a printed text.
pub fn parts_of(text: &[u8]) -> Vec<Line> {
    text.split(|&byte| byte == b'\n').map(parts_of_line).filter(|line| !line.is_empty()).collect()
}

fn parts_of_line(bytes: &[u8]) -> Line {
    let mut line = Line::new();
    let mut inside_word = false;
    for &byte in bytes {
        let in_word = !b" ()".contains(&byte);
        match line.last_mut() {
            Some(word) if in_word && inside_word => word.push(byte),
            _ if byte != b' ' => line.push(vec![byte]),
            _ => {}
        }
        inside_word = in_word;
    }
    line
}
