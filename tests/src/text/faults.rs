//! Faults of texts: each makes a valid text one that is refused with 11.

use crate::job_file::MAX_INSTRUCTIONS;
use crate::random::Random;
use crate::text::deep;
use crate::text::lines::{part, written_skip, Line, Part, SIGNS};
use crate::text::wrong::{wrong_operand, LINES, NO_BLANKS};

#[derive(Clone, Copy, PartialEq, Eq, Debug)]
pub enum Fault {
    WrongOperand,
    WrongLine,
    OtherBlank,
    JoinedWords,
    DroppedPart,
    DoubledPart,
    SplitLine,
    NextLabel,
    LabelOverEnd,
    WrappedLabel,
    LargeConstant,
    ManyTokens,
    DeepOnTheLeft,
    DeepOnTheRight,
    OpenBrackets,
    ManySigns,
    ManyInstructions,
    NoInstruction,
}

pub const FAULTS: [Fault; 18] = [
    Fault::WrongOperand,
    Fault::WrongLine,
    Fault::OtherBlank,
    Fault::JoinedWords,
    Fault::DroppedPart,
    Fault::DoubledPart,
    Fault::SplitLine,
    Fault::NextLabel,
    Fault::LabelOverEnd,
    Fault::WrappedLabel,
    Fault::LargeConstant,
    Fault::ManyTokens,
    Fault::DeepOnTheLeft,
    Fault::DeepOnTheRight,
    Fault::OpenBrackets,
    Fault::ManySigns,
    Fault::ManyInstructions,
    Fault::NoInstruction,
];

impl Fault {
    /// Some faults make long texts: these are drawn less often.
    pub fn random(random: &mut Random) -> Fault {
        let fault = random.pick(&FAULTS);
        if fault == Fault::ManyInstructions && !random.one_in(20) {
            return Fault::WrongOperand;
        }
        fault
    }

    /// Puts the fault into the lines of a valid text.
    pub fn put(self, lines: &mut Vec<Line>, random: &mut Random) {
        match self {
            Fault::ManyInstructions => lengthen(lines, random),
            Fault::NoInstruction => lines.clear(),
            _ => {
                let own = random.index(lines.len());
                let line = std::mem::take(&mut lines[own]);
                lines[own] = self.faulty_line(line, own, lines.len(), random);
            }
        }
    }

    /// The line with its own label, in a program of so many.
    fn faulty_line(self, line: Line, own: usize, count: usize, random: &mut Random) -> Line {
        match self {
            Fault::WrongOperand => vec![wrong_operand(random)],
            Fault::WrongLine => vec![random.pick(&LINES).to_vec()],
            Fault::OtherBlank => with_other_blank(line, random),
            Fault::JoinedWords => with_joined_words(line, random),
            Fault::DroppedPart => with_dropped_part(line, random),
            Fault::DoubledPart => with_doubled_part(line, random),
            Fault::SplitLine => with_newline(line, random),
            Fault::NextLabel => branch(&(own + 1).to_string()),
            Fault::LabelOverEnd => branch(&label_over_end(count, random).to_string()),
            Fault::WrappedLabel => branch(&wrapped_label(count, random).to_string()),
            Fault::LargeConstant => assignment(&large_constant(random)),
            Fault::ManyTokens => assignment(&deep::of_tokens(random.pick(&[17, 17, 18, 19, 40]))),
            Fault::DeepOnTheLeft => assignment(&deep::left(deep_levels(random))),
            Fault::DeepOnTheRight => assignment(&deep::right(deep_levels(random))),
            Fault::OpenBrackets => assignment(&"(".repeat(deep_levels(random))),
            Fault::ManySigns => assignment(&deep::signs(random.pick(&[16, 16, 17, 255, 256]))),
            Fault::ManyInstructions | Fault::NoInstruction => line,
        }
    }
}

fn branch(label: &str) -> Line {
    ["beqz", "r0", label].map(part).to_vec()
}

fn assignment(value: &str) -> Line {
    ["set", "r0", value].map(part).to_vec()
}

/// More lines, so that there are 513 instructions or a few more.
fn lengthen(lines: &mut Vec<Line>, random: &mut Random) {
    let count = MAX_INSTRUCTIONS + random.pick(&[1, 1, 1, 2, 50]);
    let more = count.saturating_sub(lines.len());
    lines.extend(std::iter::repeat_n(written_skip().line, more));
}

fn with_other_blank(mut line: Line, random: &mut Random) -> Line {
    let byte = random.pick(&NO_BLANKS);
    let at = random.index(line.len());
    match random.below(3) {
        0 => line[at].push(byte),
        1 => line[at].insert(0, byte),
        _ => line.insert(at, vec![byte]),
    }
    line
}

fn is_word(part: &Part) -> bool {
    part != b"(" && part != b")"
}

/// Two neighbours between which a space must stand; a line without such ones gets a letter more.
fn with_joined_words(mut line: Line, random: &mut Random) -> Line {
    let pairs: Vec<usize> =
        (1..line.len()).filter(|&at| is_word(&line[at - 1]) && is_word(&line[at])).collect();
    if pairs.is_empty() {
        line[0].push(b'x');
        return line;
    }
    let at = random.pick(&pairs);
    let second = line.remove(at);
    line[at - 1].extend(second);
    line
}

/// Without a sign a line is still valid, so that signs stay.
fn with_dropped_part(mut line: Line, random: &mut Random) -> Line {
    let at = place_of_no_sign(&line, random);
    line.remove(at);
    if line.is_empty() {
        line.push(part("set"));
    }
    line
}

fn with_doubled_part(mut line: Line, random: &mut Random) -> Line {
    let at = place_of_no_sign(&line, random);
    line.insert(at, line[at].clone());
    line
}

fn place_of_no_sign(line: &Line, random: &mut Random) -> usize {
    let is_sign = |part: &Part| SIGNS.iter().any(|sign| sign.as_bytes() == part);
    let places: Vec<usize> = (0..line.len()).filter(|&at| !is_sign(&line[at])).collect();
    if places.is_empty() {
        0
    } else {
        random.pick(&places)
    }
}

/// An instruction on two lines; one that is a single word is cut in two.
fn with_newline(mut line: Line, random: &mut Random) -> Line {
    if line.len() == 1 {
        let middle = line[0].len() / 2;
        line[0].insert(middle, b'\n');
    } else {
        let at = 1 + random.index(line.len() - 1);
        line.insert(at, part("\n"));
    }
    line
}

fn label_over_end(count: usize, random: &mut Random) -> u64 {
    let end = count as u64;
    let far = random.between(end + 1, 70_000);
    random.pick(&[end + 1, end + 1, end + 2, far, 65_535, 65_536, u64::MAX])
}

/// A label that is allowed if it is taken modulo 2^8, 2^16, 2^32 or 2^64.
fn wrapped_label(count: usize, random: &mut Random) -> u128 {
    let bits = if count < 256 { random.pick(&[8, 16, 32, 64]) } else { random.pick(&[16, 32, 64]) };
    u128::from(random.between(1, 9)) << bits
}

/// From 2^64 on, at times by many digits.
fn large_constant(random: &mut Random) -> String {
    let limit = 1u128 << 64;
    match random.below(5) {
        0 => limit.to_string(),
        1 => (limit + u128::from(random.below(300))).to_string(),
        2 => (limit + u128::from(random.word())).to_string(),
        3 => format!("{}{}", random.between(1, 9), "0".repeat(random.between(20, 80) as usize)),
        _ => format!("{limit}{}", random.below(1_000)),
    }
}

fn deep_levels(random: &mut Random) -> usize {
    random.pick(&[8, 8, 9, 16, 17, 18, 64, 255, 256, 257, 600])
}
