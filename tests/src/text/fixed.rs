//! Fixed cases of reading and printing: every length around the exact one, every byte of a small text
//! changed, removed and doubled, each wrong piece at each place, and each limit with its neighbours.

use crate::examples::{self, printed};
use crate::fixed::file_of_each_refusal;
use crate::job_file::{
    assign, beqz, set_field, skip, Field, Instruction, Parts, Token, ADD, MAX_INSTRUCTIONS, NEG,
    NOT,
};
use crate::random::Random;
use crate::text::calls::TextOperation;
use crate::text::cases::{Kind, Known, TextCase};
use crate::text::deep;
use crate::text::lines::{
    assemble, infix, written_assignment, written_branch, written_conditional, written_skip, Line,
    Written, OPERATORS, PRINTED, SIGNS,
};
use crate::text::wrong::{line_with, LINES, NO_BLANKS, OPERANDS, PLACES};

type Cases = Vec<TextCase>;

/// Room for what every fixed case writes.
const ROOMY: usize = 90_000;
const TEXT_REFUSED: u32 = 11;

pub fn all() -> Cases {
    let mut cases = Cases::new();
    lengths_around_the_exact_one(&mut cases);
    bytes_of_a_small_text(&mut cases);
    wrong_pieces(&mut cases);
    operands(&mut cases);
    constants(&mut cases);
    labels(&mut cases);
    instruction_counts(&mut cases);
    largest_program(&mut cases);
    depths(&mut cases);
    long_lines(&mut cases);
    refused_jobs(&mut cases);
    for (number, case) in cases.iter_mut().enumerate() {
        case.name = format!("fixed-{number}");
        case.salt = number as u64 * 0x1_0001;
    }
    cases
}

fn case(operation: TextOperation, input: Vec<u8>, length: usize, known: Known) -> TextCase {
    let (name, kind, fault) = (String::new(), Kind::Fixed, None);
    TextCase { name, kind, fault, operation, input, known, length, salt: 0 }
}

fn read(input: impl Into<Vec<u8>>, known: Known) -> TextCase {
    let input = input.into();
    let length = input.len() + 100;
    case(TextOperation::Read, input, length, known)
}

fn refused(input: impl Into<Vec<u8>>) -> TextCase {
    read(input, Known::Refused(TEXT_REFUSED))
}

/// A text that must be read to these instructions.
fn accepted(text: impl Into<Vec<u8>>, program: &[Written]) -> TextCase {
    let bytes = program.iter().flat_map(|written| written.bytes.clone()).collect();
    let known = Known::Written(bytes, program.len());
    case(TextOperation::Read, text.into(), ROOMY, known)
}

/// The program as printing writes it.
fn text_of(program: &[Written]) -> Vec<u8> {
    let lines: Vec<Line> = program.iter().map(|written| written.line.clone()).collect();
    assemble(&lines, PRINTED, &mut Random::new(0))
}

/// The job of a program prints as this text, which reads as the program.
fn both_ways(program: &[Written], cases: &mut Cases) {
    let text = text_of(program);
    cases.push(accepted(text.clone(), program));
    let instructions = program.iter().map(|written| written.bytes.clone()).collect();
    let job = Parts::new(instructions, 0, 0, 0).bytes();
    let known = Known::Written(text, program.len());
    cases.push(case(TextOperation::Print, job, ROOMY, known));
}

/// The text that document 02 prints, with and without its last newline, and its job.
fn lengths_around_the_exact_one(cases: &mut Cases) {
    let program = printed().program;
    let known = Known::Written(program.concat(), program.len());
    let text = examples::PRINTED_TEXT.as_bytes();
    for length in 0..80 {
        for text in [text, &text[..text.len() - 1]] {
            cases.push(case(TextOperation::Read, text.to_vec(), length, known.clone()));
        }
        let known = Known::Written(text.to_vec(), 4);
        cases.push(case(TextOperation::Print, printed().bytes(), length, known));
    }
}

fn bytes_of_a_small_text(cases: &mut Cases) {
    let text = examples::PRINTED_TEXT.as_bytes();
    for at in 0..text.len() {
        for byte in 0..=255 {
            let mut changed = text.to_vec();
            changed[at] = byte;
            cases.push(read(changed, Known::Nothing));
        }
        let (before, after) = text.split_at(at);
        cases.push(read(before, Known::Nothing));
        cases.push(read(after, Known::Nothing));
        cases.push(read([before, &after[1..]].concat(), Known::Nothing));
        for byte in NO_BLANKS.into_iter().chain([text[at]]).chain(*b" \n#(") {
            cases.push(read([before, &[byte], after].concat(), Known::Nothing));
        }
    }
}

fn wrong_pieces(cases: &mut Cases) {
    for line in LINES {
        cases.push(refused(line));
        cases.push(refused([b"skip\n", line, b"\nskip\n"].concat()));
    }
    for operand in OPERANDS {
        for place in 0..PLACES {
            cases.push(refused(line_with(operand, place)));
        }
    }
    for byte in NO_BLANKS {
        for text in [&b"skip?"[..], b"?skip", b"set?r1 2", b"set r1?2", b"set r1 (?r2 add 3)", b"?"]
        {
            let text: Vec<u8> = text.iter().map(|&b| if b == b'?' { byte } else { b }).collect();
            cases.push(refused(text));
        }
    }
    for text in ["", "\n", "   ", " \n\n", "# skip", "#\n# set r1 2\n"] {
        cases.push(refused(text));
    }
}

/// Each register, sign and operator; each operand at each place.
fn operands(cases: &mut Cases) {
    let mut operands: Vec<Vec<Token>> =
        (0..16).map(|register| vec![Token::Register(register)]).collect();
    let [r1, five] = [Token::Register(1), Token::Constant(5)];
    operands.extend((17..17 + SIGNS.len() as u8).map(|sign| vec![r1, Token::Operator(sign)]));
    operands.extend((19..19 + OPERATORS.len() as u8).map(|op| vec![r1, five, Token::Operator(op)]));
    operands.push(vec![r1, five, ADD, NOT, NEG]);
    for tokens in operands {
        both_ways(&[written_assignment(0, &tokens)], cases);
        both_ways(&[written_conditional(15, &tokens, &[r1])], cases);
        both_ways(&[written_conditional(15, &[five], &tokens)], cases);
        for place in 0..PLACES {
            let operand = infix(&tokens).join(&b' ');
            cases.push(read(line_with(&operand, place), Known::Nothing));
        }
    }
}

/// Each power of ten and of two with its neighbours, and the numbers around 2^64.
fn constants(cases: &mut Cases) {
    let powers = (0..20).map(|digits| 10u64.pow(digits)).chain((0..64).map(|bit| 1 << bit));
    for power in powers.chain([u64::MAX]) {
        for value in [power.wrapping_sub(1), power, power.wrapping_add(1)] {
            both_ways(&[written_assignment(1, &[Token::Constant(value)])], cases);
            cases.push(refused(format!("set r1 0{value}")));
        }
    }
    let limit = 1u128 << 64;
    for value in (limit..limit + 20).chain([limit * 2, limit * 10 - 6, limit * 10, u128::MAX]) {
        cases.push(refused(format!("jmp {value}")));
        cases.push(refused(format!("beqz r0 {value}")));
        cases.push(refused(format!("set r{value} 1")));
    }
    for zeros in [20, 21, 64, 255, 256, 257, 5_000] {
        cases.push(refused(format!("jmp 1{}", "0".repeat(zeros))));
        cases.push(refused(format!("jmp {}", "0".repeat(zeros))));
    }
}

/// Every label at every place of a small program, and labels around the limits of larger ones.
fn labels(cases: &mut Cases) {
    for count in [1usize, 2, 5, 255, 256, 257, 511, 512] {
        let places = if count < 10 { (0..count).collect() } else { vec![0, 254, 255, count - 1] };
        for own in places.into_iter().filter(|&own| own < count) {
            for label in
                [0, 1, own, own + 1, own + 2, count - 1, count, count + 1, 512, 513, 65_535]
            {
                let mut program = vec![written_skip(); count];
                program[own] = written_branch(3, label as u16);
                if label <= count && label != own + 1 {
                    both_ways(&program, cases);
                } else {
                    cases.push(refused(text_of(&program)));
                }
            }
        }
    }
    // Remarks and blank lines have no label, and a label counts all lines that follow too.
    let program = [written_branch(0, 2), written_skip()];
    cases.push(accepted("# a\n\nbeqz r0 2 # b\n\n \nskip", &program));
    cases.push(refused("\nbeqz r0 2\n\n# skip\n"));
}

fn instruction_counts(cases: &mut Cases) {
    for count in 1..=MAX_INSTRUCTIONS + 3 {
        let program = vec![written_skip(); count];
        let text = text_of(&program);
        if count > MAX_INSTRUCTIONS {
            cases.push(refused(text));
            continue;
        }
        if count % 64 == 0 || count % 64 == 63 {
            both_ways(&program, cases);
        }
        let spread = String::from_utf8_lossy(&text).replace('\n', "#\n\n");
        cases.push(accepted(spread, &program));
    }
}

/// The longest program that a text can hold, in areas around its length.
fn largest_program(cases: &mut Cases) {
    let tokens = [vec![Token::Constant(u64::MAX); 8], vec![ADD; 7], vec![NEG]].concat();
    let program = vec![written_conditional(15, &tokens, &tokens); MAX_INSTRUCTIONS];
    let exact = accepted(text_of(&program), &program);
    let Known::Written(bytes, _) = &exact.known else { return };
    for length in [0, 16_384, bytes.len() - 1, bytes.len(), bytes.len() + 1] {
        let (input, known) = (exact.input.clone(), exact.known.clone());
        cases.push(case(TextOperation::Read, input, length, known));
    }
}

/// Sixteen tokens are accepted whatever their form, seventeen are not.
fn depths(cases: &mut Cases) {
    for levels in (0..40).chain([255, 256, 257, 1_000, 10_000]) {
        for (operand, tokens) in [
            (deep::left(levels), 2 * levels + 1),
            (deep::right(levels), 2 * levels + 1),
            (deep::signs(levels), levels + 1),
            (deep::of_tokens(levels + 1), levels + 1),
        ] {
            let line = format!("set r1 {operand}");
            let refusal = Known::Refused(TEXT_REFUSED);
            let known = if tokens > 16 { refusal } else { Known::Nothing };
            cases.push(read(line.clone(), known));
            cases.push(refused(format!("{line})")));
            cases.push(refused(format!("set r1 ({operand}")));
        }
        cases.push(refused(format!("set r1 {}", "(".repeat(levels + 1))));
    }
    for count in 1..=16 {
        let signs: Vec<Token> = (1..count).map(|at| if at % 2 == 0 { NEG } else { NOT }).collect();
        let tokens = [vec![Token::Register(0)], signs].concat();
        both_ways(&[written_assignment(1, &tokens)], cases);
    }
    for held in 1..=8 {
        let tokens = [vec![Token::Register(7); held], vec![ADD; held - 1]].concat();
        both_ways(&[written_assignment(1, &tokens)], cases);
    }
}

/// Lines of many bytes: spaces, remarks, words and digits.
fn long_lines(cases: &mut Cases) {
    let program = [written_skip()];
    for length in [255, 256, 65_535, 65_536, 200_000] {
        let blanks = " ".repeat(length);
        cases.push(accepted(format!("{blanks}skip"), &program));
        cases.push(accepted(format!("skip{blanks}\n{blanks}"), &program));
        cases.push(accepted(format!("skip#{}", "(".repeat(length)), &program));
        cases.push(accepted(format!("{}skip", "\n".repeat(length)), &program));
        cases.push(accepted(format!("{}skip", "#\n".repeat(length)), &program));
        cases.push(refused(format!("skip{}", "p".repeat(length))));
        cases.push(refused(format!("skip{blanks}p")));
        cases.push(refused(format!("jmp 1{}", "0".repeat(length))));
    }
}

/// Programs for the refusals 4 to 7.
fn wrong_programs() -> [Vec<Instruction>; 4] {
    [vec![vec![8]], vec![vec![4, 1, 19]], vec![beqz(0, 1)], vec![skip(), vec![0, 0]]]
}

/// Each refusal of a job together with later ones and with areas that are too short as well.
fn refused_jobs(cases: &mut Cases) {
    for (job, number) in file_of_each_refusal().into_iter().zip([1, 2, 3, 4, 5, 6, 7, 8, 0]) {
        for length in [0, 58, 59, 60, 200] {
            let refused = Known::Refused(number);
            let known = if number == 0 { Known::Nothing } else { refused };
            cases.push(case(TextOperation::Print, job.clone(), length, known));
        }
    }
    for (program, number) in wrong_programs().into_iter().zip(4..) {
        let mut parts = Parts { program, ..printed() };
        parts.public.push(20);
        cases.push(case(TextOperation::Print, parts.bytes(), 0, Known::Refused(number)));
        let mut job = parts.bytes();
        set_field(&mut job, Field::ListOffset, 1);
        cases.push(case(TextOperation::Print, job.clone(), 0, Known::Refused(3)));
        set_field(&mut job, Field::Zero, 1);
        cases.push(case(TextOperation::Print, job, 0, Known::Refused(2)));
    }
    for length in 0..=48 {
        cases.push(case(TextOperation::Print, vec![0; length], 100, Known::Nothing));
    }
    let over = Parts::new(vec![assign(1, &[Token::Constant(1)]); 512], 240, 0, 0);
    for cells in [0, 200, 239, 240] {
        let mut parts = over.clone();
        parts.state.resize(16 + cells, 7);
        cases.push(case(TextOperation::Print, parts.bytes(), ROOMY, Known::Nothing));
    }
}
