//! Reading and printing of texts of growing length: the library beside the reference, in megabytes of text a
//! second. Where the time is linear in the length, a series has about the same number in every row.

use std::hint::black_box;
use std::process::ExitCode;

use check_box_reference as reference;
use checker_tests::job_file::{Parts, Token, MAX_INSTRUCTIONS, NEG, XOR};
use checker_tests::library;
use checker_tests::random::Random;
use checker_tests::text::calls::TextOperation;
use checker_tests::text::lines::{
    assemble, written_assignment, written_conditional, written_skip, Line, Written, PRINTED,
};

use crate::timing::{best_of, processor};

/// A text, and the job that prints as it if there is one.
struct Sample {
    series: &'static str,
    instructions: usize,
    text: Vec<u8>,
    job: Option<Vec<u8>>,
}

/// About so many bytes of text are read or written in one round.
const ROUND_BYTES: usize = 100_000;

/// Nanoseconds a call and bytes of text give megabytes a second.
fn speed(text: usize, nanoseconds: f64) -> f64 {
    text as f64 * 1e3 / nanoseconds
}

pub fn measure_texts(rounds: usize) -> ExitCode {
    println!("processor: {}; best of {rounds} rounds", processor());
    println!("megabytes of text a second; the output area is the same for all calls, not cleared between them");
    println!();
    println!("| text | instructions | bytes | reading, library | reading, reference | printing, library | printing, reference |");
    println!("|---|---|---|---|---|---|---|");
    for sample in samples() {
        let Sample { series, instructions, text, job } = &sample;
        let Some(reading) = speeds(TextOperation::Read, text, text.len(), rounds) else {
            eprintln!("{series}, {} bytes: the answers differ", text.len());
            return ExitCode::FAILURE;
        };
        let printing = match job {
            None => ["".to_string(), "".to_string()],
            Some(job) => match speeds(TextOperation::Print, job, text.len(), rounds) {
                Some(printing) => printing.map(|speed| format!("{speed:.1}")),
                None => {
                    eprintln!("{series}, {instructions} instructions: the answers differ");
                    return ExitCode::FAILURE;
                }
            },
        };
        println!(
            "| {series} | {instructions} | {} | {:.1} | {:.1} | {} | {} |",
            text.len(),
            reading[0],
            reading[1],
            printing[0],
            printing[1]
        );
    }
    ExitCode::SUCCESS
}

/// The speeds of library and reference; none if they do not write the same or refuse the input.
fn speeds(operation: TextOperation, input: &[u8], text: usize, rounds: usize) -> Option<[f64; 2]> {
    let mut out = vec![0; 200_000];
    let calls = (ROUND_BYTES / text).max(1);
    let mut results = Vec::new();
    let speeds = [by_library, by_reference].map(|call| {
        let count = call(operation, input, &mut out);
        results.push(count.map(|count| out[..count].to_vec()));
        let time = best_of(rounds, calls, || {
            black_box(call(operation, black_box(input), &mut out));
        });
        speed(text, time)
    });
    (results[0].is_some() && results[0] == results[1]).then_some(speeds)
}

/// The bytes that a call writes; none if it refuses.
fn by_library(operation: TextOperation, input: &[u8], out: &mut [u8]) -> Option<usize> {
    let (number, bytes) = match operation {
        TextOperation::Read => {
            let mut answer = [0; library::READ_ANSWER];
            (library::read_text(input, out, &mut answer), answer[0])
        }
        TextOperation::Print => {
            let mut answer = [0; library::PRINT_ANSWER];
            (library::print_text(input, out, &mut answer), answer[0])
        }
    };
    (number == 0).then_some(bytes as usize)
}

fn by_reference(operation: TextOperation, input: &[u8], out: &mut [u8]) -> Option<usize> {
    match operation {
        TextOperation::Read => reference::read_text(input, out).ok().map(|counts| counts.bytes),
        TextOperation::Print => reference::print_text(input, out).ok(),
    }
}

fn samples() -> Vec<Sample> {
    let mut all = Vec::new();
    for count in [8, 32, 128, MAX_INSTRUCTIONS] {
        all.push(printed(
            "expressions of 16 tokens",
            vec![written_assignment(15, &registers()); count],
        ));
    }
    for count in [8, 32, 128, MAX_INSTRUCTIONS] {
        let constants = constants();
        let program = vec![written_conditional(15, &constants, &constants); count];
        all.push(Sample {
            job: None,
            ..printed("conditional, 32 tokens with large constants", program)
        });
    }
    for count in [8, 32, 128, MAX_INSTRUCTIONS] {
        all.push(printed("short lines", short_lines(count)));
    }
    for length in [20_000, 100_000, 1_000_000, 10_000_000] {
        all.push(with_remarks(length));
    }
    for length in [20_000, 100_000, 1_000_000, 10_000_000] {
        all.push(with_blank_lines(length));
    }
    all
}

/// The program's text as printing writes it, and its job.
fn printed(series: &'static str, program: Vec<Written>) -> Sample {
    let lines: Vec<Line> = program.iter().map(|written| written.line.clone()).collect();
    let text = assemble(&lines, PRINTED, &mut Random::new(0));
    let instructions = program.len();
    let bytes = program.into_iter().map(|written| written.bytes).collect();
    Sample { series, instructions, text, job: Some(Parts::new(bytes, 0, 0, 0).bytes()) }
}

/// Eight registers held together, then their operators and a sign.
fn registers() -> Vec<Token> {
    let mut tokens: Vec<Token> = (8..16).map(Token::Register).collect();
    tokens.extend([XOR; 7]);
    tokens.push(NEG);
    tokens
}

fn constants() -> Vec<Token> {
    let mut tokens: Vec<Token> = (0..8).map(|number| Token::Constant(u64::MAX - number)).collect();
    tokens.extend([XOR; 7]);
    tokens.push(NEG);
    tokens
}

fn short_lines(count: usize) -> Vec<Written> {
    let lines = [written_skip(), written_assignment(1, &[Token::Constant(2)])];
    lines.into_iter().cycle().take(count).collect()
}

/// A text of about so many bytes, most of them in remarks behind instructions.
fn with_remarks(length: usize) -> Sample {
    let sample = printed("long remarks", short_lines(MAX_INSTRUCTIONS));
    let remark = " #".to_string() + &"-".repeat(length / MAX_INSTRUCTIONS) + "\n";
    let text = String::from_utf8_lossy(&sample.text).replace('\n', &remark).into_bytes();
    Sample { text, job: None, ..sample }
}

/// A text of about so many bytes, most of them in short remarks and blank lines between instructions.
fn with_blank_lines(length: usize) -> Sample {
    let sample = printed("blank lines and short remarks", short_lines(MAX_INSTRUCTIONS));
    let lines = "\n   \n# a\n".repeat(length / MAX_INSTRUCTIONS / 9 + 1);
    let text = String::from_utf8_lossy(&sample.text).replace('\n', &lines).into_bytes();
    Sample { text, job: None, ..sample }
}
