//! Reading and printing on a small stack: deep brackets, many signs and long lines need no more of it than
//! the deepest operand that is accepted.
//!
//! depth [BYTES]: makes each call on a thread whose stack has so many bytes, and compares it with the
//! reference. A stack that is too small ends the program by a signal.
//! depth --smallest: the smallest stack that serves, found by starting this program again.

use std::process::{Command, ExitCode, Stdio};
use std::thread;

use checker_tests::job_file::{assign, conditional, Parts, Token, ADD, MAX_INSTRUCTIONS, NEG, NOT};
use checker_tests::lend::Fill;
use checker_tests::text::calls::{TextCall, TextOperation, TextOutcome};
use checker_tests::text::deep;

/// The system gives no thread a smaller stack.
const LEAST_STACK: usize = 16_384;

/// Twice what serves, the start of the thread and the test's own frames included.
const STACK: usize = 2 * LEAST_STACK;

const PAGE: usize = 4_096;
const MILLION: usize = 1_000_000;
const LEVELS: usize = 10_000;

struct Input {
    name: &'static str,
    operation: TextOperation,
    bytes: Vec<u8>,
    /// What the call must return.
    number: u32,
}

fn main() -> ExitCode {
    match std::env::args().nth(1).as_deref() {
        None => call_all(STACK),
        Some("--smallest") => find_smallest(),
        Some(word) => match word.parse() {
            Ok(stack) => call_all(stack),
            Err(error) => {
                eprintln!("{word}: {error}\nusage: depth [BYTES]\n       depth --smallest");
                ExitCode::from(2)
            }
        },
    }
}

fn call_all(stack: usize) -> ExitCode {
    let mut failed = 0;
    let inputs = inputs();
    for input in &inputs {
        if let Err(difference) = call(input, stack) {
            println!("{}: {difference}", input.name);
            failed += 1;
        }
    }
    println!("calls on a stack of {stack} bytes: {}; failed: {failed}", inputs.len());
    if failed == 0 {
        ExitCode::SUCCESS
    } else {
        ExitCode::FAILURE
    }
}

fn call(input: &Input, stack: usize) -> Result<(), String> {
    let Input { operation, bytes, number, .. } = input;
    let length = operation.written(bytes).map_or(100, |written| written.len());
    let fill = Fill { salt: 3, margin: 8 };
    let call = TextCall { operation: *operation, input: bytes, length, fill };
    let outcome = on_stack(&call, stack)?;
    if outcome.number != *number {
        return Err(format!("{} returned {}, not {number}", operation.name(), outcome.number));
    }
    outcome.difference(&call.by_reference()).map_or(Ok(()), Err)
}

fn on_stack(call: &TextCall, stack: usize) -> Result<TextOutcome, String> {
    thread::scope(|scope| {
        let started =
            thread::Builder::new().stack_size(stack).spawn_scoped(scope, || call.by_library());
        let thread = started.map_err(|error| format!("no thread: {error}"))?;
        thread.join().map_err(|_| "the call panicked".to_string())
    })
}

fn inputs() -> Vec<Input> {
    let mut all = Vec::new();
    for (name, text) in refused_texts() {
        all.push(Input { name, operation: TextOperation::Read, bytes: text.into(), number: 11 });
    }
    for (name, text) in accepted_texts() {
        all.push(Input { name, operation: TextOperation::Read, bytes: text.into(), number: 0 });
    }
    for (name, tokens) in deepest_tokens() {
        let mut program = vec![assign(1, &tokens); MAX_INSTRUCTIONS / 4];
        program.extend(vec![conditional(1, &tokens, &tokens); MAX_INSTRUCTIONS / 4]);
        let bytes = Parts::new(program, 0, 0, 0).bytes();
        all.push(Input { name, operation: TextOperation::Print, bytes, number: 0 });
    }
    let lacking = Parts::new(vec![assign(1, &[ADD; 16])], 0, 0, 0).bytes();
    let name = "operators without operands";
    all.push(Input { name, operation: TextOperation::Print, bytes: lacking, number: 5 });
    all
}

fn refused_texts() -> Vec<(&'static str, String)> {
    let mixed = format!("{}r0{}", "neg (not ".repeat(LEVELS), " add 1)".repeat(LEVELS));
    let both = format!("{}r0{}", "(r1 add (".repeat(LEVELS), " mul 2))".repeat(LEVELS));
    vec![
        ("16,384 opening brackets", format!("set r1 {}", "(".repeat(16_384))),
        ("16,384 opening brackets alone", "(".repeat(16_384)),
        ("16,384 closing brackets", format!("set r1 {}", ")".repeat(16_384))),
        ("a million opening brackets", format!("jmp {}", "(".repeat(MILLION))),
        ("16,384 opening brackets with spaces", format!("set r1 {}", "( ".repeat(16_384))),
        ("a thousand signs", format!("set r1 {}r0", "neg ".repeat(1_000))),
        ("a million signs and no operand", format!("set r1 {}", "not ".repeat(MILLION))),
        ("ten thousand levels on the left", format!("set r1 {}", deep::left(LEVELS))),
        ("ten thousand levels on the right", format!("set r1 {}", deep::right(LEVELS))),
        ("ten thousand levels with signs", format!("set r1 {mixed}")),
        ("ten thousand levels on both sides", format!("cset r1 {both} {both}")),
        ("eight levels on the left", format!("set r1 {}", deep::left(8))),
        ("eight levels on the right", format!("set r1 {}", deep::right(8))),
        ("sixteen signs", format!("set r1 {}", deep::signs(16))),
        ("a word of a million letters", "s".repeat(MILLION)),
        ("a number of a million digits", format!("jmp {}", "1".repeat(MILLION))),
        ("a number of a million zeros", format!("jmp {}", "0".repeat(MILLION))),
        ("a million tabs", "\t".repeat(MILLION)),
        ("a million newlines", "\n".repeat(MILLION)),
        ("a million instructions", "skip\n".repeat(MILLION)),
    ]
}

fn accepted_texts() -> Vec<(&'static str, String)> {
    let blanks = " ".repeat(MILLION);
    let lines = |operand: String| {
        let line = format!("set r1 {operand}\ncset r2 {operand} {operand}\n");
        line.repeat(MAX_INSTRUCTIONS / 2)
    };
    vec![
        ("a line of a million bytes", format!("set{blanks}r1 (r2{blanks}add 3){blanks}")),
        ("a remark of a million bytes", format!("skip#{}\nskip", "(".repeat(MILLION))),
        ("a million blank lines", format!("{}skip", " \n".repeat(MILLION))),
        ("fifteen signs", lines(deep::signs(15))),
        ("seven levels on the left and a sign", lines(format!("neg {}", deep::left(7)))),
        ("seven levels on the right and a sign", lines(format!("not {}", deep::right(7)))),
        ("signs and levels in turn", lines(turns(5))),
    ]
}

/// A sign before each bracket: three tokens a level and one more.
fn turns(levels: usize) -> String {
    format!("{}r0{}", "neg (r1 sub ".repeat(levels), ")".repeat(levels))
}

/// The expressions of 16 tokens that nest most.
fn deepest_tokens() -> Vec<(&'static str, Vec<Token>)> {
    let r0 = Token::Register(0);
    let signs = [NEG, NOT].repeat(8)[1..].to_vec();
    vec![
        ("fifteen signs printed", [vec![r0], signs].concat()),
        ("seven levels on the left printed", [vec![r0, NOT], [r0, ADD].repeat(7)].concat()),
        ("seven levels on the right printed", [vec![r0; 8], vec![ADD; 7], vec![NEG]].concat()),
        ("signs and levels in turn printed", [vec![r0; 6], [ADD, NEG].repeat(5)].concat()),
    ]
}

/// Halves the distance between a stack that serves and one that does not, in pages.
fn find_smallest() -> ExitCode {
    let (mut fails, mut serves) = (LEAST_STACK / PAGE - 1, 1_024 * LEAST_STACK / PAGE);
    while serves - fails > 1 {
        let pages = (fails + serves) / 2;
        match serves_on(pages * PAGE) {
            Ok(true) => serves = pages,
            Ok(false) => fails = pages,
            Err(error) => {
                eprintln!("cannot start this program again: {error}");
                return ExitCode::FAILURE;
            }
        }
    }
    println!("smallest stack that serves: {} bytes", serves * PAGE);
    ExitCode::SUCCESS
}

fn serves_on(stack: usize) -> std::io::Result<bool> {
    let mut command = Command::new(std::env::current_exe()?);
    command.arg(stack.to_string()).stdout(Stdio::null()).stderr(Stdio::null());
    Ok(command.status()?.success())
}
