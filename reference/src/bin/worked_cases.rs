//! Prints the worked cases of document 01's section "A run printed whole", each with a heading and its listing.
//! `crates/cases` prints the same; `tests/printed_cases.rs` compares the two.

use std::io::Write;
use std::process::ExitCode;

use check_box_reference::{compare, listing, listing_in, WINDOW_COSTS};

/// The numbers of a job that the cases change; cell 1 holds 1, r0 and r1 are public, all other words are 0.
#[derive(Clone, Copy)]
struct Numbers {
    cells: u16,
    r0: u64,
    r1: u64,
    window: u16,
    budget: u32,
}

/// "n 4, m 4, w 10, b 100; r0 = 1, r1 = 1, cell 1 = 1, the rest 0".
const PRINTED: Numbers = Numbers { cells: 4, r0: 1, r1: 1, window: 10, budget: 100 };

/// "registers 0, w 2".
const NESTED: Numbers = Numbers { r0: 0, r1: 0, window: 2, ..PRINTED };

fn beqz(register: u8, label: u16) -> Vec<u8> {
    let [low, high] = label.to_le_bytes();
    vec![5, register, low, high]
}

/// "0 assign r2, r0 ult r1; 1 beqz r2, 4; 2 load r3, r0; 3 load r4, r3 add 2".
fn printed_program() -> Vec<Vec<u8>> {
    let mut last = vec![2, 4, 3, 3, 16];
    last.extend(2u64.to_le_bytes());
    last.push(19);
    vec![vec![1, 2, 3, 0, 1, 28], beqz(2, 4), vec![2, 3, 1, 0], last]
}

/// "spbarr put in as 2, beqz to 5".
fn barrier_program() -> Vec<Vec<u8>> {
    let mut program = printed_program();
    program[1] = beqz(2, 5);
    program.insert(2, vec![7]);
    program
}

/// "0 beqz r0, 3; 1 beqz r1, 3; 2 skip", with another label in the first branch.
fn nested_program(label: u16) -> Vec<Vec<u8>> {
    vec![beqz(0, label), beqz(1, 3), vec![0]]
}

/// The job file: program, state, public list, trailer.
fn job(program: &[Vec<u8>], numbers: Numbers) -> Vec<u8> {
    let mut state = vec![0u64; 16 + usize::from(numbers.cells)];
    state[0] = numbers.r0;
    state[1] = numbers.r1;
    state[17] = 1;
    let mut file = program.concat();
    let state_offset = file.len() as u16;
    file.extend(state.iter().flat_map(|word| word.to_le_bytes()));
    let list_offset = file.len() as u16;
    file.push(0b11);
    file.extend([0; 31]);
    let count = program.len() as u16;
    for number in [state_offset, list_offset, count, numbers.cells, numbers.window, 0] {
        file.extend(number.to_le_bytes());
    }
    file.extend(numbers.budget.to_le_bytes());
    file
}

/// "Second state with cell 1 = 0": the word on the pair.
fn pair() -> Vec<u8> {
    let mut second = [0u64; 20];
    second[0] = 1;
    second[1] = 1;
    let second: Vec<u8> = second.iter().flat_map(|word| word.to_le_bytes()).collect();
    let (mut first_trace, mut second_trace, mut work) = ([0; 1024], [0; 1024], [0; 4096]);
    let job = job(&printed_program(), PRINTED);
    match compare(&job, &second, &WINDOW_COSTS, &mut first_trace, &mut second_trace, &mut work) {
        Ok(answer) => format!("{}\n", answer.word.word()).into_bytes(),
        Err(number) => format!("refused {number}\n").into_bytes(),
    }
}

fn case(name: &str, listing: Vec<u8>) -> Vec<u8> {
    [format!("case {name}\n").into_bytes(), listing].concat()
}

fn cases() -> Vec<u8> {
    let run = |program: Vec<Vec<u8>>, numbers| listing(&job(&program, numbers));
    let printed = |numbers| run(printed_program(), numbers);
    let five = listing_in(&job(&printed_program(), PRINTED), 5);
    [
        case("printed whole", printed(PRINTED)),
        case("w 0", printed(Numbers { window: 0, ..PRINTED })),
        case("w 1", printed(Numbers { window: 1, ..PRINTED })),
        case("w 2", printed(Numbers { window: 2, ..PRINTED })),
        case("b 0", printed(Numbers { budget: 0, ..PRINTED })),
        case("b 4", printed(Numbers { budget: 4, ..PRINTED })),
        case("b 5", printed(Numbers { budget: 5, ..PRINTED })),
        case("five observations lent", five),
        case("r0 = 0", printed(Numbers { r0: 0, ..PRINTED })),
        case("spbarr put in as 2", run(barrier_program(), PRINTED)),
        case("second state with cell 1 = 0", pair()),
        case("nested", run(nested_program(3), NESTED)),
        case("m 240", printed(Numbers { cells: 240, ..PRINTED })),
        case("m 241", printed(Numbers { cells: 241, ..PRINTED })),
        case("nested, first label 1", run(nested_program(1), NESTED)),
    ]
    .concat()
}

fn main() -> ExitCode {
    match std::io::stdout().write_all(&cases()) {
        Ok(()) => ExitCode::SUCCESS,
        Err(_) => ExitCode::FAILURE,
    }
}
