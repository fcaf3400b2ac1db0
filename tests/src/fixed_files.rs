//! Fixed cases of reading: limits of the trailer, offsets and lengths, truncations, single bits and
//! bytes, expressions and labels at their limits, public bits, and which refusal comes first.

use crate::examples::{nested, printed};
use crate::fixed::{case_of, raw_case, Cases, ROOMY};
use crate::job_file::{
    assign, beqz, conditional, jmp, load, set_budget, set_field, skip, spbarr, state_bytes, store,
    Field, Instruction, Parts, Token, ADD, NEG,
};

pub fn add(cases: &mut Cases) {
    trailer_numbers(cases);
    limits_met_and_passed(cases);
    file_lengths(cases);
    truncations(cases);
    single_bits_and_bytes(cases);
    expression_limits(cases);
    labels(cases);
    public_bits(cases);
    first_refusal(cases);
}

/// A file with the state of the printed job as second state.
fn push_file(job: Vec<u8>, cases: &mut Cases) {
    cases.push(raw_case(job, state_bytes(&printed().state), ROOMY));
}

/// A program of one instruction of each kind.
fn every_kind() -> Parts {
    let [r0, r1] = [0, 1].map(Token::Register);
    let program = vec![
        skip(),
        assign(1, &[r0, Token::Constant(1), ADD]),
        load(2, &[r1]),
        store(2, &[r0]),
        beqz(0, 6),
        conditional(3, &[r0], &[r1, NEG]),
        spbarr(),
        jmp(&[Token::Constant(8)]),
    ];
    let mut parts = Parts::new(program, 3, 5, 60);
    parts.public = vec![0, 18];
    parts
}

/// Each number of the trailer alone takes values at, beside and far from its limits.
fn trailer_numbers(cases: &mut Cases) {
    let fields = [
        Field::StateOffset,
        Field::ListOffset,
        Field::Instructions,
        Field::Cells,
        Field::Window,
        Field::Zero,
    ];
    let near = (0..=30).chain(180..=260).chain(508..=516);
    let numbers: Vec<u16> = near.chain([0x100, 0x7FFF, 0x8000, 0xFFCF, 0xFFD0, 0xFFFF]).collect();
    for field in fields {
        for &number in &numbers {
            let mut job = printed().bytes();
            set_field(&mut job, field, number);
            push_file(job, cases);
        }
    }
    for budget in [0, 1, 999_999, 1_000_000, 1_000_001, 1 << 20, 1 << 24, u32::MAX] {
        let mut job = printed().bytes();
        set_budget(&mut job, budget);
        push_file(job, cases);
    }
}

/// Jobs that are right in all else, with n, m, w and b at and beside their limits.
fn limits_met_and_passed(cases: &mut Cases) {
    for count in [1, 2, 511, 512, 513, 600] {
        cases.push(case_of(&Parts::new(vec![skip(); count], 2, 4, 1_000), ROOMY));
    }
    for cells in [0, 1, 2, 47, 48, 49, 111, 112, 113, 175, 176, 177, 238, 239, 240, 241, 300] {
        let mut parts = every_kind();
        parts.state.resize(16 + cells, 3);
        parts.public = vec![0];
        cases.push(case_of(&parts, ROOMY));
        parts.public = (0..(16 + cells).min(256)).collect();
        cases.push(case_of(&parts, ROOMY));
    }
    for window in [0, 1, 199, 200, 201, 255, 256, 65_535] {
        cases.push(case_of(&Parts { window, ..every_kind() }, ROOMY));
    }
    for budget in [0, 1, 65_535, 65_536, 999_999, 1_000_000, 1_000_001, u32::MAX] {
        cases.push(case_of(&Parts { budget, ..every_kind() }, ROOMY));
    }
}

/// A valid job whose file has exactly so many bytes, at least 300.
fn job_of_bytes(total: usize) -> Vec<u8> {
    let wide = assign(1, &[vec![Token::Constant(3); 8], vec![ADD; 7], vec![NEG]].concat());
    let program_bytes = total - 48 - 128;
    let mut program = vec![wide.clone(); program_bytes / wide.len()];
    program.extend(vec![skip(); program_bytes % wide.len()]);
    Parts::new(program, 0, 3, 1_000).bytes()
}

fn file_lengths(cases: &mut Cases) {
    for length in 0..=50 {
        push_file(vec![0; length], cases);
    }
    for length in (16_380..=16_390).chain([300, 301, 20_000]) {
        push_file(job_of_bytes(length), cases);
    }
    for length in [65_535, 65_536, 65_536 + 236] {
        let mut job = vec![0; length - 236];
        job.extend(printed().bytes());
        push_file(job, cases);
    }
}

/// Every front, every back, and every single byte taken out.
fn truncations(cases: &mut Cases) {
    let whole = printed().bytes();
    for length in 0..whole.len() {
        push_file(whole[..length].to_vec(), cases);
        push_file(whole[whole.len() - length..].to_vec(), cases);
        let mut job = whole.clone();
        job.remove(length);
        push_file(job, cases);
    }
}

/// Every bit of two jobs turned over; every value for every byte of a program of all kinds.
fn single_bits_and_bytes(cases: &mut Cases) {
    for parts in [printed(), every_kind()] {
        let whole = parts.bytes();
        for bit in 0..8 * whole.len() {
            let mut job = whole.clone();
            job[bit / 8] ^= 1 << (bit % 8);
            cases.push(raw_case(job, state_bytes(&parts.state), ROOMY));
        }
    }
    let parts = every_kind();
    let whole = parts.bytes();
    for at in 0..parts.program.concat().len() {
        for byte in 0..=255 {
            let mut job = whole.clone();
            job[at] = byte;
            cases.push(raw_case(job, state_bytes(&parts.state), ROOMY));
        }
    }
}

fn push_program(program: Vec<Instruction>, cases: &mut Cases) {
    cases.push(case_of(&Parts::new(program, 2, 3, 50), ROOMY));
}

/// Token counts and held values at and beside their limits, in each place an expression may stand.
fn expression_limits(cases: &mut Cases) {
    let register = Token::Register(2);
    for values in 1..=16 {
        for operators in 0..=(17 - values) {
            let tokens = [vec![register; values], vec![ADD; operators]].concat();
            push_program(vec![assign(1, &tokens)], cases);
            push_program(vec![load(1, &tokens)], cases);
            push_program(vec![store(1, &tokens)], cases);
            push_program(vec![jmp(&tokens)], cases);
            push_program(vec![conditional(1, &tokens, &[register])], cases);
            push_program(vec![conditional(1, &[register], &tokens)], cases);
        }
    }
    for unaries in 0..=17 {
        let tokens = [vec![register], vec![NEG; unaries]].concat();
        push_program(vec![assign(1, &tokens)], cases);
    }
}

/// Each label in each place of a short program.
fn labels(cases: &mut Cases) {
    for own in 0..3 {
        for label in (0..=6).chain([255, 256, 257, 0x8000, 0xFFFF]) {
            let mut parts = nested();
            parts.program = vec![skip(); 3];
            parts.program[own] = beqz(1, label);
            cases.push(case_of(&parts, ROOMY));
        }
    }
}

/// Each single bit of the public list, with different counts of cells.
fn public_bits(cases: &mut Cases) {
    for cells in [0, 4, 47, 48, 49, 239, 240] {
        for location in 0..256 {
            let mut parts = every_kind();
            parts.state.resize(16 + cells, 0);
            parts.public = vec![location];
            cases.push(case_of(&parts, ROOMY));
        }
    }
}

/// Two faults in one program, in one instruction or in two, in both orders.
fn first_refusal(cases: &mut Cases) {
    let (register, unknown) = (Token::Register(1), Token::Operator(29));
    let faults = [
        vec![9],
        assign(16, &[register]),
        assign(1, &[unknown]),
        assign(1, &[ADD]),
        beqz(1, 9),
        conditional(1, &[ADD], &[unknown]),
        conditional(1, &[unknown], &[ADD]),
        conditional(16, &[ADD], &[register]),
        beqz(16, 9),
        beqz(16, 1),
        vec![5, 1, 9],
        vec![1, 1, 3, 19, 19],
    ];
    for first in &faults {
        push_program(vec![first.clone()], cases);
        for second in &faults {
            push_program(vec![first.clone(), second.clone()], cases);
            push_program(vec![skip(), first.clone(), second.clone()], cases);
        }
        let mut parts = Parts::new(vec![first.clone(), skip()], 2, 3, 50);
        parts.public = vec![18];
        cases.push(case_of(&parts, ROOMY));
    }
}
