//! Fixed cases of running: each operator at its edges, loads and stores at the edges of memory, jumps to
//! and past the last labels, the deepest nesting, the longest wrong paths, and the misreadings that
//! document 01 rules out.

use crate::calls::Lengths;
use crate::fixed::{case_of, Cases, ROOMY};
use crate::job_file::{
    assign, beqz, conditional, jmp, load, skip, spbarr, store, Instruction, Parts, Token, ADD,
    MAX_BUDGET, MAX_INSTRUCTIONS, REGISTERS, XOR,
};

pub fn add(cases: &mut Cases) {
    operators(cases);
    memory_edges(cases);
    jump_values(cases);
    jumps_to_the_last_labels(cases);
    deep_nesting(cases);
    long_wrong_paths(cases);
    misreadings(cases);
    a_million_steps(cases);
}

const EDGES: [u64; 12] = [0, 1, 2, 3, 63, 64, 65, 127, 128, 1 << 63, (1 << 32) + 1, u64::MAX];

/// The operands stand in r0 and r1, the result in r2.
fn operators(cases: &mut Cases) {
    for operator in 17..=28 {
        for left in EDGES {
            for right in EDGES {
                let operands = [0, 1].map(Token::Register);
                let kept = if operator < 19 { 1 } else { 2 };
                let tokens = [&operands[..kept], &[Token::Operator(operator)]].concat();
                let mut parts = Parts::new(vec![assign(2, &tokens)], 1, 3, 9);
                parts.state[0] = left;
                parts.state[1] = right;
                cases.push(case_of(&parts, ROOMY));
            }
        }
    }
}

/// Addresses on both sides of m, around 16 less than 2^64, and at the very top. Where r1 is 0 the
/// stores are made on a wrong path only, and the loads after them show what was restored.
fn memory_edges(cases: &mut Cases) {
    let [address, value, loaded] = [0, 2, 3].map(Token::Register);
    let program = vec![
        beqz(1, 3),
        store(2, &[address]),
        load(3, &[address, value, XOR, value, XOR]),
        load(3, &[address]),
        load(4, &[loaded]),
    ];
    for cells in [0, 1, 5, 239, 240] {
        let near = (0..6).chain(cells.max(3) - 3..cells + 20);
        let top = (0..20).map(|below| u64::MAX - below);
        for address in near.chain([255, 256, 1 << 32, 1 << 63]).chain(top) {
            for taken in [0, 1] {
                let mut parts = Parts::new(program.clone(), cells as usize, 6, 100);
                parts.state[0] = address;
                parts.state[1] = taken;
                parts.state[2] = 77;
                cases.push(case_of(&parts, ROOMY));
            }
        }
    }
}

/// A jump's place is its value, END from n on, whether a register holds it or the program names it; the
/// jump is made on the plain and on a wrong path. Among the values are those that are a label modulo
/// 2^16 or 2^32.
fn jump_values(cases: &mut Cases) {
    let far = (65_530..65_544).chain([131_074, 1 << 32, (1 << 32) + 3, 1 << 63, u64::MAX]);
    for value in (0..8).chain([511, 512, 513]).chain(far) {
        for to in [Token::Register(0), Token::Constant(value)] {
            for taken in [0, 1] {
                let program = vec![beqz(1, 3), skip(), jmp(&[to]), skip(), spbarr(), skip()];
                let mut parts = Parts::new(program, 1, 5, 40);
                parts.state[0] = value;
                parts.state[1] = taken;
                cases.push(case_of(&parts, ROOMY));
            }
        }
    }
}

/// A jump to the last labels that a program can have, and past them.
fn jumps_to_the_last_labels(cases: &mut Cases) {
    for value in MAX_INSTRUCTIONS as u64 - 3..MAX_INSTRUCTIONS as u64 + 3 {
        let mut program = vec![skip(); MAX_INSTRUCTIONS];
        program[0] = jmp(&[Token::Constant(value)]);
        cases.push(case_of(&Parts::new(program, 1, 5, 40), ROOMY));
    }
}

/// A branch back to itself opens w + 1 branches; with changes in between, fewer of them.
fn deep_nesting(cases: &mut Cases) {
    let counting = assign(2, &[Token::Register(2), Token::Constant(1), ADD]);
    let programs = [
        vec![beqz(0, 0), skip()],
        vec![counting.clone(), beqz(0, 0), store(2, &[Token::Register(2)])],
        vec![
            counting,
            beqz(2, 0),
            beqz(0, 0),
            conditional(3, &[Token::Register(4)], &[Token::Register(5)]),
        ],
    ];
    for program in programs {
        for window in 0..=200 {
            let mut parts = Parts::new(program.clone(), 12, window, 1_400);
            parts.state[0] = 1;
            parts.public = vec![0];
            cases.push(case_of(&parts, ROOMY));
        }
    }
}

/// One kind of change, as often as the longest window allows and beyond.
fn long_wrong_paths(cases: &mut Cases) {
    let [r0, r1, r2] = [0, 1, 2].map(Token::Register);
    let changes: [Instruction; 6] = [
        assign(2, &[r2, r1, ADD]),
        load(2, &[r2]),
        store(2, &[r1]),
        store(2, &[r2]),
        conditional(2, &[r0], &[r1]),
        conditional(2, &[r1], &[r0]),
    ];
    for change in changes {
        for window in [0, 1, 2, 197, 198, 199, 200] {
            let mut program = vec![beqz(0, 500)];
            program.extend(vec![change.clone(); 300]);
            program.extend(vec![skip(); 199]);
            let mut parts = Parts::new(program, 240, window, 1_400);
            parts.state[1] = 5;
            parts.state[0] = 1;
            cases.push(case_of(&parts, ROOMY));
            parts.state[0] = 0;
            cases.push(case_of(&parts, ROOMY));
        }
    }
}

/// A barrier below two branches, sets after a rollback, a conditional assignment not taken, and
/// windows three branches deep.
fn misreadings(cases: &mut Cases) {
    let [r0, r1, r2, r3] = [0, 1, 2, 3].map(Token::Register);
    let programs: Vec<Vec<Instruction>> = vec![
        vec![beqz(0, 5), beqz(1, 4), load(2, &[r3]), skip(), spbarr()],
        vec![beqz(0, 3), assign(2, &[r1]), assign(3, &[r1]), load(4, &[r2]), load(5, &[r3])],
        vec![beqz(0, 3), load(2, &[r1]), store(1, &[r0]), load(4, &[r2]), load(5, &[r4()])],
        vec![conditional(2, &[r0], &[r1]), load(4, &[r2])],
        vec![beqz(0, 2), conditional(2, &[r1], &[r3]), load(4, &[r2])],
        vec![beqz(0, 8), beqz(1, 7), beqz(2, 6), load(5, &[r3]), skip(), skip(), skip(), skip()],
        vec![beqz(0, 0), beqz(1, 0), spbarr(), beqz(2, 1), load(3, &[r3])],
    ];
    for program in programs {
        for values in 0..8 {
            for window in 0..=12 {
                let mut parts = Parts::new(program.clone(), 4, window, 400);
                for register in 0..3 {
                    parts.state[register] = values >> register & 1;
                }
                parts.state[REGISTERS] = 9;
                cases.push(case_of(&parts, ROOMY));
            }
        }
    }
}

fn r4() -> Token {
    Token::Register(4)
}

/// The largest budget used up, in a trace area that holds it all.
fn a_million_steps(cases: &mut Cases) {
    let mut parts = Parts::new(vec![beqz(0, 0), jmp(&[Token::Constant(0)])], 240, 200, MAX_BUDGET);
    parts.state[0] = 1;
    let trace = 4 * MAX_BUDGET as usize;
    cases.push(case_of(&parts, Lengths { trace, second_trace: trace, ..ROOMY }));
}
