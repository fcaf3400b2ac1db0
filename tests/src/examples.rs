//! The jobs of document 01's section "A run printed whole", the text of the first of them, a job whose leak few
//! states show, and one that stores at too many addresses outside memory.

use crate::job_file::{
    assign, beqz, jmp, load, skip, spbarr, store, Parts, Token, ADD, AND, EQ, REGISTERS, SUB, ULT,
};

/// The job that is printed whole: 236 bytes, verdict speculative.
pub fn printed() -> Parts {
    let [r0, r1, r3] = [0, 1, 3].map(Token::Register);
    let program = vec![
        assign(2, &[r0, r1, ULT]),
        beqz(2, 4),
        load(3, &[r0]),
        load(4, &[r3, Token::Constant(2), ADD]),
    ];
    let mut parts = Parts::new(program, 4, 10, 100);
    parts.state[0] = 1;
    parts.state[1] = 1;
    parts.state[REGISTERS + 1] = 1;
    parts.public = vec![0, 1];
    parts
}

/// The same with r0 = 0: verdict plain.
pub fn r0_zero() -> Parts {
    let mut parts = printed();
    parts.state[0] = 0;
    parts
}

/// The same with spbarr put in as instruction 2: verdict clean.
pub fn barrier() -> Parts {
    let mut parts = printed();
    parts.program[1] = beqz(2, 5);
    parts.program.insert(2, spbarr());
    parts
}

/// Two nested branches, registers 0 and w 2; all else as in the printed job.
pub fn nested() -> Parts {
    let mut parts = printed();
    parts.program = vec![beqz(0, 3), beqz(1, 3), skip()];
    parts.state[..REGISTERS].fill(0);
    parts.window = 2;
    parts
}

/// The printed job with another wrong path: it is a step longer where the low four bits of m1 are 5, which is so
/// for one state in sixteen. Verdict speculative.
pub fn seldom() -> Parts {
    let [r0, r1, r3] = [0, 1, 3].map(Token::Register);
    let [mask, value, end] = [15, 5, 6].map(Token::Constant);
    let mut parts = printed();
    parts.program = vec![
        assign(2, &[r0, r1, ULT]),
        beqz(2, 6),
        load(3, &[r0]),
        assign(3, &[r3, mask, AND, value, EQ]),
        jmp(&[end, r3, SUB]),
        skip(),
    ];
    parts
}

/// A loop that stores r0 below its image, one address further down each time: it stops as outside full.
pub fn outside() -> Parts {
    let program = vec![
        assign(1, &[Token::Register(1), Token::Constant(1), SUB]),
        store(0, &[Token::Register(1)]),
        assign(0, &[Token::Register(0), Token::Constant(1), ADD]),
        jmp(&[Token::Constant(0)]),
    ];
    let mut parts = Parts::new(program, 4, 10, 1_000);
    parts.state[0] = 7;
    parts.public = vec![1];
    parts
}

/// The program of the printed job as text; document 02 prints these lines.
pub const PRINTED_TEXT: &str = "set r2 (r0 ult r1)\nbeqz r2 4\nload r3 r0\nload r4 (r3 add 2)\n";

/// Each example job with the name of its file.
pub fn files() -> [(&'static str, Vec<u8>); 6] {
    [
        ("printed.mua", printed().bytes()),
        ("barrier.mua", barrier().bytes()),
        ("nested.mua", nested().bytes()),
        ("r0-zero.mua", r0_zero().bytes()),
        ("seldom.mua", seldom().bytes()),
        ("outside.mua", outside().bytes()),
    ]
}

/// The text of an example with the name of its file.
pub fn texts() -> [(&'static str, Vec<u8>); 1] {
    [("printed.txt", PRINTED_TEXT.into())]
}
