//! Programs in which a guard keeps a secret from being observed unless the branch is guessed wrongly,
//! with and without the means that prevent it: a barrier, a mask, a conditional assignment.

use crate::expressions::Pool;
use crate::job_file::{
    assign, beqz, conditional, jmp, load, skip, spbarr, store, Instruction, Token, ADD, AND, EQ,
    ULT,
};
use crate::random::Random;

/// Registers of a gadget: index, length, flag, secret, target.
const INDEX: u8 = 0;
const LENGTH: u8 = 1;
const FLAG: u8 = 2;
const SECRET: u8 = 3;
const TARGET: u8 = 4;

/// Gadgets one after the other, in as many instructions as the pool says; the rest is skip.
pub fn gadget_program(pool: &Pool, random: &mut Random) -> Vec<Instruction> {
    let count = pool.instructions as usize;
    let mut program = Vec::with_capacity(count);
    loop {
        let gadget = gadget(program.len(), pool, random);
        if program.len() + gadget.len() > count {
            break;
        }
        program.extend(gadget);
    }
    program.resize(count, skip());
    program
}

/// A guard, a branch over the guarded part, and the guarded part.
fn gadget(start: usize, pool: &Pool, random: &mut Random) -> Vec<Instruction> {
    let (index, length) = (Token::Register(INDEX), Token::Register(LENGTH));
    let first = start as u64 + 2;
    let mut guarded = Vec::new();
    protect(&mut guarded, random);
    guarded.push(load(SECRET, &[index]));
    spill(&mut guarded, pool, random);
    let place = first + guarded.len() as u64;
    guarded.push(observe(place, pool, random));
    guarded.push(skip());
    let after = first + guarded.len() as u64;
    let mut gadget = vec![assign(FLAG, &[index, length, ULT]), beqz(FLAG, after as u16)];
    gadget.extend(guarded);
    if random.one_in(2) {
        gadget.push(assign(INDEX, &[index, Token::Constant(random.between(1, 2)), ADD]));
    }
    gadget
}

fn protect(guarded: &mut Vec<Instruction>, random: &mut Random) {
    let flag = Token::Register(FLAG);
    match random.below(8) {
        0 => guarded.push(spbarr()),
        1 => guarded.push(assign(INDEX, &[Token::Register(INDEX), Token::Constant(1), AND])),
        2 => {
            guarded.push(conditional(INDEX, &[flag, Token::Constant(0), EQ], &[Token::Constant(0)]))
        }
        3 => guarded.push(skip()),
        _ => {}
    }
}

/// At times the secret goes through an address outside memory.
fn spill(guarded: &mut Vec<Instruction>, pool: &Pool, random: &mut Random) {
    if random.one_in(4) {
        let address = [Token::Constant(random.pick(&[pool.cells, u64::MAX]))];
        guarded.extend([store(SECRET, &address), load(SECRET, &address)]);
    }
}

/// An instruction by which the secret can be observed.
fn observe(place: u64, pool: &Pool, random: &mut Random) -> Instruction {
    let secret = Token::Register(SECRET);
    let shift = Token::Constant(random.below(pool.cells + 1));
    match random.below(8) {
        0 | 1 => load(TARGET, &[secret]),
        2 | 3 => load(TARGET, &[secret, shift, ADD]),
        4 => store(TARGET, &[secret, shift, ADD]),
        5 => beqz(SECRET, place as u16 + 2),
        6 => jmp(&[Token::Constant(place + 1), secret, Token::Constant(1), AND, ADD]),
        _ => assign(TARGET, &[secret, shift, ADD]),
    }
}
