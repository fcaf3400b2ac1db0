//! Sets before values: request F-5 of document 02, as a run shows it.
//! Whatever the registers hold, an expression has the set of document 01, and its own value.

mod common;

use std::collections::BTreeSet;

use common::random::Random;
use common::T::{C, R};
use common::*;

const MAX: u64 = u64::MAX;
const CELLS: usize = 240;

type Set = BTreeSet<usize>;

/// What a register has after the first instructions: a set, and the word that the state holds at
/// a location. Without a location it is 0.
#[derive(Clone)]
struct Held {
    set: Set,
    location: Option<usize>,
}

/// Instructions that give the registers random sets without observing any location.
/// A load at a constant address is observed with the empty set and gives the cell's set, or none
/// past the cells; a conditional assignment not taken joins the condition's set and keeps the word.
fn spread_sets(random: &mut Random) -> (Vec<Vec<u8>>, Vec<Held>) {
    let at_first = |register| Held { set: Set::from([register]), location: Some(register) };
    let mut held: Vec<Held> = (0..16).map(at_first).collect();
    let mut program = Vec::new();
    for _ in 0..24 {
        let (register, other) = (random.below(16) as usize, random.below(16) as usize);
        if random.below(2) == 0 {
            let address = random.below(CELLS as u64 + 20);
            program.push(load(register as u8, &[C(address)]));
            let location = Some(16 + address as usize).filter(|&location| location < 16 + CELLS);
            held[register] = Held { set: location.into_iter().collect(), location };
        } else {
            program.push(conditional(register as u8, &[R(other as u8), C(0), MUL], &[C(1)]));
            let joined = held[other].set.clone();
            held[register].set.extend(joined);
        }
    }
    (program, held)
}

fn unary(operator: u8, operand: u64) -> u64 {
    match operator {
        17 => 0u64.wrapping_sub(operand),
        18 => operand ^ MAX,
        _ => panic!("no unary operator"),
    }
}

fn binary(operator: u8, left: u64, right: u64) -> u64 {
    match operator {
        19 => left.wrapping_add(right),
        20 => left.wrapping_sub(right),
        21 => left.wrapping_mul(right),
        22 => left & right,
        23 => left | right,
        24 => left ^ right,
        25 => left.wrapping_shl((right & 63) as u32),
        26 => left.wrapping_shr((right & 63) as u32),
        27 => (left == right).into(),
        28 => (left < right).into(),
        _ => panic!("no binary operator"),
    }
}

/// "A constant has the empty set; an operator's result has the union of its operands' sets",
/// over a stack of values with their sets.
fn value_and_set(tokens: &[T], registers: &[(u64, Set)]) -> (u64, Set) {
    let mut stack: Vec<(u64, Set)> = Vec::new();
    for token in tokens {
        let result = match *token {
            R(register) => registers[usize::from(register)].clone(),
            C(value) => (value, Set::new()),
            T::Op(operator @ (17 | 18)) => {
                let (operand, set) = stack.pop().expect("an operand");
                (unary(operator, operand), set)
            }
            T::Op(operator) => {
                let (right, right_set) = stack.pop().expect("a right operand");
                let (left, left_set) = stack.pop().expect("a left operand");
                (binary(operator, left, right), &left_set | &right_set)
            }
        };
        stack.push(result);
    }
    assert_eq!(stack.len(), 1);
    stack.remove(0)
}

/// The last instructions: they observe the expression's value alone, by the kind given.
fn observing(way: u64, tokens: &[T]) -> (u64, Vec<Vec<u8>>) {
    match way {
        0 => (LOAD, vec![load(0, tokens)]),
        1 => (STORE, vec![store(0, tokens)]),
        2 => (PC, vec![jmp(tokens)]),
        _ => (LOAD, vec![assign(7, tokens), load(0, &[R(7)])]),
    }
}

/// Checks the runs of a job, and gives the expression's value and set.
fn check(parts: &JobParts, held: &[Held], tokens: &[T], kind: u64) -> (u64, Vec<usize>) {
    let state = [&parts.registers[..], &parts.cells].concat();
    let word = |held: &Held| held.location.map_or(0, |location| state[location]);
    let registers: Vec<_> = held.iter().map(|held| (word(held), held.set.clone())).collect();
    let (value, set) = value_and_set(tokens, &registers);
    let set: Vec<usize> = set.into_iter().collect();
    let observed = if kind == PC { value.min(parts.program.len() as u64) } else { value };
    let (run, plain) = (run_of(parts), plain_of(parts));
    assert_eq!(run.trace.last(), Some(&(kind, observed)));
    assert_eq!(locations(run.answer.depends), set);
    assert_eq!(locations(run.answer.plain), set);
    assert_eq!(plain.trace, run.trace);
    assert_eq!(locations(plain.answer.plain), set);
    (value, set)
}

#[test]
fn the_set_is_the_same_whatever_the_registers_hold() {
    let mut random = Random(6);
    let (mut with_a_set, mut with_other_values) = (0, 0);
    for job_number in 0..5_000 {
        let (mut program, held) = spread_sets(&mut random);
        let tokens = random.long_expression();
        let (kind, last) = observing(job_number % 4, &tokens);
        program.extend(last);
        let mut parts = job(program, CELLS);
        // A jump back is the last step.
        parts.budget = parts.program.len() as u32;
        let random_state = (0..16 + CELLS).map(|_| random.word()).collect();
        let states = [vec![0; 16 + CELLS], vec![MAX; 16 + CELLS], random_state];
        let [zeros, ones, any] = states.map(|state| {
            parts.registers.copy_from_slice(&state[..16]);
            parts.cells.copy_from_slice(&state[16..]);
            check(&parts, &held, &tokens, kind)
        });
        assert!(zeros.1 == ones.1 && zeros.1 == any.1);
        with_a_set += usize::from(!any.1.is_empty());
        with_other_values += usize::from(zeros.0 != ones.0 || zeros.0 != any.0);
    }
    assert!(with_a_set > 3_000, "only {with_a_set} sets are not empty");
    assert!(with_other_values > 2_000, "only {with_other_values} have more than one value");
}
