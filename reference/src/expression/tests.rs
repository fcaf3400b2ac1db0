//! Request F-5 of document 02: the set gathered in one pass is the one that document 01 gives.

use super::BinaryOperator::{Add, And, Eq, Mul, Or, Shl, Shr, Sub, Ult, Xor};
use super::Token::{Binary, Constant, Register, Unary};
use super::UnaryOperator::{Neg, Not};
use super::*;
use xorshift::Random;

#[path = "../../tests/common/xorshift.rs"]
mod xorshift;

const BINARY_OPERATORS: [BinaryOperator; 10] = [Add, Sub, Mul, And, Or, Xor, Shl, Shr, Eq, Ult];

/// "A constant has the empty set; an operator's result has the union of its operands' sets",
/// over a stack of sets. Gives also how many values are held at most.
fn set_by_stack(tokens: &[Token], sets: &[LocationSet; REGISTERS]) -> (LocationSet, usize) {
    let (mut stack, mut most_held) = (Vec::new(), 0);
    for token in tokens {
        let set = match *token {
            Register(register) => sets[register],
            Constant(_) => LocationSet::EMPTY,
            Unary(_) => stack.pop().expect("an operand"),
            Binary(_) => {
                let right: LocationSet = stack.pop().expect("a right operand");
                let left: LocationSet = stack.pop().expect("a left operand");
                left.union(right)
            }
        };
        stack.push(set);
        most_held = most_held.max(stack.len());
    }
    assert_eq!(stack.len(), 1);
    (stack[0], most_held)
}

fn random_token(operands: usize, random: &mut Random) -> Token {
    match operands {
        0 if random.below(3) == 0 => Constant(random.constant()),
        0 => Register(random.below(16) as usize),
        1 => Unary([Neg, Not][random.below(2) as usize]),
        _ => Binary(BINARY_OPERATORS[random.below(10) as usize]),
    }
}

/// One set in four is empty; the others hold about 32 locations.
fn random_set(random: &mut Random) -> LocationSet {
    if random.below(4) == 0 {
        LocationSet::EMPTY
    } else {
        let sparse = |_| random.word() & random.word() & random.word();
        LocationSet::from_words(std::array::from_fn(sparse))
    }
}

#[test]
fn one_pass_gives_the_set_of_the_stack() {
    let mut random = Random(5);
    let (mut by_length, mut by_most_held) = ([0; 17], [0; 9]);
    for _ in 0..50_000 {
        let operand_counts = random.operand_counts();
        let token = |operands| random_token(operands, &mut random);
        let expression = Expression(operand_counts.into_iter().map(token).collect());
        let sets = std::array::from_fn(|_| random_set(&mut random));
        let (set, most_held) = set_by_stack(&expression.0, &sets);
        assert_eq!(expression.dependency_set(&sets), set, "{expression:?}");
        by_length[expression.0.len()] += 1;
        by_most_held[most_held] += 1;
    }
    assert!(by_length[1..].iter().all(|&count| count > 1_000), "{by_length:?}");
    assert!(by_most_held[1..].iter().all(|&count| count > 1_000), "{by_most_held:?}");
}

/// The sets of the fixed expressions: r1 has {r1, m0}, r2 the empty set, r3 {m239}, and every
/// other register has itself alone.
fn fixed_sets() -> [LocationSet; REGISTERS] {
    let mut sets = std::array::from_fn(LocationSet::single);
    sets[1] = LocationSet::single(1).union(LocationSet::single(16));
    sets[2] = LocationSet::EMPTY;
    sets[3] = LocationSet::single(255);
    sets
}

fn locations(tokens: &[Token]) -> Vec<usize> {
    Expression(tokens.to_vec()).dependency_set(&fixed_sets()).locations().collect()
}

#[test]
fn operands_alone() {
    assert_eq!(locations(&[Register(0)]), [0]);
    assert_eq!(locations(&[Register(1)]), [1, 16]);
    assert_eq!(locations(&[Register(2)]), []);
    assert_eq!(locations(&[Register(15)]), [15]);
    assert_eq!(locations(&[Constant(0)]), []);
    assert_eq!(locations(&[Constant(3)]), []);
}

#[test]
fn unary_operators_keep_the_set() {
    assert_eq!(locations(&[Register(1), Unary(Neg)]), [1, 16]);
    assert_eq!(locations(&[Register(1), Unary(Not)]), [1, 16]);
    assert_eq!(locations(&[Constant(1), Unary(Not)]), []);
}

#[test]
fn binary_operators_join_the_sets() {
    for operator in BINARY_OPERATORS.map(Binary) {
        assert_eq!(locations(&[Register(1), Register(1), operator]), [1, 16]);
        assert_eq!(locations(&[Register(3), Register(1), operator]), [1, 16, 255]);
        assert_eq!(locations(&[Register(1), Register(2), operator]), [1, 16]);
        assert_eq!(locations(&[Constant(1), Register(3), operator]), [255]);
        assert_eq!(locations(&[Constant(1), Constant(3), operator]), []);
    }
    // The constant has the number of a register that is not named.
    let among_registers = [Register(0), Constant(3), Binary(Add), Register(1), Binary(Xor)];
    assert_eq!(locations(&among_registers), [0, 1, 16]);
}

/// The value is 0 whatever the register holds, and the set is the register's all the same.
#[test]
fn a_value_that_never_changes_keeps_its_set() {
    let difference = [Register(0), Register(0), Binary(Sub)];
    let product = [Register(0), Constant(0), Binary(Mul)];
    for tokens in [difference, product] {
        assert_eq!(locations(&tokens), [0]);
        for held in [0, 1, u64::MAX] {
            assert_eq!(Expression(tokens.to_vec()).value(&[held; REGISTERS]), 0);
        }
    }
}

#[test]
fn eight_values_held() {
    let mut tokens: Vec<Token> = (8..16).map(Register).collect();
    tokens.extend(BINARY_OPERATORS[..7].iter().map(|&operator| Binary(operator)));
    assert_eq!(locations(&tokens), [8, 9, 10, 11, 12, 13, 14, 15]);
    tokens[0] = Constant(0);
    tokens[7] = Constant(7);
    assert_eq!(locations(&tokens), [9, 10, 11, 12, 13, 14]);
}
