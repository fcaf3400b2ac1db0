//! Random expressions that keep the postfix rule, and the constants that they hold.

use crate::job_file::{Token, ADD, AND};
use crate::random::Random;

pub const MAX_TOKENS: u64 = 16;
const MAX_VALUES: u64 = 8;

/// What an expression may draw on: so many registers from r0 on, and constants near these sizes.
#[derive(Clone, Copy)]
pub struct Pool {
    pub registers: u64,
    pub tokens: u64,
    pub cells: u64,
    pub instructions: u64,
}

/// Constants at which operators change what they do.
const EDGES: [u64; 14] =
    [0, 1, 2, 62, 63, 64, 65, 127, 128, 1 << 32, 1 << 63, (1 << 63) - 1, u64::MAX - 1, u64::MAX];

impl Pool {
    pub fn register(&self, random: &mut Random) -> u8 {
        random.below(self.registers) as u8
    }

    pub fn constant(&self, random: &mut Random) -> u64 {
        match random.below(10) {
            0..=4 => random.below(8),
            5 => random.pick(&EDGES),
            6 => random.below(self.cells + 2),
            7 => random.below(self.instructions + 2),
            8 => u64::MAX - random.below(20),
            _ => random.word(),
        }
    }

    fn operand(&self, random: &mut Random) -> Token {
        if random.below(5) < 3 {
            Token::Register(self.register(random))
        } else {
            Token::Constant(self.constant(random))
        }
    }

    /// An expression of up to as many tokens as the pool allows.
    pub fn expression(&self, random: &mut Random) -> Vec<Token> {
        let count = if random.one_in(2) { random.between(1, 3) } else { random.between(1, 16) };
        self.expression_of(count.min(self.tokens), random)
    }

    /// An expression of exactly so many tokens. Of the values held, each binary operator takes one
    /// away, so a token is allowed only if enough tokens are left to come down to one value.
    pub fn expression_of(&self, count: u64, random: &mut Random) -> Vec<Token> {
        let mut tokens = Vec::with_capacity(count as usize);
        let mut held = 0;
        for left in (0..count).rev() {
            let push = held < MAX_VALUES && left >= held;
            let binary = held >= 2;
            let unary = held >= 1 && left + 1 >= held;
            let token = loop {
                match random.below(8) {
                    0..=2 if push => break self.operand(random),
                    3..=6 if binary => break Token::Operator(random.between(19, 28) as u8),
                    7 if unary => break Token::Operator(random.between(17, 18) as u8),
                    _ => {}
                }
            };
            held = match token {
                Token::Operator(17 | 18) => held,
                Token::Operator(_) => held - 1,
                _ => held + 1,
            };
            tokens.push(token);
        }
        tokens
    }

    /// An address: mostly near the cells, at times far outside or at the top of all addresses.
    pub fn address(&self, random: &mut Random) -> Vec<Token> {
        let register = Token::Register(self.register(random));
        match random.below(8) {
            0 => vec![Token::Constant(random.below(self.cells + 2))],
            1 => vec![Token::Constant(self.cells.saturating_sub(random.below(2)))],
            2 => vec![register],
            3 => vec![register, Token::Constant(random.below(4)), ADD],
            4 | 5 => vec![register, Token::Constant(self.cells.next_power_of_two() - 1), AND],
            6 => vec![Token::Constant(u64::MAX - random.below(18))],
            _ => self.expression(random),
        }
    }
}
