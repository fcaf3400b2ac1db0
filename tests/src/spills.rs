//! Programs that spill outside memory: stores and loads at few or many addresses there, in straight lines and in
//! loops, many of them under branches, so that the remembered stores fill up, are rolled back and fill up again.

use crate::expressions::Pool;
use crate::job_file::{
    assign, beqz, conditional, jmp, load, skip, spbarr, store, Instruction, Token, ADD, EQ, MUL,
    SUB,
};
use crate::random::Random;

/// The register that a loop counts down.
const COUNTER: u8 = 15;

/// Where a program spills: so many addresses from a first one on, which may go past the top of all addresses.
struct Spill<'a> {
    pool: &'a Pool,
    first: u64,
    span: u64,
}

/// Pieces one after the other, in as many instructions as the pool says; the rest is skip. Many programs fill the
/// table almost first.
pub fn spill_program(pool: &Pool, random: &mut Random) -> Vec<Instruction> {
    let count = pool.instructions as usize;
    let far = [1 << 32, u64::MAX, u64::MAX - 15, u64::MAX - 16, u64::MAX - 40];
    let first = if random.one_in(3) { random.pick(&far) } else { pool.cells + random.below(3) };
    let spill = Spill { pool, first, span: random.pick(&[1, 2, 3, 6, 40, 63, 64, 65, 70, 100]) };
    let mut program = Vec::with_capacity(count);
    if count > 5 && random.one_in(2) {
        program.extend(spill.filling(0, random.between(58, 64), random));
    }
    loop {
        let piece = spill.piece(program.len() as u64, random);
        if program.len() + piece.len() > count {
            break;
        }
        program.extend(piece);
    }
    program.resize(count, skip());
    program
}

impl Spill<'_> {
    /// The instructions from this label on.
    fn piece(&self, own: u64, random: &mut Random) -> Vec<Instruction> {
        let pool = self.pool;
        let [one, two] = [0, 1].map(|_| pool.register(random));
        match random.below(24) {
            0..=8 => vec![self.store(random)],
            9 | 10 => vec![self.load(one, random)],
            11..=13 => vec![self.load(one, random), load(two, &[Token::Register(one)])],
            14..=17 => vec![self.branch(own, random)],
            18 => vec![assign(one, &pool.expression(random))],
            19 => vec![conditional(one, &[Token::Register(two)], &pool.expression(random))],
            20 => vec![spbarr()],
            21 => vec![store(one, &pool.address(random))],
            _ => {
                let (low, high) = random.pick(&[(1, 6), (20, 40), (60, 66)]);
                self.filling(own, random.between(low, high), random)
            }
        }
    }

    fn store(&self, random: &mut Random) -> Instruction {
        store(self.pool.register(random), &self.address(random))
    }

    fn load(&self, register: u8, random: &mut Random) -> Instruction {
        load(register, &self.address(random))
    }

    /// Forward over up to nine instructions, now and then back.
    fn branch(&self, own: u64, random: &mut Random) -> Instruction {
        let end = self.pool.instructions;
        let label = (own + random.between(2, 9)).min(end);
        let back = random.one_in(16) || label == own + 1;
        let label = if back { random.below(own + 1) } else { label };
        beqz(self.pool.register(random), label as u16)
    }

    /// One of the addresses, at times one behind those that a loop has filled; a register goes with many.
    fn address(&self, random: &mut Random) -> Vec<Token> {
        let behind = random.one_in(3);
        let number = if behind { random.between(58, 70) } else { random.below(self.span) };
        let address = Token::Constant(self.first.wrapping_add(number));
        match random.below(8) {
            0..=3 => vec![address],
            4..=6 => vec![Token::Register(self.pool.register(random)), address, ADD],
            _ => vec![Token::Register(COUNTER), Token::Constant(self.first), ADD],
        }
    }

    /// A loop that stores at as many addresses as it counts, without a branch or with one that leaves it.
    fn filling(&self, own: u64, count: u64, random: &mut Random) -> Vec<Instruction> {
        let (counter, start) = (Token::Register(COUNTER), Token::Constant(own + 1));
        let address = [counter, Token::Constant(self.first), ADD];
        let mut filling = vec![
            assign(COUNTER, &[Token::Constant(count)]),
            store(self.pool.register(random), &address),
            assign(COUNTER, &[counter, Token::Constant(1), SUB]),
        ];
        if random.one_in(3) {
            filling.extend([beqz(COUNTER, own as u16 + 5), jmp(&[start])]);
        } else {
            let [zero, length] = [0, 3].map(Token::Constant);
            filling.push(jmp(&[start, counter, zero, EQ, length, MUL, ADD]));
        }
        filling
    }
}
