//! Random jobs, shared by the tests.

pub use super::xorshift::Random;
use super::T::{C, R};
use super::*;

impl Random {
    fn register(&mut self) -> u8 {
        self.below(5) as u8
    }

    fn operand(&mut self) -> T {
        if self.below(3) == 0 {
            C(self.below(6))
        } else {
            R(self.register())
        }
    }

    fn expression(&mut self) -> Vec<T> {
        let mut tokens = vec![self.operand()];
        for _ in 0..self.below(3) {
            tokens.push(self.operand());
            tokens.push(T::Op(19 + self.below(10) as u8));
        }
        tokens
    }

    /// An expression of 1 to 16 tokens of all kinds.
    pub fn long_expression(&mut self) -> Vec<T> {
        let operand_counts = self.operand_counts();
        let token = |operands| match operands {
            0 if self.below(3) == 0 => C(self.constant()),
            0 => R(self.below(16) as u8),
            1 => T::Op(17 + self.below(2) as u8),
            _ => T::Op(19 + self.below(10) as u8),
        };
        operand_counts.into_iter().map(token).collect()
    }

    /// A label other than the next one.
    fn branch_label(&mut self, own: u64, n: u64) -> u16 {
        let label = self.below(n);
        (if label > own { label + 1 } else { label }) as u16
    }

    fn instruction(&mut self, own: u64, n: u64) -> Vec<u8> {
        let register = self.register();
        match self.below(12) {
            0 => skip(),
            1 | 2 => assign(register, &self.expression()),
            3 | 4 => load(register, &self.expression()),
            5 => store(register, &self.expression()),
            6 => jmp(&[vec![C(own + 1)], self.expression(), vec![ADD]].concat()),
            7 => conditional(register, &self.expression(), &self.expression()),
            8 => spbarr(),
            _ => beqz(register, self.branch_label(own, n)),
        }
    }

    pub fn job(&mut self) -> JobParts {
        self.job_after(Vec::new())
    }

    /// A job that first stores at 61 to 64 addresses outside, so that few entries are left,
    /// and has more stores among its random instructions.
    pub fn spilling_job(&mut self) -> JobParts {
        let spill = |k| store((k % 5) as u8, &[C(1_000 + k)]);
        let addresses = 61 + self.below(4);
        let mut parts = self.job_after((0..addresses).map(spill).collect());
        for instruction in &mut parts.program[addresses as usize..] {
            if self.below(4) == 0 {
                *instruction = store(self.register(), &self.expression());
            }
        }
        parts
    }

    /// A job of the given instructions and random ones after them.
    fn job_after(&mut self, mut program: Vec<Vec<u8>>) -> JobParts {
        let first = program.len() as u64;
        let n = first + 1 + self.below(12);
        program.extend((first..n).map(|own| self.instruction(own, n)));
        let mut parts = job(program, self.below(6) as usize);
        for word in parts.registers.iter_mut().chain(&mut parts.cells) {
            *word = self.below(4);
        }
        parts.public = (0..16 + parts.cells.len()).filter(|_| self.below(2) == 0).collect();
        parts.window = self.below(12) as u16;
        parts.budget = 400;
        parts
    }
}
