//! Random valid jobs in several styles.

use crate::expressions::{Pool, MAX_TOKENS};
use crate::gadgets::gadget_program;
use crate::job_file::{
    assign, beqz, conditional, jmp, load, skip, spbarr, store, Instruction, Parts, Token, ADD, EQ,
    LIST_BYTES, MAX_BUDGET, MAX_CELLS, MAX_INSTRUCTIONS, MAX_JOB_BYTES, MAX_WINDOW, MUL, REGISTERS,
    SUB, TRAILER_BYTES,
};
use crate::random::Random;
use crate::spills::spill_program;

/// What a program is rich in.
#[derive(Clone, Copy, PartialEq, Eq, Debug)]
pub enum Style {
    Mixed,
    Nested,
    Loops,
    Memory,
    Expressions,
    Conditional,
    Gadgets,
    Outside,
    Large,
    Long,
}

pub const STYLES: [Style; 10] = [
    Style::Mixed,
    Style::Nested,
    Style::Loops,
    Style::Memory,
    Style::Expressions,
    Style::Conditional,
    Style::Gadgets,
    Style::Outside,
    Style::Large,
    Style::Long,
];

/// How often each instruction kind is drawn, by kind byte.
type Weights = [u64; 8];

struct Writer<'a> {
    random: &'a mut Random,
    pool: Pool,
    weights: Weights,
}

/// Long and large jobs take more time, so they are drawn less often.
pub fn random_style(random: &mut Random) -> Style {
    match random.below(200) {
        0 => Style::Long,
        1..=6 => Style::Large,
        _ => STYLES[random.index(8)],
    }
}

pub fn random_job(style: Style, random: &mut Random) -> Parts {
    let pool = pool(style, random);
    let mut writer = Writer { random, pool, weights: weights(style) };
    let program = match style {
        Style::Loops | Style::Long => writer.looping_program(),
        Style::Gadgets => gadget_program(&pool, writer.random),
        Style::Outside => spill_program(&pool, writer.random),
        _ => writer.program(),
    };
    let window = window(style, random);
    let budget = budget(style, random);
    let mut parts = Parts::new(program, pool.cells as usize, window, budget);
    for word in &mut parts.state {
        *word = state_word(&pool, random);
    }
    parts.public = public_list(style, parts.state.len(), random);
    parts
}

fn weights(style: Style) -> Weights {
    match style {
        Style::Mixed | Style::Large => [1, 2, 2, 2, 1, 3, 2, 1],
        // The programs of these are put together otherwise.
        Style::Gadgets | Style::Outside => [1; 8],
        Style::Nested => [1, 1, 1, 1, 0, 8, 1, 1],
        Style::Loops | Style::Long => [1, 3, 2, 2, 0, 2, 2, 1],
        Style::Memory => [0, 2, 5, 5, 0, 2, 1, 0],
        Style::Expressions => [0, 5, 2, 2, 1, 2, 3, 0],
        Style::Conditional => [0, 1, 2, 1, 0, 2, 6, 0],
    }
}

fn pool(style: Style, random: &mut Random) -> Pool {
    let (instructions, cells) = match style {
        Style::Large => {
            let n = random.pick(&[511, 512, 512, 512, 300, 200]);
            (n, random.pick(&[0, 48, 49, 112, 176, 239, 240, 240]))
        }
        Style::Gadgets => (random.between(5, 24), random.between(3, 12)),
        Style::Outside => {
            let most = random.pick(&[12, 30, 60, 200]);
            (random.between(2, most), random.pick(&[0, 0, 1, 2, 7, 15, 16, 224, 239, 240]))
        }
        Style::Nested => (random.between(2, 30), random.below(10)),
        Style::Loops | Style::Long => (random.between(8, 30), random.below(20)),
        _ if random.one_in(10) => (random.between(1, 60), random.below(MAX_CELLS as u64 + 1)),
        _ => (random.between(1, 16), random.below(8)),
    };
    let all = random.one_in(if style == Style::Outside { 2 } else { 3 });
    let registers = if all { REGISTERS as u64 } else { random.between(1, 6) };
    let tokens = match style {
        Style::Expressions => MAX_TOKENS,
        _ if random.one_in(4) => MAX_TOKENS,
        _ => 5,
    };
    Pool { registers, tokens, cells, instructions }
}

fn window(style: Style, random: &mut Random) -> u16 {
    match random.below(10) {
        0 => 0,
        1 | 2 => random.between(1, 3) as u16,
        3..=6 => random.between(4, 14) as u16,
        7 if style != Style::Nested => random.between(15, 60) as u16,
        7 | 8 => MAX_WINDOW - random.below(3) as u16,
        _ => random.below(u64::from(MAX_WINDOW) + 1) as u16,
    }
}

/// A long run takes some ten thousand steps, now and then a million.
fn budget(style: Style, random: &mut Random) -> u32 {
    if style == Style::Long {
        return if random.one_in(100) { MAX_BUDGET } else { random.between(2_000, 40_000) as u32 };
    }
    match random.below(12) {
        0 => random.below(12) as u32,
        1..=8 if style == Style::Outside => random.between(100, 1_500) as u32,
        1..=8 => random.between(20, 400) as u32,
        9 | 10 => random.between(400, 1_500) as u32,
        _ => MAX_BUDGET - random.below(2) as u32,
    }
}

/// Small numbers are also addresses, labels and conditions, so most words are small.
pub fn state_word(pool: &Pool, random: &mut Random) -> u64 {
    match random.below(8) {
        0..=2 => random.below(2),
        3..=5 => random.below(8),
        6 => random.below(pool.cells + 3),
        _ => pool.constant(random),
    }
}

/// The public list: of any density, from nothing to everything. The registers that guard a gadget
/// are mostly public.
fn public_list(style: Style, locations: usize, random: &mut Random) -> Vec<usize> {
    let density = random.pick(&[0, 2, 4, 6, 7, 8, 8]);
    let guards = if style == Style::Gadgets && !random.one_in(8) { 2 } else { 0 };
    (0..locations).filter(|&location| location < guards || random.below(8) < density).collect()
}

impl Writer<'_> {
    /// Instructions drawn one by one; where the bytes run out the rest is filled with skip.
    fn program(&mut self) -> Vec<Instruction> {
        let count = self.pool.instructions;
        let state = 8 * (REGISTERS + self.pool.cells as usize);
        let mut room = MAX_JOB_BYTES - LIST_BYTES - TRAILER_BYTES - state;
        let mut program = Vec::with_capacity(count as usize);
        for own in 0..count {
            let others = (count - 1 - own) as usize;
            let drawn = self.instruction(own);
            let fits = drawn.len() + others <= room;
            let instruction = if fits { drawn } else { skip() };
            room -= instruction.len();
            program.push(instruction);
        }
        program
    }

    fn instruction(&mut self, own: u64) -> Instruction {
        let (pool, register) = (self.pool, self.pool.register(self.random));
        match self.kind() {
            0 => skip(),
            1 => assign(register, &pool.expression(self.random)),
            2 => load(register, &pool.address(self.random)),
            3 => store(register, &pool.address(self.random)),
            4 => jmp(&self.jump_target(own)),
            5 => beqz(register, self.branch_label(own)),
            6 => {
                let condition = pool.expression(self.random);
                conditional(register, &condition, &pool.expression(self.random))
            }
            _ => spbarr(),
        }
    }

    fn kind(&mut self) -> usize {
        let mut drawn = self.random.below(self.weights.iter().sum());
        let passed = |weight: &&u64| {
            let inside = drawn < **weight;
            drawn = drawn.saturating_sub(**weight);
            !inside
        };
        self.weights.iter().take_while(passed).count()
    }

    fn jump_target(&mut self, own: u64) -> Vec<Token> {
        let end = self.pool.instructions;
        let register = Token::Register(self.pool.register(self.random));
        match self.random.below(12) {
            0..=4 => vec![Token::Constant(own + self.random.between(1, 4))],
            5 => vec![Token::Constant(self.random.below(own + 1))],
            6 => vec![Token::Constant(end + self.random.below(3))],
            7 => vec![register],
            8 | 9 => vec![Token::Constant(own + 1), register, ADD],
            10 => vec![Token::Constant(u64::MAX - self.random.below(3))],
            _ => self.pool.expression(self.random),
        }
    }

    /// A label up to END other than the next one. Most go forward, so that most runs finish; the
    /// last instruction can only go back.
    fn branch_label(&mut self, own: u64) -> u16 {
        let end = self.pool.instructions;
        let label = match self.random.below(12) {
            0 => self.random.below(end + 1),
            1 => self.random.between(own.saturating_sub(4), own),
            _ => (own + self.random.between(2, 6)).min(end),
        };
        let allowed = if label == own + 1 { self.random.below(own + 1) } else { label };
        allowed as u16
    }

    /// Straight parts and counted loops in turn; a long run starts again from the front.
    fn looping_program(&mut self) -> Vec<Instruction> {
        let count = (self.pool.instructions as usize).min(MAX_INSTRUCTIONS);
        let mut program = Vec::with_capacity(count);
        while program.len() + 8 < count {
            self.push_straight(1, &mut program);
            if self.random.one_in(2) {
                self.push_loop(&mut program);
            }
        }
        while program.len() + 1 < count {
            self.push_straight(1, &mut program);
        }
        let again = self.random.one_in(2);
        program.push(if again { jmp(&[Token::Constant(0)]) } else { skip() });
        program
    }

    fn push_straight(&mut self, count: u64, program: &mut Vec<Instruction>) {
        for _ in 0..count {
            let instruction = self.instruction(program.len() as u64);
            program.push(instruction);
        }
    }

    /// A loop of at most seven instructions that counts r15 down and goes back in one of three ways.
    fn push_loop(&mut self, program: &mut Vec<Instruction>) {
        let (counter, flag) = (Token::Register(15), Token::Register(14));
        let (zero, one) = (Token::Constant(0), Token::Constant(1));
        program.push(assign(15, &[Token::Constant(self.random.between(1, 6))]));
        let start = program.len() as u64;
        let body = self.random.between(1, 3);
        self.push_straight(body, program);
        program.push(assign(15, &[counter, one, SUB]));
        let next = program.len() as u64;
        match self.random.below(3) {
            0 => {
                program.push(beqz(15, next as u16 + 2));
                program.push(jmp(&[Token::Constant(start)]));
            }
            1 => {
                program.push(assign(14, &[counter, zero, EQ]));
                program.push(beqz(14, start as u16));
            }
            _ => {
                program.push(assign(14, &[counter, zero, EQ]));
                let span = Token::Constant(next + 2 - start);
                program.push(jmp(&[Token::Constant(start), flag, span, MUL, ADD]));
            }
        }
    }
}
