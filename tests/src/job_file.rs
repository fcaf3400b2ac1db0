//! Job files put together from parts: instructions, expressions, state, public list, trailer.

pub const REGISTERS: usize = 16;
pub const MAX_CELLS: usize = 240;
pub const MAX_INSTRUCTIONS: usize = 512;
pub const MAX_WINDOW: u16 = 200;
pub const MAX_BUDGET: u32 = 1_000_000;
pub const MAX_JOB_BYTES: usize = 16_384;
pub const LIST_BYTES: usize = 32;
pub const TRAILER_BYTES: usize = 16;

/// A token of a postfix expression: a register, a constant, or any other byte.
#[derive(Clone, Copy, PartialEq, Eq)]
pub enum Token {
    Register(u8),
    Constant(u64),
    Operator(u8),
}

pub const NEG: Token = Token::Operator(17);
pub const NOT: Token = Token::Operator(18);
pub const ADD: Token = Token::Operator(19);
pub const SUB: Token = Token::Operator(20);
pub const MUL: Token = Token::Operator(21);
pub const AND: Token = Token::Operator(22);
pub const XOR: Token = Token::Operator(24);
pub const SHL: Token = Token::Operator(25);
pub const SHR: Token = Token::Operator(26);
pub const EQ: Token = Token::Operator(27);
pub const ULT: Token = Token::Operator(28);

/// The bytes of one instruction.
pub type Instruction = Vec<u8>;

fn push_expression(bytes: &mut Vec<u8>, tokens: &[Token]) {
    bytes.push(tokens.len() as u8);
    for token in tokens {
        match *token {
            Token::Register(register) => bytes.push(register),
            Token::Constant(value) => {
                bytes.push(16);
                bytes.extend(value.to_le_bytes());
            }
            Token::Operator(byte) => bytes.push(byte),
        }
    }
}

fn with_expression(mut bytes: Vec<u8>, tokens: &[Token]) -> Instruction {
    push_expression(&mut bytes, tokens);
    bytes
}

pub fn skip() -> Instruction {
    vec![0]
}

pub fn assign(register: u8, value: &[Token]) -> Instruction {
    with_expression(vec![1, register], value)
}

pub fn load(register: u8, address: &[Token]) -> Instruction {
    with_expression(vec![2, register], address)
}

pub fn store(register: u8, address: &[Token]) -> Instruction {
    with_expression(vec![3, register], address)
}

pub fn jmp(target: &[Token]) -> Instruction {
    with_expression(vec![4], target)
}

pub fn beqz(register: u8, label: u16) -> Instruction {
    let [low, high] = label.to_le_bytes();
    vec![5, register, low, high]
}

pub fn conditional(register: u8, condition: &[Token], value: &[Token]) -> Instruction {
    with_expression(with_expression(vec![6, register], condition), value)
}

pub fn spbarr() -> Instruction {
    vec![7]
}

/// A job in parts. The state holds the registers, then the cells.
#[derive(Clone)]
pub struct Parts {
    pub program: Vec<Instruction>,
    pub state: Vec<u64>,
    pub public: Vec<usize>,
    pub window: u16,
    pub budget: u32,
}

impl Parts {
    /// A job of zero words with nothing public.
    pub fn new(program: Vec<Instruction>, cells: usize, window: u16, budget: u32) -> Parts {
        Parts { program, state: vec![0; REGISTERS + cells], public: Vec::new(), window, budget }
    }

    pub fn cells(&self) -> usize {
        self.state.len() - REGISTERS
    }

    /// The job file; the trailer is the true one even if a part breaks a limit.
    pub fn bytes(&self) -> Vec<u8> {
        let mut bytes = self.program.concat();
        let state_offset = bytes.len();
        bytes.extend(state_bytes(&self.state));
        let list_offset = bytes.len();
        bytes.extend(list_bytes(&self.public));
        let shorts = [
            state_offset as u16,
            list_offset as u16,
            self.program.len() as u16,
            self.cells() as u16,
            self.window,
            0,
        ];
        bytes.extend(shorts.iter().flat_map(|number| number.to_le_bytes()));
        bytes.extend(self.budget.to_le_bytes());
        bytes
    }
}

/// A state as bytes, as it stands in a job and as the second state of a pair.
pub fn state_bytes(words: &[u64]) -> Vec<u8> {
    words.iter().flat_map(|word| word.to_le_bytes()).collect()
}

fn list_bytes(public: &[usize]) -> [u8; LIST_BYTES] {
    let mut list = [0; LIST_BYTES];
    for location in public {
        list[location / 8] |= 1 << (location % 8);
    }
    list
}

/// The numbers of the trailer, each with its offset in it.
#[derive(Clone, Copy, PartialEq, Eq)]
pub enum Field {
    StateOffset = 0,
    ListOffset = 2,
    Instructions = 4,
    Cells = 6,
    Window = 8,
    Zero = 10,
}

/// Puts a number into the trailer of a job file of at least 16 bytes.
pub fn set_field(job: &mut [u8], field: Field, number: u16) {
    let at = job.len() - TRAILER_BYTES + field as usize;
    job[at..at + 2].copy_from_slice(&number.to_le_bytes());
}

pub fn field(job: &[u8], field: Field) -> u16 {
    let at = job.len() - TRAILER_BYTES + field as usize;
    u16::from_le_bytes([job[at], job[at + 1]])
}

/// Puts a step budget into the trailer of a job file of at least 16 bytes.
pub fn set_budget(job: &mut [u8], budget: u32) {
    let at = job.len() - 4;
    job[at..].copy_from_slice(&budget.to_le_bytes());
}

pub fn budget(job: &[u8]) -> u32 {
    let at = job.len() - 4;
    u32::from_le_bytes([job[at], job[at + 1], job[at + 2], job[at + 3]])
}
