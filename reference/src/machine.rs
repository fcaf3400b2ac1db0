//! The machine: instructions, the state with its dependency sets, and plain execution.

use crate::answer::Cause;
use crate::expression::Expression;
use crate::location_set::LocationSet;
use crate::outside::OutsideTable;
use crate::trace::{LOAD, PC, STORE};

pub const REGISTERS: usize = 16;

/// A value with the set of locations it depends on.
#[derive(Debug, Clone, Copy, PartialEq, Eq)]
pub struct Word {
    pub value: u64,
    pub depends: LocationSet,
}

/// An instruction with its fields; a label equal to the instruction count is END.
#[derive(Debug, Clone, PartialEq, Eq)]
pub enum Instruction {
    Skip,
    Assign { register: usize, value: Expression },
    Load { register: usize, address: Expression },
    Store { register: usize, address: Expression },
    Jump { target: Expression },
    BranchIfZero { register: usize, label: usize },
    ConditionalAssign { register: usize, condition: Expression, value: Expression },
    Barrier,
}

/// Registers, memory cells and remembered stores outside, with their dependency sets.
#[derive(Debug, Clone, PartialEq, Eq)]
pub struct State {
    registers: [Word; REGISTERS],
    cells: Vec<Word>,
    outside: OutsideTable,
}

/// An observation with the dependency set of its address, jump value or branch register.
#[derive(Debug, Clone, Copy, PartialEq, Eq)]
pub struct Observed {
    pub cause: Cause,
    pub kind: u64,
    pub value: u64,
    pub depends: LocationSet,
}

impl Instruction {
    /// The kind byte, which is also the index into the table of window costs.
    pub fn kind(&self) -> usize {
        match self {
            Instruction::Skip => 0,
            Instruction::Assign { .. } => 1,
            Instruction::Load { .. } => 2,
            Instruction::Store { .. } => 3,
            Instruction::Jump { .. } => 4,
            Instruction::BranchIfZero { .. } => 5,
            Instruction::ConditionalAssign { .. } => 6,
            Instruction::Barrier => 7,
        }
    }

    /// How many observations plain execution of the instruction makes.
    pub fn plain_observations(&self) -> usize {
        match self {
            Instruction::Load { .. }
            | Instruction::Store { .. }
            | Instruction::Jump { .. }
            | Instruction::BranchIfZero { .. } => 1,
            _ => 0,
        }
    }
}

impl State {
    /// The state at the start of a run; each location depends on itself alone, nothing is outside.
    /// The words stand in the order of the locations: registers, then cells.
    pub fn new(words: &[u64]) -> State {
        let initial = |location: usize| Word {
            value: words[location],
            depends: LocationSet::single(location),
        };
        State {
            registers: std::array::from_fn(initial),
            cells: (REGISTERS..words.len()).map(initial).collect(),
            outside: OutsideTable::EMPTY,
        }
    }

    pub fn register(&self, register: usize) -> Word {
        self.registers[register]
    }

    /// The words of an end area: registers, then cells, then the table of stores outside.
    pub fn end_words(&self) -> Vec<u64> {
        let image = self.registers.iter().chain(&self.cells).map(|word| word.value);
        image.chain(self.outside.words()).collect()
    }

    /// The address of a store for which the table has no room, if the instruction is one.
    pub fn address_without_room(&self, instruction: &Instruction) -> Option<Word> {
        let Instruction::Store { address, .. } = instruction else {
            return None;
        };
        let address = self.evaluate(address);
        let outside = self.cell_index(address.value).is_none();
        (outside && !self.outside.has_room_for(address.value)).then_some(address)
    }

    /// The set comes ahead of the value, and from the registers' sets alone.
    fn evaluate(&self, expression: &Expression) -> Word {
        let depends = expression.dependency_set(&self.registers.map(|word| word.depends));
        let value = expression.value(&self.registers.map(|word| word.value));
        Word { value, depends }
    }

    /// The index of the cell at an address, if there is such a cell.
    fn cell_index(&self, address: u64) -> Option<usize> {
        usize::try_from(address).ok().filter(|&index| index < self.cells.len())
    }

    /// The word in memory; an address outside that is not remembered holds 0 with the empty set.
    fn word_at(&self, address: u64) -> Word {
        match self.cell_index(address) {
            Some(index) => self.cells[index],
            None => {
                let unwritten = Word { value: 0, depends: LocationSet::EMPTY };
                self.outside.word_at(address).unwrap_or(unwritten)
            }
        }
    }

    fn load(&mut self, register: usize, address: Word) {
        let held = self.word_at(address.value);
        self.registers[register] =
            Word { value: held.value, depends: address.depends.union(held.depends) };
    }

    /// A store where there is no cell is remembered; the run has seen to it that there is room.
    fn store(&mut self, register: usize, address: Word) {
        let held = self.registers[register];
        let stored = Word { value: held.value, depends: address.depends.union(held.depends) };
        match self.cell_index(address.value) {
            Some(index) => self.cells[index] = stored,
            None => self.outside.remember(address.value, stored),
        }
    }

    /// The condition's set joins the register's set whether or not the value is assigned.
    fn conditional_assign(&mut self, register: usize, condition: Word, value: Word) {
        let kept = if condition.value != 0 { value } else { self.registers[register] };
        self.registers[register] =
            Word { value: kept.value, depends: condition.depends.union(kept.depends) };
    }
}

/// Carries out one instruction as the plain run does.
/// `end` is the instruction count; the result is the next place and what was observed.
pub fn execute(
    instruction: &Instruction,
    state: &mut State,
    place: usize,
    end: usize,
) -> (usize, Option<Observed>) {
    let next = place + 1;
    match instruction {
        Instruction::Skip | Instruction::Barrier => (next, None),
        Instruction::Assign { register, value } => {
            state.registers[*register] = state.evaluate(value);
            (next, None)
        }
        Instruction::ConditionalAssign { register, condition, value } => {
            let (condition, value) = (state.evaluate(condition), state.evaluate(value));
            state.conditional_assign(*register, condition, value);
            (next, None)
        }
        Instruction::Load { register, address } => {
            let address = state.evaluate(address);
            state.load(*register, address);
            (next, Some(observed(Cause::Load, LOAD, address)))
        }
        Instruction::Store { register, address } => {
            let address = state.evaluate(address);
            state.store(*register, address);
            (next, Some(observed(Cause::Store, STORE, address)))
        }
        Instruction::Jump { target } => go_to(Cause::Jump, state.evaluate(target), end),
        Instruction::BranchIfZero { register, label } => {
            let tested = state.register(*register);
            let target = if tested.value == 0 { *label } else { next };
            go_to(Cause::Branch, Word { value: target as u64, ..tested }, end)
        }
    }
}

fn observed(cause: Cause, kind: u64, word: Word) -> Observed {
    Observed { cause, kind, value: word.value, depends: word.depends }
}

/// A change of place; a target of `end` or more is END, observed as `end`.
fn go_to(cause: Cause, target: Word, end: usize) -> (usize, Option<Observed>) {
    let value = target.value.min(end as u64);
    (value as usize, Some(observed(cause, PC, Word { value, ..target })))
}
