//! The mispredicting run on a decoded program.

use super::decode::{Decoded, Header, Instruction};
use super::expression::{evaluate, register, Expression, Step, Values, OPERANDS};
use super::firsts::{self, packed, record, write_reports, Firsts};
use super::outside::{Found, Outside, ENTRIES};

const START: u64 = 0;
const ROLLBACK: u64 = 1;
const PC: u64 = 2;
const LOAD: u64 = 3;
const STORE: u64 = 4;

/// The kinds of instruction, by which a cost is found.
const SKIP_KIND: usize = 0;
const ASSIGN_KIND: usize = 1;
const LOAD_KIND: usize = 2;
const STORE_KIND: usize = 3;
const JUMP_KIND: usize = 4;
const BRANCH_KIND: usize = 5;
const CONDITIONAL_KIND: usize = 6;

const REGISTERS: usize = 16;

/// The stores outside memory stand behind all locations, and behind them their count, whose set is of no use.
const FIRST_OUTSIDE: usize = 256;
const COUNT: usize = FIRST_OUTSIDE + ENTRIES;

/// What an instruction of each kind takes of a window, by kind byte.
pub type Costs = [u8; 8];

/// A set of locations in as many words as the job needs.
type Set<const WORDS: usize> = [u64; WORDS];

#[derive(Clone, Copy, PartialEq, Eq)]
pub enum Stop {
    Finished,
    Spent,
    TraceFull,
    OutsideFull,
}

/// Why steps with or without an open branch are not gone on with: the first branch was opened or the last one rolled
/// back, the set of the next step's observation has to be gathered first, with its cause, or the run stops.
enum Pause<const WORDS: usize> {
    Turn,
    Gather(Set<WORDS>, u64),
    Stop(Stop),
}

/// Whether a step was made, or why not.
type Made<const WORDS: usize> = Result<(), Pause<WORDS>>;

/// The answer of a run, with sets of four words, but for the verdict.
pub struct Outcome {
    stop: Stop,
    observations: u64,
    steps: u64,
    rollbacks: u64,
    depends: [u64; 4],
    plain: [u64; 4],
}

/// A run in progress. All tables have 256 entries or more, so that a byte is always a valid index.
pub struct Machine<'a, const WORDS: usize> {
    instructions: &'a [Instruction],
    steps: &'a [Step],
    values: &'a mut Values,
    sets: &'a mut [Set<WORDS>; OPERANDS],
    outside: Outside<'a>,
    /// The undo log: operand, old value and old set of each change on the open paths.
    logged: &'a mut [u64; 256],
    old_values: &'a mut [u64; 256],
    old_sets: &'a mut [Set<WORDS>; 256],
    /// The open branches, packed as by `frame`.
    frames: &'a mut [u64; 256],
    firsts: &'a mut Firsts,
    trace: &'a mut [[u64; 2]],
    count: usize,
    cells: u64,
    first_window: u8,
    costs: Costs,
    left: u32,
    place: usize,
    opened: u64,
    rollbacks: u64,
    depth: u8,
    /// The top's window, while a branch is open.
    window: u8,
    log_length: u8,
    /// Observed with nothing open, and in all.
    plain: Set<WORDS>,
    full: Set<WORDS>,
}

/// An open branch in one word: id, true target, the window left to the branch below, and the length
/// of the log when it was opened.
fn frame(id: u64, target: usize, window: u8, log_length: u8) -> u64 {
    id << 32 | (target as u64) << 16 | u64::from(window) << 8 | u64::from(log_length)
}

#[inline(always)]
fn union<const WORDS: usize>(one: &Set<WORDS>, other: &Set<WORDS>) -> Set<WORDS> {
    let mut result = *one;
    join(&mut result, other);
    result
}

#[inline(always)]
fn join<const WORDS: usize>(set: &mut Set<WORDS>, other: &Set<WORDS>) {
    for (word, more) in set.iter_mut().zip(other) {
        *word |= more;
    }
}

#[inline(always)]
fn is_within<const WORDS: usize>(set: &Set<WORDS>, other: &Set<WORDS>) -> bool {
    set.iter().zip(other).fold(0, |more, (word, known)| more | word & !known) == 0
}

/// The union of the sets of the registers whose bits are set.
fn set_of<const WORDS: usize>(registers: u16, sets: &[Set<WORDS>; OPERANDS]) -> Set<WORDS> {
    let mut result = [0; WORDS];
    let mut left = registers;
    while left != 0 {
        join(&mut result, &sets[left.trailing_zeros() as usize]);
        left &= left - 1;
    }
    result
}

/// A table of so many sets at the front of the words, and the words behind it.
fn set_table<const WORDS: usize, const SETS: usize>(
    words: &mut [u64],
) -> (&mut [Set<WORDS>; SETS], &mut [u64]) {
    let (front, rest) = words.split_at_mut(SETS * WORDS);
    let (sets, _) = front.as_chunks_mut::<WORDS>();
    (sets.try_into().expect("so many sets"), rest)
}

/// Each location has its word of the job's state, and depends on itself alone; nothing is stored outside memory.
fn start_state<const WORDS: usize>(
    state: &[u8],
    values: &mut Values,
    sets: &mut [Set<WORDS>; OPERANDS],
) {
    let (initial, _) = state.as_chunks::<8>();
    for (location, bytes) in initial.iter().enumerate().take(256) {
        values[location] = u64::from_le_bytes(*bytes);
        sets[location] = [0; WORDS];
        sets[location][location / 64 % WORDS] = 1 << (location % 64);
    }
    values[COUNT] = 0;
}

fn word_table<const LENGTH: usize>(words: &mut [u64]) -> (&mut [u64; LENGTH], &mut [u64]) {
    words.split_first_chunk_mut().expect("the working area is long enough")
}

impl<'a, const WORDS: usize> Machine<'a, WORDS> {
    /// The start of a run; the tables stand in the working area.
    #[inline(always)]
    pub fn new(
        decoded: &'a Decoded,
        header: &Header,
        costs: &Costs,
        state: &[u8],
        trace: &'a mut [u64],
        work: &'a mut [u64],
    ) -> Machine<'a, WORDS> {
        let (values, rest) = word_table(work);
        let (logged, rest) = word_table(rest);
        let (old_values, rest) = word_table(rest);
        let (frames, rest) = word_table(rest);
        let (firsts, rest) = word_table(rest);
        let (sets, rest) = set_table(rest);
        let (old_sets, rest) = set_table(rest);
        start_state(state, values, sets);
        Machine {
            instructions: &decoded.instructions,
            steps: &decoded.steps,
            values,
            sets,
            outside: Outside::new(rest),
            logged,
            old_values,
            old_sets,
            frames,
            firsts,
            trace: trace.as_chunks_mut().0,
            count: 0,
            cells: (header.locations - REGISTERS) as u64,
            first_window: header.window,
            costs: *costs,
            left: header.budget,
            place: 0,
            opened: 0,
            rollbacks: 0,
            depth: 0,
            window: 0,
            log_length: 0,
            plain: [0; WORDS],
            full: [0; WORDS],
        }
    }

    /// Registers and cells; the count of stores outside, the address and the value of each, zeros after.
    #[inline(always)]
    pub fn write_end(&self, locations: usize, end: &mut [u64]) {
        let (image, table) = end.split_at_mut(locations);
        image.copy_from_slice(&self.values[..locations]);
        let count = self.values[COUNT];
        table[0] = count;
        let (pairs, _) = table[1..].as_chunks_mut::<2>();
        let (entries, rest) = pairs.split_at_mut(count as usize);
        let values = &self.values[FIRST_OUTSIDE..];
        for ((pair, &address), &value) in
            entries.iter_mut().zip(&*self.outside.addresses).zip(values)
        {
            *pair = [address, value];
        }
        rest.fill([0; 2]);
    }

    /// What is reported of each location, into the answer's words behind the others.
    #[inline(always)]
    pub fn write_reports(&self, reports: &mut [u64]) {
        write_reports(self.firsts, &self.full, reports);
    }

    #[inline(always)]
    pub fn outcome(&self, stop: Stop, budget: u32) -> Outcome {
        let widened = |set: &Set<WORDS>| {
            let mut words = [0; 4];
            words[..WORDS].copy_from_slice(set);
            words
        };
        Outcome {
            stop,
            observations: self.count as u64,
            steps: u64::from(budget - self.left),
            rollbacks: self.rollbacks,
            depends: widened(&self.full),
            plain: widened(&self.plain),
        }
    }

    /// Plain steps until a branch opens, then wrong paths until none is open, and again.
    #[inline(always)]
    pub fn run(&mut self) -> Stop {
        loop {
            let open = self.depth != 0;
            let pause = if open { self.wrong_paths() } else { self.plain_path() };
            match pause {
                Pause::Turn => {}
                Pause::Gather(set, cause) => self.gather(open, set, cause),
                Pause::Stop(stop) => return stop,
            }
        }
    }

    /// Steps with nothing open.
    #[inline(always)]
    fn plain_path(&mut self) -> Pause<WORDS> {
        loop {
            let instruction = &self.instructions[self.place];
            if let Instruction::End = instruction {
                return Pause::Stop(Stop::Finished);
            }
            if self.left == 0 {
                return Pause::Stop(Stop::Spent);
            }
            if let Err(pause) = self.carry_out::<false>(instruction) {
                return pause;
            }
            self.left -= 1;
            if self.depth != 0 {
                return Pause::Turn;
            }
        }
    }

    /// Steps with a branch open.
    #[inline(always)]
    fn wrong_paths(&mut self) -> Pause<WORDS> {
        loop {
            let instruction = &self.instructions[self.place];
            if self.left == 0 {
                return Pause::Stop(Stop::Spent);
            }
            let made = if self.window == 0 || matches!(instruction, Instruction::End) {
                self.roll_back()
            } else {
                self.carry_out::<true>(instruction)
            };
            if let Err(pause) = made {
                return pause;
            }
            self.left -= 1;
            if self.depth == 0 {
                return Pause::Turn;
            }
        }
    }

    /// Rules 2 and 3.
    #[inline(always)]
    fn carry_out<const OPEN: bool>(&mut self, instruction: &Instruction) -> Made<WORDS> {
        match *instruction {
            Instruction::Skip | Instruction::End => {
                self.go_on::<OPEN, SKIP_KIND>(self.place + 1);
            }
            // With nothing open the window is not read before a branch sets it.
            Instruction::Barrier => {
                self.place += 1;
                self.window = 0;
            }
            Instruction::Assign { register, value } => {
                let (value, set) = self.evaluate(value);
                self.change::<OPEN>(usize::from(register), value, set);
                self.go_on::<OPEN, ASSIGN_KIND>(self.place + 1);
            }
            Instruction::Conditional { register, condition, value } => {
                self.assign_if::<OPEN>(register, condition, value);
                self.go_on::<OPEN, CONDITIONAL_KIND>(self.place + 1);
            }
            Instruction::Load { register, address } => return self.load::<OPEN>(register, address),
            Instruction::Store { register, address } => {
                return self.store::<OPEN>(register, address)
            }
            Instruction::Jump { target } => return self.jump::<OPEN>(target),
            Instruction::Branch { register, label } => return self.open::<OPEN>(register, label),
        }
        Ok(())
    }

    /// Goes on at a place after an instruction of a kind; on a wrong path its cost lowers the top's window.
    #[inline(always)]
    fn go_on<const OPEN: bool, const KIND: usize>(&mut self, place: usize) {
        self.place = place;
        if OPEN {
            self.lower::<KIND>();
        }
    }

    #[inline(always)]
    fn lower<const KIND: usize>(&mut self) {
        self.window = self.window.saturating_sub(self.costs[KIND]);
    }

    /// The value and the set of an expression; of a longer one the set is gathered first.
    #[inline(always)]
    fn evaluate(&self, expression: Expression) -> (u64, Set<WORDS>) {
        let value = |index| register(self.values, index);
        let set = |index: u8| self.sets[usize::from(index)];
        match expression {
            Expression::Register(index) => (value(index), set(index)),
            Expression::Constant(value) => (value, [0; WORDS]),
            Expression::TwoRegisters(operator, left, right) => {
                (operator.apply(value(left), value(right)), union(&set(left), &set(right)))
            }
            Expression::RegisterConstant(operator, left, right) => {
                (operator.apply(value(left), right), set(left))
            }
            Expression::Steps { start, count, registers } => {
                let start = usize::from(start);
                let steps = &self.steps[start..start + usize::from(count)];
                let gathered = set_of(registers, self.sets);
                (evaluate(steps, self.values), gathered)
            }
        }
    }

    /// Sees to it that the set of the last observations, so many, was gathered before; if not, they are taken back.
    #[inline(always)]
    fn gathered<const OPEN: bool>(
        &mut self,
        set: &Set<WORDS>,
        cause: u64,
        observations: usize,
    ) -> Made<WORDS> {
        if is_within(set, if OPEN { &self.full } else { &self.plain }) {
            return Ok(());
        }
        self.count -= observations;
        Err(Pause::Gather(*set, cause))
    }

    /// Gathers the set of the step that was not made, which goes on as the next one.
    #[inline(always)]
    fn gather(&mut self, open: bool, set: Set<WORDS>, cause: u64) {
        record(self.firsts, set, self.full, packed(self.count, cause, self.place));
        join(&mut self.full, &set);
        if !open {
            join(&mut self.plain, &set);
        }
    }

    /// Changes an operand; on a wrong path the old contents are logged first.
    #[inline(always)]
    fn change<const OPEN: bool>(&mut self, at: usize, value: u64, set: Set<WORDS>) {
        if OPEN {
            let log = usize::from(self.log_length);
            self.logged[log] = at as u64;
            self.old_values[log] = self.values[at];
            self.old_sets[log] = self.sets[at];
            self.log_length = self.log_length.wrapping_add(1);
        }
        self.values[at] = value;
        self.sets[at] = set;
    }

    #[inline(always)]
    fn assign_if<const OPEN: bool>(&mut self, to: u8, condition: Expression, value: Expression) {
        let (condition, mut set) = self.evaluate(condition);
        if condition != 0 {
            let (value, more) = self.evaluate(value);
            join(&mut set, &more);
            self.change::<OPEN>(usize::from(to), value, set);
        } else {
            join(&mut set, &self.sets[usize::from(to)]);
            self.change::<OPEN>(usize::from(to), register(self.values, to), set);
        }
    }

    /// Writes one observation, if it fits.
    #[inline(always)]
    fn observe(&mut self, kind: u64, value: u64) -> Made<WORDS> {
        let slot = self.trace.get_mut(self.count).ok_or(Pause::Stop(Stop::TraceFull))?;
        *slot = [kind, value];
        self.count += 1;
        Ok(())
    }

    /// Writes two observations, if they both fit.
    #[inline(always)]
    fn observe_two(&mut self, first: [u64; 2], second: [u64; 2]) -> Made<WORDS> {
        let slots = self.trace.get_mut(self.count..self.count + 2);
        let slots = slots.ok_or(Pause::Stop(Stop::TraceFull))?;
        slots[0] = first;
        slots[1] = second;
        self.count += 2;
        Ok(())
    }

    #[inline(always)]
    fn load<const OPEN: bool>(&mut self, to: u8, address: Expression) -> Made<WORDS> {
        let (address, mut set) = self.evaluate(address);
        self.observe(LOAD, address)?;
        self.gathered::<OPEN>(&set, firsts::LOAD, 1)?;
        let mut value = 0;
        if address < self.cells {
            let cell = usize::from(address as u8 + REGISTERS as u8);
            value = self.values[cell];
            join(&mut set, &self.sets[cell]);
        } else if let Found::Entry(index) = self.outside.find(address, self.values[COUNT]) {
            value = self.values[FIRST_OUTSIDE + index % ENTRIES];
            join(&mut set, &self.sets[FIRST_OUTSIDE + index % ENTRIES]);
        }
        self.change::<OPEN>(usize::from(to), value, set);
        self.go_on::<OPEN, LOAD_KIND>(self.place + 1);
        Ok(())
    }

    #[inline(always)]
    fn store<const OPEN: bool>(&mut self, from: u8, address: Expression) -> Made<WORDS> {
        let (address, mut set) = self.evaluate(address);
        if address >= self.cells {
            return self.store_outside::<OPEN>(from, address, set);
        }
        self.observe(STORE, address)?;
        self.gathered::<OPEN>(&set, firsts::STORE, 1)?;
        join(&mut set, &self.sets[usize::from(from)]);
        let cell = usize::from(address as u8 + REGISTERS as u8);
        self.change::<OPEN>(cell, register(self.values, from), set);
        self.go_on::<OPEN, STORE_KIND>(self.place + 1);
        Ok(())
    }

    /// Of a new entry on a wrong path the log holds the count.
    #[inline(always)]
    fn store_outside<const OPEN: bool>(
        &mut self,
        from: u8,
        address: u64,
        mut set: Set<WORDS>,
    ) -> Made<WORDS> {
        let count = self.values[COUNT];
        let found = self.outside.find(address, count);
        let needs_room = matches!(found, Found::Slot(_)) && count == ENTRIES as u64;
        if needs_room && self.count < self.trace.len() {
            self.gathered::<OPEN>(&set, firsts::STORE, 0)?;
            return Err(Pause::Stop(Stop::OutsideFull));
        }
        self.observe(STORE, address)?;
        self.gathered::<OPEN>(&set, firsts::STORE, 1)?;
        join(&mut set, &self.sets[usize::from(from)]);
        let value = register(self.values, from);
        match found {
            Found::Entry(index) => {
                self.change::<OPEN>(FIRST_OUTSIDE + index % ENTRIES, value, set);
            }
            Found::Slot(slot) => {
                let index = count as usize % ENTRIES;
                self.outside.put(address, index, slot);
                self.values[FIRST_OUTSIDE + index] = value;
                self.sets[FIRST_OUTSIDE + index] = set;
                self.change::<OPEN>(COUNT, count + 1, [0; WORDS]);
            }
        }
        self.go_on::<OPEN, STORE_KIND>(self.place + 1);
        Ok(())
    }

    #[inline(always)]
    fn jump<const OPEN: bool>(&mut self, target: Expression) -> Made<WORDS> {
        let (target, set) = self.evaluate(target);
        let place = target.min(self.instructions.len() as u64 - 1);
        self.observe(PC, place)?;
        self.gathered::<OPEN>(&set, firsts::JUMP, 1)?;
        self.go_on::<OPEN, JUMP_KIND>(place as usize);
        Ok(())
    }

    /// Rule 2.
    #[inline(always)]
    fn open<const OPEN: bool>(&mut self, tested: u8, label: u16) -> Made<WORDS> {
        let next = self.place + 1;
        let label = usize::from(label);
        let zero = register(self.values, tested) == 0;
        let (target, wrong) = if zero { (label, next) } else { (next, label) };
        self.observe_two([START, self.opened], [PC, wrong as u64])?;
        let set = self.sets[usize::from(tested)];
        self.gathered::<OPEN>(&set, firsts::BRANCH, 2)?;
        match OPEN {
            true => self.lower::<BRANCH_KIND>(),
            false => self.window = self.first_window,
        }
        let packed = frame(self.opened, target, self.window, self.log_length);
        self.frames[usize::from(self.depth)] = packed;
        self.depth = self.depth.wrapping_add(1);
        self.opened += 1;
        self.place = wrong;
        Ok(())
    }

    /// Rule 1. The window that a branch opened with is what it left to the branch below it.
    #[inline(always)]
    fn roll_back(&mut self) -> Made<WORDS> {
        let packed = self.frames[usize::from(self.depth.wrapping_sub(1))];
        let target = packed >> 16 & 0xFFFF;
        self.observe_two([ROLLBACK, packed >> 32], [PC, target])?;
        self.depth = self.depth.wrapping_sub(1);
        self.undo_to(packed as u8);
        self.window = (packed >> 8) as u8;
        self.place = target as usize;
        self.rollbacks += 1;
        Ok(())
    }

    #[inline(always)]
    fn undo_to(&mut self, length: u8) {
        while self.log_length > length {
            self.log_length -= 1;
            let log = usize::from(self.log_length);
            let at = self.logged[log] as usize;
            self.values[at] = self.old_values[log];
            self.sets[at] = self.old_sets[log];
        }
    }
}

impl Outcome {
    /// Writes the answer with its verdict, but for the reports.
    pub fn write(&self, public: &[u64; 4], answer: &mut [u64]) {
        let outside = |set: &[u64; 4], kept: &[u64; 4]| (0..4).any(|at| set[at] & !kept[at] != 0);
        let verdict = if self.stop != Stop::Finished {
            0
        } else if !outside(&self.depends, public) {
            1
        } else if outside(&self.depends, &union(public, &self.plain)) {
            2
        } else {
            3
        };
        answer[0] = self.stop as u64;
        answer[1] = self.observations;
        answer[2] = self.steps;
        answer[3] = self.rollbacks;
        answer[4..8].copy_from_slice(&self.depends);
        answer[8..12].copy_from_slice(&self.plain);
        answer[12] = verdict;
    }
}
