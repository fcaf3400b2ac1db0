//! The mispredicting run and the plain run, with the areas that a caller lends them.

use crate::answer::{Cause, First, PlainAnswer, RunAnswer, Stop, Verdict};
use crate::firsts::ObservedSets;
use crate::job::{read_job, Job};
use crate::location_set::LocationSet;
use crate::machine::{execute, Instruction, State, Word};
use crate::outside::OUTSIDE_WORDS;
use crate::refusal::{self, require};
use crate::trace::{TraceWriter, PC, ROLLBACK, START};
use crate::window_costs::WindowCosts;

pub const WORKING_WORDS: usize = 4_096;

/// A branch whose wrong path is being followed.
struct OpenBranch {
    id: u64,
    saved: State,
    true_target: usize,
    window: u64,
}

/// The next step of a mispredicting run, by the rule that makes it.
enum Step<'a> {
    Rollback,
    Open { register: usize, label: usize },
    Other(&'a Instruction),
}

/// A mispredicting run between two steps.
struct SpeculativeRun<'a> {
    job: &'a Job,
    costs: WindowCosts,
    trace: TraceWriter<'a>,
    state: State,
    place: usize,
    open: Vec<OpenBranch>,
    opened: u64,
    steps: u64,
    rollbacks: u64,
    depends: LocationSet,
    plain: LocationSet,
    observed: ObservedSets,
}

/// Makes the mispredicting run of a job with a table of window costs.
pub fn run(
    job: &[u8],
    costs: &[u8],
    trace: &mut [u64],
    end: &mut [u64],
    work: &mut [u64],
) -> Result<RunAnswer, u32> {
    let job = read_job(job)?;
    let costs = WindowCosts::read(costs)?;
    check_areas(&job, end, work)?;
    let (answer, state) = speculative_run(&job, costs, trace);
    fill_areas(&state, end, work);
    Ok(answer)
}

/// Makes the plain run of a job; it has no window and takes no table.
pub fn plain_run(
    job: &[u8],
    trace: &mut [u64],
    end: &mut [u64],
    work: &mut [u64],
) -> Result<PlainAnswer, u32> {
    let job = read_job(job)?;
    check_areas(&job, end, work)?;
    let (answer, state) = sequential_run(&job, trace);
    fill_areas(&state, end, work);
    Ok(answer)
}

fn check_areas(job: &Job, end: &[u64], work: &[u64]) -> Result<(), u32> {
    let end_words = job.initial.len() + OUTSIDE_WORDS;
    let long_enough = work.len() >= WORKING_WORDS && end.len() >= end_words;
    require(long_enough, refusal::AREAS)
}

/// Words past those named here keep their contents.
fn fill_areas(state: &State, end: &mut [u64], work: &mut [u64]) {
    let words = state.end_words();
    end[..words.len()].copy_from_slice(&words);
    work[..WORKING_WORDS].fill(0);
}

/// Makes the mispredicting run; gives the answer and the state at the stop.
pub fn speculative_run(job: &Job, costs: WindowCosts, trace: &mut [u64]) -> (RunAnswer, State) {
    let mut run = SpeculativeRun {
        job,
        costs,
        trace: TraceWriter::new(trace),
        state: State::new(&job.initial),
        place: 0,
        open: Vec::new(),
        opened: 0,
        steps: 0,
        rollbacks: 0,
        depends: LocationSet::EMPTY,
        plain: LocationSet::EMPTY,
        observed: ObservedSets::EMPTY,
    };
    let stop = run.run_to_stop();
    let answer = RunAnswer {
        stop,
        observations: run.trace.count(),
        steps: run.steps,
        rollbacks: run.rollbacks,
        depends: run.depends.words(),
        plain: run.plain.words(),
        verdict: verdict(stop, run.depends, run.plain, job.public),
        firsts: run.observed.firsts(),
    };
    (answer, run.state)
}

fn verdict(stop: Stop, depends: LocationSet, plain: LocationSet, public: LocationSet) -> Verdict {
    if stop != Stop::Finished {
        Verdict::Undecided
    } else if depends.is_within(public) {
        Verdict::Clean
    } else if !depends.is_within(public.union(plain)) {
        Verdict::Speculative
    } else {
        Verdict::Plain
    }
}

impl<'a> SpeculativeRun<'a> {
    /// Finished is tested first, then spent, then trace full, then outside full.
    /// The address set of a store that stops the run is gathered all the same.
    fn run_to_stop(&mut self) -> Stop {
        loop {
            let Some(step) = self.next_step() else {
                return Stop::Finished;
            };
            if self.steps == self.job.budget {
                return Stop::Spent;
            }
            if !self.trace.has_room_for(step.observations()) {
                return Stop::TraceFull;
            }
            if let Some(address) = self.address_without_room(&step) {
                self.gather(Cause::Store, address.depends);
                return Stop::OutsideFull;
            }
            self.make(step);
            self.steps += 1;
        }
    }

    /// The next step, or none at END with nothing open.
    fn next_step(&self) -> Option<Step<'a>> {
        let at_end = self.place == self.job.program.len();
        match self.open.last() {
            Some(top) if top.window == 0 || at_end => Some(Step::Rollback),
            None if at_end => None,
            _ => Some(Step::of(&self.job.program[self.place])),
        }
    }

    /// The address of the store that the step makes, if the table has no room for it.
    fn address_without_room(&self, step: &Step) -> Option<Word> {
        match step {
            Step::Rollback | Step::Open { .. } => None,
            Step::Other(instruction) => self.state.address_without_room(instruction),
        }
    }

    fn make(&mut self, step: Step) {
        match step {
            Step::Rollback => self.roll_back(),
            Step::Open { register, label } => self.open_branch(register, label),
            Step::Other(instruction) => self.carry_out(instruction),
        }
    }

    /// Rule 1. The state comes back whole, the stores outside too;
    /// the gathered sets D and plain are not restored.
    fn roll_back(&mut self) {
        let top = self.open.pop().expect("a rollback needs an open branch");
        self.state = top.saved;
        self.place = top.true_target;
        self.rollbacks += 1;
        self.trace.push(ROLLBACK, top.id);
        self.trace.push(PC, top.true_target as u64);
    }

    /// Rule 2. A nested branch lowers the old top first and takes what remains there.
    /// With nothing open no window is lowered: the opening costs nothing.
    fn open_branch(&mut self, register: usize, label: usize) {
        let tested = self.state.register(register);
        let next = self.place + 1;
        let (true_target, wrong) = if tested.value == 0 { (label, next) } else { (next, label) };
        self.gather(Cause::Branch, tested.depends);
        self.lower_top(&Instruction::BranchIfZero { register, label });
        let window = self.open.last().map_or(self.job.window, |top| top.window);
        let id = self.opened;
        self.open.push(OpenBranch { id, saved: self.state.clone(), true_target, window });
        self.opened += 1;
        self.place = wrong;
        self.trace.push(START, id);
        self.trace.push(PC, wrong as u64);
    }

    /// Rule 3. Only the top's window changes. A barrier sets it to 0 whatever its entry is.
    fn carry_out(&mut self, instruction: &Instruction) {
        let end = self.job.program.len();
        let (next, observed) = execute(instruction, &mut self.state, self.place, end);
        if let Some(observed) = observed {
            self.gather(observed.cause, observed.depends);
            self.trace.push(observed.kind, observed.value);
        }
        self.place = next;
        self.lower_top(instruction);
        if let (Instruction::Barrier, Some(top)) = (instruction, self.open.last_mut()) {
            top.window = 0;
        }
    }

    /// Takes the entry of the instruction's kind from the top's window, down to 0 at least.
    fn lower_top(&mut self, instruction: &Instruction) {
        if let Some(top) = self.open.last_mut() {
            top.window = top.window.saturating_sub(self.costs.cost(instruction));
        }
    }

    /// Adds an observed set to D, and to the plain set if nothing was open before this step.
    /// It is called before the step's first observation is written and before the place changes,
    /// so that the set stands at the next observation and at the instruction's own label.
    fn gather(&mut self, cause: Cause, observed: LocationSet) {
        // Each location of a set that lies within D is held by an earlier set, and that one is
        // found first. So only sets that add to D are kept, at most 256 however long the run is.
        if !observed.is_within(self.depends) {
            let (index, label) = (self.trace.count(), self.place as u64);
            self.observed.push(First { index, cause, label }, observed);
        }
        self.depends = self.depends.union(observed);
        if self.open.is_empty() {
            self.plain = self.plain.union(observed);
        }
    }
}

impl<'a> Step<'a> {
    fn of(instruction: &'a Instruction) -> Step<'a> {
        match *instruction {
            Instruction::BranchIfZero { register, label } => Step::Open { register, label },
            _ => Step::Other(instruction),
        }
    }

    fn observations(&self) -> usize {
        match self {
            Step::Rollback | Step::Open { .. } => 2,
            Step::Other(instruction) => instruction.plain_observations(),
        }
    }
}

/// Makes the plain run; gives the answer and the state at the stop.
/// The stops are tried in the same order, and a store that stops the run adds its address set.
pub fn sequential_run(job: &Job, trace: &mut [u64]) -> (PlainAnswer, State) {
    let mut trace = TraceWriter::new(trace);
    let mut state = State::new(&job.initial);
    let mut plain = LocationSet::EMPTY;
    let (mut place, mut steps, end) = (0, 0, job.program.len());
    let stop = loop {
        if place == end {
            break Stop::Finished;
        }
        let instruction = &job.program[place];
        if steps == job.budget {
            break Stop::Spent;
        }
        if !trace.has_room_for(instruction.plain_observations()) {
            break Stop::TraceFull;
        }
        if let Some(address) = state.address_without_room(instruction) {
            plain = plain.union(address.depends);
            break Stop::OutsideFull;
        }
        let (next, observed) = execute(instruction, &mut state, place, end);
        if let Some(observed) = observed {
            plain = plain.union(observed.depends);
            trace.push(observed.kind, observed.value);
        }
        place = next;
        steps += 1;
    };
    let observations = trace.count();
    (PlainAnswer { stop, observations, steps, plain: plain.words() }, state)
}
