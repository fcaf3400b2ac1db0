//! Routines whose first observations are known as they are put together: no wrong path is followed, since the window is
//! 0 and no branch register is 0, and every address lies outside memory but for those of cells that are named.

use crate::calls::Lengths;
use crate::job_file::{beqz, jmp, load, skip, store, Instruction, Parts, Token, ADD, MUL};

/// What every location holds at first: an address outside memory, and not 0.
pub const WORD: u64 = 5_000;

/// The register that loads change and stores store.
const SCRATCH: u8 = 15;

/// How the set of a register is observed, by the numbers of the causes.
#[derive(Clone, Copy, PartialEq, Eq, PartialOrd, Ord, Debug)]
pub enum Rule {
    Branch = 0,
    Jump = 1,
    Load = 2,
    Store = 3,
}

pub const RULES: [Rule; 4] = [Rule::Branch, Rule::Jump, Rule::Load, Rule::Store];

/// What a run must report of a location of D.
#[derive(Clone, Copy, PartialEq, Eq, Debug)]
pub struct Report {
    pub location: usize,
    pub index: u64,
    pub rule: Rule,
    pub label: u64,
}

/// The instruction at this label that observes the set of a register; it goes on with the next. A branch is taken
/// wrongly to label 0.
pub fn see(rule: Rule, register: u8, label: usize) -> Instruction {
    let seen = Token::Register(register);
    let [zero, next] = [0, label as u64 + 1].map(Token::Constant);
    match rule {
        Rule::Branch => beqz(register, 0),
        Rule::Jump => jmp(&[seen, zero, MUL, next, ADD]),
        Rule::Load => load(SCRATCH, &[seen]),
        Rule::Store => store(SCRATCH, &[seen]),
    }
}

/// A job in which every location holds an address outside memory, and has a window of 0.
pub fn job_of(program: Vec<Instruction>, cells: usize) -> Parts {
    let parts = Parts::new(program, cells, 0, 1_400);
    Parts { state: vec![WORD; parts.state.len()], ..parts }
}

/// A report, with the steps that are made and the observations that are written once it is there.
#[derive(Clone, Copy)]
struct Made {
    report: Report,
    steps: u32,
    observations: u64,
}

/// A routine so far, with what its run makes.
#[derive(Clone, Default)]
pub struct Straight {
    pub program: Vec<Instruction>,
    pub observations: u64,
    pub steps: u32,
    made: Vec<Made>,
}

impl Straight {
    /// An instruction that is not observed.
    pub fn quiet(&mut self, instruction: Instruction) {
        self.program.push(instruction);
        self.steps += 1;
    }

    pub fn skips(&mut self, count: usize) {
        for _ in 0..count {
            self.quiet(skip());
        }
    }

    /// A load from a constant address, so that the register has the set of the cell. It is observed with the empty set.
    pub fn take(&mut self, register: u8, cell: usize) {
        self.quiet(load(register, &[Token::Constant(cell as u64)]));
        self.observations += 1;
    }

    /// A jump ahead to a label, over skips. It is observed with the empty set.
    pub fn jump_to(&mut self, label: usize) {
        self.quiet(jmp(&[Token::Constant(label as u64)]));
        self.observations += 1;
        self.program.resize(label, skip());
    }

    /// Observes the set of a register, which is said. A branch is rolled back in the next step.
    pub fn observe(&mut self, rule: Rule, register: u8, set: &[usize]) {
        let (label, index) = (self.program.len(), self.observations);
        let (width, rollbacks) = if rule == Rule::Branch { (2, 1) } else { (1, 0) };
        for &location in set.iter().filter(|&&location| !self.has(location)).collect::<Vec<_>>() {
            let report = Report { location, index, rule, label: label as u64 };
            let (steps, observations) = (self.steps + 1, index + width);
            self.made.push(Made { report, steps, observations });
        }
        self.program.push(see(rule, register, label));
        self.steps += 1 + rollbacks;
        self.observations += width + 2 * u64::from(rollbacks);
    }

    fn has(&self, location: usize) -> bool {
        self.made.iter().any(|made| made.report.location == location)
    }

    /// The reports in the order of the locations.
    pub fn reports(&self) -> Vec<Report> {
        self.reports_within(u32::MAX, u64::MAX)
    }

    /// Those of a run with this budget in a trace area of so many words.
    pub fn reports_cut(&self, budget: u32, lengths: Lengths) -> Vec<Report> {
        self.reports_within(budget, lengths.trace as u64 / 2)
    }

    fn reports_within(&self, steps: u32, observations: u64) -> Vec<Report> {
        let fits = |made: &&Made| made.steps <= steps && made.observations <= observations;
        let mut reports: Vec<Report> =
            self.made.iter().filter(fits).map(|made| made.report).collect();
        reports.sort_by_key(|report| report.location);
        reports
    }
}
