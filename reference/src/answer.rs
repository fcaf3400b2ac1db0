//! The answers of the checks and of reading text, with the numbers and words of the documents.

use crate::location_set::LocationSet;

/// Why a run ended.
#[derive(Debug, Clone, Copy, PartialEq, Eq)]
pub enum Stop {
    Finished,
    Spent,
    TraceFull,
    OutsideFull,
}

impl Stop {
    pub fn number(self) -> u64 {
        match self {
            Stop::Finished => 0,
            Stop::Spent => 1,
            Stop::TraceFull => 2,
            Stop::OutsideFull => 3,
        }
    }

    pub fn word(self) -> &'static str {
        match self {
            Stop::Finished => "finished",
            Stop::Spent => "spent",
            Stop::TraceFull => "trace full",
            Stop::OutsideFull => "outside full",
        }
    }
}

/// What a mispredicting run shows about the locations outside the public list.
#[derive(Debug, Clone, Copy, PartialEq, Eq)]
pub enum Verdict {
    Undecided,
    Clean,
    Speculative,
    Plain,
}

impl Verdict {
    pub fn number(self) -> u64 {
        match self {
            Verdict::Undecided => 0,
            Verdict::Clean => 1,
            Verdict::Speculative => 2,
            Verdict::Plain => 3,
        }
    }

    pub fn word(self) -> &'static str {
        match self {
            Verdict::Undecided => "undecided",
            Verdict::Clean => "clean",
            Verdict::Speculative => "speculative",
            Verdict::Plain => "plain",
        }
    }
}

/// The result of comparing two states under one program.
#[derive(Debug, Clone, Copy, PartialEq, Eq)]
pub enum PairWord {
    NotComparable,
    Undecided,
    PlainDiffers,
    LeakShown,
    Equal,
}

impl PairWord {
    pub fn number(self) -> u64 {
        match self {
            PairWord::NotComparable => 0,
            PairWord::Undecided => 1,
            PairWord::PlainDiffers => 2,
            PairWord::LeakShown => 3,
            PairWord::Equal => 4,
        }
    }

    pub fn word(self) -> &'static str {
        match self {
            PairWord::NotComparable => "not comparable",
            PairWord::Undecided => "undecided",
            PairWord::PlainDiffers => "plain differs",
            PairWord::LeakShown => "leak shown",
            PairWord::Equal => "equal",
        }
    }
}

/// The rule by which a set is observed.
#[derive(Debug, Clone, Copy, PartialEq, Eq, Default)]
pub enum Cause {
    #[default]
    Branch,
    Jump,
    Load,
    Store,
}

impl Cause {
    pub fn number(self) -> u64 {
        match self {
            Cause::Branch => 0,
            Cause::Jump => 1,
            Cause::Load => 2,
            Cause::Store => 3,
        }
    }

    pub fn word(self) -> &'static str {
        match self {
            Cause::Branch => "branch",
            Cause::Jump => "jump",
            Cause::Load => "load",
            Cause::Store => "store",
        }
    }
}

/// What is reported of a location in D: the first observation whose set holds it, by its index in
/// the trace, the rule concerned and the label of that instruction.
/// The default is all zeros; a comparison can put it where a location has no report.
#[derive(Debug, Clone, Copy, PartialEq, Eq, Default)]
pub struct First {
    pub index: u64,
    pub cause: Cause,
    pub label: u64,
}

/// The answer of a mispredicting run; location k is bit k % 64 of word k / 64 of a set.
#[derive(Debug, Clone, PartialEq, Eq)]
pub struct RunAnswer {
    pub stop: Stop,
    pub observations: u64,
    pub steps: u64,
    pub rollbacks: u64,
    pub depends: [u64; 4],
    pub plain: [u64; 4],
    pub verdict: Verdict,
    /// By location; none for a location that is not in D.
    pub firsts: [Option<First>; LocationSet::LIMIT],
}

/// The answer of a plain run.
#[derive(Debug, Clone, PartialEq, Eq)]
pub struct PlainAnswer {
    pub stop: Stop,
    pub observations: u64,
    pub steps: u64,
    pub plain: [u64; 4],
}

/// What a pair or a test load reports of each of its mispredicting runs.
#[derive(Debug, Clone, PartialEq, Eq)]
pub struct RunCounts {
    pub stop: Stop,
    pub steps: u64,
    pub rollbacks: u64,
    pub observations: u64,
}

/// The answer of a pair.
#[derive(Debug, Clone, PartialEq, Eq)]
pub struct PairAnswer {
    pub word: PairWord,
    pub first: RunCounts,
    pub second: RunCounts,
}

/// The answer of a test load; there is a second run only if the job's own run, the first, finished.
#[derive(Debug, Clone, PartialEq, Eq)]
pub struct LoadAnswer {
    pub word: PairWord,
    pub first: RunCounts,
    pub second: Option<RunCounts>,
}

/// The answer of reading a routine as text: the length of its program in bytes and instructions.
#[derive(Debug, Clone, Copy, PartialEq, Eq)]
pub struct TextCounts {
    pub bytes: usize,
    pub instructions: usize,
}
