//! One call, made of the library or of the reference, with everything it left behind.

use check_box_reference as reference;
use reference::{First, LoadAnswer, PairAnswer, PlainAnswer, RunAnswer, RunCounts};

use crate::lend::{Area, Bytes, Fill};
use crate::library::{
    self, LOAD_ANSWER, PAIR_ANSWER, PLAIN_ANSWER, REPORT_WORDS, RUN_ANSWER, RUN_COUNTS,
};

#[derive(Clone, Copy, PartialEq, Eq, Debug)]
pub enum Operation {
    Run,
    Plain,
    Pair,
    Load,
}

/// The lengths of the areas in words, that of the state in bytes. A run and a plain run use the first
/// trace and the end, a pair uses both traces, a test load both traces and the state.
#[derive(Clone, Copy, Debug)]
pub struct Lengths {
    pub trace: usize,
    pub second_trace: usize,
    pub end: usize,
    pub work: usize,
    pub state: usize,
}

/// The second state is a pair's, the seed a test load's. The table of window costs is for all but a plain run.
#[derive(Clone, Copy)]
pub struct Call<'a> {
    pub operation: Operation,
    pub job: &'a [u8],
    pub second: &'a [u8],
    pub seed: u64,
    pub costs: &'a [u8],
    pub lengths: Lengths,
    pub fill: Fill,
}

/// What a call returned and left: the areas are trace, end and work, or both traces and work. The
/// state has no byte for a call that makes none.
#[derive(PartialEq, Eq)]
pub struct Outcome {
    pub operation: Operation,
    pub number: u32,
    pub answer: Area,
    pub areas: [Area; 3],
    pub state: Area<u8>,
    pub inputs_kept: bool,
}

impl Operation {
    pub fn name(self) -> &'static str {
        match self {
            Operation::Run => "checker_run",
            Operation::Plain => "checker_plain_run",
            Operation::Pair => "checker_compare",
            Operation::Load => "checker_test_load",
        }
    }

    pub fn answer_words(self) -> usize {
        match self {
            Operation::Run => RUN_ANSWER,
            Operation::Plain => PLAIN_ANSWER,
            Operation::Pair => PAIR_ANSWER,
            Operation::Load => LOAD_ANSWER,
        }
    }

    pub fn area_names(self) -> [&'static str; 3] {
        match self {
            Operation::Run | Operation::Plain => ["trace", "end", "work"],
            Operation::Pair | Operation::Load => ["trace1", "trace2", "work"],
        }
    }

    fn area_lengths(self, lengths: Lengths) -> [usize; 3] {
        match self {
            Operation::Run | Operation::Plain => [lengths.trace, lengths.end, lengths.work],
            Operation::Pair | Operation::Load => {
                [lengths.trace, lengths.second_trace, lengths.work]
            }
        }
    }

    fn state_length(self, lengths: Lengths) -> usize {
        if self == Operation::Load {
            lengths.state
        } else {
            0
        }
    }
}

impl Call<'_> {
    /// Everything as it stands before the call.
    pub fn prepared(&self) -> Outcome {
        let [first, second, work] = self.operation.area_lengths(self.lengths);
        let area = |length, number| Area::filled(length, self.fill.of_area(number));
        let state = self.operation.state_length(self.lengths);
        Outcome {
            operation: self.operation,
            number: 0,
            answer: area(self.operation.answer_words(), 0),
            areas: [area(first, 1), area(second, 2), area(work, 3)],
            state: Area::filled(state, self.fill.of_area(4)),
            inputs_kept: true,
        }
    }

    pub fn by_library(&self) -> Outcome {
        let mut outcome = self.prepared();
        let job = Bytes::copied(self.job, self.fill);
        let second = Bytes::copied(self.second, self.fill);
        let costs = Bytes::copied(self.costs, self.fill);
        let [a, b, work] = outcome.areas.each_mut().map(Area::lent);
        let answer = outcome.answer.lent();
        outcome.number = match self.operation {
            Operation::Run => library::run(job.lent(), costs.lent(), a, b, work, exactly(answer)),
            Operation::Plain => library::plain_run(job.lent(), a, b, work, exactly(answer)),
            Operation::Pair => {
                let (second, costs) = (second.lent(), costs.lent());
                library::compare(job.lent(), second, costs, a, b, work, exactly(answer))
            }
            Operation::Load => {
                let (seed, costs, state) = (self.seed, costs.lent(), outcome.state.lent());
                library::test_load(job.lent(), seed, costs, a, b, work, state, exactly(answer))
            }
        };
        outcome.inputs_kept = job.is_unchanged(self.job)
            && second.is_unchanged(self.second)
            && costs.is_unchanged(self.costs);
        outcome
    }

    pub fn by_reference(&self) -> Outcome {
        let mut outcome = self.prepared();
        let [a, b, work] = outcome.areas.each_mut().map(Area::lent);
        let answered: Result<Vec<u64>, u32> = match self.operation {
            Operation::Run => reference::run(self.job, self.costs, a, b, work).map(run_words),
            Operation::Plain => reference::plain_run(self.job, a, b, work).map(plain_words),
            Operation::Pair => {
                reference::compare(self.job, self.second, self.costs, a, b, work).map(pair_words)
            }
            Operation::Load => {
                let state = outcome.state.lent();
                let (job, seed, costs) = (self.job, self.seed, self.costs);
                reference::test_load(job, seed, costs, a, b, work, state).map(load_words)
            }
        };
        match answered {
            Ok(words) => outcome.answer.lent().copy_from_slice(&words),
            Err(number) => outcome.number = number,
        }
        outcome
    }
}

pub fn exactly<const N: usize>(words: &mut [u64]) -> &mut [u64; N] {
    words.try_into().expect("the answer has the length of its operation")
}

/// The words of a run's answer, as the library writes them.
pub fn run_words(answer: RunAnswer) -> Vec<u64> {
    let RunAnswer { stop, observations, steps, rollbacks, depends, plain, verdict, firsts } =
        answer;
    let mut words = vec![stop.number(), observations, steps, rollbacks];
    words.extend(depends);
    words.extend(plain);
    words.push(verdict.number());
    words.extend(firsts.into_iter().flat_map(report_words));
    words
}

/// Index, cause and label of a location's first observation; zeros for a location that is not in D.
fn report_words(first: Option<First>) -> [u64; REPORT_WORDS] {
    let First { index, cause, label } = first.unwrap_or_default();
    [index, cause.number(), label]
}

fn plain_words(answer: PlainAnswer) -> Vec<u64> {
    let PlainAnswer { stop, observations, steps, plain } = answer;
    let mut words = vec![stop.number(), observations, steps];
    words.extend(plain);
    words
}

fn pair_words(answer: PairAnswer) -> Vec<u64> {
    let mut words = vec![answer.word.number()];
    words.extend(counts(answer.first));
    words.extend(counts(answer.second));
    words
}

fn load_words(answer: LoadAnswer) -> Vec<u64> {
    let made = u64::from(answer.second.is_some());
    let mut words = vec![answer.word.number()];
    words.extend(counts(answer.first));
    words.extend(answer.second.map_or([0; 4], counts));
    words.push(made);
    words
}

fn counts(run: RunCounts) -> [u64; 4] {
    [run.stop.number(), run.observations, run.steps, run.rollbacks]
}

impl Outcome {
    pub fn answer(&self) -> &[u64] {
        self.answer.content()
    }

    pub fn is_finished(&self) -> bool {
        self.number == 0 && self.answer()[0] == 0
    }

    /// The observations of a run or plain run that was not refused.
    pub fn observations(&self) -> Vec<(u64, u64)> {
        pairs(self.areas[0].content(), self.answer()[1])
    }

    /// What a run that was not refused reports of each location, in the order of the locations.
    pub fn reports(&self) -> &[[u64; REPORT_WORDS]] {
        self.answer()[RUN_COUNTS..].as_chunks().0
    }

    /// Says what differs from the expected outcome; none if they are equal.
    pub fn difference(&self, expected: &Outcome) -> Option<String> {
        let name = self.operation.name();
        if self.number != expected.number {
            return Some(format!("{name} returned {}, not {}", self.number, expected.number));
        }
        if !self.inputs_kept {
            return Some(format!(
                "{name} changed the bytes of the job, the second state or the table"
            ));
        }
        let areas = self.areas.iter().zip(&expected.areas).zip(self.operation.area_names());
        let answer = ((&self.answer, &expected.answer), "answer");
        let differing = std::iter::once(answer)
            .chain(areas)
            .find_map(|((got, want), area)| got.difference(want).map(|text| (area, text)));
        let state = || self.state.difference(&expected.state).map(|text| ("state", text));
        differing.or_else(state).map(|(area, text)| format!("{name}, {area}: {text}"))
    }
}

/// The first observations of a trace area, each as kind and value.
pub fn pairs(words: &[u64], count: u64) -> Vec<(u64, u64)> {
    words.chunks_exact(2).take(count as usize).map(|pair| (pair[0], pair[1])).collect()
}
