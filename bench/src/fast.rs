//! An optimised Rust implementation of document 01's mispredicting run, with the shifts of request F-2, the stores
//! outside memory of request F-4, the first observations of request F-6 and the window costs of request F-7, written to
//! be fast.
//!
//! - The program is decoded once into instructions of fixed size; short expressions have shapes of
//!   their own, and in long ones an operand is joined to the operator that follows it.
//! - The set of an expression is the union of the sets of its registers, so sets are not carried
//!   along token by token.
//! - Sets have as many words as the job's locations need, not always four.
//! - A wrong path keeps an undo log instead of copies of the state.
//! - A store outside memory is found by a hash of its address. Entries are added at the end and taken away from there,
//!   so that for a new one the log holds the count alone.
//! - A step only tests whether its set was gathered before. Where it was not, which happens at most 512 times in a run,
//!   the steps are left to gather it and to record the first observations, and the step is made again.
//! - The state, the log and the open branches stand in the lent working area. Nothing is allocated
//!   in a run; the buffers of the decoded program are kept from one job to the next.

mod decode;
mod expression;
mod firsts;
mod machine;
mod outside;

use decode::{Decoded, Header};
use firsts::REPORT_WORDS;
use machine::{Costs, Machine, Outcome};
use outside::OUTSIDE_WORDS;

/// The words of an answer ahead of the reports, and all of them.
const COUNT_WORDS: usize = 13;
pub const ANSWER_WORDS: usize = COUNT_WORDS + 256 * REPORT_WORDS;
const WORKING_WORDS: usize = 4_096;
const AREAS: u32 = 10;
const COSTS: u32 = 14;

/// The decoded program's buffers, used again by each run.
#[derive(Default)]
pub struct Checker {
    decoded: Decoded,
}

impl Checker {
    /// As `checker_run`: 0 or the refusal number; the answer is untouched by a refusal.
    pub fn run(
        &mut self,
        job: &[u8],
        costs: &[u8],
        trace: &mut [u64],
        end: &mut [u64],
        work: &mut [u64],
        answer: &mut [u64; ANSWER_WORDS],
    ) -> u32 {
        match self.try_run(job, costs, trace, end, work, answer) {
            Ok(()) => 0,
            Err(number) => number,
        }
    }

    fn try_run(
        &mut self,
        job: &[u8],
        costs: &[u8],
        trace: &mut [u64],
        end: &mut [u64],
        work: &mut [u64],
        answer: &mut [u64; ANSWER_WORDS],
    ) -> Result<(), u32> {
        let header = Header::read(job)?;
        self.decoded.read(&job[..header.state], header.instructions)?;
        let public = header.public(job)?;
        let costs = read_costs(costs)?;
        let end_words = header.locations + OUTSIDE_WORDS;
        if work.len() < WORKING_WORDS || end.len() < end_words {
            return Err(AREAS);
        }
        let work = &mut work[..WORKING_WORDS];
        let end = &mut end[..end_words];
        let (words, reports) = answer.split_at_mut(COUNT_WORDS);
        let outcome = match header.locations.div_ceil(64) {
            1 => self.run_with::<1>(job, &header, costs, trace, end, work, reports),
            2 => self.run_with::<2>(job, &header, costs, trace, end, work, reports),
            3 => self.run_with::<3>(job, &header, costs, trace, end, work, reports),
            _ => self.run_with::<4>(job, &header, costs, trace, end, work, reports),
        };
        work.fill(0);
        outcome.write(&public, words);
        Ok(())
    }

    /// The run with sets of so many words.
    #[expect(clippy::too_many_arguments)]
    fn run_with<const WORDS: usize>(
        &self,
        job: &[u8],
        header: &Header,
        costs: &Costs,
        trace: &mut [u64],
        end: &mut [u64],
        work: &mut [u64],
        reports: &mut [u64],
    ) -> Outcome {
        let state = &job[header.state..header.list];
        let mut machine = Machine::<WORDS>::new(&self.decoded, header, costs, state, trace, work);
        let stop = machine.run();
        machine.write_end(header.locations, end);
        machine.write_reports(reports);
        machine.outcome(stop, header.budget)
    }
}

/// The table, if it is one: eight bytes, 1 to 16 each.
fn read_costs(costs: &[u8]) -> Result<&Costs, u32> {
    let table: &Costs = costs.try_into().map_err(|_| COSTS)?;
    match table.iter().all(|cost| (1..=16).contains(cost)) {
        true => Ok(table),
        false => Err(COSTS),
    }
}
