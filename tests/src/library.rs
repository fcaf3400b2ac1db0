//! The library under test: a safe call for each of its C functions, which are declared for Rust in examples/checker.rs.

#[path = "../../examples/checker.rs"]
mod checker;

use checker::{
    checker_compare, checker_plain_run, checker_print_text, checker_read_text, checker_run,
    checker_test_load,
};

/// Locations that a run reports on, the words of each report, and the words of a run's answer ahead of the reports.
pub const LOCATIONS: usize = checker::LOCATIONS;
pub const REPORT_WORDS: usize = 3;
pub const RUN_COUNTS: usize = 13;

/// Words of the answers of a run, a plain run, a pair and a test load, of reading a text and of printing one.
pub const RUN_ANSWER: usize = RUN_COUNTS + REPORT_WORDS * LOCATIONS;
pub const PLAIN_ANSWER: usize = checker::PLAIN_ANSWER_WORDS;
pub const PAIR_ANSWER: usize = checker::COMPARE_ANSWER_WORDS;
pub const LOAD_ANSWER: usize = checker::TEST_LOAD_ANSWER_WORDS;
pub const READ_ANSWER: usize = checker::READ_ANSWER_WORDS;
pub const PRINT_ANSWER: usize = checker::PRINT_ANSWER_WORDS;

/// The mispredicting run; 0 or the refusal number.
pub fn run(
    job: &[u8],
    costs: &[u8],
    trace: &mut [u64],
    end: &mut [u64],
    work: &mut [u64],
    answer: &mut [u64; RUN_ANSWER],
) -> u32 {
    // Safety: each pointer and length is that of a slice, and exclusive references do not overlap.
    unsafe {
        checker_run(
            job.as_ptr(),
            job.len(),
            costs.as_ptr(),
            costs.len(),
            trace.as_mut_ptr(),
            trace.len(),
            end.as_mut_ptr(),
            end.len(),
            work.as_mut_ptr(),
            work.len(),
            answer.as_mut_ptr().cast(),
        )
    }
}

/// The plain run; 0 or the refusal number.
pub fn plain_run(
    job: &[u8],
    trace: &mut [u64],
    end: &mut [u64],
    work: &mut [u64],
    answer: &mut [u64; PLAIN_ANSWER],
) -> u32 {
    // Safety: as in `run`.
    unsafe {
        checker_plain_run(
            job.as_ptr(),
            job.len(),
            trace.as_mut_ptr(),
            trace.len(),
            end.as_mut_ptr(),
            end.len(),
            work.as_mut_ptr(),
            work.len(),
            answer,
        )
    }
}

/// The pair of the job's state and a second one; 0 or the refusal number.
pub fn compare(
    job: &[u8],
    second: &[u8],
    costs: &[u8],
    trace1: &mut [u64],
    trace2: &mut [u64],
    work: &mut [u64],
    answer: &mut [u64; PAIR_ANSWER],
) -> u32 {
    // Safety: as in `run`.
    unsafe {
        checker_compare(
            job.as_ptr(),
            job.len(),
            second.as_ptr(),
            second.len(),
            costs.as_ptr(),
            costs.len(),
            trace1.as_mut_ptr(),
            trace1.len(),
            trace2.as_mut_ptr(),
            trace2.len(),
            work.as_mut_ptr(),
            work.len(),
            answer,
        )
    }
}

/// The pair of the job's state and one made from the seed; 0 or the refusal number. Its parameters are those of
/// the C function.
#[expect(clippy::too_many_arguments)]
pub fn test_load(
    job: &[u8],
    seed: u64,
    costs: &[u8],
    trace1: &mut [u64],
    trace2: &mut [u64],
    work: &mut [u64],
    state: &mut [u8],
    answer: &mut [u64; LOAD_ANSWER],
) -> u32 {
    // Safety: as in `run`.
    unsafe {
        checker_test_load(
            job.as_ptr(),
            job.len(),
            seed,
            costs.as_ptr(),
            costs.len(),
            trace1.as_mut_ptr(),
            trace1.len(),
            trace2.as_mut_ptr(),
            trace2.len(),
            work.as_mut_ptr(),
            work.len(),
            state.as_mut_ptr(),
            state.len(),
            answer,
        )
    }
}

/// Reads a text to the bytes of its program; 0 or the refusal number.
pub fn read_text(text: &[u8], out: &mut [u8], answer: &mut [u64; READ_ANSWER]) -> u32 {
    // Safety: as in `run`.
    unsafe {
        checker_read_text(
            text.as_ptr(),
            text.len(),
            out.as_mut_ptr(),
            out.len(),
            answer,
        )
    }
}

/// Prints the program of a job as text; 0 or the refusal number.
pub fn print_text(job: &[u8], out: &mut [u8], answer: &mut [u64; PRINT_ANSWER]) -> u32 {
    // Safety: as in `run`.
    unsafe {
        checker_print_text(
            job.as_ptr(),
            job.len(),
            out.as_mut_ptr(),
            out.len(),
            answer,
        )
    }
}
