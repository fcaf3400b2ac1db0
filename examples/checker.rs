//! The calls of libchecker_c.a, declared for Rust 1.82 or newer. include/checker.h says what each takes, returns and writes; the names
//! and the order are the same. A program takes it in with `mod checker;`.

#![allow(dead_code)]

/// The longest job, in bytes.
pub const JOB_BYTES_MAX: usize = 16_384;

/// Bytes of a table of window costs; with eight ones every instruction takes 1 of a window.
pub const KINDS: usize = 8;
pub const UNIT_COSTS: [u8; KINDS] = [1; KINDS];

/// Words of areas that are long enough for every job: of the trace, of the end state and of the working area.
pub const TRACE_WORDS_MAX: usize = 4_000_000;
pub const END_WORDS_MAX: usize = 385;
pub const WORK_WORDS: usize = 4_096;

/// Locations that a run reports on.
pub const LOCATIONS: usize = 256;

/// What brought a location into D, the set of all locations that an observation depended on: the first observation that did.
#[repr(C)]
#[derive(Clone, Copy)]
pub struct First {
    pub index: u64,
    pub cause: u64,
    pub label: u64,
}

/// The answer of `checker_run`.
#[repr(C)]
#[derive(Clone, Copy)]
pub struct RunAnswer {
    pub stop: u64,
    pub observations: u64,
    pub steps: u64,
    pub rollbacks: u64,
    pub depends: [u64; 4],
    pub plain: [u64; 4],
    pub verdict: u64,
    pub firsts: [First; LOCATIONS],
}

impl RunAnswer {
    /// All words 0, for a call to fill.
    pub const ZERO: RunAnswer = RunAnswer {
        stop: 0,
        observations: 0,
        steps: 0,
        rollbacks: 0,
        depends: [0; 4],
        plain: [0; 4],
        verdict: 0,
        firsts: [First { index: 0, cause: 0, label: 0 }; LOCATIONS],
    };
}

/// Words of the answers.
pub const RUN_ANSWER_WORDS: usize = 781;
pub const PLAIN_ANSWER_WORDS: usize = 7;
pub const COMPARE_ANSWER_WORDS: usize = 9;
pub const TEST_LOAD_ANSWER_WORDS: usize = 10;
pub const READ_ANSWER_WORDS: usize = 2;
pub const PRINT_ANSWER_WORDS: usize = 1;

const _: () = assert!(size_of::<RunAnswer>() == 8 * RUN_ANSWER_WORDS);

unsafe extern "C" {
    pub fn checker_run(
        job: *const u8,
        job_len: usize,
        costs: *const u8,
        costs_len: usize,
        trace: *mut u64,
        trace_len: usize,
        end: *mut u64,
        end_len: usize,
        work: *mut u64,
        work_len: usize,
        answer: *mut RunAnswer,
    ) -> u32;

    pub fn checker_plain_run(
        job: *const u8,
        job_len: usize,
        trace: *mut u64,
        trace_len: usize,
        end: *mut u64,
        end_len: usize,
        work: *mut u64,
        work_len: usize,
        answer: *mut [u64; PLAIN_ANSWER_WORDS],
    ) -> u32;

    pub fn checker_compare(
        job: *const u8,
        job_len: usize,
        second: *const u8,
        second_len: usize,
        costs: *const u8,
        costs_len: usize,
        trace1: *mut u64,
        trace1_len: usize,
        trace2: *mut u64,
        trace2_len: usize,
        work: *mut u64,
        work_len: usize,
        answer: *mut [u64; COMPARE_ANSWER_WORDS],
    ) -> u32;

    pub fn checker_test_load(
        job: *const u8,
        job_len: usize,
        seed: u64,
        costs: *const u8,
        costs_len: usize,
        trace1: *mut u64,
        trace1_len: usize,
        trace2: *mut u64,
        trace2_len: usize,
        work: *mut u64,
        work_len: usize,
        state: *mut u8,
        state_len: usize,
        answer: *mut [u64; TEST_LOAD_ANSWER_WORDS],
    ) -> u32;

    pub fn checker_read_text(
        text: *const u8,
        text_len: usize,
        out: *mut u8,
        out_len: usize,
        answer: *mut [u64; READ_ANSWER_WORDS],
    ) -> u32;

    pub fn checker_print_text(
        job: *const u8,
        job_len: usize,
        out: *mut u8,
        out_len: usize,
        answer: *mut [u64; PRINT_ANSWER_WORDS],
    ) -> u32;
}
