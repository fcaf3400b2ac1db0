//! Fixed cases: every length around each bound, each limit and its neighbours, every truncation and
//! every bit of small jobs, each operator at its edges, test loads, stores outside memory, the sets
//! of expressions, first observations, tables of window costs. They are made before the random ones. The table is
//! that of eight ones but for the last.

use crate::calls::Lengths;
use crate::cases::{Case, Treatment, MOST_END_WORDS, OUTSIDE_WORDS, WORKING_WORDS};
use crate::cost_tables::ONES;
use crate::examples::{barrier, nested, printed, r0_zero};
use crate::fixed_costs;
use crate::fixed_files;
use crate::fixed_firsts;
use crate::fixed_loads;
use crate::fixed_outside;
use crate::fixed_runs;
use crate::fixed_sets;
use crate::job_file::{beqz, set_field, skip, state_bytes, Field, Parts};

pub type Cases = Vec<Case>;

/// Areas in which every fixed job that is accepted has room, if it takes up to 1,500 steps.
pub const ROOMY: Lengths = Lengths {
    trace: 6_004,
    second_trace: 6_004,
    end: MOST_END_WORDS,
    work: WORKING_WORDS,
    state: 2_051,
};

pub fn all() -> Cases {
    let mut cases = Cases::new();
    lengths_around_bounds(&mut cases);
    cuts_of_runs(&mut cases);
    second_states(&mut cases);
    refusals_together(&mut cases);
    fixed_files::add(&mut cases);
    fixed_runs::add(&mut cases);
    fixed_loads::add(&mut cases);
    fixed_outside::add(&mut cases);
    fixed_sets::add(&mut cases);
    fixed_firsts::add(&mut cases);
    fixed_costs::add(&mut cases);
    for (number, case) in cases.iter_mut().enumerate() {
        case.name = format!("fixed-{number}");
        case.salt = number as u64 * 0x1_0001;
    }
    cases
}

/// A case with any bytes as job and as second state.
pub fn raw_case(job: Vec<u8>, second: Vec<u8>, lengths: Lengths) -> Case {
    let (name, style, treatment) = (String::new(), None, Treatment::Fixed);
    let costs = ONES.to_vec();
    Case { name, style, treatment, job, second, load_seed: 1, costs, lengths, salt: 0 }
}

/// A case of a job put together from parts, whose second state differs in every cell.
pub fn case_of(parts: &Parts, lengths: Lengths) -> Case {
    let mut second = parts.state.clone();
    for word in second.iter_mut().skip(16) {
        *word ^= 1;
    }
    raw_case(parts.bytes(), state_bytes(&second), lengths)
}

pub fn examples() -> [Parts; 4] {
    [printed(), barrier(), nested(), r0_zero()]
}

/// Areas of every length around each bound, for the smallest, a small and the largest memory.
fn lengths_around_bounds(cases: &mut Cases) {
    for cells in [0, 1, 4, 239, 240] {
        let mut parts = printed();
        parts.state.resize(16 + cells, 7);
        let (image, whole) = (16 + cells, 16 + cells + OUTSIDE_WORDS);
        let around = |bound: usize| bound - 6..=bound + 6;
        for end in (0..=3).chain(around(18)).chain(around(image)).chain(around(whole)).chain([700])
        {
            cases.push(case_of(&parts, Lengths { end, ..ROOMY }));
        }
    }
    for work in [0, 1, 2_048, 8_192].into_iter().chain(4_090..=4_102) {
        cases.push(case_of(&printed(), Lengths { work, ..ROOMY }));
    }
    for trace in 0..6 {
        for second_trace in 0..6 {
            cases.push(case_of(&printed(), Lengths { trace, second_trace, ..ROOMY }));
        }
    }
}

/// Each example stopped at every point by its trace area, by its budget, and by both.
fn cuts_of_runs(cases: &mut Cases) {
    for parts in examples() {
        for budget in 0..=8 {
            for trace in 0..=18 {
                let parts = Parts { budget, ..parts.clone() };
                let lengths = Lengths { trace, second_trace: trace, ..ROOMY };
                cases.push(case_of(&parts, lengths));
            }
        }
        for window in 0..=200 {
            cases.push(case_of(&Parts { window, ..parts.clone() }, ROOMY));
        }
    }
}

/// Second states of every length, and second states changed at each single location.
fn second_states(cases: &mut Cases) {
    let parts = printed();
    for length in 0..=330 {
        cases.push(raw_case(parts.bytes(), vec![1; length], ROOMY));
    }
    for parts in examples() {
        for location in 0..parts.state.len() {
            let mut second = parts.state.clone();
            second[location] ^= 1;
            cases.push(raw_case(parts.bytes(), state_bytes(&second), ROOMY));
        }
    }
}

/// A file for each refusal from 1 to 8, and one that is accepted.
pub fn file_of_each_refusal() -> [Vec<u8>; 9] {
    let whole = printed().bytes();
    let changed = |field, number| {
        let mut job = printed().bytes();
        set_field(&mut job, field, number);
        job
    };
    let of_program = |program| Parts { program, ..printed() }.bytes();
    let mut public = printed();
    public.public.push(20);
    [
        whole[..15].to_vec(),
        changed(Field::Window, 201),
        changed(Field::ListOffset, 187),
        of_program(vec![vec![8]]),
        of_program(vec![vec![4, 1, 19]]),
        of_program(vec![beqz(0, 1)]),
        of_program(vec![skip(), vec![0, 0]]),
        public.bytes(),
        whole,
    ]
}

/// Each refusal of a file together with a second state and areas that would be refused as well.
fn refusals_together(cases: &mut Cases) {
    for job in file_of_each_refusal() {
        for second in [159, 160, 161] {
            for (work, end) in [(4_096, 149), (4_095, 149), (4_096, 148), (0, 0)] {
                for second_trace in [40, 41] {
                    let lengths = Lengths { trace: 40, second_trace, end, work, ..ROOMY };
                    cases.push(raw_case(job.clone(), vec![0; second], lengths));
                }
            }
        }
    }
}
