//! Fixed cases of test loads: which refusal comes first, every length around that of the state, seeds at
//! their edges, own runs stopped at every point, second runs that do not finish, and jobs that keep every word.

use crate::calls::Lengths;
use crate::cases::Case;
use crate::examples::printed;
use crate::fixed::{case_of, examples, file_of_each_refusal, raw_case, Cases, ROOMY};
use crate::job_file::{beqz, jmp, load, skip, Parts, Token, ADD, EQ, MUL, REGISTERS};

pub fn add(cases: &mut Cases) {
    first_refusal(cases);
    state_lengths(cases);
    seeds(cases);
    own_runs_cut(cases);
    second_runs_cut(cases);
    all_public(cases);
    words_of_every_location(cases);
}

fn with_seed(case: Case, load_seed: u64) -> Case {
    Case { load_seed, ..case }
}

/// Each refusal of a file, unfit areas, the seed 0 and too few bytes for the state, in every combination.
fn first_refusal(cases: &mut Cases) {
    for job in file_of_each_refusal() {
        for (work, second_trace) in [(4_096, 40), (4_095, 40), (4_096, 41), (0, 39)] {
            for load_seed in [0, 1] {
                for state in [0, 159, 160] {
                    let lengths = Lengths { trace: 40, second_trace, end: 149, work, state };
                    let case = raw_case(job.clone(), vec![0; 160], lengths);
                    cases.push(with_seed(case, load_seed));
                }
            }
        }
    }
}

/// Areas for the state of every length around the bound, for the smallest, a small and the largest memory.
fn state_lengths(cases: &mut Cases) {
    for cells in [0, 1, 4, 239, 240] {
        let mut parts = printed();
        parts.state.resize(REGISTERS + cells, 7);
        let bytes = 8 * parts.state.len();
        let around = bytes - 9..=bytes + 9;
        for state in (0..3).chain([127, 128, 129]).chain(around).chain([20_000]) {
            cases.push(case_of(&parts, Lengths { state, ..ROOMY }));
        }
    }
}

/// Seeds of one bit, their complements, and small ones.
fn seeds(cases: &mut Cases) {
    let bits = (0..64).map(|bit| 1_u64 << bit);
    let edges: Vec<u64> = (0..20).chain(bits.clone()).chain(bits.map(|bit| !bit)).collect();
    for parts in examples() {
        for &load_seed in edges.iter().chain(&[u64::MAX]) {
            cases.push(with_seed(case_of(&parts, ROOMY), load_seed));
        }
    }
}

/// A wrong path that goes to the end at once if m0 is 0, as in the job, and else through eleven instructions:
/// the second run of most seeds takes more steps and, by its loads, more observations.
fn longer_second_run() -> Parts {
    let [r2, r3] = [2, 3].map(Token::Register);
    let (zero, end) = (Token::Constant(0), Token::Constant(14));
    let mut program = vec![
        beqz(0, 13),
        load(2, &[zero]),
        jmp(&[r2, zero, EQ, Token::Constant(11), MUL, Token::Constant(3), ADD]),
        load(3, &[r2]),
        load(4, &[r3]),
    ];
    program.extend(vec![skip(); 8]);
    program.push(jmp(&[end]));
    let mut parts = Parts::new(program, 4, 30, 100);
    parts.public = vec![0];
    parts
}

/// A job cut by each budget and by each length of its trace areas from 0 to `most`, for two seeds.
fn cut(parts: &Parts, most: usize, cases: &mut Cases) {
    for load_seed in [1, 0xFEED] {
        for stop in 0..=most {
            let budget = stop as u32;
            let spent = case_of(&Parts { budget, ..parts.clone() }, ROOMY);
            cases.push(with_seed(spent, load_seed));
            let full = case_of(parts, Lengths { trace: stop, second_trace: stop, ..ROOMY });
            cases.push(with_seed(full, load_seed));
        }
    }
}

fn own_runs_cut(cases: &mut Cases) {
    for parts in examples() {
        cut(&parts, 20, cases);
    }
}

/// Among these are own runs that finish with second runs that are spent or whose trace is full.
fn second_runs_cut(cases: &mut Cases) {
    cut(&longer_second_run(), 40, cases);
}

/// Every location public, or all but one: one word changes or none.
fn all_public(cases: &mut Cases) {
    for parts in examples() {
        for cells in [4, 0, 48, 240] {
            let mut parts = parts.clone();
            parts.state.resize(REGISTERS + cells, 3);
            let locations = parts.state.len();
            for hidden in [locations, 0, 1, 2, 15, 16, locations - 1] {
                parts.public = (0..locations).filter(|&location| location != hidden).collect();
                cases.push(with_seed(case_of(&parts, ROOMY), 77));
            }
        }
    }
}

/// A program without observation, so that all that is not public changes: nothing, one location or every second
/// one public, from no cell to 240.
fn words_of_every_location(cases: &mut Cases) {
    for cells in [0, 1, 47, 48, 49, 111, 112, 113, 175, 176, 177, 239, 240] {
        let mut parts = Parts::new(vec![skip()], cells, 3, 9);
        for load_seed in [1, u64::MAX, 2_463_534_242] {
            parts.public = Vec::new();
            cases.push(with_seed(case_of(&parts, ROOMY), load_seed));
            parts.public = (0..REGISTERS + cells).step_by(2).collect();
            cases.push(with_seed(case_of(&parts, ROOMY), load_seed));
            parts.public = vec![REGISTERS + cells - 1];
            cases.push(with_seed(case_of(&parts, ROOMY), load_seed));
        }
    }
}
