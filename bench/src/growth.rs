//! Jobs of growing size: how the time of a call grows with labels, cells, window, budget and tokens.

use checker_tests::job_file::{assign, jmp, skip, Instruction, Parts, Token, ADD, NOT};

use crate::jobs::{branches_and_changes, nesting, spent_job, STEPS};

/// A job of a series, with how many units of what grows it has: the time is also given per unit.
pub struct Sample {
    pub series: &'static str,
    pub size: usize,
    pub unit: &'static str,
    pub units: usize,
    pub steps: u64,
    pub job: Vec<u8>,
}

pub fn samples() -> Vec<Sample> {
    let mut all = Vec::new();
    for n in [8, 32, 128, 512] {
        all.push(sample("n", n, "label", n, with_budget(spent_job(straight_line(n)), 0)));
    }
    for m in [0, 60, 120, 240] {
        let mut parts = with_budget(spent_job(vec![skip()]), 0);
        parts.state.resize(16 + m, 1);
        all.push(sample("m", m, "location", 16 + m, parts));
    }
    for w in [0, 10, 50, 200] {
        let parts = nesting(branches_and_changes(), w as u16);
        all.push(sample("w", w, "step", STEPS as usize, parts));
    }
    for b in [100, 1_000, 10_000, 100_000, 1_000_000] {
        let parts = nesting(branches_and_changes(), 200);
        all.push(sample("b", b, "step", b, with_budget(parts, b as u32)));
    }
    for tokens in [1, 2, 4, 8, 16] {
        let parts = spent_job(assignments(tokens));
        all.push(sample("tokens", tokens, "token", tokens * STEPS as usize, parts));
    }
    all
}

fn sample(
    series: &'static str,
    size: usize,
    unit: &'static str,
    units: usize,
    parts: Parts,
) -> Sample {
    let steps = u64::from(parts.budget);
    Sample { series, size, unit, units, steps, job: parts.bytes() }
}

fn with_budget(parts: Parts, budget: u32) -> Parts {
    Parts { budget, ..parts }
}

/// So many assignments of one register and a constant.
fn straight_line(n: usize) -> Vec<Instruction> {
    vec![assign(1, &[Token::Register(1), Token::Constant(1), ADD]); n]
}

/// A loop of assignments whose expressions have so many tokens.
fn assignments(tokens: usize) -> Vec<Instruction> {
    let mut expression = vec![Token::Register(1)];
    if tokens.is_multiple_of(2) {
        expression.push(NOT);
    }
    while expression.len() < tokens {
        expression.extend([Token::Register(2), ADD]);
    }
    let mut program = vec![assign(3, &expression); 31];
    program.push(jmp(&[Token::Constant(0)]));
    program
}
