//! Random cases: a job in some style, a treatment of it, a second state, a seed, a table of window costs and lengths
//! of areas.
//! The seed alone decides the whole case.

use check_box_reference::run;

use crate::calls::{Call, Lengths, Operation};
use crate::cost_tables::{damage_table, random_table};
use crate::damage::{damaged_twice, flip_bits, overwrite, refused_with, truncate};
use crate::generate::{random_job, random_style, Style};
use crate::job_file::{budget, set_budget, state_bytes, Parts};
use crate::lend::Fill;
use crate::random::Random;

pub const WORKING_WORDS: usize = 4_096;

/// The addresses outside memory that are remembered at one time.
pub const MOST_ADDRESSES: usize = 64;
/// The words of an end area behind registers and cells: a count, then address and value of each entry.
pub const OUTSIDE_WORDS: usize = 1 + 2 * MOST_ADDRESSES;
/// The words of an end area that every job finds long enough: 16 registers and 240 cells.
pub const MOST_END_WORDS: usize = 16 + 240 + OUTSIDE_WORDS;

/// What is done to a valid job and to its areas.
#[derive(Clone, Copy, PartialEq, Eq, Debug)]
pub enum Treatment {
    Whole,
    BudgetCut,
    TraceCut,
    AreaLengths,
    SecondLength,
    OneRefusal,
    TwoDamages,
    BitFlips,
    Truncated,
    Overwritten,
    Fixed,
}

pub const TREATMENTS: [Treatment; 11] = [
    Treatment::Whole,
    Treatment::BudgetCut,
    Treatment::TraceCut,
    Treatment::AreaLengths,
    Treatment::SecondLength,
    Treatment::OneRefusal,
    Treatment::TwoDamages,
    Treatment::BitFlips,
    Treatment::Truncated,
    Treatment::Overwritten,
    Treatment::Fixed,
];

/// One case; each of the four calls is made on it. A fixed case has no style. The load seed is what a
/// test load makes its state from, the costs are the table of all calls but the plain run.
pub struct Case {
    pub name: String,
    pub style: Option<Style>,
    pub treatment: Treatment,
    pub job: Vec<u8>,
    pub second: Vec<u8>,
    pub load_seed: u64,
    pub costs: Vec<u8>,
    pub lengths: Lengths,
    pub salt: u64,
}

impl Case {
    /// The call that is made of library and reference.
    pub fn call(&self, operation: Operation, margin: usize) -> Call<'_> {
        let fill = Fill { salt: self.salt, margin };
        let (job, second, costs) = (&self.job, &self.second, &self.costs);
        let (seed, lengths) = (self.load_seed, self.lengths);
        Call { operation, job, second, seed, costs, lengths, fill }
    }
}

pub fn random_case(seed: u64) -> Case {
    let mut random = Random::new(seed);
    let style = random_style(&mut random);
    let parts = random_job(style, &mut random);
    let mut case = Case {
        name: format!("{seed}"),
        style: Some(style),
        treatment: random_treatment(&mut random),
        job: parts.bytes(),
        second: state_bytes(&second_state(&parts, &mut random)),
        load_seed: 1,
        costs: random_table(&mut random),
        lengths: fitting_lengths(&parts, style, &mut random),
        salt: random.word(),
    };
    let state = 8 * parts.state.len();
    treat(&mut case, parts, &mut random);
    case.load_seed = load_seed(&mut random);
    case.lengths.state = state_length(state, &mut random);
    if random.one_in(bad_tables(case.treatment)) {
        damage_table(&mut case.costs, &mut random);
    }
    case
}

fn random_treatment(random: &mut Random) -> Treatment {
    match random.below(100) {
        0..=33 => Treatment::Whole,
        34..=47 => Treatment::BudgetCut,
        48..=61 => Treatment::TraceCut,
        62..=71 => Treatment::AreaLengths,
        72..=74 => Treatment::SecondLength,
        75..=84 => Treatment::OneRefusal,
        85..=88 => Treatment::TwoDamages,
        89..=93 => Treatment::BitFlips,
        94..=96 => Treatment::Truncated,
        _ => Treatment::Overwritten,
    }
}

/// One in how many tables is damaged: more where the areas or the second state may be refused too.
fn bad_tables(treatment: Treatment) -> u64 {
    match treatment {
        Treatment::AreaLengths | Treatment::SecondLength => 3,
        Treatment::OneRefusal | Treatment::TwoDamages => 4,
        _ => 16,
    }
}

fn treat(case: &mut Case, parts: Parts, random: &mut Random) {
    match case.treatment {
        Treatment::Whole | Treatment::Fixed => {}
        Treatment::BudgetCut => cut_budget(case, random),
        Treatment::TraceCut => cut_trace(case, random),
        Treatment::AreaLengths => case.lengths = any_lengths(parts.state.len(), random),
        Treatment::SecondLength => {
            change_length(&mut case.second, random);
            if random.one_in(3) {
                case.lengths = any_lengths(parts.state.len(), random);
            }
        }
        Treatment::OneRefusal => {
            case.job = refused_with(random.between(1, 8) as u32, parts, random)
        }
        Treatment::TwoDamages => {
            case.job = damaged_twice(parts, random);
            if random.one_in(3) {
                case.lengths = any_lengths(16, random);
            }
            if random.one_in(3) {
                change_length(&mut case.second, random);
            }
        }
        Treatment::BitFlips => flip_bits(&mut case.job, random),
        Treatment::Truncated => truncate(&mut case.job, random),
        Treatment::Overwritten => overwrite(&mut case.job, random),
    }
}

/// A second state: the same one, or changed at one place, off the public list, or anywhere.
fn second_state(parts: &Parts, random: &mut Random) -> Vec<u64> {
    let mut state = parts.state.clone();
    let count = state.len();
    let one = random.index(count);
    let manner = random.below(8);
    for (location, word) in state.iter_mut().enumerate() {
        let changed = match manner {
            0 => false,
            1 | 2 => location == one,
            3..=6 => !parts.public.contains(&location) && random.one_in(2),
            _ => random.one_in(4),
        };
        if changed {
            *word = if random.one_in(4) { random.word() } else { random.below(8) };
        }
    }
    state
}

/// A step makes at most two observations of two words each. Only long runs get room for more than
/// about 1,500 steps, so that a job with the largest budget ends soon as "trace full".
fn fitting_lengths(parts: &Parts, style: Style, random: &mut Random) -> Lengths {
    let needed = 4 * parts.budget as usize + 4;
    let trace = if style == Style::Long { needed } else { needed.min(6_004) };
    let trace = trace + random.index(2);
    let end = parts.state.len() + OUTSIDE_WORDS + random.index(3);
    Lengths { trace, second_trace: trace, end, work: WORKING_WORDS + random.index(3), state: 0 }
}

/// Observations and steps of the job in its areas, or none if it is refused.
fn extent(case: &Case) -> Option<(u64, u64)> {
    let Lengths { trace, end, work, .. } = case.lengths;
    let (mut trace, mut end, mut work) = (vec![0; trace], vec![0; end], vec![0; work]);
    let answer = run(&case.job, &case.costs, &mut trace, &mut end, &mut work).ok()?;
    Some((answer.observations, answer.steps))
}

/// A budget at which the run stops anywhere between its first step and one after its last.
fn cut_budget(case: &mut Case, random: &mut Random) {
    if let Some((_, steps)) = extent(case) {
        let cut = random.below(steps + 2) as u32;
        let allowed = budget(&case.job);
        set_budget(&mut case.job, cut.min(allowed));
    }
}

/// Trace areas that run out anywhere between the first observation and one after the last.
fn cut_trace(case: &mut Case, random: &mut Random) {
    if let Some((observations, _)) = extent(case) {
        let trace = random.below(2 * observations + 4) as usize;
        case.lengths.trace = trace;
        case.lengths.second_trace = trace;
    }
}

/// Lengths on both sides of each bound; traces of a pair that are unequal at times.
fn any_lengths(locations: usize, random: &mut Random) -> Lengths {
    let trace = random.index(40);
    let second_trace = match random.below(4) {
        0 => random.index(40),
        1 => trace + 1,
        _ => trace,
    };
    Lengths {
        trace,
        second_trace,
        end: end_length(locations, random),
        work: around(WORKING_WORDS, random),
        state: 0,
    }
}

/// A seed of a test load; 0 is refused.
fn load_seed(random: &mut Random) -> u64 {
    match random.below(24) {
        0 => 0,
        1..=4 => 1,
        5..=7 => u64::MAX,
        8..=12 => random.between(2, 99),
        13 => 1 << random.below(64),
        _ => random.word(),
    }
}

/// Bytes for a new state of that many: mostly enough, at times one too few or none.
fn state_length(bytes: usize, random: &mut Random) -> usize {
    match random.below(24) {
        0 => bytes - random.pick(&[1, 1, 8, bytes]),
        1 => random.index(bytes),
        2..=12 => bytes,
        13..=17 => bytes + 1,
        18..=21 => bytes + random.index(64),
        _ => bytes + random.index(4_000),
    }
}

/// Around the bound, at times around that of before request F-4, which had no words for stores outside.
fn end_length(locations: usize, random: &mut Random) -> usize {
    let more = if random.one_in(6) { 0 } else { OUTSIDE_WORDS };
    around(locations + more, random)
}

fn around(bound: usize, random: &mut Random) -> usize {
    match random.below(8) {
        0 => random.index(bound),
        1 => bound - 1,
        2..=4 => bound,
        5 => bound + 1,
        6 => bound + 2 + random.index(40),
        _ => random.index(3),
    }
}

/// A second state with bytes too many or too few.
fn change_length(second: &mut Vec<u8>, random: &mut Random) {
    let length = second.len();
    let changed = match random.below(6) {
        0 => 0,
        1 => length - 1,
        2 => length + 1,
        3 => length - 8,
        4 => length + 8,
        _ => random.index(2_100),
    };
    second.resize(changed, 0x5A);
}
