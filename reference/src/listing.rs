//! The text that the printing program writes for a job.

use crate::answer::{First, RunAnswer};
use crate::job::{read_job, Job};
use crate::location_set::LocationSet;
use crate::machine::REGISTERS;
use crate::run::speculative_run;
use crate::trace::{observations, LOAD, PC, ROLLBACK, START, STORE};
use crate::window_costs::WindowCosts;

const LENT_OBSERVATIONS: usize = 512;

/// Prints the mispredicting run of a job, with 512 observations lent and window costs of 1.
pub fn listing(job: &[u8]) -> Vec<u8> {
    listing_in(job, LENT_OBSERVATIONS)
}

/// The same with another number of observations lent.
pub fn listing_in(job: &[u8], observations: usize) -> Vec<u8> {
    let text = match read_job(job) {
        Ok(job) => run_text(&job, observations),
        Err(number) => format!("refused {number}\n"),
    };
    text.into_bytes()
}

fn run_text(job: &Job, lent: usize) -> String {
    let mut area = vec![0; 2 * lent];
    let (answer, _) = speculative_run(job, WindowCosts::DOCUMENT_01, &mut area);
    let mut text = String::new();
    for (kind, value) in observations(&area, answer.observations) {
        text.push_str(&observation_line(kind, value, job.program.len() as u64));
    }
    text.push_str(&answer_text(&answer));
    for (location, first) in answer.firsts.iter().enumerate() {
        text.extend(first.map(|first| first_line(location, first)));
    }
    text
}

/// Only a pc equal to the instruction count prints as END.
fn observation_line(kind: u64, value: u64, end: u64) -> String {
    if kind == PC && value == end {
        return "pc end\n".to_string();
    }
    let word = match kind {
        START => "start",
        ROLLBACK => "rollback",
        PC => "pc",
        LOAD => "load",
        STORE => "store",
        _ => unreachable!("a trace holds five kinds of observation"),
    };
    format!("{word} {value}\n")
}

fn answer_text(answer: &RunAnswer) -> String {
    format!(
        "stop {}\nsteps {}\nrollbacks {}\ndepends{}\nplain{}\nverdict {}\n",
        answer.stop.word(),
        answer.steps,
        answer.rollbacks,
        set_text(answer.depends),
        set_text(answer.plain),
        answer.verdict.word(),
    )
}

/// Location, index of the observation, rule and label.
fn first_line(location: usize, first: First) -> String {
    let First { index, cause, label } = first;
    format!("first{} {index} {} {label}\n", location_text(location), cause.word())
}

/// Each member with a blank before it, in ascending order; nothing for the empty set.
fn set_text(words: [u64; 4]) -> String {
    LocationSet::from_words(words).locations().map(location_text).collect()
}

/// The name of a location with a blank before it.
fn location_text(location: usize) -> String {
    if location < REGISTERS {
        format!(" r{location}")
    } else {
        format!(" m{}", location - REGISTERS)
    }
}
