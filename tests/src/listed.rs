//! The listing of a run, written from what a call of the library left.

use crate::calls::Outcome;
use crate::demands::has;
use crate::job_file::{field, Field, REGISTERS};
use crate::library::LOCATIONS;

/// What a listing calls the stops, the verdicts, the rules of an instruction that is observed, and the kinds of
/// observation, each in the order of their numbers.
pub const STOPS: [&str; 4] = ["finished", "spent", "trace full", "outside full"];
pub const VERDICTS: [&str; 4] = ["undecided", "clean", "speculative", "plain"];
pub const CAUSES: [&str; 4] = ["branch", "jump", "load", "store"];
const KINDS: [&str; 5] = ["start", "rollback", "pc", "load", "store"];

/// The number of the kind pc.
const PC: u64 = 2;

/// The lines that the printing program has for a run of the job that was not refused.
pub fn listing_of(job: &[u8], run: &Outcome) -> String {
    let end = u64::from(field(job, Field::Instructions));
    let answer = run.answer();
    let set = |from: usize| answer[from..from + 4].try_into().expect("four words");
    let observed = |(kind, value): (u64, u64)| match (kind, value) {
        (PC, value) if value == end => "pc end\n".to_string(),
        _ => format!("{} {value}\n", KINDS[kind as usize]),
    };
    let mut text: String = run.observations().into_iter().map(observed).collect();
    text += &format!("stop {}\n", STOPS[answer[0] as usize]);
    text += &format!("steps {}\nrollbacks {}\n", answer[2], answer[3]);
    text += &format!("depends{}\nplain{}\n", names_of(set(4)), names_of(set(8)));
    text += &format!("verdict {}\n", VERDICTS[answer[12] as usize]);
    text + &firsts_of(run, set(4))
}

fn name_of(location: usize) -> String {
    match location.checked_sub(REGISTERS) {
        None => format!(" r{location}"),
        Some(cell) => format!(" m{cell}"),
    }
}

fn names_of(set: [u64; 4]) -> String {
    (0..LOCATIONS).filter(|&location| has(set, location)).map(name_of).collect()
}

fn firsts_of(run: &Outcome, depends: [u64; 4]) -> String {
    let reported = run.reports().iter().enumerate().filter(|&(location, _)| has(depends, location));
    let line = |(location, &[index, cause, label]): (usize, &[u64; 3])| {
        format!("first{} {index} {} {label}\n", name_of(location), CAUSES[cause as usize])
    };
    reported.map(line).collect()
}
