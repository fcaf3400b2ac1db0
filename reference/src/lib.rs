//! A second implementation of document 01 and of requests F-1 to F-7 of document 02,
//! written from the documents alone.
//! It prefers clarity to speed: every branch saves a copy of the whole state.

#![forbid(unsafe_code)]

mod answer;
mod expression;
mod firsts;
mod job;
mod listing;
mod location_set;
mod machine;
mod outside;
mod pair;
mod program_bytes;
mod refusal;
mod run;
mod test_load;
mod text;
mod text_printing;
mod text_reading;
mod trace;
mod window_costs;

pub use answer::{
    Cause, First, LoadAnswer, PairAnswer, PairWord, PlainAnswer, RunAnswer, RunCounts, Stop,
    TextCounts, Verdict,
};
pub use listing::{listing, listing_in};
pub use outside::{OUTSIDE_LIMIT, OUTSIDE_WORDS};
pub use pair::compare;
pub use refusal::Refusal;
pub use run::{plain_run, run};
pub use test_load::test_load;
pub use text::{print_text, read_text};
pub use trace::strike_out;
pub use window_costs::WINDOW_COSTS;
