//! Benchmarks of the checker: an optimised Rust implementation to measure the library against, and
//! the jobs and texts that are measured.

pub mod fast;
pub mod growth;
pub mod jobs;
pub mod texts;
pub mod timing;
pub mod verify;
