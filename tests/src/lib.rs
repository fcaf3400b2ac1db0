//! Outside tests of the checker: its static library is called through its C interface and compared
//! with the second implementation, with vectors, and with statements about its own answers.

pub mod calls;
pub mod cases;
pub mod check;
pub mod comparison;
pub mod cost_claims;
pub mod cost_tables;
pub mod damage;
pub mod demands;
pub mod examples;
pub mod expressions;
pub mod first_claims;
pub mod fixed;
pub mod fixed_costs;
pub mod fixed_files;
pub mod fixed_firsts;
pub mod fixed_loads;
pub mod fixed_outside;
pub mod fixed_runs;
pub mod fixed_sets;
pub mod gadgets;
pub mod generate;
pub mod job_file;
pub mod lend;
pub mod library;
pub mod listed;
pub mod load_claims;
pub mod outside;
pub mod outside_claims;
pub mod random;
pub mod report;
pub mod spills;
pub mod straight;
pub mod tally;
pub mod text;
pub mod vector_file;
