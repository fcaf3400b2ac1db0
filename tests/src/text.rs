//! Routines as text: reading and printing by the library, compared with the reference and with what is
//! known of a case beforehand.

pub mod calls;
pub mod cases;
pub mod check;
pub mod deep;
pub mod faults;
pub mod fixed;
pub mod lines;
pub mod mutations;
pub mod tally;
pub mod wrong;
