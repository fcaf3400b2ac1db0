//! The numbers of the refusals, in the order in which they are checked, with two exceptions:
//! 14 is checked directly before 10, and a test load checks 13 before 12.

/// A refusal is its number.
pub type Refusal = u32;

pub const LENGTH: u32 = 1;
pub const TRAILER: u32 = 2;
pub const OFFSETS: u32 = 3;
pub const ENCODING: u32 = 4;
pub const POSTFIX: u32 = 5;
pub const BRANCH_LABEL: u32 = 6;
pub const BYTES_LEFT: u32 = 7;
pub const PUBLIC_BIT: u32 = 8;
pub const SECOND_STATE: u32 = 9;
pub const AREAS: u32 = 10;
pub const TEXT: u32 = 11;
pub const OUTPUT_AREA: u32 = 12;
pub const SEED: u32 = 13;
pub const COSTS: u32 = 14;

/// Refuses with the number unless the condition holds.
pub fn require(condition: bool, number: u32) -> Result<(), u32> {
    if condition {
        Ok(())
    } else {
        Err(number)
    }
}
