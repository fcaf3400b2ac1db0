//! The window costs of the buyer's processor: request F-7 of document 02, with refusal 14.

use crate::machine::Instruction;
use crate::refusal::{self, require, Refusal};

/// Document 01's table: how much each kind of instruction lowers a window, by kind byte.
pub const WINDOW_COSTS: [u8; 8] = [1; 8];

/// A table that passed refusal 14.
#[derive(Debug, Clone, Copy, PartialEq, Eq)]
pub struct WindowCosts([u8; 8]);

impl WindowCosts {
    pub const DOCUMENT_01: WindowCosts = WindowCosts(WINDOW_COSTS);

    /// Eight bytes in kind order, each of them 1 to 16.
    pub fn read(bytes: &[u8]) -> Result<WindowCosts, Refusal> {
        let table: [u8; 8] = bytes.try_into().map_err(|_| refusal::COSTS)?;
        let within_limits = table.iter().all(|cost| (1..=16).contains(cost));
        require(within_limits, refusal::COSTS)?;
        Ok(WindowCosts(table))
    }

    /// The entry of the instruction's kind.
    pub fn cost(&self, instruction: &Instruction) -> u64 {
        u64::from(self.0[instruction.kind()])
    }
}
