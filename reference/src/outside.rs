//! The stores outside the image that are remembered: request F-4 of document 02.

use crate::machine::Word;

/// How many addresses are remembered at one time.
pub const OUTSIDE_LIMIT: usize = 64;

/// The words of the table in an end area: the entry count, then two words an entry.
pub const OUTSIDE_WORDS: usize = 1 + 2 * OUTSIDE_LIMIT;

/// A word stored at an address where there is no cell.
#[derive(Debug, Clone, Copy, PartialEq, Eq)]
struct Entry {
    address: u64,
    word: Word,
}

/// The remembered addresses with their words, in order of first store.
#[derive(Debug, Clone, PartialEq, Eq)]
pub struct OutsideTable {
    entries: Vec<Entry>,
}

impl OutsideTable {
    pub const EMPTY: OutsideTable = OutsideTable { entries: Vec::new() };

    /// The word at an address, if one is remembered there.
    pub fn word_at(&self, address: u64) -> Option<Word> {
        self.entries.iter().find(|entry| entry.address == address).map(|entry| entry.word)
    }

    /// A store at a remembered address needs no new entry.
    pub fn has_room_for(&self, address: u64) -> bool {
        self.word_at(address).is_some() || self.entries.len() < OUTSIDE_LIMIT
    }

    /// At a remembered address both value and set are replaced, and the entry keeps its place.
    pub fn remember(&mut self, address: u64, word: Word) {
        match self.entries.iter_mut().find(|entry| entry.address == address) {
            Some(entry) => entry.word = word,
            None => self.entries.push(Entry { address, word }),
        }
    }

    /// The entry count, then the address and the value of each entry, zeros after.
    pub fn words(&self) -> [u64; OUTSIDE_WORDS] {
        let mut words = [0; OUTSIDE_WORDS];
        words[0] = self.entries.len() as u64;
        for (pair, entry) in words[1..].chunks_exact_mut(2).zip(&self.entries) {
            pair.copy_from_slice(&[entry.address, entry.word.value]);
        }
        words
    }
}
