//! The addresses outside memory that are remembered, in order of first store, and how they are found.
//!
//! An entry is found by a slot that a hash of its address names, or by one of the next. A slot counts only if it names
//! an entry below the count and that entry names it back. So no slot is ever cleared: not at the start of a run, when
//! the working words hold anything, and not when a rollback sets back the count, which the machine keeps.

pub const ENTRIES: usize = 64;

/// The words of an end area behind registers and cells.
pub const OUTSIDE_WORDS: usize = 1 + 2 * ENTRIES;

/// Four slots an entry, so that one slot is mostly enough.
const SLOTS: usize = 256;

pub struct Outside<'a> {
    pub addresses: &'a mut [u64; ENTRIES],
    /// The slot of each entry, and the entry of each slot.
    slot_of: &'a mut [u64; ENTRIES],
    slots: &'a mut [u64; SLOTS],
}

/// Where an address is: the index of its entry, or the slot that a new one takes.
pub enum Found {
    Entry(usize),
    Slot(usize),
}

impl<'a> Outside<'a> {
    pub fn new(words: &'a mut [u64]) -> Outside<'a> {
        let (addresses, rest) = words.split_first_chunk_mut().expect("words for addresses");
        let (slot_of, rest) = rest.split_first_chunk_mut().expect("words for their slots");
        let (slots, _) = rest.split_first_chunk_mut().expect("words for slots");
        Outside { addresses, slot_of, slots }
    }

    /// Looks for an address among so many entries.
    #[inline(always)]
    pub fn find(&self, address: u64, count: u64) -> Found {
        let mut slot = (address.wrapping_mul(0x9E37_79B9_7F4A_7C15) >> 56) as usize;
        loop {
            let entry = self.slots[slot % SLOTS];
            let index = entry as usize % ENTRIES;
            if entry >= count || self.slot_of[index] != slot as u64 {
                return Found::Slot(slot);
            }
            if self.addresses[index] == address {
                return Found::Entry(index);
            }
            slot = (slot + 1) % SLOTS;
        }
    }

    /// Puts an address into the entry with this index, under a free slot.
    #[inline(always)]
    pub fn put(&mut self, address: u64, index: usize, slot: usize) {
        self.addresses[index % ENTRIES] = address;
        self.slot_of[index % ENTRIES] = slot as u64;
        self.slots[slot % SLOTS] = index as u64;
    }
}
