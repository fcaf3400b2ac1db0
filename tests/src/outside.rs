//! The stores outside memory that a run remembers, as far as its trace tells them: which addresses, and in which
//! order they were first stored to.

use std::collections::HashSet;

const START: u64 = 0;
const ROLLBACK: u64 = 1;
const LOAD: u64 = 3;
const STORE: u64 = 4;

/// What an observation has to do with the remembered stores.
#[derive(Clone, Copy, PartialEq, Eq, Debug)]
pub enum Event {
    FirstStore,
    StoreAgain,
    StoreAgainOnWrongPath,
    Load,
    /// A load of an address that was remembered until a rollback.
    LoadForgotten,
    /// A rollback that forgets an address.
    Forget,
}

/// The events by their numbers.
pub const EVENTS: [&str; 6] = [
    "first store",
    "store again",
    "store again on a wrong path",
    "load",
    "load of what a rollback forgot",
    "rollback that forgets",
];

/// What is remembered after the observations so far.
pub struct Remembered {
    cells: u64,
    addresses: Vec<u64>,
    /// How many addresses there were at the start of each open branch.
    starts: Vec<usize>,
    forgotten: HashSet<u64>,
}

impl Remembered {
    pub fn nothing(cells: u64) -> Remembered {
        let (addresses, starts, forgotten) = (Vec::new(), Vec::new(), HashSet::new());
        Remembered { cells, addresses, starts, forgotten }
    }

    /// What is remembered at the end of a trace.
    pub fn after(trace: &[(u64, u64)], cells: u64) -> Remembered {
        let mut remembered = Remembered::nothing(cells);
        for &(kind, value) in trace {
            remembered.observe(kind, value);
        }
        remembered
    }

    /// The addresses in order of first store.
    pub fn addresses(&self) -> &[u64] {
        &self.addresses
    }

    pub fn open_branches(&self) -> usize {
        self.starts.len()
    }

    pub fn observe(&mut self, kind: u64, value: u64) -> Option<Event> {
        let outside = value >= self.cells;
        match kind {
            START => {
                self.starts.push(self.addresses.len());
                None
            }
            ROLLBACK => self.roll_back(),
            LOAD if outside => self.load(value),
            STORE if outside => Some(self.store(value)),
            _ => None,
        }
    }

    fn roll_back(&mut self) -> Option<Event> {
        let kept = self.starts.pop().unwrap_or(0);
        let forgotten = self.addresses.split_off(kept);
        let event = (!forgotten.is_empty()).then_some(Event::Forget);
        self.forgotten.extend(forgotten);
        event
    }

    fn load(&self, address: u64) -> Option<Event> {
        if self.addresses.contains(&address) {
            Some(Event::Load)
        } else {
            self.forgotten.contains(&address).then_some(Event::LoadForgotten)
        }
    }

    fn store(&mut self, address: u64) -> Event {
        if !self.addresses.contains(&address) {
            self.addresses.push(address);
            Event::FirstStore
        } else if self.starts.is_empty() {
            Event::StoreAgain
        } else {
            Event::StoreAgainOnWrongPath
        }
    }
}
