//! Which observation brought a location in: request F-6 of document 02.

use crate::answer::First;
use crate::location_set::LocationSet;

/// A set with the observation at which it stands.
struct ObservedSet {
    observation: First,
    set: LocationSet,
}

/// The sets observed in a run, in the order of their observations.
pub struct ObservedSets {
    list: Vec<ObservedSet>,
}

impl ObservedSets {
    pub const EMPTY: ObservedSets = ObservedSets { list: Vec::new() };

    pub fn push(&mut self, observation: First, set: LocationSet) {
        self.list.push(ObservedSet { observation, set });
    }

    /// For each location the first observation whose set holds it, if there is one.
    pub fn firsts(&self) -> [Option<First>; LocationSet::LIMIT] {
        std::array::from_fn(|location| {
            let first = self.list.iter().find(|observed| observed.set.contains(location));
            first.map(|observed| observed.observation)
        })
    }
}
