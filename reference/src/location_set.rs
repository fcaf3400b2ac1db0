//! Sets of locations: register r is location r, memory cell a is location 16 + a.

/// A set of at most 256 locations; location k is bit k % 64 of word k / 64.
#[derive(Debug, Clone, Copy, PartialEq, Eq)]
pub struct LocationSet {
    words: [u64; 4],
}

impl LocationSet {
    pub const LIMIT: usize = 256;
    pub const EMPTY: LocationSet = LocationSet { words: [0; 4] };

    pub fn from_words(words: [u64; 4]) -> LocationSet {
        LocationSet { words }
    }

    pub fn words(self) -> [u64; 4] {
        self.words
    }

    pub fn single(location: usize) -> LocationSet {
        let mut words = [0; 4];
        words[location / 64] = 1 << (location % 64);
        LocationSet { words }
    }

    pub fn contains(self, location: usize) -> bool {
        location < Self::LIMIT && self.words[location / 64] >> (location % 64) & 1 == 1
    }

    pub fn union(self, other: LocationSet) -> LocationSet {
        let mut words = self.words;
        for (word, more) in words.iter_mut().zip(other.words) {
            *word |= more;
        }
        LocationSet { words }
    }

    pub fn is_within(self, other: LocationSet) -> bool {
        self.union(other) == other
    }

    /// The members in ascending order.
    pub fn locations(self) -> impl Iterator<Item = usize> {
        (0..Self::LIMIT).filter(move |&location| self.contains(location))
    }
}
