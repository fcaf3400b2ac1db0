//! The first observation whose set holds a location, for each location: index, cause and label in one word.
//!
//! Only the words of locations that were observed are read, so that none is cleared at the start of a run.

/// The numbers of the causes.
pub const BRANCH: u64 = 0;
pub const JUMP: u64 = 1;
pub const LOAD: u64 = 2;
pub const STORE: u64 = 3;

/// The words of a location in an answer: index, cause and label.
pub const REPORT_WORDS: usize = 3;

/// A word for each location.
pub type Firsts = [u64; 256];

/// The bits of a label, and of a label and a cause.
const LABEL_BITS: u32 = 9;
const LOW_BITS: u32 = 11;

pub fn packed(index: usize, cause: u64, label: usize) -> u64 {
    (index as u64) << LOW_BITS | cause << LABEL_BITS | label as u64
}

fn unpacked(word: u64) -> [u64; REPORT_WORDS] {
    [word >> LOW_BITS, word >> LABEL_BITS & 3, word & ((1 << LABEL_BITS) - 1)]
}

/// Puts a word at each location of a set that is not in the known one. There are at most 256 such calls in a run that
/// find one, so they are kept out of the steps.
#[cold]
#[inline(never)]
pub fn record<const WORDS: usize>(
    firsts: &mut Firsts,
    set: [u64; WORDS],
    known: [u64; WORDS],
    word: u64,
) {
    for at in 0..WORDS {
        let mut left = set[at] & !known[at];
        while left != 0 {
            firsts[(64 * at + left.trailing_zeros() as usize) % 256] = word;
            left &= left - 1;
        }
    }
}

/// Writes what is reported of each location of a set, and zeros for the others.
pub fn write_reports<const WORDS: usize>(firsts: &Firsts, set: &[u64; WORDS], answer: &mut [u64]) {
    answer.fill(0);
    let (reports, _) = answer.as_chunks_mut::<REPORT_WORDS>();
    for (at, &word) in set.iter().enumerate() {
        let mut left = word;
        while left != 0 {
            let location = 64 * at + left.trailing_zeros() as usize;
            reports[location] = unpacked(firsts[location % 256]);
            left &= left - 1;
        }
    }
}
