//! Texts without a plan: printed texts with some bytes changed, and random bytes.

use crate::random::Random;

/// Bytes that have a meaning in texts.
const ALPHABET: &[u8] = b"skiptloadrmjbeqzncuvwfhx0123456789 ()#\n\t\r-,";

/// Words and other pieces of texts.
const PIECES: [&[u8]; 34] = [
    b"skip",
    b"set",
    b"load",
    b"store",
    b"jmp",
    b"beqz",
    b"cset",
    b"spbarr",
    b"neg",
    b"not",
    b"add",
    b"sub",
    b"and",
    b"or",
    b"xor",
    b"shl",
    b"eq",
    b"ult",
    b"r0",
    b"r1",
    b"r15",
    b"r16",
    b"0",
    b"1",
    b"2",
    b"18446744073709551615",
    b"(",
    b")",
    b"(",
    b")",
    b"\n",
    b"\n",
    b"#",
    b"\t",
];

/// Up to three bytes changed, removed, doubled or put in.
pub fn mutate(text: &mut Vec<u8>, random: &mut Random) {
    for _ in 0..random.pick(&[1, 1, 1, 2, 3]) {
        if text.is_empty() {
            return;
        }
        let at = random.index(text.len());
        match random.below(6) {
            0 => text[at] = random.pick(ALPHABET),
            1 => text[at] ^= 1 << random.below(8),
            2 => drop(text.remove(at)),
            3 => text.insert(at, text[at]),
            4 => text.insert(at, random.pick(ALPHABET)),
            _ => text.swap(at, random.index(at + 1)),
        }
    }
}

/// Bytes of any value, bytes of the alphabet, or pieces with spaces between most of them.
pub fn random_bytes(random: &mut Random) -> Vec<u8> {
    let length = random.below(60);
    match random.below(4) {
        0 => (0..length).map(|_| random.word() as u8).collect(),
        1 => (0..length).map(|_| random.pick(ALPHABET)).collect(),
        _ => random_pieces(random),
    }
}

fn random_pieces(random: &mut Random) -> Vec<u8> {
    let mut text = Vec::new();
    for _ in 0..random.below(12) {
        text.extend(random.pick(&PIECES));
        if !random.one_in(8) {
            text.push(b' ');
        }
    }
    text
}
