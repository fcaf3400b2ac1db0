//! What is lent to a call: areas of words and bytes with known contents, also just outside the lent part.

use std::fmt::Display;

/// How areas are filled before a call: the salt changes every word, the margin is the least number of words
/// (in areas of bytes, of bytes) kept in front of and behind the lent ones. With margin 0 an area is an allocation of its own length,
/// so that a memory checker sees each access outside it.
#[derive(Clone, Copy)]
pub struct Fill {
    pub salt: u64,
    pub margin: usize,
}

impl Fill {
    /// The filling of one of a call's areas, so that no two hold the same; with salt 0 they all do.
    pub fn of_area(self, number: u64) -> Fill {
        Fill { salt: self.salt.wrapping_mul(2 * number + 1), ..self }
    }
}

/// What an area is made of: 64-bit words, or bytes.
pub trait Unit: Copy + Eq + Display {
    /// The one that stands at an index of a lent area before a call.
    fn filling(index: usize, salt: u64) -> Self;
}

impl Unit for u64 {
    fn filling(index: usize, salt: u64) -> u64 {
        (index as u64).wrapping_add(1).wrapping_mul(0x9E37_79B9_7F4A_7C15).wrapping_add(salt)
    }
}

impl Unit for u8 {
    fn filling(index: usize, salt: u64) -> u8 {
        (index as u8).wrapping_mul(37).wrapping_add(11).wrapping_add(salt as u8)
    }
}

/// An area with its margins; two areas are equal if all of it is, the margins too.
#[derive(Clone, PartialEq, Eq)]
pub struct Area<T = u64> {
    units: Vec<T>,
    front: usize,
    length: usize,
}

impl<T: Unit> Area<T> {
    /// The front margin is longer by up to seven, so that an area of bytes starts at any place.
    pub fn filled(length: usize, fill: Fill) -> Area<T> {
        let front = if fill.margin == 0 { 0 } else { fill.margin + (fill.salt % 8) as usize };
        let unit = |at: usize| T::filling(at.wrapping_sub(front), fill.salt);
        Area { units: (0..front + length + fill.margin).map(unit).collect(), front, length }
    }

    /// A filled area after a call that wrote this to its front and nothing else.
    pub fn filled_with(written: &[T], length: usize, fill: Fill) -> Area<T> {
        let mut area = Area::filled(length, fill);
        area.lent()[..written.len()].copy_from_slice(written);
        area
    }

    pub fn lent(&mut self) -> &mut [T] {
        &mut self.units[self.front..self.front + self.length]
    }

    pub fn content(&self) -> &[T] {
        &self.units[self.front..self.front + self.length]
    }

    /// Says what differs; none if the areas are equal.
    pub fn difference(&self, expected: &Area<T>) -> Option<String> {
        if self == expected {
            return None;
        }
        let pairs = self.units.iter().zip(&expected.units);
        let differing: Vec<usize> =
            pairs.enumerate().filter(|(_, (got, want))| got != want).map(|(at, _)| at).collect();
        let &first = differing.first()?;
        Some(format!(
            "places that differ: {}; the first, at {}, is {} instead of {}",
            differing.len(),
            first as i64 - self.front as i64,
            self.units[first],
            expected.units[first]
        ))
    }
}

/// A copy of the bytes of a job or state, at an odd place and with bytes around it.
pub struct Bytes {
    bytes: Vec<u8>,
    front: usize,
    length: usize,
}

impl Bytes {
    /// With margin 0 the copy is an allocation of its own length.
    pub fn copied(content: &[u8], fill: Fill) -> Bytes {
        let (front, back) =
            if fill.margin == 0 { (0, 0) } else { ((fill.salt % 8) as usize, fill.margin) };
        let mut bytes = Vec::with_capacity(front + content.len() + back);
        bytes.extend((0..front).map(margin_byte));
        bytes.extend(content);
        bytes.extend((0..back).map(margin_byte));
        Bytes { bytes, front, length: content.len() }
    }

    pub fn lent(&self) -> &[u8] {
        &self.bytes[self.front..self.front + self.length]
    }

    /// True if the copy still holds the content and its margins. The compiler must not take this
    /// for granted because of the shared reference that the call was given.
    pub fn is_unchanged(&self, content: &[u8]) -> bool {
        let bytes = std::hint::black_box(&self.bytes);
        let (front, rest) = bytes.split_at(self.front);
        let (copy, back) = rest.split_at(self.length);
        let margins = front.iter().enumerate().chain(back.iter().enumerate());
        copy == content && margins.into_iter().all(|(at, &byte)| byte == margin_byte(at))
    }
}

fn margin_byte(at: usize) -> u8 {
    (at as u8).wrapping_mul(37).wrapping_add(0xA5)
}
