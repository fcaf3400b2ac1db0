//! Observations, the trace area they are written to, and the strike-out of wrong paths.

pub const START: u64 = 0;
pub const ROLLBACK: u64 = 1;
pub const PC: u64 = 2;
pub const LOAD: u64 = 3;
pub const STORE: u64 = 4;

/// Writes observations from the front of a lent area, two words each.
pub struct TraceWriter<'a> {
    area: &'a mut [u64],
    count: usize,
}

impl<'a> TraceWriter<'a> {
    pub fn new(area: &'a mut [u64]) -> TraceWriter<'a> {
        TraceWriter { area, count: 0 }
    }

    /// An odd last word of the area is no room for an observation.
    pub fn has_room_for(&self, observations: usize) -> bool {
        self.count + observations <= self.area.len() / 2
    }

    pub fn push(&mut self, kind: u64, value: u64) {
        self.area[2 * self.count] = kind;
        self.area[2 * self.count + 1] = value;
        self.count += 1;
    }

    pub fn count(&self) -> u64 {
        self.count as u64
    }
}

/// The first `count` observations of a trace area as pairs of kind and value.
pub fn observations(area: &[u64], count: u64) -> Vec<(u64, u64)> {
    area.chunks_exact(2).take(count as usize).map(|words| (words[0], words[1])).collect()
}

/// Strikes all from each outermost start to its rollback, both included.
/// The pc after an outermost rollback stays: it is the plain run's branch observation.
/// Where the trace ends inside a wrong path, all from its outermost start is struck.
pub fn strike_out(trace: &[(u64, u64)]) -> Vec<(u64, u64)> {
    let mut kept = Vec::new();
    let mut outermost = None;
    for &(kind, value) in trace {
        match outermost {
            None if kind == START => outermost = Some(value),
            None => kept.push((kind, value)),
            Some(id) if kind == ROLLBACK && value == id => outermost = None,
            Some(_) => {}
        }
    }
    kept
}
