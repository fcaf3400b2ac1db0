//! Tables of window costs (request F-7): eight bytes, one for each kind of instruction in kind order, 1 to 16 each.
//! Random ones, damaged ones, and what a table is.

use crate::random::Random;

pub const KINDS: usize = 8;
pub const MOST_COST: u8 = 16;

/// The kinds of instruction that are named here, by their bytes.
pub const BRANCH: usize = 5;
pub const BARRIER: usize = 7;

/// The table of document 01.
pub const ONES: [u8; KINDS] = [1; KINDS];

/// What a table is: one that fits, or the first reason why it does not.
#[derive(Clone, Copy, PartialEq, Eq, Debug)]
pub enum TableStyle {
    Ones,
    /// 16 for one kind and 1 for the others.
    OneDear,
    /// 1 for one kind and 16 for the others.
    OneCheap,
    /// The same for all kinds, from 2 on.
    Same,
    Mixed,
    TooShort,
    TooLong,
    WithZero,
    Over16,
}

pub const TABLE_STYLES: [TableStyle; 9] = [
    TableStyle::Ones,
    TableStyle::OneDear,
    TableStyle::OneCheap,
    TableStyle::Same,
    TableStyle::Mixed,
    TableStyle::TooShort,
    TableStyle::TooLong,
    TableStyle::WithZero,
    TableStyle::Over16,
];

/// True if the bytes are a table: eight, each 1 to 16.
pub fn fits(costs: &[u8]) -> bool {
    costs.len() == KINDS && costs.iter().all(|cost| (1..=MOST_COST).contains(cost))
}

pub fn style_of(costs: &[u8]) -> TableStyle {
    let count = |cost: u8| costs.iter().filter(|&&other| other == cost).count();
    match costs.len() {
        0..KINDS => TableStyle::TooShort,
        KINDS if count(0) > 0 => TableStyle::WithZero,
        KINDS if !fits(costs) => TableStyle::Over16,
        KINDS if count(1) == KINDS => TableStyle::Ones,
        KINDS if count(costs[0]) == KINDS => TableStyle::Same,
        KINDS if (count(1), count(MOST_COST)) == (KINDS - 1, 1) => TableStyle::OneDear,
        KINDS if (count(1), count(MOST_COST)) == (1, KINDS - 1) => TableStyle::OneCheap,
        KINDS => TableStyle::Mixed,
        _ => TableStyle::TooLong,
    }
}

/// One number for this kind and another one for the others.
pub fn one_apart(kind: usize, cost: u8, others: u8) -> [u8; KINDS] {
    let mut costs = [others; KINDS];
    costs[kind] = cost;
    costs
}

/// A table that fits: eight ones a third of the time. Many windows are small, so many tables have small entries.
pub fn random_table(random: &mut Random) -> Vec<u8> {
    let kind = random.index(KINDS);
    let most = random.pick(&[2, 3, 5, u64::from(MOST_COST)]);
    let table = match random.below(12) {
        0..=3 => ONES,
        4 => one_apart(kind, MOST_COST, 1),
        5 => one_apart(kind, 1, MOST_COST),
        6 => [random.between(2, u64::from(MOST_COST)) as u8; KINDS],
        7 => one_apart(kind, random.between(1, 16) as u8, random.between(1, 3) as u8),
        _ => ONES.map(|_| random.between(1, most) as u8),
    };
    table.to_vec()
}

/// Makes a table one that is refused: of another length, or with an entry or two outside 1 to 16.
pub fn damage_table(costs: &mut Vec<u8>, random: &mut Random) {
    if random.one_in(2) {
        let length = random.pick(&[0, 1, 2, 3, 4, 5, 6, 7, 7, 7, 9, 9, 9, 16, 264]);
        costs.resize(length, 1);
        return;
    }
    for _ in 0..random.between(1, 2) {
        let far = random.between(18, 254) as u8;
        costs[random.index(KINDS)] = random.pick(&[0, 0, 17, 17, 255, far]);
    }
}
