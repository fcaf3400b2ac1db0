//! Random numbers, constants and shapes of expressions; nothing of the package is needed for them.

/// A xorshift generator, so that each test makes the same choices every time.
pub struct Random(pub u64);

impl Random {
    pub fn below(&mut self, limit: u64) -> u64 {
        self.0 ^= self.0 << 13;
        self.0 ^= self.0 >> 7;
        self.0 ^= self.0 << 17;
        (self.0 >> 16) % limit
    }

    /// Any 64-bit word.
    pub fn word(&mut self) -> u64 {
        self.below(1 << 32) << 32 | self.below(1 << 32)
    }

    /// A register's number, a word whose eight bytes all look like registers, or any word.
    pub fn constant(&mut self) -> u64 {
        match self.below(3) {
            0 => self.below(16),
            1 => self.word() & 0x0F0F_0F0F_0F0F_0F0F,
            _ => self.word(),
        }
    }

    /// How many operands each token of an expression takes: 1 to 16 tokens that keep the postfix
    /// rule. The more frequent tokens without operands are, the more values are held.
    pub fn operand_counts(&mut self) -> Vec<usize> {
        let tokens = 1 + self.below(16) as usize;
        let frequency = 1 + self.below(12);
        let (mut counts, mut held) = (Vec::with_capacity(tokens), 0);
        while counts.len() < tokens {
            let operands = match self.below(frequency + 2) {
                0 => 2,
                1 => 1,
                _ => 0,
            };
            // Each token that is still to come takes at most one value away.
            let most_held = (tokens - counts.len()).min(8);
            if held >= operands && held - operands < most_held {
                held = held - operands + 1;
                counts.push(operands);
            }
        }
        counts
    }
}
