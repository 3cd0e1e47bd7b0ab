//! Numbers drawn from a seed: the same seed draws the same numbers on every machine.

/// A generator of 64-bit numbers (SplitMix64).
pub struct Random(u64);

impl Random {
    /// The generator of one input. Every input has its own, so that it can be made again alone.
    pub fn of_input(seed: u64, format: u32, input: u64) -> Random {
        let mut random = Random(seed);
        random.0 = random.number() ^ u64::from(format) << 56 ^ input;
        random.0 = random.number();
        random
    }

    pub fn number(&mut self) -> u64 {
        self.0 = self.0.wrapping_add(0x9E37_79B9_7F4A_7C15);
        let mut mixed = self.0;
        mixed = (mixed ^ mixed >> 30).wrapping_mul(0xBF58_476D_1CE4_E5B9);
        mixed = (mixed ^ mixed >> 27).wrapping_mul(0x94D0_49BB_1331_11EB);
        mixed ^ mixed >> 31
    }

    /// A number from 0 to `limit` - 1, or 0 where the limit is 0.
    pub fn below(&mut self, limit: usize) -> usize {
        match limit {
            0 => 0,
            _ => (self.number() % limit as u64) as usize,
        }
    }

    /// A number from `low` to `high`, both included.
    pub fn between(&mut self, low: usize, high: usize) -> usize {
        low + self.below(high + 1 - low)
    }

    /// True once in `times`.
    pub fn once_in(&mut self, times: usize) -> bool {
        self.below(times) == 0
    }

    pub fn byte(&mut self) -> u8 {
        self.number() as u8
    }

    pub fn bytes(&mut self, length: usize) -> Vec<u8> {
        (0..length).map(|_| self.byte()).collect()
    }

    pub fn pick<T: Copy>(&mut self, choices: &[T]) -> T {
        choices[self.below(choices.len())]
    }

    /// Bytes that are all picked from the choices.
    pub fn picks(&mut self, choices: &[u8], length: usize) -> Vec<u8> {
        (0..length).map(|_| self.pick(choices)).collect()
    }

    /// Text (01), with many of its lowest and its highest byte.
    pub fn text(&mut self, length: usize) -> Vec<u8> {
        (0..length)
            .map(|_| match self.below(8) {
                0 => 0x20,
                1 => 0x7E,
                _ => self.between(0x20, 0x7E) as u8,
            })
            .collect()
    }

    /// The length of a value that one byte tells: often none, mostly a short one, and the longest.
    pub fn byte_length(&mut self) -> usize {
        match self.below(24) {
            0 => 255,
            1 => 254,
            2 => self.between(20, 255),
            3..=6 => 0,
            _ => self.between(1, 16),
        }
    }

    pub fn shuffle<T>(&mut self, things: &mut [T]) {
        for last in (1..things.len()).rev() {
            things.swap(last, self.below(last + 1));
        }
    }
}
