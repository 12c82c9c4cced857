//! A small generator of pseudo-random numbers, splitmix64.

/// The state; the same seed gives the same numbers.
pub struct Random(u64);

impl Random {
    pub fn new(seed: u64) -> Random {
        Random(seed)
    }

    /// The next 64 bits.
    pub fn bits(&mut self) -> u64 {
        self.0 = self.0.wrapping_add(0x9E37_79B9_7F4A_7C15);
        let mut z = self.0;
        z = (z ^ (z >> 30)).wrapping_mul(0xBF58_476D_1CE4_E5B9);
        z = (z ^ (z >> 27)).wrapping_mul(0x94D0_49BB_1331_11EB);
        z ^ (z >> 31)
    }

    /// A number below `end`, which isn't 0.
    pub fn below(&mut self, end: u64) -> u64 {
        self.bits() % end
    }

    /// A number from `low` to `high`, both included.
    pub fn between(&mut self, low: u64, high: u64) -> u64 {
        low + self.below(high - low + 1)
    }

    /// True once in `times` on average.
    pub fn once_in(&mut self, times: u64) -> bool {
        self.below(times) == 0
    }

    /// An index below `length`, often the first or the last.
    pub fn place(&mut self, length: usize) -> usize {
        match self.below(4) {
            0 => 0,
            1 => length - 1,
            _ => self.below(length as u64) as usize,
        }
    }

    /// One of the choices.
    pub fn pick<T: Copy>(&mut self, choices: &[T]) -> T {
        choices[self.below(choices.len() as u64) as usize]
    }

    /// A place among the weights, each as often as its weight says.
    pub fn weighted(&mut self, weights: &[u64]) -> usize {
        let mut rest = self.below(weights.iter().sum());
        for (place, weight) in weights.iter().enumerate() {
            if rest < *weight {
                return place;
            }
            rest -= weight;
        }
        weights.len() - 1
    }

    /// Any byte.
    pub fn byte(&mut self) -> u8 {
        self.bits() as u8
    }

    /// Any bytes.
    pub fn bytes(&mut self, length: usize) -> Vec<u8> {
        let mut bytes = Vec::with_capacity(length + 8);
        while bytes.len() < length {
            bytes.extend(self.bits().to_le_bytes());
        }
        bytes.truncate(length);
        bytes
    }

    /// Digits of value 0 to 9.
    pub fn digits(&mut self, length: usize) -> Vec<u8> {
        (0..length).map(|_| self.below(10) as u8).collect()
    }

    /// Another digit than this one.
    pub fn other_digit(&mut self, digit: u8) -> u8 {
        (digit + self.between(1, 9) as u8) % 10
    }

    /// A byte that is no body digit: 10, an ASCII digit, 255 or any above 9.
    pub fn non_digit(&mut self) -> u8 {
        match self.below(4) {
            0 => 10,
            1 => b'0' + self.below(10) as u8,
            2 => 255,
            _ => self.between(10, 255) as u8,
        }
    }

    /// Lawful rates: mixed, all one value, or few different ones.
    pub fn rates(&mut self, length: usize) -> Vec<u8> {
        match self.below(6) {
            0 => vec![self.pick(&[0, 100, 1, 9, 49]); length],
            1 => (0..length).map(|slot| (slot % 101) as u8).collect(),
            _ => {
                let mut rates = self.bytes(length);
                for rate in &mut rates {
                    *rate = (u16::from(*rate) * 101 / 256) as u8;
                }
                rates
            }
        }
    }
}
