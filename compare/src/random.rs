//! A small generator of numbers, the same on every machine.

use crate::values;

pub struct Random {
    state: u64,
}

impl Random {
    pub fn new(seed: u64) -> Random {
        // The state must not be 0, so the lowest bit is set.
        let mut random = Random {
            state: seed.wrapping_mul(0x9E37_79B9_7F4A_7C15) | 1,
        };
        for _ in 0..8 {
            random.next();
        }
        random
    }

    /// The next 64 bits (xorshift, then a multiplication).
    pub fn next(&mut self) -> u64 {
        self.state ^= self.state >> 12;
        self.state ^= self.state << 25;
        self.state ^= self.state >> 27;
        self.state.wrapping_mul(0x2545_F491_4F6C_DD1D)
    }

    /// A number below `limit`, which is not 0.
    pub fn below(&mut self, limit: u64) -> u64 {
        (self.next() >> 8) % limit
    }

    /// Whether an event with a chance of one in `many` happens.
    pub fn one_in(&mut self, many: u64) -> bool {
        self.below(many) == 0
    }

    pub fn pick<T: Copy>(&mut self, values: &[T]) -> T {
        values[self.below(values.len() as u64) as usize]
    }

    /// A number near `value`, past the ends of the range too.
    pub fn near(&mut self, value: u64) -> u64 {
        value.wrapping_add(self.below(7)).wrapping_sub(3)
    }

    /// A number of any size, often at or near a boundary.
    pub fn any(&mut self) -> u64 {
        match self.below(4) {
            0 => self.pick(&values::U64),
            1 => {
                let value = self.pick(&values::U64);
                self.near(value)
            }
            2 => {
                let bits = self.below(64);
                self.next() >> bits
            }
            _ => self.next(),
        }
    }
}
