//! A small generator of numbers. Every run is the same, unless the environment's `SEED` asks for
//! another one.

use std::env;
use std::sync::OnceLock;

pub struct Random(u64);

/// The run's seed: the decimal number `SEED`, or 0 if it is not set.
pub fn seed_of_run() -> u64 {
    static SEED: OnceLock<u64> = OnceLock::new();
    *SEED.get_or_init(|| {
        env::var_os("SEED").map_or(0, |text| {
            let number = text.to_str().and_then(|text| text.parse().ok());
            number.unwrap_or_else(|| panic!("SEED is no decimal number below 2^64: {text:?}"))
        })
    })
}

impl Random {
    /// For one part of the run.
    pub fn new(seed: u64) -> Random {
        let part = (seed + 1).wrapping_mul(0x9E37_79B9_7F4A_7C15);
        let run = seed_of_run().wrapping_mul(0xD6E8_FEB8_6659_FD93);
        // From 0 only zeros would come.
        Random((part ^ run).max(1))
    }

    pub fn number(&mut self) -> u64 {
        self.0 ^= self.0 >> 12;
        self.0 ^= self.0 << 25;
        self.0 ^= self.0 >> 27;
        self.0.wrapping_mul(0x2545_F491_4F6C_DD1D)
    }

    pub fn below(&mut self, bound: usize) -> usize {
        ((self.number() >> 32) % bound as u64) as usize
    }

    /// True once in `times`.
    pub fn once_in(&mut self, times: usize) -> bool {
        self.below(times) == 0
    }

    pub fn pick<T: Clone>(&mut self, from: &[T]) -> T {
        from[self.below(from.len())].clone()
    }

    pub fn bytes(&mut self, length: usize) -> Vec<u8> {
        (0..length).map(|_| self.number() as u8).collect()
    }

    pub fn shuffle<T>(&mut self, list: &mut [T]) {
        for last in (1..list.len()).rev() {
            list.swap(last, self.below(last + 1));
        }
    }
}
