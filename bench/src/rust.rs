//! The checksum in Rust, three ways, to compare with.

const POLYNOMIAL: u64 = 0xC96C_5795_D787_0F42;

const fn shift(x: u64) -> u64 {
    if x % 2 == 1 {
        (x >> 1) ^ POLYNOMIAL
    } else {
        x >> 1
    }
}

const fn shifts(mut x: u64, n: u32) -> u64 {
    let mut left = n;
    while left > 0 {
        x = shift(x);
        left -= 1;
    }
    x
}

/// The algorithm of the crate `crc64`: eight tables filled in each call, four lanes.
pub mod lanes {
    use super::{shift, shifts};

    type Tables = [u64; 2048];

    fn powers() -> [u64; 64] {
        let mut x = shifts(128, 200);
        std::array::from_fn(|_| {
            let power = x;
            x = shift(x);
            power
        })
    }

    fn fill(t: &mut Tables) {
        let powers = powers();
        for (k, table) in t.chunks_exact_mut(256).enumerate() {
            for j in 0..8 {
                let half = 1 << j;
                let x = powers[8 * k + 7 - j];
                let (low, high) = table.split_at_mut(half);
                for (h, l) in high.iter_mut().zip(low) {
                    *h = *l ^ x;
                }
            }
        }
    }

    fn lane(t: &Tables, x: u64) -> u64 {
        let byte = |n: u32| ((x >> (8 * n)) & 0xff) as usize;
        t[byte(7)]
            ^ t[256 + byte(6)]
            ^ t[512 + byte(5)]
            ^ t[768 + byte(4)]
            ^ t[1024 + byte(3)]
            ^ t[1280 + byte(2)]
            ^ t[1536 + byte(1)]
            ^ t[1792 + byte(0)]
    }

    fn words(bytes: &[u8]) -> [u64; 4] {
        std::array::from_fn(|n| u64::from_le_bytes(bytes[8 * n..8 * n + 8].try_into().unwrap()))
    }

    fn bitwise(mut x: u64, s: &[u8]) -> u64 {
        for b in s {
            x = shifts(x ^ u64::from(*b), 8);
        }
        x
    }

    pub fn checksum(s: &[u8]) -> u64 {
        let mut t = [0; 2048];
        fill(&mut t);
        let mut parts = s.chunks_exact(32);
        let mut x = u64::MAX;
        if let Some(first) = parts.next() {
            let mut r = words(first);
            r[0] ^= x;
            for part in &mut parts {
                let w = words(part);
                for n in 0..4 {
                    r[n] = lane(&t, r[n]) ^ w[n];
                }
            }
            x = r[1..].iter().fold(r[0], |x, w| shifts(x, 64) ^ w);
            x = shifts(x, 64);
        }
        !bitwise(x, parts.remainder())
    }
}

/// Table k has for each byte what 8 + 8 k shifts make of it.
const TABLES: [[u64; 256]; 8] = {
    let mut t = [[0; 256]; 8];
    let mut k = 0;
    while k < 8 {
        let mut b = 0;
        while b < 256 {
            t[k][b] = shifts(b as u64, 8 + 8 * k as u32);
            b += 1;
        }
        k += 1;
    }
    t
};
static TABLE: [[u64; 256]; 8] = TABLES;

fn update_bytewise(mut x: u64, s: &[u8]) -> u64 {
    for b in s {
        x = (x >> 8) ^ TABLE[0][((x ^ u64::from(*b)) & 0xff) as usize];
    }
    x
}

/// One table, made when the program was compiled, and a byte at a time.
pub fn bytewise(s: &[u8]) -> u64 {
    !update_bytewise(u64::MAX, s)
}

/// Eight tables, made when the program was compiled, and eight bytes at a time (slicing by 8).
pub fn slicing(s: &[u8]) -> u64 {
    let mut words = s.chunks_exact(8);
    let mut x = u64::MAX;
    for word in &mut words {
        x ^= u64::from_le_bytes(word.try_into().unwrap());
        let byte = |n: u32| ((x >> (8 * n)) & 0xff) as usize;
        x = TABLE[7][byte(0)]
            ^ TABLE[6][byte(1)]
            ^ TABLE[5][byte(2)]
            ^ TABLE[4][byte(3)]
            ^ TABLE[3][byte(4)]
            ^ TABLE[2][byte(5)]
            ^ TABLE[1][byte(6)]
            ^ TABLE[0][byte(7)];
    }
    !update_bytewise(x, words.remainder())
}
