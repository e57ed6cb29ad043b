//! Arguments that a call accepts.

use crate::layout::APPLICATION;
use crate::random::Random;
use crate::sides::{About, Commit, Create, Import};
use std::ops::Range;

/// A sector's bytes: few different ones, so that equal sectors are met often.
pub fn sector(random: &mut Random, size: usize) -> Vec<u8> {
    match random.below(8) {
        0 => random.bytes(size),
        letter => vec![b'A' + letter as u8 % 3; size],
    }
}

pub const SIZES: [usize; 8] = [1, 2, 3, 4, 4, 5, 8, 16];

/// A commit that an image of the old kind with these addresses accepts, if its sectors read.
pub fn commit(random: &mut Random, addresses: Range<i64>) -> Commit {
    let addresses: Vec<i64> = addresses.filter(|_| random.once_in(2)).collect();
    let size = random.pick(&SIZES);
    Commit {
        sectors: (0..addresses.len())
            .flat_map(|_| sector(random, size))
            .collect(),
        addresses,
        size: size as u64,
        time: random.number(),
    }
}

/// Some addresses that a disc with these does not have.
pub fn outside(addresses: &Range<i64>) -> [i64; 6] {
    let (lowest, end) = (addresses.start, addresses.end);
    // The entry number of the last but one is 2^63 - 1.
    [
        lowest - 1,
        end,
        end + 1,
        1 << 32,
        i64::MAX + lowest,
        i64::MIN,
    ]
}

/// Addresses at both ends of the disc and of 64 bits, around 0, and some that have equal low bits.
pub fn telling_addresses(addresses: &Range<i64>) -> Vec<i64> {
    let (lowest, end) = (addresses.start, addresses.end);
    let mut telling = outside(addresses).to_vec();
    telling.extend([lowest, -1, 0, end - 1, i64::MAX, i64::MIN + 1]);
    // A sum that wraps makes of i64::MAX the entry number i64::MIN + `negative` - 1.
    telling.push(i64::MIN + (-lowest - 1).max(0));
    telling.extend([lowest - (1 << 32), lowest + (1 << 32), end + (1 << 32)]);
    telling.sort();
    telling.dedup();
    telling
}

pub fn create(random: &mut Random, sectors: u64) -> Create {
    Create {
        sectors,
        about: about(random),
    }
}

/// A flat file of so many sectors.
pub fn import(random: &mut Random, count: usize, size: usize) -> Import {
    Import {
        flat: (0..count).flat_map(|_| sector(random, size)).collect(),
        size: size as u64,
        about: about(random),
    }
}

/// Creating's arguments but the number of sectors.
pub fn about(random: &mut Random) -> About {
    About {
        application: random.bytes(APPLICATION),
        major: random.number() as u8,
        minor: random.number() as u8,
        media_type: random.number() as u32,
        created: random.number(),
        written: random.number(),
    }
}

/// The image at the start of a buffer with room behind it.
pub fn with_room(image: &[u8], room: usize, random: &mut Random) -> Vec<u8> {
    [image, &random.bytes(room)].concat()
}
