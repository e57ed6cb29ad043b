//! Flat files in: of many sizes and lengths, into buffers of every length around what they need.
//! Beside the comparison, an import is held to a creation and a commit by the library itself, and
//! its export to the file.

use crate::arguments::{self, with_room, SIZES};
use crate::exports;
use crate::layout::{APPLICATION, CREATED};
use crate::random::Random;
use crate::sides::{raw, refused, Call, Commit, Create, Import, Sides, RULES};

pub fn run(sides: &mut Sides, seed: u64, files: usize) {
    let mut random = Random::new(seed);
    for _ in 0..files {
        let (count, size) = (1 + random.below(40), random.pick(&SIZES));
        accepted(sides, &file(&mut random, count, size), &mut random);
        refused_arguments(sides, &mut random);
    }
    for size in [511, 512, 2048, 65_535, 65_536] {
        for count in 1..=4 {
            accepted(sides, &file(&mut random, count, size), &mut random);
        }
    }
    // Some hundred different sectors, for shifts up to 10.
    for count in [300, 1000, 2000] {
        let mut import = arguments::import(&mut random, 0, 2);
        let sectors = (0..count).flat_map(|_| (random.below(700) as u16).to_le_bytes());
        import.flat = sectors.collect();
        accepted(sides, &import, &mut random);
    }
    for size in SIZES {
        every_buffer(sides, size, &mut random);
        every_length(sides, size, &mut random);
    }
}

/// A flat file with few different sectors, or with any bytes.
fn file(random: &mut Random, count: usize, size: usize) -> Import {
    let mut import = arguments::import(random, count, size);
    if random.once_in(3) {
        import.flat = random.bytes(count * size);
    }
    import
}

/// Bytes for a buffer that is longer than needed.
fn plenty(import: &Import, random: &mut Random) -> Vec<u8> {
    let sectors = import.flat.len() / import.size as usize;
    random.bytes(CREATED + 200 + 16 * sectors + import.flat.len())
}

/// The two calls that an import stands for.
fn parts(import: &Import) -> (Call, Call) {
    let (sectors, about) = (import.flat.len() as u64 / import.size, &import.about);
    let create = Create {
        sectors,
        about: about.clone(),
    };
    let commit = Commit {
        addresses: (0..sectors as i64).collect(),
        size: import.size,
        sectors: import.flat.clone(),
        time: about.written,
    };
    (Call::Create(create), Call::Commit(commit))
}

/// One that is accepted, given room: the two calls leave the same bytes and answer the same.
fn accepted(sides: &mut Sides, import: &Import, random: &mut Random) {
    let buffer = plenty(import, random);
    let answer = sides.run(&buffer, 0, &Call::Import(import.clone()));
    let (create, commit) = parts(import);
    let mut made = buffer.clone();
    let (used, _) = raw(&mut made, 0, &create).expect("room enough");
    assert_eq!(raw(&mut made, used, &commit), answer);
    assert!(sides.left() == made, "not as creating and one commit");
    in_every_buffer(sides, import, &buffer, random);
}

/// Into the buffer, which is longer than needed, into just what is needed, and into less; then out
/// again.
pub fn in_every_buffer(sides: &mut Sides, import: &Import, buffer: &[u8], random: &mut Random) {
    let call = Call::Import(import.clone());
    let answer = sides.run(buffer, 0, &call);
    let (used, _) = answer.expect("room enough");
    let image = sides.left()[..used as usize].to_vec();
    let (length, needed) = (import.flat.len(), image.len());
    let created = CREATED + 8 * (length / import.size as usize);
    for less in [0, created - 1, created, needed - 1] {
        assert_eq!(sides.run(&buffer[..less], 0, &call), refused(35));
    }
    assert_eq!(sides.run(&buffer[..needed], 0, &call), answer);

    let buffer = with_room(&image, length + 3, random);
    let answers = exports::in_every_room(sides, &buffer, used);
    assert_eq!(answers, [Ok((length as u64, 0)); 2]);
    for rule in RULES {
        sides.compare(&buffer, used, &Call::Export(rule));
        assert!(sides.left()[needed..].starts_with(&import.flat));
    }
}

fn every_buffer(sides: &mut Sides, size: usize, random: &mut Random) {
    let import = file(random, 6, size);
    let buffer = plenty(&import, random);
    let call = Call::Import(import);
    let (needed, _) = sides.run(&buffer, 0, &call).expect("room enough");
    for length in 0..=needed as usize + 8 {
        let answer = sides.run(&buffer[..length], 0, &call);
        assert_eq!(answer.is_ok(), length >= needed as usize);
    }
}

fn every_length(sides: &mut Sides, size: usize, random: &mut Random) {
    let mut import = file(random, 4, size);
    let buffer = plenty(&import, random);
    for length in (0..=import.flat.len()).rev() {
        import.flat.truncate(length);
        let answer = sides.run(&buffer, 0, &Call::Import(import.clone()));
        match (length, length % size) {
            (0, _) => assert_eq!(answer, refused(30)),
            (_, 0) => assert!(answer.is_ok()),
            _ => assert_eq!(answer, refused(42)),
        }
    }
}

/// One argument that is refused; `pairs` has two at once.
fn refused_arguments(sides: &mut Sides, random: &mut Random) {
    let right = file(random, 3, 4);
    let buffer = plenty(&right, random);
    let mut run = |import: Import| sides.run(&buffer, 0, &Call::Import(import));
    for size in [0, 65_537, 1 << 32, (1 << 32) + 4, u64::MAX] {
        let mut import = right.clone();
        import.size = size;
        assert_eq!(run(import), refused(30));
    }
    for length in [0, APPLICATION / 2, APPLICATION - 1, APPLICATION + 1] {
        let mut import = right.clone();
        import.about.application.resize(length, 7);
        assert_eq!(run(import), refused(33));
    }
}
