//! Built images as they are, images cut at every length, and buffers of every length around what a
//! call needs.

use crate::arguments::{self, telling_addresses, with_room};
use crate::exports;
use crate::images::{self, Description};
use crate::layout::{Kind, Layout, CREATED};
use crate::random::Random;
use crate::sides::{addresses_of, refused, Call, Sides};

pub fn run(sides: &mut Sides, seed: u64, images: usize) {
    let kind = sides.tally.kind;
    let mut random = Random::new(seed);
    for number in 0..8 {
        let image = images::base(kind, number, &mut random);
        cut_everywhere(sides, &image, &mut random);
    }
    if kind == Kind::Old {
        for sectors in 1..=8 {
            buffers_for_creation(sides, sectors, &mut random);
        }
        for number in 0..150 {
            let image = images::base(kind, number, &mut random);
            buffers_for_commit(sides, &image, &mut random);
        }
    }
    for _ in 0..images {
        let image = Description::random(kind, &mut random).build(&mut random);
        built_image(sides, &image, &mut random);
    }
}

/// Every call on the image's first bytes, as many as there are.
fn cut_everywhere(sides: &mut Sides, image: &[u8], random: &mut Random) {
    let layout = Layout::of(image);
    let buffer = with_room(image, 600, random);
    let all = layout.addresses();
    let commit = Call::Commit(arguments::commit(random, all.clone()));
    let offset = layout.index as u64;
    for used in 0..=image.len() as u64 {
        sides.compare(&buffer, used, &Call::SectorCount);
        for _ in 0..2 {
            let address = all.start + random.below(layout.count + 1) as i64;
            sides.compare(&buffer, used, &Call::Locate(address));
        }
        sides.compare(&buffer, used, &commit);
        sides.compare(&buffer[..image.len()], used, &commit);
        let time = random.number();
        sides.compare(&buffer, used, &Call::Rollback { offset, time });
        exports::compare(sides, &buffer, used);
    }
}

fn buffers_for_creation(sides: &mut Sides, sectors: u64, random: &mut Random) {
    let needed = CREATED + 8 * sectors as usize;
    let create = Call::Create(arguments::create(random, sectors));
    let buffer = random.bytes(needed + 8);
    for length in 0..=buffer.len() {
        let answer = sides.run(&buffer[..length], 0, &create);
        assert_eq!(answer.is_ok(), length >= needed);
    }
}

fn buffers_for_commit(sides: &mut Sides, image: &[u8], random: &mut Random) {
    let used = image.len() as u64;
    let commit = Call::Commit(arguments::commit(random, Layout::of(image).addresses()));
    let buffer = with_room(image, 1000, random);
    let (needed, _) = sides.run(&buffer, used, &commit).expect("there is room");
    let needed = needed as usize;
    for length in image.len().max(needed - 40)..=needed + 8 {
        let answer = sides.run(&buffer[..length], used, &commit);
        assert_eq!(answer.is_ok(), length >= needed);
    }
}

/// A built image as it is, and every address of it.
fn built_image(sides: &mut Sides, image: &[u8], random: &mut Random) {
    let layout = Layout::of(image);
    let (used, all) = (image.len() as u64, layout.addresses());
    let buffer = with_room(image, 700, random);
    let answer = sides.run(&buffer, used, &Call::SectorCount);
    assert_eq!(answer.map(addresses_of), Ok(all.clone()));
    for address in all.clone().chain([random.pick(&telling_addresses(&all))]) {
        sides.compare(&buffer, used, &Call::Locate(address));
    }
    let commit = Call::Commit(arguments::commit(random, all));
    sides.compare(&buffer, used, &commit);
    let _ = exports::in_every_room(sides, &buffer, used);
    let (offset, time) = (layout.index as u64, random.number());
    let answer = sides.run(&buffer, used, &Call::Rollback { offset, time });
    let expected = match layout.kind {
        Kind::Old => Ok((used, offset)),
        Kind::Second => refused(74),
    };
    assert_eq!(answer, expected);
}
