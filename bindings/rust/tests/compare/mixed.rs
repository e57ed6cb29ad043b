//! Both kinds of table in one buffer: a disc of the old kind, and behind it a table and an index of
//! the second kind that name the same blocks. The header names one index, a rollback goes to the
//! other.

use crate::arguments::{self, with_room};
use crate::exports;
use crate::faults::{self, with, Input};
use crate::images::{self, fill_table, Entries};
use crate::layout::{get, put, Kind, Layout, INDEX_OFFSET};
use crate::random::Random;
use crate::sides::{refused, Call, Sides};

pub fn run(sides: &mut Sides, seed: u64, images: usize) {
    let mut random = Random::new(seed);
    for number in 0..images {
        let image = images::base(Kind::Old, number, &mut random);
        one_image(sides, &image, &mut random);
    }
}

fn one_image(sides: &mut Sides, old: &[u8], random: &mut Random) {
    let (mut image, second) = with_second(old, random);
    let old = Layout {
        length: image.len(),
        ..Layout::of(old)
    };
    let (here, there) = match sides.tally.kind {
        Kind::Old => (old, second),
        Kind::Second => (second, old),
    };
    put(&mut image, INDEX_OFFSET, 8, here.index as u64);
    let used = image.len() as u64;
    let buffer = with_room(&image, 700, random);
    sides.compare(&buffer, used, &Call::SectorCount);
    for address in here.addresses() {
        sides.compare(&buffer, used, &Call::Locate(address));
    }
    let commit = Call::Commit(arguments::commit(random, here.addresses()));
    sides.compare(&buffer, used, &commit);
    let _ = exports::in_every_room(sides, &buffer, used);

    for layout in [&here, &there] {
        let (offset, time) = (layout.index as u64, random.number());
        let base = Input {
            buffer: buffer.clone(),
            used,
            call: Call::Rollback { offset, time },
        };
        let expected = match layout.kind {
            Kind::Old => Ok((used, offset)),
            Kind::Second => refused(74),
        };
        assert_eq!(sides.run(&base.buffer, used, &base.call), expected);
        for fault in faults::of_opening(&image, layout) {
            let input = with(&base, layout, &fault);
            sides.compare(&input.buffer, input.used, &input.call);
        }
    }
}

/// The image with a table and an index of the second kind behind it, and the layout by that index.
fn with_second(old: &[u8], random: &mut Random) -> (Vec<u8>, Layout) {
    let layout = Layout::of(old);
    let kind = Kind::Second;
    let aligned = layout.blocks.iter().map(|block| block.trailing_zeros());
    let alignment = aligned.min().unwrap_or(0).into();
    let table = images::table(kind, layout.count, alignment, random);
    let index = &old[layout.index..layout.index_entry(layout.entries)];
    let mut image = [old, &table, index].concat();

    let second = Layout {
        index: old.len() + table.len(),
        ..layout.clone()
    };
    for at in (0..layout.entries).map(|entry| second.index_entry(entry)) {
        if get(&image, at + 8, 8) == layout.table as u64 {
            image[at..at + 4].copy_from_slice(kind.letters());
            put(&mut image, at + 8, 8, old.len() as u64);
        }
    }
    let mut second = Layout::at(&image, second.index);
    let items = (0..layout.count).filter_map(|number| layout.named(old, number));
    let items: Vec<(u64, u64)> = items.collect();
    let entries = match items.len() == layout.count {
        true => Entries::Written,
        false => Entries::Some,
    };
    fill_table(&mut image, &items, &mut second, entries, random);
    second.make_right(&mut image);
    (image, second)
}
