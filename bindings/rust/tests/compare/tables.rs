//! Whole images whose tables name anything: of the second kind with every status, any pointer and
//! any displacement.

use crate::arguments::{self, telling_addresses, with_room};
use crate::exports;
use crate::images::{self, fill_table, Description, Entries};
use crate::layout::Layout;
use crate::random::Random;
use crate::sides::{Call, Sides};

/// So many tables are tried with the same blocks.
const TABLES: usize = 80;

pub fn run(sides: &mut Sides, seed: u64, images: usize) {
    let mut random = Random::new(seed);
    for _ in 0..images {
        let count = 1 + random.below(12);
        let description = Description::rich(sides.tally.kind, &mut random).with_count(count);
        let mut image = description.build(&mut random);
        for _ in 0..TABLES {
            let layout = set_table(&mut image, &mut random);
            reads(sides, &image, &layout, &mut random);
        }
        let used = image.len() as u64;
        for address in telling_addresses(&Layout::of(&image).addresses()) {
            sides.compare(&image, used, &Call::Locate(address));
        }
    }
}

/// Writes another table of the same length.
fn set_table(image: &mut [u8], random: &mut Random) -> Layout {
    let old = Layout::of(image);
    let table = images::table(old.kind, old.count, old.alignment, random);
    image[old.table..old.table + table.len()].copy_from_slice(&table);
    let mut layout = Layout::of(image);
    let blocks = layout.blocks.iter();
    let items = blocks.flat_map(|&at| (0..4).map(move |item| (at as u64, item)));
    let items: Vec<(u64, u64)> = items.collect();
    fill_table(image, &items, &mut layout, Entries::Wild, random);
    layout.make_right(image);
    layout
}

fn reads(sides: &mut Sides, image: &[u8], layout: &Layout, random: &mut Random) {
    let (used, all) = (image.len() as u64, layout.addresses());
    sides
        .run(image, used, &Call::SectorCount)
        .expect("it is whole");
    for _ in 0..2 {
        let address = layout.address(random.below(layout.count));
        sides.compare(image, used, &Call::Locate(address));
    }
    if random.once_in(4) {
        let commit = Call::Commit(arguments::commit(random, all));
        sides.compare(image, used, &commit);
        let buffer = with_room(image, 200, random);
        exports::compare(sides, &buffer, used);
    }
}
