//! Every field of an image set to telling values, one after another, and every call tried on it.

use crate::arguments::{self, telling_addresses, with_room};
use crate::exports;
use crate::faults::{
    block_lengths, read_addresses, table_blocks, table_count, with, Edit::*, Fault, Input,
};
use crate::images::{self, addresses_in};
use crate::layout::{
    get, identifier, Kind, Layout, Place, Record, ALIGNMENT, BLOCK, BLOCKS, DUMPED, NEGATIVE,
    OVERFLOW,
};
use crate::random::Random;
use crate::sides::{addresses_of, Call, Sides};

pub fn run(sides: &mut Sides, seed: u64, images: usize) {
    let kind = sides.tally.kind;
    let mut random = Random::new(seed);
    for number in 0..images {
        let image = images::base(kind, number, &mut random);
        one_image(sides, &image, &mut random);
    }
}

fn one_image(sides: &mut Sides, image: &[u8], random: &mut Random) {
    let layout = Layout::of(image);
    let base = Input {
        buffer: with_room(image, 700, random),
        used: image.len() as u64,
        call: Call::SectorCount,
    };
    for offset in telling_offsets(&layout) {
        let time = random.number();
        sides.compare(&base.buffer, base.used, &Call::Rollback { offset, time });
    }
    for place in layout.fields() {
        let addresses = concerned(image, &layout, place.record);
        for value in telling(image, &layout, place) {
            let right = Field(place.at, place.width, value);
            let wrong = Damage(place.at, place.width, value);
            let right = with(&base, &layout, &[right]);
            let wrong = with(&base, &layout, &[wrong]);
            every_call(sides, &right, &layout, &addresses, random);
            if wrong.buffer != right.buffer {
                every_call(sides, &wrong, &layout, &addresses, random);
            }
        }
    }
    for (record, fault) in several_fields(image, &layout) {
        let addresses = concerned(image, &layout, record);
        let input = with(&base, &layout, &fault);
        every_call(sides, &input, &layout, &addresses, random);
    }
}

/// Addresses that a damaged record concerns.
pub fn concerned(image: &[u8], layout: &Layout, record: Record) -> Vec<i64> {
    match record {
        Record::Table => read_addresses(image, layout),
        Record::TableEntry(number) => vec![layout.address(number)],
        Record::Block(block) => addresses_in(image, layout, block),
        _ => vec![layout.address(0)],
    }
}

/// The telling values that a field is wide enough for, without the one that stands there.
pub fn telling(image: &[u8], layout: &Layout, place: Place) -> Vec<u64> {
    let old = get(image, place.at, place.width);
    let length = image.len() as u64;
    let mut values = vec![0, 1, 33, 103, 104, 255, (1 << 32) - 4, (1 << 32) - 1];
    // Sums with these wrap, or products with 4, 8 and 16.
    values.extend([1 << 63, u64::MAX - 35, u64::MAX - 3, u64::MAX]);
    for bit in [60, 61, 62] {
        values.extend([1 << bit, old.wrapping_add(1 << bit)]);
    }
    values.extend([length, length - 1, length - 4, length - 20, length - 36]);
    values.extend([old.wrapping_add(1), old.wrapping_sub(1)]);
    if let Record::IndexEntry(_) = place.record {
        values.extend([b"DBLK", b"DDT*", b"DDT2", b"CKSM", b"IDX2"].map(identifier));
        values.extend([layout.table as u64, layout.index as u64, 2]);
    }
    if place.record == Record::Table {
        values.extend([2, 28, 32, 65_535]);
        if layout.kind == Kind::Second {
            let sum =
                get(image, layout.table + NEGATIVE, 2) + get(image, layout.table + OVERFLOW, 2);
            let blocks = get(image, layout.table + BLOCKS, 8);
            values.extend([sum.wrapping_sub(1), sum, sum + 1]);
            // What the other displacement leaves of the blocks.
            let left = blocks.wrapping_sub(sum).wrapping_add(old);
            values.extend([left, left.wrapping_add(1)]);
        }
    }
    if let Record::TableEntry(number) = place.record {
        let offsets = layout.blocks.iter().chain([&layout.table]);
        let item = 3 % (1 << layout.shift);
        values.extend(offsets.filter_map(|&at| layout.entry(at as u64, item)));
        values.push(old.wrapping_add(1 << layout.shift));
        if layout.kind == Kind::Second {
            values.extend((0..16).map(|status| status * DUMPED + old % DUMPED));
            values.extend((0..16).map(|status| status * DUMPED + (DUMPED - 1)));
            values.push(DUMPED);
        }
        // The offset of the same block, but for a bit that 32 bits don't have.
        if let Some((offset, item)) = layout.named(image, number) {
            values.extend(layout.entry(offset + (1 << 32), item));
        }
    }
    if place.width < 8 {
        values.retain(|&value| value < 1 << (8 * place.width));
    }
    values.sort();
    values.dedup();
    values.retain(|&value| value != old);
    values
}

/// Fields that only together get past the checks that compare them.
pub fn several_fields(image: &[u8], layout: &Layout) -> Vec<(Record, Fault)> {
    let (length, count) = (image.len() as u64, layout.count as u64);
    let kind = layout.kind;
    let fits = (image.len() - layout.table_entry(0)) as u64 / kind.width() as u64;
    let mut faults = Vec::new();
    let wrapping = kind.wrapping();
    let wrapping = [wrapping - 1, wrapping, wrapping + count, u64::MAX];
    let counts = [0, 1, count - 1, count + 1, fits, fits + 1, length, 1 << 32];
    for count in counts.into_iter().chain(wrapping) {
        faults.push((Record::Table, table_count(layout, count)));
    }
    if kind == Kind::Second {
        faults.extend(of_second(image, layout));
    }
    for (number, &block) in layout.blocks.iter().enumerate() {
        let size = get(image, block + 8, 4);
        let old = get(image, block + 16, 4);
        let fits = (image.len() - block - BLOCK) as u64 / size;
        let near = [0, 1, old - size, old + size, old + 1, size * fits];
        let far = [size * fits + size, length, (1 << 32) - 4, (1 << 32) - 1];
        for length in near.into_iter().chain(far) {
            faults.push((Record::Block(number), block_lengths(block, length)));
        }
        for bit in [0, 8 * old - 1] {
            let at = block + BLOCK + bit as usize / 8;
            let byte = get(image, at, 1) ^ 1 << (bit % 8);
            faults.push((Record::Block(number), vec![Damage(at, 1, byte)]));
        }
    }
    faults
}

/// Sums at and past a number of blocks, and the shifts at their limits with large pointers.
fn of_second(image: &[u8], layout: &Layout) -> Vec<(Record, Fault)> {
    let (table, most) = (layout.table, 65_535);
    let mut faults = Vec::new();
    for (negative, overflow) in [
        (0, 0),
        (1, 0),
        (0, 1),
        (most, 0),
        (most, 1),
        (1, most),
        (most, most),
    ] {
        let sum = negative + overflow;
        let blocks = [sum, sum + 1, sum ^ 1 << 16, 1 << 32, 1 << 63, u64::MAX];
        for blocks in blocks.into_iter().chain(sum.checked_sub(1)) {
            let fault = table_blocks(table, negative, overflow, blocks);
            faults.push((Record::Table, fault));
        }
    }
    let ones = DUMPED - 1;
    for number in read_addresses(image, layout)
        .into_iter()
        .map(|address| layout.number(address))
    {
        let at = layout.table_entry(number);
        for (shift, alignment) in [
            (0, 0),
            (0, 32),
            (27, 32),
            (28, 0),
            (28, 32),
            (32, 32),
            (0, 33),
        ] {
            for pointer in [0, 1, 1 << 27, ones - 1, ones] {
                let fault = vec![
                    Field(table + layout.kind.shift(), 1, shift),
                    Field(table + ALIGNMENT, 1, alignment),
                    Field(at, 4, DUMPED + pointer),
                ];
                faults.push((Record::TableEntry(number), fault));
            }
        }
    }
    faults
}

/// Opening, reads at the addresses and others, a commit, rollbacks, and exports.
fn every_call(
    sides: &mut Sides,
    input: &Input,
    layout: &Layout,
    addresses: &[i64],
    random: &mut Random,
) {
    let mut run = |call| sides.run(&input.buffer, input.used, &call);
    let all = match run(Call::SectorCount) {
        Ok(range) => addresses_of(range),
        Err(_) => layout.addresses(),
    };
    for &address in addresses.iter().take(2) {
        let _ = run(Call::Locate(address));
    }
    let _ = run(Call::Locate(match random.below(2) {
        0 => layout.address(random.below(layout.count)),
        _ => random.pick(&telling_addresses(&all)),
    }));
    let _ = run(Call::Commit(arguments::commit(random, layout.addresses())));

    for offset in [layout.index as u64, random.pick(&telling_offsets(layout))] {
        let time = random.number();
        let _ = run(Call::Rollback { offset, time });
    }
    let _ = exports::in_every_room(sides, &input.buffer, input.used);
}

/// Where a rollback may be sent to.
fn telling_offsets(layout: &Layout) -> Vec<u64> {
    let (length, index) = (layout.length as u64, layout.index as u64);
    let mut offsets = vec![0, 1, 103, 104, index - 1, index + 1, layout.table as u64];
    offsets.extend([length - 21, length - 20, length - 19, length - 1, length]);
    offsets.extend([(1 << 32) - 4, (1 << 32) - 1, 1 << 32, index + (1 << 32)]);
    offsets.extend([1 << 63, u64::MAX - 19, u64::MAX - 3, u64::MAX]);
    offsets
}
