//! Two faults at once: a call that is accepted, and any two faults each of which alone is refused,
//! with another number or place than the other. What both give is decided by the order of checks.

use crate::arguments::{self, outside, with_room};
use crate::faults::{self, clash, with, Edit::*, Fault, Input};
use crate::images::{self, spare_entry, Description};
use crate::layout::{Kind, Layout, CREATED, HEADER};
use crate::random::Random;
use crate::sides::{Answer, Call, Rule, Sides, RULES};
use aaru::Refusal;

pub fn run(sides: &mut Sides, seed: u64, images: usize) {
    let kind = sides.tally.kind;
    let mut random = Random::new(seed);
    for number in 0..images {
        let image = images::base(kind, number, &mut random);
        let layout = Layout::of(&image);
        if faults::read_addresses(&image, &layout).is_empty() {
            continue;
        }
        sector_count(sides, &image, &layout, &mut random);
        locate(sides, &image, &layout, &mut random);
        commit(sides, &image, &layout, &mut random);
        rollback(sides, &image, &layout, &mut random);
        for rule in RULES {
            export(sides, rule, &mut random);
        }
        if kind == Kind::Old {
            create(sides, &mut random);
            import(sides, &mut random);
        }
    }
}

/// The order of checks, which is the same for all calls as far as they have them, but for 21 of a
/// plain export.
const ORDER: [u32; 36] = [
    31, 32, 30, 42, 33, 34, 1, 2, 3, 4, 5, 6, 7, 8, 9, 10, 11, 13, 70, 71, 72, 12, 14, 74, 20, 21,
    73, 22, 23, 24, 25, 26, 27, 40, 41, 35,
];

fn order_of(call: &Call) -> Vec<u32> {
    let mut order = ORDER.to_vec();
    if let Call::Export(Rule::Plain) = call {
        order.retain(|&number| number != 21);
        let sizes = order.iter().position(|&number| number == 40);
        order.insert(sizes.unwrap(), 21);
    }
    order
}

/// Runs the base, every fault alone, and two of them with different numbers or places at once:
/// those that are near each other in the order of checks always, the rest sometimes. The base is
/// accepted, but for a call that would write to the second kind.
fn pairs(
    sides: &mut Sides,
    base: &Input,
    layout: &Layout,
    faults: Vec<Fault>,
    random: &mut Random,
) {
    let refusal = run_input(sides, base).err().map(|refusal| refusal.number);
    let not_written = layout.kind == Kind::Second && base.call.writes();
    assert_eq!(refusal, not_written.then_some(74));
    let mut refused = Vec::new();
    for fault in faults {
        if let Err(refusal) = run_input(sides, &with(base, layout, &fault)) {
            refused.push((refusal, fault));
        }
    }
    let mut order = order_of(&base.call);
    order.retain(|number| refused.iter().any(|(met, _)| met.number == *number));
    let rank = |refusal: &Refusal| order.iter().position(|met| *met == refusal.number).unwrap();
    for (second, (refusal, fault)) in refused.iter().enumerate() {
        for (other_refusal, other) in &refused[..second] {
            let wanted = match rank(refusal).abs_diff(rank(other_refusal)) {
                0 => refusal.place != other_refusal.place,
                1 | 2 => true,
                _ => random.once_in(4),
            };
            if wanted && !clash(fault, other) {
                let both = [&fault[..], &other[..]].concat();
                // Some mend each other: the table's entry loses its data type, another gets it.
                if run_input(sides, &with(base, layout, &both)).is_err() {
                    sides.tally.two_faults += 1;
                }
            }
        }
    }
}

fn run_input(sides: &mut Sides, input: &Input) -> Answer {
    sides.run(&input.buffer, input.used, &input.call)
}

fn sector_count(sides: &mut Sides, image: &[u8], layout: &Layout, random: &mut Random) {
    let base = Input {
        buffer: image.to_vec(),
        used: image.len() as u64,
        call: Call::SectorCount,
    };
    let faults = faults::of_opening(image, layout);
    pairs(sides, &base, layout, faults, random);
}

fn locate(sides: &mut Sides, image: &[u8], layout: &Layout, random: &mut Random) {
    let all = layout.addresses();
    let address = random.pick(&faults::read_addresses(image, layout));
    let base = Input {
        buffer: image.to_vec(),
        used: image.len() as u64,
        call: Call::Locate(address),
    };
    let mut faults = faults::of_opening(image, layout);
    faults.extend(faults::of_reading(image, layout, address));
    let addresses = all.clone().chain(outside(&all));
    faults.extend(addresses.map(|address| vec![Address(address)]));
    pairs(sides, &base, layout, faults, random);
}

fn commit(sides: &mut Sides, image: &[u8], layout: &Layout, random: &mut Random) {
    let used = image.len() as u64;
    let commit = loop {
        let commit = arguments::commit(random, layout.addresses());
        if commit.addresses.len() >= 3 {
            break commit;
        }
    };
    let mut base = Input {
        buffer: with_room(image, 1000, random),
        used,
        call: Call::Commit(commit.clone()),
    };
    let needed = match run_input(sides, &base) {
        Ok((needed, _)) => needed as usize,
        // To the second kind nothing is written, whatever the buffer's length.
        Err(_) => image.len() + 500,
    };
    base.buffer.truncate(needed + random.below(3));

    let mut faults = faults::of_opening(image, layout);
    for address in faults::read_addresses(image, layout) {
        faults.extend(faults::of_reading(image, layout, address));
    }
    let (bytes, second) = (commit.sectors.len(), commit.addresses[1]);
    faults.extend([
        vec![Used(base.buffer.len() as u64 + 1)],
        vec![Used(u64::MAX)],
        vec![Size(0)],
        vec![Size(65_537)],
        vec![BytesLength(bytes - 1)],
        vec![BytesLength(bytes + 1)],
        vec![BytesLength(bytes - commit.size as usize)],
        vec![FirstAddress(second)],
        vec![FirstAddress(second + 1)],
        // By their sign the first two rise, the others don't.
        vec![FirstAddress(layout.addresses().start - 1)],
        vec![FirstAddress(i64::MIN)],
        vec![LastAddress(layout.addresses().start - 1)],
        vec![LastAddress(i64::MIN)],
        vec![LastAddress(layout.addresses().end)],
        vec![LastAddress(i64::MAX)],
        vec![BufferLength(needed - 1)],
        vec![BufferLength(image.len())],
    ]);
    if random.once_in(5) {
        faults.push(vec![AddressCount(65_537)]);
    }
    pairs(sides, &base, layout, faults, random);
}

/// The image with a copy of its index behind it, and the layout by that one: the header still
/// names the other.
fn with_second_index(image: &[u8], layout: &Layout) -> (Vec<u8>, Layout) {
    let index = layout.index..layout.index_entry(layout.entries);
    let longer = [image, &image[index]].concat();
    let layout = Layout {
        index: image.len(),
        length: longer.len(),
        ..layout.clone()
    };
    (longer, layout)
}

fn rollback(sides: &mut Sides, image: &[u8], layout: &Layout, random: &mut Random) {
    let (image, layout) = &with_second_index(image, layout);
    let (used, index) = (image.len() as u64, layout.index as u64);
    let base = Input {
        buffer: with_room(image, 9, random),
        used,
        call: Call::Rollback {
            offset: index,
            time: random.number(),
        },
    };
    let mut faults = faults::of_opening(image, layout);
    faults.extend([vec![Used(used + 10)], vec![Used(u64::MAX)]]);
    for offset in [0, 103, used - 19, used, index + 1, (1 << 32) - 1, u64::MAX] {
        faults.push(vec![Offset(offset)]);
    }
    pairs(sides, &base, layout, faults, random);
}

fn create(sides: &mut Sides, random: &mut Random) {
    let sectors = 1 + random.below(9) as u64;
    let needed = CREATED + 8 * sectors as usize;
    let base = Input {
        buffer: random.bytes(needed + 1),
        used: 0,
        call: Call::Create(arguments::create(random, sectors)),
    };
    let mut faults: Vec<Fault> = Vec::new();
    faults.extend([0, 1_048_577, u64::MAX].map(|sectors| vec![Sectors(sectors)]));
    faults.extend([0, 32, 63, 65].map(|length| vec![ApplicationLength(length)]));
    faults.extend([0, HEADER, needed - 1].map(|length| vec![BufferLength(length)]));
    pairs(sides, &base, &Layout::default(), faults, random);
}

/// Of a disc that can be exported, with faults of its first and its last sector, or with no sector
/// written.
fn export(sides: &mut Sides, rule: Rule, random: &mut Random) {
    let image = Description::even(sides.tally.kind, random).build(random);
    let layout = Layout::of(&image);
    let mut base = Input {
        buffer: with_room(&image, 300, random),
        used: image.len() as u64,
        call: Call::Export(rule),
    };
    let (length, _) = run_input(sides, &base).expect("it is even");
    let needed = image.len() + length as usize;
    base.buffer.truncate(needed + random.below(3));

    let mut faults = Vec::new();
    // The order within an opening is seen above: most of its faults come alone.
    for fault in faults::of_opening(&image, &layout) {
        match random.once_in(4) {
            true => faults.push(fault),
            false => drop(run_input(sides, &with(&base, &layout, &fault))),
        }
    }
    for number in [0, layout.count - 1] {
        faults.extend(faults::of_reading(&image, &layout, layout.address(number)));
        let (at, width) = (layout.table_entry(number), layout.kind.width());
        faults.push(vec![Field(at, width, spare_entry(&image, &layout))]);
    }
    let width = layout.kind.width();
    let unwritten = (0..layout.count).map(|number| Field(layout.table_entry(number), width, 0));
    faults.push(unwritten.collect());
    faults.extend([needed - 1, image.len()].map(|length| vec![BufferLength(length)]));
    pairs(sides, &base, &layout, faults, random);
}

fn import(sides: &mut Sides, random: &mut Random) {
    let (count, size) = (1 + random.below(9), 2 + random.below(3));
    let mut base = Input {
        buffer: random.bytes(600),
        used: 0,
        call: Call::Import(arguments::import(random, count, size)),
    };
    let (needed, _) = run_input(sides, &base).expect("there is room");
    let needed = needed as usize;
    base.buffer.truncate(needed + random.below(3));

    let (created, length, most) = (CREATED + 8 * count, count * size, 65_536 * size);
    let mut faults: Vec<Fault> = Vec::new();
    faults.extend([0, 65_537, u64::MAX].map(|size| vec![Size(size)]));
    faults.extend([0, most + 1, most + size].map(|length| vec![FlatLength(length)]));
    faults.extend([length - 1, length + 1].map(|length| vec![FlatLength(length)]));
    faults.extend([0, 32, 63, 65].map(|length| vec![ApplicationLength(length)]));
    faults.extend([0, HEADER, created, needed - 1].map(|length| vec![BufferLength(length)]));
    pairs(sides, &base, &Layout::default(), faults, random);
}
