//! A few large inputs, at the limits of what a call takes.

use crate::arguments::{self, telling_addresses, with_room};
use crate::exports::{edited, in_every_room, other_size, without};
use crate::faults::{edit_image, table_blocks, Edit::Field};
use crate::images::Description;
use crate::imports;
use crate::layout::{get, Kind, Layout, CREATED};
use crate::parents;
use crate::random::Random;
use crate::sides::{refused, Call, Commit, Flatten, Parent, Rule, Sides};

pub fn run(sides: &mut Sides, seed: u64) {
    let mut random = Random::new(seed);
    match sides.tally.kind {
        Kind::Old => {
            many_sectors(sides, &mut random);
            most_sectors(sides, &mut random);
            largest_sectors(sides, &mut random);
            most_addresses(sides, &mut random);
            most_imported(sides, &mut random);
            longest_export(sides, &mut random);
            longer_sectors(sides, &mut random);
            many_flattened(sides, &mut random);
            most_flattened(sides, &mut random);
            most_sectors_flattened(sides, &mut random);
        }
        Kind::Second => most_negative(sides, &mut random),
    }
    more_than_imported(sides, &mut random);
}

fn created(sides: &mut Sides, room: usize, sectors: u64, random: &mut Random) -> (Vec<u8>, u64) {
    let mut buffer = vec![0xEE; room];
    let create = Call::Create(arguments::create(random, sectors));
    let (used, _) = sides.run_on(&mut buffer, 0, &create).expect("room enough");
    (buffer, used)
}

/// Some hundred different sectors in each commit, for shifts up to 9.
fn many_sectors(sides: &mut Sides, random: &mut Random) {
    let (mut buffer, mut used) = created(sides, 100_000, 1000, random);
    let mut offsets = Vec::new();
    for _ in 0..6 {
        let mut commit = arguments::commit(random, 0..1000);
        commit.sectors = random.bytes(commit.sectors.len());
        let answer = sides.run_on(&mut buffer, used, &Call::Commit(commit));
        let (grown, offset) = answer.expect("room enough");
        used = grown;
        offsets.push(offset);
    }
    for offset in offsets {
        let rollback = Call::Rollback { offset, time: 1 };
        assert_eq!(sides.run(&buffer, used, &rollback), Ok((used, offset)));
    }
}

fn most_sectors(sides: &mut Sides, random: &mut Random) {
    let most = 1_048_576;
    let (mut buffer, used) = created(sides, 17_000_000, most, random);
    let more = Call::Create(arguments::create(random, most + 1));
    assert_eq!(sides.run(&buffer, 0, &more), refused(30));
    let commit = Call::Commit(Commit {
        addresses: vec![0, 77, most as i64 - 1],
        size: 3,
        sectors: b"AAABBBAAA".to_vec(),
        time: 1,
    });
    let answer = sides.run_on(&mut buffer, used, &commit);
    let (used, index) = answer.expect("room enough");
    let rollback = Call::Rollback {
        offset: index,
        time: 2,
    };
    assert_eq!(sides.run(&buffer, used, &rollback), Ok((used, index)));
}

fn largest_sectors(sides: &mut Sides, random: &mut Random) {
    let size = 65_536;
    let (buffer, used) = created(sides, 500_000, 5, random);
    let mut commit = Commit {
        addresses: vec![0, 1, 4],
        size: size as u64,
        sectors: random.bytes(3 * size),
        time: 3,
    };
    sides.compare(&buffer, used, &Call::Commit(commit.clone()));
    // Equal to the first but for the last byte.
    commit.sectors.copy_within(..size, size);
    commit.sectors[2 * size - 1] ^= 1;
    let call = Call::Commit(commit.clone());
    assert!(sides.run(&buffer, used, &call).is_ok());
    commit.size += 1;
    commit.sectors.extend([0; 3]);
    assert_eq!(sides.run(&buffer, used, &Call::Commit(commit)), refused(30));
}

/// The sectors are equal to the first one, which makes the search short.
fn most_addresses(sides: &mut Sides, random: &mut Random) {
    let most = 65_536;
    let (mut buffer, used) = created(sides, 3_000_000, most + 1, random);
    let mut commit = Commit {
        addresses: vec![0],
        size: 1,
        sectors: vec![b'A'],
        time: 4,
    };
    let answer = sides.run_on(&mut buffer, used, &Call::Commit(commit.clone()));
    let (used, _) = answer.expect("room enough");
    commit.addresses = (0..most as i64).collect();
    commit.sectors = vec![b'A'; most as usize];
    let call = Call::Commit(commit.clone());
    assert!(sides.run(&buffer, used, &call).is_ok());
    commit.addresses.push(most as i64);
    commit.sectors.push(b'A');
    assert_eq!(sides.run(&buffer, used, &Call::Commit(commit)), refused(30));
}

/// The largest displacements, and sectors on both sides of address 0.
fn most_negative(sides: &mut Sides, random: &mut Random) {
    let most = 65_535;
    let count = most as usize + 70;
    let mut image = Description::rich(Kind::Second, random)
        .with_count(count)
        .build(random);
    let layout = Layout::of(&image);
    edit_image(
        &mut image,
        &layout,
        &table_blocks(layout.table, most, most, 2 * most),
    );
    let (all, used) = (Layout::of(&image).addresses(), image.len() as u64);
    assert_eq!(all, -65_535..70);
    sides.compare(&image, used, &Call::SectorCount);
    let near = (-4..4).chain(telling_addresses(&all));
    let any: Vec<i64> = (0..30)
        .map(|_| all.start + random.below(count) as i64)
        .collect();
    for address in near.chain(any) {
        sides.compare(&image, used, &Call::Locate(address));
    }
}

/// As many sectors as an import takes, few of them different, which makes the search short; then
/// more, by bytes up to a sector.
fn most_imported(sides: &mut Sides, random: &mut Random) {
    for size in [1, 2] {
        let mut import = arguments::import(random, 1, size);
        let letters = (0..65_536).map(|_| b'A' + random.below(5) as u8);
        import.flat = letters.flat_map(|letter| vec![letter; size]).collect();
        let buffer = random.bytes(1_500_000);
        imports::in_every_buffer(sides, &import, &buffer, random);
        for _ in 0..size {
            import.flat.push(b'A');
            let call = Call::Import(import.clone());
            assert_eq!(sides.run(&buffer, 0, &call), refused(30));
        }
    }
}

/// A disc of 65,537 sectors, the first of 65,536 bytes and the others not written, then all the same
/// one: its length has more than 32 bits, of which the lower ones name less than the room.
fn longest_export(sides: &mut Sides, random: &mut Random) {
    let size = 65_536;
    let (mut buffer, used) = created(sides, 1_300_000, size as u64 + 1, random);
    let commit = Call::Commit(Commit {
        addresses: vec![0],
        size: size as u64,
        sectors: random.bytes(size),
        time: 5,
    });
    let answer = sides.run_on(&mut buffer, used, &commit);
    let (used, _) = answer.expect("room enough");
    assert!(buffer.len() - used as usize > size);
    let answers = in_every_room(sides, &buffer, used);
    assert_eq!(answers, [refused(41), refused(21)]);

    let image = &mut buffer[..used as usize];
    let layout = Layout::of(image);
    let entry = get(image, layout.table_entry(0), 8);
    let entries = (0..layout.count).map(|number| Field(layout.table_entry(number), 8, entry));
    edit_image(image, &layout, &entries.collect::<Vec<_>>());
    assert_eq!(in_every_room(sides, &buffer, used), [refused(41); 2]);
}

/// Sectors that are longer than an import's, made of two each.
fn longer_sectors(sides: &mut Sides, random: &mut Random) {
    let size = 65_536;
    let (mut buffer, used) = created(sides, 500_000, 2, random);
    let commit = Call::Commit(Commit {
        addresses: vec![0, 1],
        size: size as u64,
        sectors: random.bytes(2 * size),
        time: 6,
    });
    let answer = sides.run_on(&mut buffer, used, &commit);
    let (used, _) = answer.expect("room enough");
    let image = &mut buffer[..used as usize];
    let layout = Layout::of(image);
    let entry = get(image, layout.table_entry(0), 8);
    let fault = [
        Field(layout.blocks[0] + 8, 4, 2 * size as u64),
        Field(layout.table_entry(1), 8, entry),
    ];
    edit_image(image, &layout, &fault);
    let length = 4 * size;
    let answers = in_every_room(sides, &buffer, used);
    assert_eq!(answers, [Ok((length as u64, 0)); 2]);

    sides.compare(&buffer, used, &Call::Export(Rule::Exact));
    let mut import = arguments::import(random, 0, 2 * size);
    import.flat = sides.left()[used as usize..][..length].to_vec();
    assert_eq!(sides.run(&buffer, 0, &Call::Import(import)), refused(30));

    // Nor are they flattened; with one of another size that comes first, in any buffer.
    let image = buffer[..used as usize].to_vec();
    let (mut child, room) = created(sides, 1000, 2, random);
    child.truncate(room as usize);
    let call = flattening(&child, Parent::Other(image.clone()), random);
    assert_eq!(sides.run(&buffer, 0, &call), refused(30));
    assert_eq!(sides.run(&[], 0, &call), refused(30));
    let call = flattening(&image, Parent::Child, random);
    assert_eq!(sides.run(&buffer, 0, &call), refused(30));
    child.resize(1000, 0xEE);
    let commit = Call::Commit(Commit {
        addresses: vec![1],
        size: 3,
        sectors: b"AAA".to_vec(),
        time: 7,
    });
    let (used, _) = sides
        .run_on(&mut child, room, &commit)
        .expect("room enough");
    let call = flattening(&child[..used as usize], Parent::Other(image), random);
    assert_eq!(sides.run(&buffer, 0, &call), refused(40));
    assert_eq!(sides.run(&[], 0, &call), refused(40));
}

fn flattening(child: &[u8], parent: Parent, random: &mut Random) -> Call {
    Call::Flatten(Flatten {
        child: child.to_vec(),
        parent,
        about: arguments::about(random),
    })
}

/// Some hundred different sectors of each image, and sectors of the largest size.
fn many_flattened(sides: &mut Sides, random: &mut Random) {
    for (count, size) in [(700, 2), (1500, 4), (3, 65_535), (3, 65_536)] {
        let images = [0, 1].map(|_| {
            let (mut image, used) =
                created(sides, 1000 + count * (size + 24), count as u64, random);
            let written: Vec<i64> = (0..count as i64).filter(|_| random.once_in(2)).collect();
            let commit = Call::Commit(Commit {
                sectors: random.bytes(written.len() * size),
                addresses: written,
                size: size as u64,
                time: 8,
            });
            let (used, _) = sides
                .run_on(&mut image, used, &commit)
                .expect("room enough");
            image.truncate(used as usize);
            image
        });
        let [child, parent] = images;
        let flatten = Flatten {
            child,
            parent: Parent::Other(parent),
            about: arguments::about(random),
        };
        let answer = parents::in_every_buffer(sides, flatten, random);
        answer.expect("room enough");
    }
}

/// As many sectors as a commit takes, of a disc of one more, then all of these.
fn most_flattened(sides: &mut Sides, random: &mut Random) {
    let count = 65_537;
    let parent = Description::even(Kind::Old, random)
        .with_count(count)
        .build(random);
    let buffer = random.bytes(2_000_000);
    let (mut child, used) = created(sides, CREATED + 8 * count, count as u64, random);
    child.truncate(used as usize);
    let gap = random.below(count);
    for (parent, answers) in [(without(&parent, &[gap], random), true), (parent, false)] {
        for (child, parent) in [
            (&parent, Parent::Child),
            (&child, Parent::Other(parent.clone())),
        ] {
            let call = flattening(child, parent, random);
            let answer = sides.run(&buffer, 0, &call);
            assert_eq!(answer.is_ok(), answers);
            let Ok((used, _)) = answer else {
                assert_eq!(answer, refused(30));
                assert_eq!(sides.run(&[], 0, &call), refused(30));
                continue;
            };
            let used = used as usize;
            assert_eq!(sides.run(&buffer[..used], 0, &call), answer);
            assert_eq!(sides.run(&buffer[..used - 1], 0, &call), refused(35));
        }
    }
}

/// A child of the most sectors that are created, none of them written, and of one more; what else
/// refuses the latter comes first.
fn most_sectors_flattened(sides: &mut Sides, random: &mut Random) {
    let most = 1_048_576;
    let even = Description::even(Kind::Old, random).build(random);
    let parent = Parent::Other(even.clone());
    let buffer = random.bytes(CREATED + 16 * most + 1000);
    for count in [most, most + 1] {
        let child = Description::even(Kind::Old, random).with_count(count);
        let child = child.build(random);
        let every: Vec<usize> = (0..count).collect();
        let empty = without(&child, &every, random);
        let call = flattening(&empty, parent.clone(), random);
        let answer = sides.run(&buffer, 0, &call);
        if count == most {
            assert!(answer.is_ok());
            continue;
        }
        assert_eq!(answer, refused(30));
        let mixed = edited(&even, &[other_size(&even, 1)]);
        let call = flattening(&empty, Parent::Other(mixed), random);
        assert_eq!(sides.run(&buffer, 0, &call), refused(40));
        let call = flattening(&empty, Parent::Other(Vec::new()), random);
        assert_eq!(sides.run(&buffer, 0, &call), refused(101));
    }
}

/// More sectors than an import takes, of the second kind nearly all at negative addresses.
fn more_than_imported(sides: &mut Sides, random: &mut Random) {
    let kind = sides.tally.kind;
    let description = Description::even(kind, random).with_count(65_537);
    let mut image = description.build(random);
    let mut layout = Layout::of(&image);
    if kind == Kind::Second {
        let fault = table_blocks(layout.table, 65_535, 0, 65_535);
        edit_image(&mut image, &layout, &fault);
        layout = Layout::of(&image);
    }
    let used = image.len() as u64;
    let read = |number| aaru::read(&image, layout.address(number)).expect("it is written");
    let size = read(0).bytes.len();
    let length = size * layout.count;
    let buffer = with_room(&image, length + 5, random);
    let answers = in_every_room(sides, &buffer, used);
    assert_eq!(answers, [Ok((length as u64, 0)); 2]);

    sides.compare(&buffer, used, &Call::Export(Rule::Exact));
    let flat = sides.left()[image.len()..][..length].to_vec();
    let any: Vec<usize> = (0..30).map(|_| random.below(layout.count)).collect();
    for number in [0, 1, 65_534, 65_535, 65_536].into_iter().chain(any) {
        assert_eq!(flat[size * number..][..size], *read(number).bytes);
    }
    one_left(sides, &buffer, &flat, &layout, random);
    if kind == Kind::Old {
        let mut import = arguments::import(random, 0, size);
        import.flat = flat;
        let call = Call::Import(import);
        assert_eq!(sides.run(&buffer, 0, &call), refused(30));
    }
}

/// All sectors of a disc with this flat file but one become not written: more than 16 bits can count.
fn one_left(sides: &mut Sides, disc: &[u8], flat: &[u8], layout: &Layout, random: &mut Random) {
    let (used, size) = (layout.length, flat.len() / layout.count);
    for left in [0, 1 + random.below(layout.count - 2), layout.count - 1] {
        let mut buffer = disc.to_vec();
        let missing = (0..layout.count).filter(|&number| number != left);
        let edits = missing.map(|number| Field(layout.table_entry(number), layout.kind.width(), 0));
        edit_image(&mut buffer[..used], layout, &edits.collect::<Vec<_>>());
        let filled = Ok((flat.len() as u64, layout.count as u64 - 1));
        let answers = in_every_room(sides, &buffer, used as u64);
        assert_eq!(answers, [filled, refused(21)]);

        sides.compare(&buffer, used as u64, &Call::Export(Rule::Plain));
        let mut zeros = vec![0; flat.len()];
        let sector = size * left..size * (left + 1);
        zeros[sector.clone()].copy_from_slice(&flat[sector]);
        assert!(sides.left()[used..].starts_with(&zeros));
    }
}
