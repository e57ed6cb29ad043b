//! Buffers of 4 GiB and a little more, of which only a few pages are ever there.

use crate::arguments;
use crate::exports;
use crate::faults::{self, read_addresses, Edit::Field};
use crate::images::Description;
use crate::independent;
use crate::layout::{get, put, Kind, Layout, ALIGNMENT, HEADER, INDEX_OFFSET};
use crate::parents;
use crate::random::Random;
use crate::sides::{other, other_over, raw, raw_flatten, raw_over};
use crate::sides::{refused, safe, safe_flatten, safe_over};
use crate::sides::{Answer, Call, Commit, Flatten, Parent, Rule, Sides, RULES};
use std::ffi::c_void;
use std::slice;

extern "C" {
    fn mmap(
        at: *mut c_void,
        length: usize,
        access: i32,
        kind: i32,
        file: i32,
        from: i64,
    ) -> *mut c_void;
    fn munmap(at: *mut c_void, length: usize) -> i32;
}

/// Linux on x86-64.
const READ_AND_WRITE: i32 = 1 | 2;
const PRIVATE_ANONYMOUS_UNRESERVED: i32 = 0x02 | 0x20 | 0x4000;

struct Mapping {
    start: *mut c_void,
    length: usize,
}

impl Mapping {
    fn new(length: usize) -> Mapping {
        let kind = PRIVATE_ANONYMOUS_UNRESERVED;
        // SAFETY: a new mapping touches no memory that is in use.
        let start = unsafe { mmap(std::ptr::null_mut(), length, READ_AND_WRITE, kind, -1, 0) };
        assert_ne!(start as isize, -1, "no mapping of {length} bytes");
        Mapping { start, length }
    }

    fn bytes(&mut self) -> &mut [u8] {
        // SAFETY: the mapping is valid for its length, holds zeros at first and is borrowed alone.
        unsafe { slice::from_raw_parts_mut(self.start.cast(), self.length) }
    }
}

impl Drop for Mapping {
    fn drop(&mut self) {
        // SAFETY: nothing borrows the mapping any more.
        unsafe { munmap(self.start, self.length) };
    }
}

const MOST: usize = 4_294_967_296;
/// More than the images below need.
const FRONT: usize = 65_536;
/// More than their flat files need.
const ROOM: usize = 4096;
const SECTORS: u64 = 6;

pub fn run(sides: &mut Sides, seed: u64) {
    let kind = sides.tally.kind;
    let mut random = Random::new(seed);
    let mut mapping = Mapping::new(MOST + FRONT + ROOM);
    let long = mapping.bytes();
    too_long(sides, &mut long[..MOST + 1], &mut random);
    export_into(sides, long, &mut random);
    if kind == Kind::Old {
        flat_files(sides, long, &mut random);
        let mut mappings = [MOST, MOST].map(Mapping::new);
        let [second, third] = &mut mappings;
        let buffers = [&mut long[..MOST], second.bytes(), third.bytes()];
        longest(sides, buffers, &mut random);
        // The first and the last bytes were compared; between and behind them no byte may have
        // changed.
        let nothing = [0; FRONT];
        let mut between = long[FRONT..MOST - FRONT].chunks_exact(FRONT);
        assert!(between.all(|part| part == nothing));
        assert_eq!(long[MOST..MOST + FRONT], nothing);
    }
    // Reading has no length limit: in the longer one every record stands above 4 GiB.
    for length in [MOST, MOST + FRONT] {
        let layout = build_far_behind(kind, &mut long[..length], &mut random);
        far_behind(sides, &mut long[..layout.length], &layout, &mut random);
        export_by_each(sides, &mut long[..layout.length + ROOM], layout.length);
    }
    if kind == Kind::Second {
        let layout = build_at_4_gib(long, &mut random);
        far_behind(sides, &mut long[..layout.length], &layout, &mut random);
    }
}

/// Calls that would be accepted if the buffer were not too long, and some with a second fault.
fn too_long(sides: &mut Sides, buffer: &mut [u8], random: &mut Random) {
    let kind = sides.tally.kind;
    let image = Description::rich(kind, random).build(random);
    let layout = Layout::of(&image);
    buffer[..image.len()].copy_from_slice(&image);
    let commit = arguments::commit(random, layout.addresses());
    let mut wrong_commit = commit.clone();
    wrong_commit.size = 0;
    let create = arguments::create(random, SECTORS);
    let mut wrong_create = create.clone();
    wrong_create.sectors = 0;
    let import = arguments::import(random, 3, 4);
    let mut wrong_import = import.clone();
    wrong_import.size = 0;
    let flatten = flatten(&image, random);
    let mut wrong_flatten = flatten.clone();
    wrong_flatten.about.application.pop();
    let offset = layout.index as u64;
    let mut calls = vec![
        Call::Flatten(flatten),
        Call::Flatten(wrong_flatten),
        Call::Commit(commit),
        Call::Commit(wrong_commit),
        Call::Rollback { offset, time: 5 },
        Call::Rollback { offset: 0, time: 5 },
    ];
    if kind == Kind::Old {
        calls.extend([create, wrong_create].map(Call::Create));
        calls.extend([import, wrong_import].map(Call::Import));
    }
    for call in &calls {
        for used in [image.len() as u64, 0, MOST as u64 + 1, MOST as u64 + 2] {
            for side in [raw, safe, other] {
                assert_eq!(side(buffer, used, call), refused(31), "{call:?}");
                assert_eq!(buffer[..image.len()], image);
            }
            sides.tally.count(call, refused(31));
        }
    }
    buffer[..image.len()].fill(0);
}

/// An image over itself.
fn flatten(image: &[u8], random: &mut Random) -> Flatten {
    Flatten {
        child: image.to_vec(),
        parent: Parent::Child,
        about: arguments::about(random),
    }
}

/// The same calls over buffers that are just not too long, and what they leave read.
fn longest(sides: &mut Sides, mut buffers: [&mut [u8]; 3], random: &mut Random) {
    let mut run = |used: u64, call: Call| -> Answer {
        let answer = on_each(&mut buffers, used, &call);
        sides.tally.count(&call, answer);
        if let Ok((used, _)) = answer {
            for address in 0..=SECTORS as i64 {
                on_each(&mut buffers, used, &Call::Locate(address)).ok();
            }
        }
        answer
    };
    let whole = MOST as u64;
    let created = run(0, Call::Create(arguments::create(random, SECTORS)));
    let (used, offset) = created.expect("not too long");
    let commit = Call::Commit(Commit {
        addresses: vec![1, 4],
        size: 3,
        sectors: b"AAABBB".to_vec(),
        time: 6,
    });
    assert_eq!(run(whole + 1, commit.clone()), refused(32));
    assert_eq!(run(whole, commit.clone()), refused(35));
    let (grown, _) = run(used, commit.clone()).expect("not too long");
    let time = 7;
    for used in [whole, grown] {
        let answer = run(used, Call::Rollback { offset, time });
        assert_eq!(answer, Ok((used, offset)));
    }
    // The same commit once more, but up to the buffer's last byte.
    let last = whole - (grown - used);
    assert_eq!(run(last + 1, commit.clone()), refused(35));
    let (used, offset) = run(last, commit).expect("not too long");
    assert_eq!(used, whole);
    let answer = run(whole + 1, Call::Rollback { offset, time });
    assert_eq!(answer, refused(32));
    let answer = run(whole, Call::Rollback { offset, time });
    assert_eq!(answer, Ok((whole, offset)));
    let import = arguments::import(random, SECTORS as usize, 3);
    run(0, Call::Import(import)).expect("not too long");
    let child = Description::even(Kind::Old, random).with_count(SECTORS as usize);
    let flatten = flatten(&child.build(random), random);
    run(0, Call::Flatten(flatten)).expect("not too long");
}

/// Runs a call on every side and compares the first and the last bytes, between which nothing is
/// written.
fn on_each([first, second, third]: &mut [&mut [u8]; 3], used: u64, call: &Call) -> Answer {
    let answer = raw(first, used, call);
    assert_eq!(safe(second, used, call), answer);
    assert_eq!(other(third, used, call), answer);
    for part in [0..FRONT, MOST - FRONT..MOST] {
        assert!(first[part.clone()] == second[part.clone()]);
        assert!(first[part.clone()] == third[part]);
    }
    answer
}

/// An export has no length limit: it is lent 4 GiB to fill, a length of 33 bits.
fn export_into(sides: &mut Sides, long: &mut [u8], random: &mut Random) {
    let image = Description::even(sides.tally.kind, random).build(random);
    let buffer = &mut long[..image.len() + MOST];
    buffer[..image.len()].copy_from_slice(&image);
    export_by_each(sides, buffer, image.len());
    buffer[..image.len()].fill(0);
}

/// Exports of an even disc, then of the same without its first sector.
fn export_by_each(sides: &mut Sides, buffer: &mut [u8], used: usize) {
    let answer = by_each(sides, buffer, used, Rule::Exact);
    assert_eq!(by_each(sides, buffer, used, Rule::Plain), answer);
    let layout = Layout::of(&buffer[..used]);
    let gap = Field(layout.table_entry(0), layout.kind.width(), 0);
    faults::edit_image(&mut buffer[..used], &layout, &[gap]);
    assert_eq!(by_each(sides, buffer, used, Rule::Exact), refused(21));
    let (length, _) = answer.expect("it is even");
    assert_eq!(by_each(sides, buffer, used, Rule::Plain), Ok((length, 1)));
}

/// An export by every side, one after another in one buffer.
fn by_each(sides: &mut Sides, buffer: &mut [u8], used: usize, rule: Rule) -> Answer {
    let call = Call::Export(rule);
    let before = buffer[used..used + ROOM].to_vec();
    let (answer, after) = exports::expected(&exports::reads(&buffer[..used]), rule, &before);
    for side in [raw, safe, other] {
        assert_eq!(side(buffer, used as u64, &call), answer);
        assert!(buffer[used..used + ROOM] == after);
        buffer[used..used + ROOM].copy_from_slice(&before);
    }
    sides.tally.count(&call, answer);
    answer
}

/// Flat files of 4 GiB and around, of zeros.
fn flat_files(sides: &mut Sides, long: &[u8], random: &mut Random) {
    let mut buffer = random.bytes(1000);
    let before = buffer.clone();
    for (length, size, application, number) in [
        (MOST + 4, 4, 64, 30),
        (MOST + 4, 65_536, 64, 30),
        (MOST + 65_536, 65_536, 64, 30),
        (MOST, 65_535, 64, 30),
        (MOST - 1, 65_536, 63, 42),
        (MOST, 65_536, 63, 33),
    ] {
        let mut import = arguments::import(random, 1, 4);
        import.size = size;
        import.about.application.resize(application, 7);
        let flat = import.of(&long[..length]);
        let answer = independent::import(&mut buffer, &flat);
        assert_eq!(answer, refused(number));
        let placed = aaru::import(&mut buffer, &flat);
        assert_eq!(placed.map(|placed| (placed.used, placed.index)), answer);
        assert_eq!(buffer, before);
        sides.tally.count(&Call::Import(import), answer);
    }
}

/// An image whose records all stand at the buffer's end, as it is and with each fault. One buffer
/// is enough for all sides: there is no room to commit, and a rollback writes the same again.
fn far_behind(sides: &mut Sides, buffer: &mut [u8], layout: &Layout, random: &mut Random) {
    let all = layout.addresses();
    for address in all.clone().chain([all.end]) {
        let answer = on_one(sides, buffer, &Call::Locate(address));
        assert!(answer.is_ok() || [refused(20), refused(21)].contains(&answer));
    }
    let address = read_addresses(buffer, layout)[0];
    let mut calls = vec![
        Call::SectorCount,
        Call::Locate(address),
        Call::Commit(arguments::commit(random, all)),
        Call::Rollback {
            offset: layout.index as u64,
            time: 8,
        },
    ];
    calls.extend(RULES.map(Call::Export));
    let mut faults = faults::of_opening(buffer, layout);
    faults.extend(faults::of_reading(buffer, layout, address));
    let far = buffer.len() - FRONT;
    let (header, records) = (buffer[..HEADER].to_vec(), buffer[far..].to_vec());
    let empty = parents::empty_child(layout.kind, address..address + 1, random);
    for fault in faults {
        faults::edit_image(buffer, layout, &fault);
        for call in &calls {
            on_one(sides, buffer, call).ok();
        }
        over_and_under(sides, &empty, buffer, address, random);
        buffer[..HEADER].copy_from_slice(&header);
        buffer[far..].copy_from_slice(&records);
    }
}

/// The far image over one that has nothing written, then under it.
fn over_and_under(sides: &mut Sides, empty: &[u8], far: &[u8], address: i64, random: &mut Random) {
    let before = random.bytes(1000);
    let flatten = flatten(&[], random);
    for (child, parent) in [(far, empty), (empty, far)] {
        let answer = raw_over(child, parent, address);
        assert_eq!(safe_over(child, parent, address), answer);
        assert_eq!(other_over(child, parent, address), answer);
        let call = Call::LocateOver(Parent::Child, address);
        sides.tally.count(&call, answer);

        let about = flatten.about.over(child, parent);
        let mut left = [before.clone(), before.clone(), before.clone()];
        let [first, second, third] = &mut left;
        let answer = raw_flatten(first, &about);
        assert_eq!(safe_flatten(second, &about), answer);
        assert_eq!(independent::flatten(third, &about), answer);
        assert!(left[0] == left[1] && left[1] == left[2]);
        assert!(answer.is_ok() || left[0] == before);
        sides.tally.count(&Call::Flatten(flatten.clone()), answer);
    }
}

fn on_one(sides: &mut Sides, buffer: &mut [u8], call: &Call) -> Answer {
    let used = buffer.len() as u64;
    let answer = raw(buffer, used, call);
    assert_eq!(safe(buffer, used, call), answer);
    assert_eq!(other(buffer, used, call), answer);
    sides.tally.count(call, answer);
    answer
}

/// Only the header stands at the buffer's front, all else as far behind as alignment lets it.
fn build_far_behind(kind: Kind, buffer: &mut [u8], random: &mut Random) -> Layout {
    loop {
        let image = Description::even(kind, random).build(random);
        let layout = Layout::of(&image);
        let far = (buffer.len() - image.len()) >> layout.alignment << layout.alignment;
        let layout = move_behind(buffer, &image, far, layout.alignment);
        if !read_addresses(buffer, &layout).is_empty() {
            return layout;
        }
    }
}

/// A block stands at 4 GiB, which the largest alignment makes of the number 1.
fn build_at_4_gib(buffer: &mut [u8], random: &mut Random) -> Layout {
    loop {
        let image = Description::rich(Kind::Second, random).build(random);
        let layout = move_behind(buffer, &image, MOST - Layout::of(&image).blocks[0], 32);
        if !read_addresses(buffer, &layout).is_empty() {
            return layout;
        }
    }
}

/// The image with all but its header so far behind. Table entries are encoded anew; those that have
/// no bits to name so far an offset become not written.
fn move_behind(buffer: &mut [u8], image: &[u8], far: usize, alignment: u64) -> Layout {
    let old = Layout::of(image);
    let mut layout = old.clone();
    layout.index += far;
    layout.table += far;
    layout.blocks.iter_mut().for_each(|block| *block += far);
    layout.length += far;
    layout.alignment = alignment;
    let buffer = &mut buffer[..layout.length];
    buffer[..HEADER].copy_from_slice(&image[..HEADER]);
    buffer[far..].copy_from_slice(image);
    put(buffer, INDEX_OFFSET, 8, layout.index as u64);
    for entry in 0..layout.entries {
        let at = layout.index_entry(entry) + 8;
        put(buffer, at, 8, get(buffer, at, 8) + far as u64);
    }
    if layout.kind == Kind::Second {
        put(buffer, layout.table + ALIGNMENT, 1, alignment);
    }
    for number in 0..layout.count {
        if let Some((offset, item)) = old.named(image, number) {
            let entry = layout.entry(offset + far as u64, item).unwrap_or(0);
            put(
                buffer,
                layout.table_entry(number),
                layout.kind.width(),
                entry,
            );
        }
    }
    layout.make_right(buffer);
    layout
}
