//! Children over parents. Either is made by the library or built, of either kind of table, with more
//! or fewer sectors than the other, of one size or of several, cut, damaged, or both are one image.
//! Every pair is read at all addresses that either has and at some that neither has, and flattened
//! into buffers of several lengths. Beside the comparison, a flattening is held to a creation and a
//! commit by the library itself, and what it leaves is read as the pair is.

use crate::arguments::{self, outside, telling_addresses, SIZES};
use crate::exports::{edited, other_size, without, Read};
use crate::faults::{clash, edit_image, of_opening, of_reading, read_addresses, table_count};
use crate::faults::{
    Edit::{self, *},
    Fault,
};
use crate::fields;
use crate::images::{self, Description};
use crate::layout::{Kind, Layout, CREATED};
use crate::random::Random;
use crate::sides::{raw, refusal, refused, Answer, Call, Commit, Create, Flatten, Parent, Sides};
use aaru::Refusal;
use std::ops::Range;

/// Pairs as they are, cut ones, and histories of a child over its parent.
pub fn run(sides: &mut Sides, seed: u64, pairs: usize) {
    let kind = sides.tally.kind;
    let mut random = Random::new(seed);
    for number in 0..pairs {
        let child = any_image(kind, number, &mut random);
        let parent = any_image(any_kind(&mut random), number / 5, &mut random);
        whole(sides, &child, &Parent::Other(parent), &mut random);
        whole(sides, &child, &Parent::Child, &mut random);
        let (child, parent) = even_pair(kind, &mut random);
        damaged(sides, &child, &parent, &mut random);
        whole(sides, &child, &Parent::Other(parent), &mut random);
        if kind == Kind::Old {
            history(sides, &mut random);
        }
    }
    for _ in 0..8 {
        cut_everywhere(sides, &mut random);
    }
}

/// Every field of a parent set to telling values, then faults of child, parent and arguments, alone
/// and two at once.
pub fn run_faults(sides: &mut Sides, seed: u64, pairs: usize) {
    let mut random = Random::new(seed);
    for _ in 0..pairs {
        every_field(sides, &mut random);
        two_faults(sides, &mut random);
    }
}

fn any_kind(random: &mut Random) -> Kind {
    random.pick(&[Kind::Old, Kind::Second])
}

/// An image that opens, at times of no sectors.
fn any_image(kind: Kind, number: usize, random: &mut Random) -> Vec<u8> {
    let any = |random: &mut Random| Description::random(kind, random);
    match number % 5 {
        0 => any(random).build(random),
        1 => any(random).wild().build(random),
        _ => images::base(kind, number, random),
    }
}

/// An even image of so many sectors of a size.
fn even(kind: Kind, size: usize, count: usize, random: &mut Random) -> Vec<u8> {
    let mut others = SIZES.to_vec();
    others.retain(|&other| other != size);
    let other = random.pick(&others);
    let description = Description::even_of(kind, size, other, random);
    description.with_count(count).build(random)
}

fn with_gaps(image: &[u8], random: &mut Random) -> Vec<u8> {
    let one_in = 1 + random.below(3);
    let gaps = (0..Layout::of(image).count).filter(|_| random.once_in(one_in));
    let gaps: Vec<usize> = gaps.collect();
    without(image, &gaps, random)
}

/// Child and parent with gaps, of one size, so that they can be flattened; at times the parent has a
/// sector of another size, which the child may hide.
fn even_pair(kind: Kind, random: &mut Random) -> (Vec<u8>, Vec<u8>) {
    let size = random.pick(&SIZES);
    let child = even(kind, size, 1 + random.below(9), random);
    let mut parent = even(any_kind(random), size, 1 + random.below(12), random);
    if random.once_in(4) {
        let number = random.below(Layout::of(&parent).count);
        parent = edited(&parent, &[other_size(&parent, number)]);
    }
    (with_gaps(&child, random), with_gaps(&parent, random))
}

/// All addresses that an image has, and some at both ends and beyond.
fn addresses(image: &[u8], random: &mut Random) -> Vec<i64> {
    let all = Layout::of(image).addresses();
    let telling = telling_addresses(&all);
    let some: Vec<i64> = (0..4).map(|_| random.pick(&telling)).collect();
    all.chain(some).collect()
}

/// Two images that open.
fn whole(sides: &mut Sides, child: &[u8], parent: &Parent, random: &mut Random) {
    let mut at = addresses(child, random);
    at.extend(addresses(parent.of(child), random));
    for address in at {
        let answer = sides.run(child, child.len() as u64, &over(parent, address));
        assert_eq!(answer, by_reads(child, parent.of(child), address));
    }
    flatten(sides, child, parent, random);
}

fn over(parent: &Parent, address: i64) -> Call {
    Call::LocateOver(parent.clone(), address)
}

/// How the pair reads, by the library's reads of each image.
fn by_reads(child: &[u8], parent: &[u8], address: i64) -> Answer {
    let read = |image, before: usize| {
        aaru::read(image, address)
            .map(|sector| (before as u64 + sector.start, sector.bytes.len() as u64))
    };
    match read(child, 0) {
        Err(refusal) if refusal.number == 21 => {}
        answer => return answer,
    }
    read(parent, child.len()).map_err(|parents| match parents.number {
        20 | 21 => refusal(21),
        number => Refusal {
            number: number + 100,
            ..parents
        },
    })
}

/// How an address of the pair reads.
fn read(child: &[u8], parent: &[u8], address: i64) -> Read {
    aaru::read_over(child, parent, address).map(|layered| layered.sector().bytes.to_vec())
}

fn flattening(child: &[u8], parent: &Parent, random: &mut Random) -> Flatten {
    Flatten {
        child: child.to_vec(),
        parent: parent.clone(),
        about: arguments::about(random),
    }
}

/// Flattens into buffers of several lengths.
fn flatten(sides: &mut Sides, child: &[u8], parent: &Parent, random: &mut Random) {
    let flatten = flattening(child, parent, random);
    let _ = in_every_buffer(sides, flatten, random);
}

/// Into more than is needed; if it is accepted, also into just what is needed, and into less, else
/// into none.
pub fn in_every_buffer(sides: &mut Sides, flatten: Flatten, random: &mut Random) -> Answer {
    let room = plenty(&flatten);
    let buffer = random.bytes(room);
    let (answer, left) = expected(&flatten, &buffer);
    let call = Call::Flatten(flatten.clone());
    assert_eq!(sides.run(&buffer, 0, &call), answer);
    assert!(sides.left() == left, "not as creating and one commit");
    let Ok((used, _)) = answer else {
        assert_eq!(sides.run(&[], 0, &call), answer);
        return answer;
    };
    as_the_pair(&left[..used as usize], &flatten);

    let needed = used as usize;
    let created = CREATED + 8 * Layout::of(&flatten.child).count;
    let mut less = vec![0, created - 1, created, needed - 1];
    less.retain(|&length| length < needed);
    for length in less {
        assert_eq!(sides.run(&buffer[..length], 0, &call), refused(35));
    }
    for length in [needed, needed + 1] {
        assert_eq!(sides.run(&buffer[..length], 0, &call), answer);
    }
    answer
}

/// More than a flattening needs.
fn plenty(flatten: &Flatten) -> usize {
    let parent = flatten.parent.of(&flatten.child);
    match aaru::sector_count(&flatten.child) {
        Ok(range) if range.count <= 4096 => {
            let all = 0..range.count as i64;
            let sectors = all.filter_map(|address| read(&flatten.child, parent, address).ok());
            let bytes: usize = sectors.map(|sector| sector.len()).sum();
            CREATED + 200 + 16 * range.count as usize + bytes
        }
        _ => 300,
    }
}

/// What a flattening must answer and leave, by what reads of the pair answer, and by the two calls
/// that it stands for.
fn expected(flatten: &Flatten, buffer: &[u8]) -> (Answer, Vec<u8>) {
    let unchanged = |refusal| (Err(refusal), buffer.to_vec());
    let parent = flatten.parent.of(&flatten.child);
    let count = match aaru::sector_count(&flatten.child) {
        Err(refusal) => return unchanged(refusal),
        Ok(_) if Layout::of(&flatten.child).kind == Kind::Second => {
            return unchanged(refusal(74));
        }
        Ok(range) => range.count,
    };
    let (mut addresses, mut sectors) = (Vec::new(), Vec::new());
    for address in 0..count as i64 {
        match read(&flatten.child, parent, address) {
            Err(refusal) if refusal.number == 21 => {}
            Err(refusal) => return unchanged(refusal),
            Ok(sector) => {
                addresses.push(address);
                sectors.push(sector);
            }
        }
    }
    let size = sectors.first().map_or(0, Vec::len);
    if sectors.iter().any(|sector| sector.len() != size) {
        return unchanged(refusal(40));
    }
    let create = Call::Create(Create {
        sectors: count,
        about: flatten.about.clone(),
    });
    let mut left = buffer.to_vec();
    let created = raw(&mut left, 0, &create);
    let Ok((used, _)) = created else {
        return (created, left);
    };
    if sectors.is_empty() {
        return (created, left);
    }
    let commit = Call::Commit(Commit {
        addresses,
        size: size as u64,
        sectors: sectors.concat(),
        time: flatten.about.written,
    });
    (raw(&mut left, used, &commit), left)
}

/// At every address, and at some that the child does not have.
fn as_the_pair(image: &[u8], flatten: &Flatten) {
    let child = &flatten.child;
    assert_eq!(aaru::sector_count(image), aaru::sector_count(child));
    let all = Layout::of(child).addresses();
    for address in all.clone().chain(outside(&all)) {
        let flat = aaru::read(image, address).map(|sector| sector.bytes.to_vec());
        let pair = read(child, flatten.parent.of(child), address);
        assert_eq!(flat, pair, "address {address}");
    }
}

/// Some faults of the child's opening and of a sector that it has, then of the parent's, each alone.
fn damaged(sides: &mut Sides, child: &[u8], parent: &[u8], random: &mut Random) {
    for (image, is_child) in [(child, true), (parent, false)] {
        let layout = Layout::of(image);
        let mut addresses = read_addresses(image, &layout);
        // The parent is looked at where the child has nothing.
        let through =
            |address| matches!(aaru::read(child, address), Err(refusal) if refusal.number == 21);
        addresses.retain(|&address| is_child || through(address));
        let Some(&address) = addresses.first() else {
            continue;
        };
        let mut faults = pick_some(of_opening(image, &layout), random);
        faults.extend(pick_some(of_reading(image, &layout, address), random));
        for fault in faults {
            let faulty = faulty(image, &[&fault]);
            let (child, parent) = match is_child {
                true => (&faulty[..], Parent::Other(parent.to_vec())),
                false => (child, Parent::Other(faulty)),
            };
            sides.compare(child, child.len() as u64, &over(&parent, address));
            flatten(sides, child, &parent, random);
        }
    }
}

fn pick_some(mut faults: Vec<Fault>, random: &mut Random) -> Vec<Fault> {
    random.shuffle(&mut faults);
    faults.truncate(8);
    faults
}

/// A child's history: it is committed to and rolled back over a parent that stays as it is. The pair
/// reads after a commit as handed in, elsewhere as before, and after a rollback as at its point.
fn history(sides: &mut Sides, random: &mut Random) {
    let count = 1 + random.below(8) as i64;
    let (kind, number) = (any_kind(random), random.below(20));
    let parent = any_image(kind, number, random);
    let over_parent = Parent::Other(parent.clone());
    let mut buffer = random.bytes(4000);
    let create = Call::Create(arguments::create(random, count as u64));
    let (mut used, index) = sides.run_on(&mut buffer, 0, &create).expect("room enough");
    let reading = |sides: &mut Sides, child: &[u8]| -> Vec<Read> {
        let all = 0..count;
        for address in all.clone().chain(outside(&all)) {
            sides.compare(child, child.len() as u64, &over(&over_parent, address));
        }
        all.map(|address| read(child, &parent, address)).collect()
    };
    let mut now = reading(sides, &buffer[..used as usize]);
    let mut points = vec![(index, now.clone())];
    for _ in 0..6 {
        match random.below(4) {
            0 => {
                let (offset, then) = random.pick(&points);
                let time = random.number();
                let rollback = Call::Rollback { offset, time };
                let answer = sides.run_on(&mut buffer, used, &rollback);
                assert_eq!(answer, Ok((used, offset)));
                now = then;
            }
            _ => {
                let commit = as_the_parent(arguments::commit(random, 0..count), &parent, random);
                let sectors = commit.sectors.chunks_exact(commit.size as usize);
                for (&address, sector) in commit.addresses.iter().zip(sectors) {
                    now[address as usize] = Ok(sector.to_vec());
                }
                let answer = sides.run_on(&mut buffer, used, &Call::Commit(commit));
                let (grown, offset) = answer.expect("room enough");
                used = grown;
                points.push((offset, now.clone()));
            }
        }
        assert_eq!(reading(sides, &buffer[..used as usize]), now);
    }
    flatten(sides, &buffer[..used as usize], &over_parent, random);
}

/// At times a commit of sectors that stand on the parent, where they are not searched for.
fn as_the_parent(mut commit: Commit, parent: &[u8], random: &mut Random) -> Commit {
    let all = Layout::of(parent).addresses();
    let sectors = all.filter_map(|address| aaru::read(parent, address).ok());
    let sectors: Vec<&[u8]> = sectors.map(|sector| sector.bytes).collect();
    if sectors.is_empty() || random.once_in(2) {
        return commit;
    }
    let sector = random.pick(&sectors);
    commit.size = sector.len() as u64;
    commit.sectors = sector.repeat(commit.addresses.len());
    commit
}

/// A child of which no sector is written, so that the parent is looked at everywhere. It has all of
/// these addresses.
pub fn empty_child(kind: Kind, addresses: Range<i64>, random: &mut Random) -> Vec<u8> {
    loop {
        let (size, count) = (random.pick(&SIZES), 12 + random.below(4));
        let child = even(kind, size, count, random);
        let all = Layout::of(&child).addresses();
        // Of the second kind the lowest address is any.
        if all.start <= addresses.start && addresses.end <= all.end {
            let every: Vec<usize> = (0..count).collect();
            return without(&child, &every, random);
        }
    }
}

/// A parent with sectors at addresses from 0 on, so that every child may have them.
fn parent_from_zero(random: &mut Random) -> Vec<u8> {
    loop {
        let (kind, number) = (any_kind(random), random.below(4));
        let parent = images::base(kind, number, random);
        let layout = Layout::of(&parent);
        let high = read_addresses(&parent, &layout).iter().any(|&at| at >= 0);
        if high {
            return parent;
        }
    }
}

/// The parent, then the child, cut at every length.
fn cut_everywhere(sides: &mut Sides, random: &mut Random) {
    let kind = sides.tally.kind;
    let parent = parent_from_zero(random);
    let all = Layout::of(&parent).addresses();
    let child = empty_child(kind, 0..all.end, random);
    let mut cut = |sides: &mut Sides, child: &[u8], parent: &[u8]| {
        let parent = Parent::Other(parent.to_vec());
        for _ in 0..2 {
            let address = random.below(all.end as usize + 1) as i64;
            sides.compare(child, child.len() as u64, &over(&parent, address));
        }
        let call = Call::Flatten(flattening(child, &parent, random));
        sides.compare(&random.bytes(400), 0, &call);
    };
    for length in 0..=parent.len() {
        cut(sides, &child, &parent[..length]);
    }
    for length in 0..=child.len() {
        cut(sides, &child[..length], &parent);
    }
}

/// Every field of a parent set to telling values, its checksums right and wrong, under a child that
/// has nothing written.
fn every_field(sides: &mut Sides, random: &mut Random) {
    let parent = parent_from_zero(random);
    let layout = Layout::of(&parent);
    let child = empty_child(sides.tally.kind, 0..layout.addresses().end, random);
    let mut edits: Vec<(Vec<i64>, Fault)> = Vec::new();
    for place in layout.fields() {
        let addresses = fields::concerned(&parent, &layout, place.record);
        for value in fields::telling(&parent, &layout, place) {
            for edit in [Field, Damage] {
                edits.push((addresses.clone(), vec![edit(place.at, place.width, value)]));
            }
        }
    }
    for (record, fault) in fields::several_fields(&parent, &layout) {
        edits.push((fields::concerned(&parent, &layout, record), fault));
    }
    for (addresses, fault) in edits {
        let damaged = Parent::Other(edited(&parent, &fault));
        let any = random.below(layout.addresses().end as usize) as i64;
        for address in addresses.into_iter().take(2).chain([any]) {
            sides.compare(&child, child.len() as u64, &over(&damaged, address));
        }
        if random.once_in(4) {
            let call = Call::Flatten(flattening(&child, &damaged, random));
            sides.compare(&random.bytes(600), 0, &call);
        }
    }
}

/// What faults are brought into: a child, its parent, and a flattening's other arguments.
#[derive(Clone)]
struct Input {
    child: Vec<u8>,
    parent: Vec<u8>,
    address: i64,
    room: usize,
    application: usize,
}

#[derive(Clone)]
enum Change {
    Child(Fault),
    Parent(Fault),
    Address(i64),
    Application(usize),
    Room(usize),
}

impl Change {
    fn clashes(&self, other: &Change) -> bool {
        match (self, other) {
            (Change::Child(one), Change::Child(two)) => clash(one, two),
            (Change::Parent(one), Change::Parent(two)) => clash(one, two),
            _ => std::mem::discriminant(self) == std::mem::discriminant(other),
        }
    }
}

/// An image with faults, of which one may cut it.
fn faulty(image: &[u8], faults: &[&Fault]) -> Vec<u8> {
    let edits: Vec<Edit> = faults.iter().copied().flatten().copied().collect();
    let mut image = image.to_vec();
    let layout = Layout::of(&image);
    edit_image(&mut image, &layout, &edits);
    for edit in edits {
        if let Used(length) = edit {
            image.truncate(length as usize);
        }
    }
    image
}

fn changed(base: &Input, changes: &[&Change]) -> Input {
    let mut input = base.clone();
    let (mut of_child, mut of_parent) = (Vec::new(), Vec::new());
    for change in changes {
        match change {
            Change::Child(fault) => of_child.push(fault),
            Change::Parent(fault) => of_parent.push(fault),
            Change::Address(address) => input.address = *address,
            Change::Application(length) => input.application = *length,
            Change::Room(length) => input.room = *length,
        }
    }
    input.child = faulty(&base.child, &of_child);
    input.parent = faulty(&base.parent, &of_parent);
    input
}

/// A pair that can be flattened, read at an address that comes from the parent, read at one that the
/// child hides, and flattened: with each fault alone, and with two of them at once.
fn two_faults(sides: &mut Sides, random: &mut Random) {
    let (base, hidden) = base_pair(sides.tally.kind, random);
    let changes = changes_of_reading(&base, hidden, random);
    pairs(sides, &base, changes.clone(), false, random);
    let at_hidden = Input {
        address: hidden,
        ..base.clone()
    };
    pairs(sides, &at_hidden, changes, false, random);
    let changes = changes_of_flattening(&base, hidden, random);
    pairs(sides, &base, changes, true, random);
}

fn pairs(
    sides: &mut Sides,
    base: &Input,
    changes: Vec<Change>,
    flattens: bool,
    random: &mut Random,
) {
    let mut refused = Vec::new();
    for change in changes {
        if let Err(refusal) = run_input(sides, &changed(base, &[&change]), flattens, random) {
            refused.push((refusal, change));
        }
    }
    for (second, (refusal, change)) in refused.iter().enumerate() {
        for (other_refusal, other) in &refused[..second] {
            let seldom = match group(refusal) == group(other_refusal) {
                true => 24,
                false => 6,
            };
            if refusal == other_refusal || change.clashes(other) || !random.once_in(seldom) {
                continue;
            }
            let input = changed(base, &[change, other]);
            if run_input(sides, &input, flattens, random).is_err() {
                sides.tally.two_faults += 1;
            }
        }
    }
}

/// Refusals whose order within a group is seen elsewhere.
fn group(refusal: &Refusal) -> u32 {
    match refusal.number {
        1..=14 | 70..=72 => 1,
        20..=27 | 73 => 20,
        101..=114 | 170..=172 => 101,
        122..=127 | 173 => 122,
        number => number,
    }
}

fn run_input(sides: &mut Sides, input: &Input, flattens: bool, random: &mut Random) -> Answer {
    let parent = Parent::Other(input.parent.clone());
    if !flattens {
        let used = input.child.len() as u64;
        return sides.run(&input.child, used, &over(&parent, input.address));
    }
    let mut flatten = flattening(&input.child, &parent, random);
    flatten.about.application.resize(input.application, 7);
    sides.run(&random.bytes(input.room), 0, &Call::Flatten(flatten))
}

/// Addresses 0 and up to 5: the child has some of them written, the parent all. Gives also an
/// address that the child hides.
fn base_pair(kind: Kind, random: &mut Random) -> (Input, i64) {
    loop {
        let size = random.pick(&SIZES);
        let child = even(kind, size, 4 + random.below(3), random);
        let parent = even(any_kind(random), size, 4 + random.below(4), random);
        let [all, parents] = [&child, &parent].map(|image| Layout::of(image).addresses());
        let child = with_gaps(&child, random);
        let shared = all.filter(|address| parents.contains(address));
        let (hidden, through): (Vec<i64>, Vec<i64>) =
            shared.partition(|&address| aaru::read(&child, address).is_ok());
        if hidden.is_empty() || through.is_empty() {
            continue;
        }
        let input = Input {
            child,
            parent,
            address: random.pick(&through),
            room: 1000,
            application: 64,
        };
        return (input, random.pick(&hidden));
    }
}

/// Faults that a read meets: of both openings, of both sectors, and of the address.
fn changes_of_reading(base: &Input, hidden: i64, random: &mut Random) -> Vec<Change> {
    let [child, parent] = [&base.child, &base.parent].map(|image| Layout::of(image));
    let mut changes: Vec<Change> = Vec::new();
    changes.extend(
        of_opening(&base.child, &child)
            .into_iter()
            .map(Change::Child),
    );
    changes.extend(
        of_opening(&base.parent, &parent)
            .into_iter()
            .map(Change::Parent),
    );
    let of_sector = of_reading(&base.parent, &parent, base.address);
    changes.extend(of_sector.into_iter().map(Change::Parent));
    let of_sector = of_reading(&base.child, &child, hidden);
    changes.extend(of_sector.into_iter().map(Change::Child));
    changes.push(Change::Address(hidden));
    let telling = telling_addresses(&child.addresses());
    changes.extend((0..5).map(|_| Change::Address(random.pick(&telling))));
    changes.extend(parent.addresses().map(Change::Address));
    changes
}

/// Faults that a flattening meets: the same, sectors of another size, and its other arguments.
fn changes_of_flattening(base: &Input, hidden: i64, random: &mut Random) -> Vec<Change> {
    let mut changes = changes_of_reading(base, hidden, random);
    changes.retain(|change| !matches!(change, Change::Address(_)));
    let [child, parent] = [&base.child, &base.parent].map(|image| Layout::of(image));
    let through = parent.number(base.address);
    changes.push(Change::Parent(vec![other_size(&base.parent, through)]));
    if child.kind == Kind::Old {
        // No sectors, so that there is nothing to flatten.
        changes.push(Change::Child(table_count(&child, 0)));
    }
    changes.extend([0, 63, 65].map(Change::Application));
    let needed = CREATED + 8 * child.count;
    changes.extend([0, needed - 1, needed, needed + 60].map(Change::Room));
    changes
}
