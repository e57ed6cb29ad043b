//! Flat files out of discs whose sectors are of one size: with all of them written, what comes out is
//! imported again; with one sector changed; with gaps. Every export is made by both rules. Other
//! parts export what they make.

use crate::arguments::{self, with_room};
use crate::faults::{
    edit_image, of_reading,
    Edit::{self, *},
};
use crate::images::{spare_entry, Description};
use crate::layout::{Kind, Layout, DUMPED};
use crate::random::Random;
use crate::sides::{refusal, refused, Answer, Call, Import, Rule, Sides, RULES};
use aaru::{AddressRange, Refusal};

pub fn run(sides: &mut Sides, seed: u64, images: usize) {
    let kind = sides.tally.kind;
    let mut random = Random::new(seed);
    for number in 0..images {
        let description = Description::even(kind, &mut random).with_count(number % 13);
        let image = description.build(&mut random);
        whole(sides, &image, &mut random);
        one_changed(sides, &image, &mut random);
        gaps(sides, &image, &mut random);
    }
}

/// An export by each rule, where the answers are of no further use.
pub fn compare(sides: &mut Sides, buffer: &[u8], used: u64) {
    for rule in RULES {
        sides.compare(buffer, used, &Call::Export(rule));
    }
}

/// Exports by each rule into every room. They give the same, unless the exact one meets a sector that
/// is not written.
pub fn in_every_room(sides: &mut Sides, buffer: &[u8], used: u64) -> [Answer; 2] {
    let [plain, exact] = RULES.map(|rule| by_rule(sides, buffer, used, rule));
    match plain {
        _ if exact != refused(21) => assert_eq!(plain, exact),
        Ok((_, filled)) => assert!(filled > 0),
        Err(_) => {}
    }
    [plain, exact]
}

/// An export into all the room that the buffer has; if it is accepted, also into just as many bytes
/// as it needs, one byte less, and none, else into none.
fn by_rule(sides: &mut Sides, buffer: &[u8], used: u64, rule: Rule) -> Answer {
    let call = Call::Export(rule);
    let answer = sides.run(buffer, used, &call);
    let needed = answer.map_or(0, |(length, _)| length as usize);
    let mut rooms = vec![needed, needed.saturating_sub(1), 0];
    rooms.dedup();
    for room in rooms {
        let again = sides.run(&buffer[..used as usize + room], used, &call);
        // What is refused with all the room has its number from the image, or is too long for it.
        let expected = match room < needed {
            true => refused(41),
            false => answer,
        };
        assert_eq!(again, expected);
    }
    answer
}

/// How an address reads: its bytes, or the refusal.
pub type Read = Result<Vec<u8>, Refusal>;

/// How all addresses of a disc read, from the lowest on.
pub fn reads(image: &[u8]) -> Vec<Read> {
    let read = |address| aaru::read(image, address).map(|sector| sector.bytes.to_vec());
    Layout::of(image).addresses().map(read).collect()
}

fn is_gap(read: &Read) -> bool {
    matches!(read, Err(refusal) if refusal.number == 21)
}

/// The flat file of a disc whose addresses read so, or what refuses first.
fn flat_of(reads: &[Read], rule: Rule) -> Read {
    let filled = |read: &&Read| rule == Rule::Plain && is_gap(read);
    for read in reads.iter().filter(|read| !filled(read)) {
        read.clone()?;
    }
    let mut sizes = reads.iter().flatten().map(Vec::len);
    let Some(size) = sizes.next() else {
        return match reads.is_empty() {
            true => Ok(Vec::new()),
            false => Err(refusal(21)),
        };
    };
    if sizes.any(|other| other != size) {
        return Err(refusal(40));
    }
    let zeros = vec![0; size];
    let sectors = reads.iter().map(|read| read.as_ref().unwrap_or(&zeros));
    Ok(sectors.flatten().copied().collect())
}

/// What an export into `out` must answer if addresses read so, and what it must leave there.
pub fn expected(reads: &[Read], rule: Rule, out: &[u8]) -> (Answer, Vec<u8>) {
    let gaps = reads.iter().filter(|read| is_gap(read)).count();
    match flat_of(reads, rule) {
        Ok(flat) if flat.len() > out.len() => (refused(41), out.to_vec()),
        Ok(flat) => {
            let answer = (flat.len() as u64, gaps as u64);
            (Ok(answer), [&flat, &out[flat.len()..]].concat())
        }
        Err(refusal) => (Err(refusal), out.to_vec()),
    }
}

/// Exports a disc whose addresses read so by each rule into the room behind it.
pub fn as_it_reads(sides: &mut Sides, buffer: &[u8], used: u64, reads: &[Read]) {
    for rule in RULES {
        let (answer, left) = expected(reads, rule, &buffer[used as usize..]);
        assert_eq!(sides.run(buffer, used, &Call::Export(rule)), answer);
        assert!(sides.left()[used as usize..] == left, "not as it reads");
    }
}

/// Both of the above.
fn export(sides: &mut Sides, image: &[u8], random: &mut Random) -> [Answer; 2] {
    let used = image.len() as u64;
    let buffer = with_room(image, 300, random);
    as_it_reads(sides, &buffer, used, &reads(image));
    in_every_room(sides, &buffer, used)
}

/// Nothing is filled. Imported again, every sector reads the same, the lowest at address 0.
fn whole(sides: &mut Sides, image: &[u8], random: &mut Random) {
    let sectors: Vec<Vec<u8>> = reads(image).into_iter().flatten().collect();
    let (count, flat) = (sectors.len(), sectors.concat());
    assert_eq!(count, Layout::of(image).count);
    let answers = export(sides, image, random);
    assert_eq!(answers, [Ok((flat.len() as u64, 0)); 2]);
    if sectors.is_empty() {
        return;
    }

    let import = Call::Import(Import {
        flat,
        ..arguments::import(random, 0, sectors[0].len())
    });
    let mut buffer = random.bytes(1000);
    let (used, _) = sides.run_on(&mut buffer, 0, &import).expect("room enough");
    let image = &buffer[..used as usize];
    let range = AddressRange {
        count: count as u64,
        lowest: 0,
    };
    assert_eq!(aaru::sector_count(image), Ok(range));
    let again: Vec<Vec<u8>> = reads(image).into_iter().flatten().collect();
    assert_eq!(again, sectors);
}

pub fn edited(image: &[u8], edits: &[Edit]) -> Vec<u8> {
    let mut edited = image.to_vec();
    edit_image(&mut edited, &Layout::of(image), edits);
    edited
}

/// Each sector in turn becomes one of another size, or one that can't be read.
fn one_changed(sides: &mut Sides, image: &[u8], random: &mut Random) {
    let layout = Layout::of(image);
    for number in 0..layout.count {
        let answers = export(sides, &edited(image, &[other_size(image, number)]), random);
        match layout.count {
            1 => assert!(answers[0].is_ok()),
            _ => assert_eq!(answers, [refused(40); 2]),
        }
        for fault in of_reading(image, &layout, layout.address(number)) {
            let _ = export(sides, &edited(image, &fault), random);
        }
    }
}

/// An even image's sector becomes one of another size.
pub fn other_size(image: &[u8], number: usize) -> Edit {
    let layout = Layout::of(image);
    let entry = spare_entry(image, &layout);
    Field(layout.table_entry(number), layout.kind.width(), entry)
}

/// Sets of table entries, a bit for each: one, all but one, the first ones, the last ones up to all,
/// and any.
fn sets_of(count: usize, random: &mut Random) -> Vec<usize> {
    let all = (1 << count) - 1;
    let mut sets = Vec::new();
    for number in 0..count {
        let (one, first) = (1 << number, (1 << number) - 1);
        sets.extend([one, all - one, first, all - first, random.below(all + 1)]);
    }
    sets.sort();
    sets.dedup();
    sets
}

/// The image with these sectors not written: of the second kind not dumped, whatever the pointer is.
pub fn without(image: &[u8], missing: &[usize], random: &mut Random) -> Vec<u8> {
    let layout = Layout::of(image);
    let unwritten = |&number: &usize| {
        let entry = match layout.kind {
            Kind::Old => 0,
            Kind::Second => random.number() % DUMPED,
        };
        Field(layout.table_entry(number), layout.kind.width(), entry)
    };
    let edits: Vec<Edit> = missing.iter().map(unwritten).collect();
    edited(image, &edits)
}

/// Sectors of a whole disc become not written; then, if others are left, one of these is changed.
fn gaps(sides: &mut Sides, whole: &[u8], random: &mut Random) {
    let count = Layout::of(whole).count;
    let length = reads(whole).into_iter().flatten().flatten().count() as u64;
    for set in sets_of(count, random) {
        let missing = |number: &usize| set >> number & 1 == 1;
        let (missing, written): (Vec<usize>, Vec<usize>) = (0..count).partition(missing);
        let image = without(whole, &missing, random);
        let plain = match written.len() {
            0 => refused(21),
            _ => Ok((length, missing.len() as u64)),
        };
        let exact = match missing.len() {
            0 => Ok((length, 0)),
            _ => refused(21),
        };
        assert_eq!(export(sides, &image, random), [plain, exact]);
        if !missing.is_empty() && !written.is_empty() {
            let edit = other_size(whole, random.pick(&written));
            sizes_beside_gaps(sides, &image, edit, written.len(), random);
            damage_beside_gaps(sides, &image, &written, random);
        }
    }
}

/// One of the sectors that are left gets another size.
fn sizes_beside_gaps(
    sides: &mut Sides,
    image: &[u8],
    edit: Edit,
    written: usize,
    random: &mut Random,
) {
    let [plain, exact] = export(sides, &edited(image, &[edit]), random);
    match written {
        1 => assert!(plain.is_ok()),
        _ => assert_eq!(plain, refused(40)),
    }
    assert_eq!(exact, refused(21));
}

/// Any one of the sectors that are left can't be read, then the lowest: below it there are only gaps.
fn damage_beside_gaps(sides: &mut Sides, image: &[u8], written: &[usize], random: &mut Random) {
    let layout = Layout::of(image);
    let [any, lowest] = [random.pick(written), written[0]].map(|number| {
        let faults = of_reading(image, &layout, layout.address(number));
        edited(image, &random.pick(&faults))
    });
    let _ = export(sides, &any, random);
    let [plain, exact] = export(sides, &lowest, random);
    match aaru::read(&lowest, layout.address(written[0])) {
        Err(refusal) if refusal.number != 21 => assert_eq!(plain, Err(refusal)),
        _ => {}
    }
    if written[0] > 0 {
        assert_eq!(exact, refused(21));
    }
}
