//! One input run by the library, by its safe wrapper and by the independent implementation, and
//! everything that they give compared.

use crate::arguments::outside;
use crate::independent::{self, Which};
use crate::layout::{get, Kind, Layout, INDEX, INDEX_OFFSET};
use crate::random::Random;
use crate::tally::Tally;
use aaru::{ffi, AddressRange, Creation, Flat, Flattening, Layered, Placed, Refusal};
use std::ops::Range;

/// A call without its buffer. For opening, reading and exporting the image is the buffer's first
/// `used` bytes; the bytes behind it are what an export may fill. Where a parent is read too, the
/// image is its child.
#[derive(Clone, Debug)]
pub enum Call {
    SectorCount,
    Locate(i64),
    LocateOver(Parent, i64),
    Create(Create),
    Commit(Commit),
    Rollback { offset: u64, time: u64 },
    Export(Rule),
    Import(Import),
    Flatten(Flatten),
}

/// What a child lies over.
#[derive(Clone, Debug)]
pub enum Parent {
    Other(Vec<u8>),
    /// The child itself, its very bytes.
    Child,
}

impl Parent {
    pub fn of<'a>(&'a self, child: &'a [u8]) -> &'a [u8] {
        match self {
            Parent::Other(image) => image,
            Parent::Child => child,
        }
    }
}

/// What an export does about a sector that is not written.
#[derive(Clone, Copy, Debug, PartialEq)]
pub enum Rule {
    /// It writes zeros.
    Plain,
    /// It is refused with 21.
    Exact,
}
pub const RULES: [Rule; 2] = [Rule::Plain, Rule::Exact];

#[derive(Clone, Debug)]
pub struct Create {
    pub sectors: u64,
    pub about: About,
}

/// Creating's arguments but the number of sectors.
#[derive(Clone, Debug)]
pub struct About {
    pub application: Vec<u8>,
    pub major: u8,
    pub minor: u8,
    pub media_type: u32,
    pub created: u64,
    pub written: u64,
}

#[derive(Clone, Debug)]
pub struct Commit {
    pub addresses: Vec<i64>,
    pub size: u64,
    pub sectors: Vec<u8>,
    pub time: u64,
}

#[derive(Clone, Debug)]
pub struct Import {
    pub flat: Vec<u8>,
    pub size: u64,
    pub about: About,
}

#[derive(Clone, Debug)]
pub struct Flatten {
    pub child: Vec<u8>,
    pub parent: Parent,
    pub about: About,
}

impl Create {
    fn lent(&self) -> Creation<'_> {
        let about = &self.about;
        Creation {
            sectors: self.sectors,
            application: &about.application,
            major: about.major,
            minor: about.minor,
            media_type: about.media_type,
            created: about.created,
            written: about.written,
        }
    }
}

impl Import {
    fn lent(&self) -> aaru::Import<'_> {
        self.of(&self.flat)
    }

    /// The same of another flat file.
    pub fn of<'a>(&'a self, flat: &'a [u8]) -> aaru::Import<'a> {
        let about = &self.about;
        aaru::Import {
            flat,
            sector_size: self.size,
            application: &about.application,
            major: about.major,
            minor: about.minor,
            media_type: about.media_type,
            created: about.created,
            written: about.written,
        }
    }
}

impl Flatten {
    fn lent(&self) -> Flattening<'_> {
        self.about.over(&self.child, self.parent.of(&self.child))
    }
}

impl About {
    pub fn over<'a>(&'a self, child: &'a [u8], parent: &'a [u8]) -> Flattening<'a> {
        Flattening {
            child,
            parent,
            application: &self.application,
            major: self.major,
            minor: self.minor,
            media_type: self.media_type,
            created: self.created,
            written: self.written,
        }
    }
}

impl Call {
    /// Its place in `tally::CALLS`.
    pub fn column(&self) -> usize {
        match self {
            Call::SectorCount => 0,
            Call::Locate(_) => 1,
            Call::Create(_) => 2,
            Call::Commit(_) => 3,
            Call::Rollback { .. } => 4,
            Call::Export(Rule::Plain) => 5,
            Call::Export(Rule::Exact) => 6,
            Call::Import(_) => 7,
            Call::LocateOver(..) => 8,
            Call::Flatten(_) => 9,
        }
    }

    /// Whether it writes an image.
    pub fn writes(&self) -> bool {
        let reads = matches!(
            self,
            Call::SectorCount | Call::Locate(_) | Call::LocateOver(..) | Call::Export(_)
        );
        !reads
    }

    /// The images that it reads. What stands in the buffer is none where a new image is made.
    fn images<'a>(&'a self, image: &'a [u8]) -> Vec<&'a [u8]> {
        match self {
            Call::Create(_) | Call::Import(_) => Vec::new(),
            Call::LocateOver(parent, _) => vec![image, parent.of(image)],
            Call::Flatten(flatten) => vec![&flatten.child, flatten.parent.of(&flatten.child)],
            _ => vec![image],
        }
    }
}

/// Count and lowest address (its 64 bits), start and size, `used` and index offset, or a flat file's
/// length and how many of its sectors are filled; or the refusal. A sector of the parent has its
/// start counted on from the child's end.
pub type Answer = Result<(u64, u64), Refusal>;

/// A refusal that is about no record of the image.
pub fn refusal(number: u32) -> Refusal {
    Refusal { number, place: 0 }
}

/// The same as an answer.
pub fn refused(number: u32) -> Answer {
    Err(refusal(number))
}

/// What the library must leave behind the pointers for its answer when it refuses.
const UNTOUCHED: (u64, u64) = (0x0123_4567_89AB_CDEF, 0xFEDC_BA98_7654_3210);
/// What it must leave behind the pointer for the place when it accepts.
const UNPLACED: u64 = 0x1357_9BDF_0246_8ACE;

/// The C call.
pub fn raw(buffer: &mut [u8], used: u64, call: &Call) -> Answer {
    let (mut first, mut second) = UNTOUCHED;
    let mut place = UNPLACED;
    let (start, length) = (buffer.as_mut_ptr(), buffer.len());
    // SAFETY: all slices are valid for their lengths, and the buffer is borrowed alone.
    let number = unsafe {
        match call {
            Call::SectorCount => {
                let mut lowest = second.cast_signed();
                let number = ffi::aaru_sector_count(
                    start,
                    used as usize,
                    &mut first,
                    &mut lowest,
                    &mut place,
                );
                second = lowest.cast_unsigned();
                number
            }
            Call::Locate(address) => ffi::aaru_locate(
                start,
                used as usize,
                *address,
                &mut first,
                &mut second,
                &mut place,
            ),
            Call::LocateOver(parent, address) => {
                let child = &buffer[..used as usize];
                return raw_over(child, parent.of(child), *address);
            }
            Call::Flatten(flatten) => return raw_flatten(buffer, &flatten.lent()),
            Call::Create(create) => ffi::aaru_create(
                start,
                length,
                create.sectors,
                create.about.application.as_ptr(),
                create.about.application.len(),
                create.about.major,
                create.about.minor,
                create.about.media_type,
                create.about.created,
                create.about.written,
                &mut first,
                &mut second,
                &mut place,
            ),
            Call::Commit(commit) => ffi::aaru_commit(
                start,
                length,
                used,
                commit.addresses.as_ptr(),
                commit.addresses.len(),
                commit.size,
                commit.sectors.as_ptr(),
                commit.sectors.len(),
                commit.time,
                &mut first,
                &mut second,
                &mut place,
            ),
            Call::Rollback { offset, time } => ffi::aaru_rollback(
                start,
                length,
                used,
                *offset,
                *time,
                &mut first,
                &mut second,
                &mut place,
            ),
            Call::Export(rule) => {
                let image = used as usize;
                let (out, room) = (start.add(image), length - image);
                match rule {
                    Rule::Plain => ffi::aaru_export(
                        start,
                        image,
                        out,
                        room,
                        &mut first,
                        &mut second,
                        &mut place,
                    ),
                    Rule::Exact => {
                        let number =
                            ffi::aaru_export_exact(start, image, out, room, &mut first, &mut place);
                        // It answers one number, and fills none.
                        if number == 0 {
                            second = 0;
                        }
                        number
                    }
                }
            }
            Call::Import(import) => ffi::aaru_import(
                start,
                length,
                import.flat.as_ptr(),
                import.flat.len(),
                import.size,
                import.about.application.as_ptr(),
                import.about.application.len(),
                import.about.major,
                import.about.minor,
                import.about.media_type,
                import.about.created,
                import.about.written,
                &mut first,
                &mut second,
                &mut place,
            ),
        }
    };
    answer(number, (first, second), place)
}

/// What a call answered, if it left what it has to leave.
fn answer(number: u32, pair: (u64, u64), place: u64) -> Answer {
    if number != 0 {
        assert_eq!(pair, UNTOUCHED, "refused, but answered");
        return Err(Refusal { number, place });
    }
    assert_eq!(place, UNPLACED, "accepted, but placed");
    Ok(pair)
}

/// The C call that reads a child over its parent.
pub fn raw_over(child: &[u8], parent: &[u8], address: i64) -> Answer {
    let (mut which, (mut start, mut size), mut place) = (UNPLACED, UNTOUCHED, UNPLACED);
    // SAFETY: both slices are valid for their lengths.
    let number = unsafe {
        ffi::aaru_locate_over(
            child.as_ptr(),
            child.len(),
            parent.as_ptr(),
            parent.len(),
            address,
            &mut which,
            &mut start,
            &mut size,
            &mut place,
        )
    };
    let (start, size) = answer(number, (start, size), place).inspect_err(|_| {
        assert_eq!(which, UNPLACED, "refused, but an image named");
    })?;
    assert!(which <= 1, "an image that is neither: {which}");
    Ok((start.wrapping_add(which * child.len() as u64), size))
}

/// The C call that flattens.
pub fn raw_flatten(buffer: &mut [u8], about: &Flattening) -> Answer {
    let ((mut used, mut index), mut place) = (UNTOUCHED, UNPLACED);
    // SAFETY: all slices are valid for their lengths, and the buffer is borrowed alone.
    let number = unsafe {
        ffi::aaru_flatten(
            buffer.as_mut_ptr(),
            buffer.len(),
            about.child.as_ptr(),
            about.child.len(),
            about.parent.as_ptr(),
            about.parent.len(),
            about.application.as_ptr(),
            about.application.len(),
            about.major,
            about.minor,
            about.media_type,
            about.created,
            about.written,
            &mut used,
            &mut index,
            &mut place,
        )
    };
    answer(number, (used, index), place)
}

fn pair_of(range: AddressRange) -> (u64, u64) {
    (range.count, range.lowest.cast_unsigned())
}

fn flat_pair(flat: Flat) -> (u64, u64) {
    (flat.length, flat.filled)
}

/// The addresses of a disc whose opening was answered with this pair.
pub fn addresses_of((count, lowest): (u64, u64)) -> Range<i64> {
    let lowest = lowest.cast_signed();
    lowest..lowest + count as i64
}

fn placed_pair(placed: Placed) -> (u64, u64) {
    (placed.used, placed.index)
}

/// The safe wrapper's read of a child over its parent.
pub fn safe_over(child: &[u8], parent: &[u8], address: i64) -> Answer {
    let (image, before, sector) = match aaru::read_over(child, parent, address)? {
        Layered::Child(sector) => (child, 0, sector),
        Layered::Parent(sector) => (parent, child.len() as u64, sector),
    };
    assert_eq!(sector.bytes, part(image, sector.start, sector.bytes.len()));
    Ok((before + sector.start, sector.bytes.len() as u64))
}

pub fn safe_flatten(buffer: &mut [u8], about: &Flattening) -> Answer {
    aaru::flatten(buffer, about).map(placed_pair)
}

/// The safe wrapper's call.
pub fn safe(buffer: &mut [u8], used: u64, call: &Call) -> Answer {
    let pair = placed_pair;
    match call {
        Call::LocateOver(parent, address) => {
            let child = &buffer[..used as usize];
            safe_over(child, parent.of(child), *address)
        }
        Call::Flatten(flatten) => safe_flatten(buffer, &flatten.lent()),
        Call::SectorCount => aaru::sector_count(&buffer[..used as usize]).map(pair_of),
        Call::Locate(address) => {
            let image = &buffer[..used as usize];
            aaru::read(image, *address).map(|sector| {
                assert_eq!(sector.bytes, part(image, sector.start, sector.bytes.len()));
                (sector.start, sector.bytes.len() as u64)
            })
        }
        Call::Create(create) => aaru::create(buffer, &create.lent()).map(pair),
        Call::Commit(commit) => aaru::commit(
            buffer,
            used,
            &commit.addresses,
            commit.size,
            &commit.sectors,
            commit.time,
        )
        .map(pair),
        Call::Rollback { offset, time } => aaru::rollback(buffer, used, *offset, *time).map(pair),
        Call::Export(rule) => {
            let (image, out) = buffer.split_at_mut(used as usize);
            match rule {
                Rule::Plain => aaru::export(image, out).map(flat_pair),
                Rule::Exact => aaru::export_exact(image, out).map(|length| (length, 0)),
            }
        }
        Call::Import(import) => aaru::import(buffer, &import.lent()).map(pair),
    }
}

/// The independent implementation's read of a child over its parent.
pub fn other_over(child: &[u8], parent: &[u8], address: i64) -> Answer {
    let (which, start, size) = independent::locate_over(child, parent, address)?;
    let before = match which {
        Which::Child => 0,
        Which::Parent => child.len() as u64,
    };
    Ok((before + start, size))
}

/// The independent implementation's call.
pub fn other(buffer: &mut [u8], used: u64, call: &Call) -> Answer {
    match call {
        Call::LocateOver(parent, address) => {
            let child = &buffer[..used as usize];
            other_over(child, parent.of(child), *address)
        }
        Call::Flatten(flatten) => independent::flatten(buffer, &flatten.lent()),
        Call::SectorCount => independent::sector_count(&buffer[..used as usize]).map(pair_of),
        Call::Locate(address) => independent::locate(&buffer[..used as usize], *address),
        Call::Create(create) => independent::create(buffer, &create.lent()),
        Call::Commit(commit) => independent::commit(
            buffer,
            used,
            &commit.addresses,
            commit.size,
            &commit.sectors,
            commit.time,
        ),
        Call::Rollback { offset, time } => independent::rollback(buffer, used, *offset, *time),
        Call::Export(rule) => {
            let (image, out) = buffer.split_at_mut(used as usize);
            match rule {
                Rule::Plain => independent::export(image, out).map(flat_pair),
                Rule::Exact => independent::export_exact(image, out).map(|length| (length, 0)),
            }
        }
        Call::Import(import) => independent::import(buffer, &import.lent()),
    }
}

fn part(image: &[u8], start: u64, size: usize) -> &[u8] {
    &image[start as usize..][..size]
}

/// The three sides, each with a copy of the buffer, and the tally.
pub struct Sides {
    pub tally: Tally,
    copies: [Vec<u8>; 3],
    /// The image whose reads were compared last.
    read: Vec<u8>,
    random: Random,
}

impl Sides {
    /// For inputs with images of one kind, by the index that their header names.
    pub fn new(kind: Kind) -> Sides {
        Sides {
            tally: Tally::new(kind),
            copies: Default::default(),
            read: Vec::new(),
            random: Random::new(0),
        }
    }

    /// Runs one input on every side and compares the answers, all bytes of the buffers afterwards
    /// and, after a call that writes, every read.
    pub fn run(&mut self, buffer: &[u8], used: u64, call: &Call) -> Answer {
        for copy in &mut self.copies {
            copy.clear();
            copy.extend_from_slice(buffer);
        }
        let [first, second, third] = &mut self.copies;
        let answer = raw(first, used, call);
        let answers = [safe(second, used, call), other(third, used, call)];
        let same_answers = answers == [answer; 2];
        let same_bytes = first == second && first == third;
        let may_change = call.writes() || matches!(call, Call::Export(_));
        let kept = first == buffer || answer.is_ok() && may_change;
        if !(same_answers && same_bytes && kept) {
            println!("{call:?} used {used} of {}", buffer.len());
            println!("library {answer:?}, wrapper and independent {answers:?}");
            println!("same bytes {same_bytes}, kept {kept}");
            if buffer.len() < 4096 {
                println!("{buffer:02X?}");
            }
            panic!("the sides differ");
        }

        let image = &buffer[..buffer.len().min(used as usize)];
        let images = call.images(image);
        self.tally.count(call, answer);
        if let Err(refusal) = answer {
            let concerned = images.get(usize::from(refusal.number > 100));
            if concerned.is_some_and(|image| telling(image, call, refusal)) {
                self.tally.count_telling(call, refusal);
            }
        }
        // A parent is most often damaged, and counts where it is a child.
        if let Some(image) = images.first().filter(|_| used <= buffer.len() as u64) {
            self.note(image);
        }
        if let (Call::LocateOver(..), Ok((start, _))) = (call, answer) {
            self.tally.found[usize::from(start >= used)] += 1;
        }
        if call.writes() {
            self.compare_reads(match answer {
                Ok((used, _)) => used as usize,
                Err(_) => image.len(),
            });
        }
        answer
    }

    /// The same where the answer is of no further use.
    pub fn compare(&mut self, buffer: &[u8], used: u64, call: &Call) {
        let _ = self.run(buffer, used, call);
    }

    /// Runs a call that writes and leaves its bytes in the buffer.
    pub fn run_on(&mut self, buffer: &mut [u8], used: u64, call: &Call) -> Answer {
        let answer = self.run(buffer, used, call);
        buffer.copy_from_slice(self.left());
        answer
    }

    /// What the last call left in its buffer.
    pub fn left(&self) -> &[u8] {
        &self.copies[0]
    }

    fn note(&mut self, image: &[u8]) {
        self.tally
            .image(image, |image| independent::sector_count(image).is_ok());
    }

    fn compare_reads(&mut self, used: usize) {
        let image = self.copies[0][..used].to_vec();
        self.note(&image);
        // Call after call leaves an image of the second kind as it is: once is enough.
        if self.tally.kind == Kind::Second && image == self.read {
            return;
        }
        let range = independent::sector_count(&image).map(pair_of);
        let all = addresses_of(range.unwrap_or_default());
        let addresses = addresses_to_read(all, &mut self.random);
        let sectors = independent::locate_each(&image, &addresses);
        for (address, sector) in addresses.into_iter().zip(sectors) {
            let call = Call::Locate(address);
            let answers = [
                raw(&mut self.copies[0], used as u64, &call),
                safe(&mut self.copies[1], used as u64, &call),
            ];
            assert_eq!(answers, [sector; 2], "read of address {address}");
            self.tally.reads += 1;
        }
        let copies = &self.copies;
        assert!(copies[0] == copies[2] && copies[1] == copies[2]);
        self.read = image;
    }
}

/// Whether a place is one of those that `tally::telling` asks for.
fn telling(image: &[u8], call: &Call, Refusal { number, place }: Refusal) -> bool {
    let named = || get(image, INDEX_OFFSET, 8);
    let index = || match call {
        Call::Rollback { offset, .. } => *offset,
        _ => named(),
    };
    match number % 100 {
        4 => place > image.len() as u64,
        5 | 6 | 9 | 10 => place != named(),
        7 | 8 => place > index() + INDEX as u64,
        22 => place > Layout::of(image).table_entry(0) as u64,
        _ => false,
    }
}

/// Every address of a small disc, some of a large one, and some that the disc does not have.
fn addresses_to_read(all: Range<i64>, random: &mut Random) -> Vec<i64> {
    let (lowest, end) = (all.start, all.end);
    let count = (end - lowest) as usize;
    let mut addresses: Vec<i64> = match count {
        0..=256 => all.clone().collect(),
        257..=4096 => {
            let any = (0..64).map(|_| lowest + random.below(count) as i64);
            let ends = (lowest..lowest + 64).chain(end - 64..end);
            ends.chain(any).collect()
        }
        _ => vec![lowest, lowest + (end - lowest) / 2, end - 1],
    };
    addresses.extend(outside(&all));
    addresses
}
