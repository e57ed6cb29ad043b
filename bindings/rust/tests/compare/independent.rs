//! Document 01 in plain Rust, in the paper's order: layouts, checksum, opening, reading, creating,
//! committing, rolling back; then the flat files of 4/13 and 9/13, and the disc over its parent of
//! 8/13. Each refusal carries the place that request 1/13 gives it; the header is that of 2/13; tables
//! are of both kinds of 11/13, and addresses are signed. All is written from the papers alone and
//! shares no code with the library; it is there to compare the library with.

use aaru::{AddressRange, Creation, Flat, Flattening, Import, Refusal};
use std::collections::BTreeMap;

// Layouts.

// "The application name is 32 UTF-16 units, so 64 bytes and not 01's 32, and the header has 104
// bytes: versions at 72 to 75, mediaType 76, indexOffset 80, creationTime 88, lastWrittenTime 96."
// (2/13)
const HEADER: u64 = 104;
const APPLICATION_LENGTH: usize = 64;
const IMAGE_MAJOR: usize = 72;
const INDEX_OFFSET: usize = 80;
const LAST_WRITTEN_TIME: usize = 96;

const INDEX: u64 = 20;
const INDEX_ENTRY: u64 = 16;
const BLOCK: u64 = 36;

const AARUFRMT: u64 = u64::from_le_bytes(*b"AARUFRMT");
const DICMFRMT: u64 = u64::from_le_bytes(*b"DICMFRMT");
const IDX2: u64 = u32::from_le_bytes(*b"IDX2") as u64;
const DBLK: u64 = u32::from_le_bytes(*b"DBLK") as u64;
const DDT: u64 = u32::from_le_bytes(*b"DDT*") as u64;
const DDT2: u64 = u32::from_le_bytes(*b"DDT2") as u64;
const CKSM: u64 = u32::from_le_bytes(*b"CKSM") as u64;

const USER_DATA: u64 = 1;
const NO_COMPRESSION: u64 = 0;

/// The little-endian number of `width` bytes at `at` in a record.
fn number(record: &[u8], at: usize, width: usize) -> u64 {
    let bytes = record[at..at + width].iter().rev();
    bytes.fold(0, |number, &byte| number << 8 | u64::from(byte))
}

/// Appends a little-endian number of `width` bytes.
fn put(record: &mut Vec<u8>, number: u64, width: usize) {
    record.extend_from_slice(&number.to_le_bytes()[..width]);
}

/// The `length` bytes from `start` on, or none if they run past the end. "All sums are whole
/// numbers."
fn part(image: &[u8], start: u64, length: impl Into<u128>) -> Option<&[u8]> {
    let end = u128::from(start) + length.into();
    if end > image.len() as u128 {
        return None;
    }
    Some(&image[start as usize..end as usize])
}

#[derive(Clone, Copy)]
struct IndexEntry {
    block_type: u64,
    data_type: u64,
    offset: u64,
}

impl IndexEntry {
    fn is_user_data(&self, block_type: u64) -> bool {
        self.block_type == block_type && self.data_type == USER_DATA
    }
}

/// What a table entry names: an item of the block at a byte offset.
#[derive(Clone, Copy, Debug, PartialEq)]
struct Pointer {
    offset: u64,
    item: u64,
}

/// The kinds of table, 01's and that of 11/13. Both have type at 4 and compression at 6, and their
/// headers end alike: "entries to crc64 as in 'DDT*'", five fields of 8 bytes.
#[derive(Clone, Copy, PartialEq)]
enum Kind {
    /// 'DDT*': shift 8 (1); entries 9.
    Old,
    /// 'DDT2': levels 8 (1); tableLevel 9 (1); previousLevel 10 (8); negative 18 (2); blocks 20
    /// (8); overflow 28 (2) by source document 000; start 30 (8); blockAlignmentShift 38, dataShift
    /// 39, tableShift 40, sizeType 41 (1 each); entries 42. Not looked at: tableLevel,
    /// previousLevel, start and tableShift.
    Second,
}

impl Kind {
    fn of(block_type: u64) -> Option<Kind> {
        match block_type {
            DDT => Some(Kind::Old),
            DDT2 => Some(Kind::Second),
            _ => None,
        }
    }

    /// The length of the header.
    fn header(self) -> u64 {
        match self {
            Kind::Old => 49,
            Kind::Second => 82,
        }
    }

    /// The length of an entry.
    fn width(self) -> u64 {
        match self {
            Kind::Old => 8,
            Kind::Second => 4,
        }
    }
}

/// An opened table: "the kind, the alignment and `negative` of its table, 0 for the old one". The
/// shift of a 'DDT2' is its dataShift.
struct Table<'a> {
    kind: Kind,
    offset: u64,
    payload: &'a [u8],
    count: u64,
    shift: u64,
    alignment: u64,
    negative: u64,
}

impl Table<'_> {
    /// "The entry number is address + `negative`; 20 now applies, for both kinds, where that number
    /// is below 0 or not below entries."
    fn entry_number(&self, address: i64) -> Result<u64, Refusal> {
        let number = i128::from(address) + i128::from(self.negative);
        match u64::try_from(number) {
            Ok(number) if number < self.count => Ok(number),
            _ => Err(refusal(20)),
        }
    }

    /// The place of an entry. The payload lies inside the image, so that the place fits.
    fn entry_place(&self, entry_number: u64) -> u64 {
        self.offset + self.kind.header() + self.kind.width() * entry_number
    }

    /// What an entry names, or why it names nothing. "Byte offset = pointer / 2^dataShift, whole
    /// part, times 2^blockAlignmentShift; item number = the remainder."
    fn pointer(&self, entry_number: u64) -> Result<Pointer, Refusal> {
        let width = self.kind.width() as usize;
        let entry = number(self.payload, width * entry_number as usize, width);
        let pointer = match self.kind {
            Kind::Old => pointer_of(entry)?,
            Kind::Second => pointer_of_second(entry)?,
        };
        // 28 bits of a pointer and an alignment of at most 32 make a number of 60 bits.
        Ok(Pointer {
            offset: pointer / (1 << self.shift) * (1 << self.alignment),
            item: pointer % (1 << self.shift),
        })
    }
}

/// "Entry 0x0 means not written."
fn pointer_of(entry: u64) -> Result<u64, Refusal> {
    match entry {
        0 => Err(refusal(21)),
        _ => Ok(entry),
    }
}

/// "Upper four bits are status, the other 28 the pointer"; "status 0 is not dumped, 1 dumped". "A
/// status of not dumped reads as 21"; "73, any other status, after 21".
fn pointer_of_second(entry: u64) -> Result<u64, Refusal> {
    match entry >> 28 {
        0 => Err(refusal(21)),
        1 => Ok(entry & 0x0FFF_FFFF),
        _ => Err(refusal(73)),
    }
}

/// The entry of an old table that is taken apart again into this pointer. What is written lies
/// below 2^32 and has a shift of at most 32, so that the entry fits its 8 bytes.
fn encode(pointer: Option<Pointer>, shift: u64) -> u64 {
    match pointer {
        None => 0,
        Some(pointer) => pointer.offset * (1 << shift) + pointer.item,
    }
}

// Checksum.

static CHECKSUM_TABLE: [u64; 256] = checksum_table();

/// For each byte: "eight times shift right by one and, if a one fell out, exclusive-or
/// 0xC96C5795D7870F42".
const fn checksum_table() -> [u64; 256] {
    let mut table = [0; 256];
    let mut byte = 0;
    while byte < 256 {
        let mut sum = byte as u64;
        let mut turn = 0;
        while turn < 8 {
            let fell_out = sum & 1;
            sum >>= 1;
            if fell_out == 1 {
                sum ^= 0xC96C_5795_D787_0F42;
            }
            turn += 1;
        }
        table[byte] = sum;
        byte += 1;
    }
    table
}

/// "Start with all 64 bits one; for each byte, exclusive-or it into the low 8 bits", take the eight
/// turns; "at the end invert all bits".
pub fn checksum(bytes: &[u8]) -> u64 {
    let mut sum = u64::MAX;
    for &byte in bytes {
        let low = (sum as u8) ^ byte;
        sum = (sum >> 8) ^ CHECKSUM_TABLE[usize::from(low)];
    }
    !sum
}

/// Whether cmpCrc64 and crc64, which stand at `at` in a header, are both the payload's checksum.
fn checksums_right(header: &[u8], at: usize, payload: &[u8]) -> bool {
    let sum = checksum(payload);
    number(header, at, 8) == sum && number(header, at + 8, 8) == sum
}

// Refusals.

/// "A refusal now returns a byte offset in its image beside its number." (1/13) "The lowest readers
/// say it and all above pass it on."
fn refusal_at(number: u32, place: u64) -> Refusal {
    Refusal { number, place }
}

/// A refusal that has no place of its own: "0 for 1, 2 and 3", "0 for all others".
fn refusal(number: u32) -> Refusal {
    refusal_at(number, 0)
}

// Opening.

/// An opened image.
struct Disc<'a> {
    image: &'a [u8],
    index: Vec<IndexEntry>,
    table: Table<'a>,
}

/// Opens an image and gives its number of sectors and its lowest address, "minus `negative`".
pub fn sector_count(image: &[u8]) -> Result<AddressRange, Refusal> {
    let table = open_disc(image)?.table;
    Ok(AddressRange {
        count: table.count,
        lowest: -(table.negative as i64),
    })
}

fn open_disc(image: &[u8]) -> Result<Disc<'_>, Refusal> {
    let index_offset = open_header(image)?;
    open_at(image, index_offset)
}

/// Opening, step 1. Gives indexOffset.
fn open_header(image: &[u8]) -> Result<u64, Refusal> {
    let header = part(image, 0, HEADER).ok_or(refusal(1))?;
    let identifier = number(header, 0, 8);
    if identifier != AARUFRMT && identifier != DICMFRMT {
        return Err(refusal(2));
    }
    if number(header, IMAGE_MAJOR, 1) != 2 {
        return Err(refusal(3));
    }
    Ok(number(header, INDEX_OFFSET, 8))
}

/// Opening, steps 2 to 5, with the index at `index_offset`: "as read or handed in, even past the
/// end", it is the place of 4, 5, 6, 9 and 10. "In opening's step 4 both kinds count, so one of
/// each is 10." (11/13)
fn open_at(image: &[u8], index_offset: u64) -> Result<Disc<'_>, Refusal> {
    let index = open_index(image, index_offset)?;
    let user_data = index.iter().filter(|entry| entry.data_type == USER_DATA);
    let mut tables =
        user_data.filter_map(|entry| Some((Kind::of(entry.block_type)?, entry.offset)));
    let (kind, offset) = tables.next().ok_or(refusal_at(9, index_offset))?;
    if tables.next().is_some() {
        return Err(refusal_at(10, index_offset));
    }
    let table = open_table(image, kind, offset)?;
    Ok(Disc {
        image,
        index,
        table,
    })
}

/// Opening, steps 2 and 3. Gives the index entries. 7 and 8 have "the place of the index entry",
/// not the one that it names.
fn open_index(image: &[u8], index_offset: u64) -> Result<Vec<IndexEntry>, Refusal> {
    if index_offset < HEADER {
        return Err(refusal_at(4, index_offset));
    }
    let header = part(image, index_offset, INDEX).ok_or(refusal_at(4, index_offset))?;
    if number(header, 0, 4) != IDX2 {
        return Err(refusal_at(5, index_offset));
    }
    let length = u128::from(INDEX_ENTRY) * u128::from(number(header, 4, 8));
    let entries_offset = index_offset + INDEX;
    let payload = part(image, entries_offset, length).ok_or(refusal_at(4, index_offset))?;
    if number(header, 12, 8) != checksum(payload) {
        return Err(refusal_at(6, index_offset));
    }

    let mut index = Vec::new();
    for (n, record) in (0..).zip(payload.chunks_exact(INDEX_ENTRY as usize)) {
        // The entry lies inside the image, so that its place fits.
        let place = entries_offset + INDEX_ENTRY * n;
        let entry = IndexEntry {
            block_type: number(record, 0, 4),
            data_type: number(record, 4, 4),
            offset: number(record, 8, 8),
        };
        if entry.offset < HEADER {
            return Err(refusal_at(7, place));
        }
        let identifier = part(image, entry.offset, 4u64).ok_or(refusal_at(7, place))?;
        if number(identifier, 0, 4) != entry.block_type {
            return Err(refusal_at(8, place));
        }
        index.push(entry);
    }
    Ok(index)
}

/// Opening, step 5: "70, levels not 1; 71, sizeType not 0; 72, `negative` and `overflow` together
/// exceed blocks; in that order after 13; 12 then asks for 4 x entries and both shifts up to 32".
/// 11 to 14 have "the table's offset", 70 to 72 are among "all others".
fn open_table(image: &[u8], kind: Kind, offset: u64) -> Result<Table<'_>, Refusal> {
    let header = part(image, offset, kind.header()).ok_or(refusal_at(11, offset))?;
    if number(header, 6, 2) != NO_COMPRESSION {
        return Err(refusal_at(13, offset));
    }
    let (shift, alignment, negative) = match kind {
        Kind::Old => (number(header, 8, 1), 0, 0),
        Kind::Second => open_second(header)?,
    };
    let at = header.len() - 40;
    let [count, cmp_length, length] = [at, at + 8, at + 16].map(|at| number(header, at, 8));
    if number(header, 4, 2) != USER_DATA
        || shift > 32
        || alignment > 32
        || u128::from(length) != u128::from(kind.width()) * u128::from(count)
        || cmp_length != length
    {
        return Err(refusal_at(12, offset));
    }
    let payload = part(image, offset + kind.header(), length).ok_or(refusal_at(11, offset))?;
    if !checksums_right(header, at + 24, payload) {
        return Err(refusal_at(14, offset));
    }
    Ok(Table {
        kind,
        offset,
        payload,
        count,
        shift,
        alignment,
        negative,
    })
}

/// Checks 70 to 72 of a 'DDT2'. Gives its dataShift, blockAlignmentShift and negative.
fn open_second(header: &[u8]) -> Result<(u64, u64, u64), Refusal> {
    if number(header, 8, 1) != 1 {
        return Err(refusal(70));
    }
    if number(header, 41, 1) != 0 {
        return Err(refusal(71));
    }
    let (negative, overflow) = (number(header, 18, 2), number(header, 28, 2));
    if negative + overflow > number(header, 20, 8) {
        return Err(refusal(72));
    }
    Ok((number(header, 39, 1), number(header, 38, 1), negative))
}

// Reading a sector.

/// Reads a sector: the place of its first byte in the image, and its size.
pub fn locate(image: &[u8], address: i64) -> Result<(u64, u64), Refusal> {
    read_at(&open_disc(image)?, address, &mut BTreeMap::new())
}

/// The same for many addresses of one image, which is opened once.
pub fn locate_each(image: &[u8], addresses: &[i64]) -> Vec<Result<(u64, u64), Refusal>> {
    let disc = match open_disc(image) {
        Ok(disc) => disc,
        Err(refused) => return vec![Err(refused); addresses.len()],
    };
    let mut right = BTreeMap::new();
    let addresses = addresses.iter();
    addresses
        .map(|&address| read_at(&disc, address, &mut right))
        .collect()
}

/// Reading's checks, by the address.
fn read_at(
    disc: &Disc,
    address: i64,
    right: &mut BTreeMap<u64, bool>,
) -> Result<(u64, u64), Refusal> {
    read(disc, disc.table.entry_number(address)?, right)
}

/// Reading's checks after 20, by the number of the table entry: "the place of the table entry for
/// 22; the block's offset for 23 to 27". `right` remembers, by the block's offset, whether a
/// block's checksums are right, so that many reads of one disc compute them once.
fn read(
    disc: &Disc,
    entry_number: u64,
    right: &mut BTreeMap<u64, bool>,
) -> Result<(u64, u64), Refusal> {
    let Pointer { offset, item } = disc.table.pointer(entry_number)?;
    let mut blocks = disc.index.iter().filter(|entry| entry.is_user_data(DBLK));
    if !blocks.any(|entry| entry.offset == offset) {
        return Err(refusal_at(22, disc.table.entry_place(entry_number)));
    }
    let header = part(disc.image, offset, BLOCK).ok_or(refusal_at(23, offset))?;
    if number(header, 6, 2) != NO_COMPRESSION {
        return Err(refusal_at(24, offset));
    }
    let sector_size = number(header, 8, 4);
    let cmp_length = number(header, 12, 4);
    let length = number(header, 16, 4);
    if number(header, 4, 2) != USER_DATA
        || sector_size == 0
        || cmp_length != length
        || length.checked_rem(sector_size) != Some(0)
    {
        return Err(refusal_at(25, offset));
    }
    let payload = part(disc.image, offset + BLOCK, length).ok_or(refusal_at(23, offset))?;
    if item >= length / sector_size {
        return Err(refusal_at(26, offset));
    }
    let block_right = right.entry(offset);
    if !*block_right.or_insert_with(|| checksums_right(header, 20, payload)) {
        return Err(refusal_at(27, offset));
    }
    Ok((offset + BLOCK + item * sector_size, sector_size))
}

// Creating, committing, rolling back.

const MOST_BYTES: u64 = 4_294_967_296;
const MOST_SECTORS: u64 = 1_048_576;
const MOST_SECTOR_SIZE: u64 = 65_536;
const MOST_ADDRESSES: usize = 65_536;

/// Creates a disc whose sectors are all not written. Gives `used` and the index's offset.
pub fn create(buffer: &mut [u8], creation: &Creation) -> Result<(u64, u64), Refusal> {
    if buffer.len() as u64 > MOST_BYTES {
        return Err(refusal(31));
    }
    if creation.sectors == 0 || creation.sectors > MOST_SECTORS {
        return Err(refusal(30));
    }
    if creation.application.len() != APPLICATION_LENGTH {
        return Err(refusal(33));
    }
    let (image, index_offset) = created_image(creation);
    fill(buffer, &image, index_offset)
}

/// The bytes of a created image, and the offset of its index.
fn created_image(creation: &Creation) -> (Vec<u8>, u64) {
    let table_offset = HEADER;
    let index_offset = table_offset + table_length(creation.sectors);
    let mut image = Vec::new();
    put(&mut image, AARUFRMT, 8);
    image.extend_from_slice(creation.application);
    image.extend_from_slice(&[2, 0, creation.major, creation.minor]);
    put(&mut image, u64::from(creation.media_type), 4);
    put(&mut image, index_offset, 8);
    put(&mut image, creation.created, 8);
    put(&mut image, creation.written, 8);
    put_table(&mut image, &vec![None; creation.sectors as usize], 0);
    let table_entry = IndexEntry {
        block_type: DDT,
        data_type: USER_DATA,
        offset: table_offset,
    };
    put_index(&mut image, &[table_entry]);
    (image, index_offset)
}

/// Writes a whole image to the buffer's front, or refuses with 35. Gives `used` and the index's
/// offset.
fn fill(buffer: &mut [u8], image: &[u8], index_offset: u64) -> Result<(u64, u64), Refusal> {
    let front = buffer.get_mut(..image.len()).ok_or(refusal(35))?;
    front.copy_from_slice(image);
    Ok((image.len() as u64, index_offset))
}

/// Commits sectors of one size at rising addresses. Gives the new `used` and the new index's
/// offset. 74 comes "after opening's" numbers, so before 20.
pub fn commit(
    buffer: &mut [u8],
    used: u64,
    addresses: &[i64],
    size: u64,
    sectors: &[u8],
    time: u64,
) -> Result<(u64, u64), Refusal> {
    let image = lent_image(buffer, used)?;
    if size == 0 || size > MOST_SECTOR_SIZE || addresses.len() > MOST_ADDRESSES {
        return Err(refusal(30));
    }
    if sectors.len() as u64 != addresses.len() as u64 * size {
        return Err(refusal(33));
    }
    if addresses.windows(2).any(|pair| pair[0] >= pair[1]) {
        return Err(refusal(34));
    }
    let disc = open_disc(image)?;
    refuse_second(&disc)?;
    let numbers = addresses
        .iter()
        .map(|&address| disc.table.entry_number(address));
    let numbers: Vec<u64> = numbers.collect::<Result<_, _>>()?;
    let commit = Commit::new(&disc, &numbers, size, sectors)?;
    if commit.used > buffer.len() as u64 {
        return Err(refusal(35));
    }
    let (appended, index_offset, new_used) = (commit.appended(), commit.index_offset, commit.used);
    buffer[used as usize..new_used as usize].copy_from_slice(&appended);
    set_header(buffer, index_offset, time);
    Ok((new_used, index_offset))
}

/// What a commit appends to a disc of the old kind.
struct Commit<'s> {
    stored: Vec<&'s [u8]>,
    size: u64,
    table: Vec<Option<Pointer>>,
    index: Vec<IndexEntry>,
    index_offset: u64,
    /// The new `used`.
    used: u64,
}

impl<'s> Commit<'s> {
    /// Of sectors of one size for the table entries with these numbers. Refused with the first old
    /// sector that can't be read.
    fn new(
        disc: &Disc,
        numbers: &[u64],
        size: u64,
        sectors: &'s [u8],
    ) -> Result<Commit<'s>, Refusal> {
        let used = disc.image.len() as u64;
        let old = old_sectors(disc)?;

        // "Equal sectors are stored once." A sector of this commit is an item of the block at
        // `used`.
        let pointers = (0..disc.table.count).map(|number| disc.table.pointer(number).ok());
        let mut table: Vec<Option<Pointer>> = pointers.collect();
        let mut stored: Vec<&[u8]> = Vec::new();
        for (&number, sector) in numbers.iter().zip(sectors.chunks_exact(size as usize)) {
            let equal_old = old.iter().find(|(_, bytes)| *bytes == sector);
            let pointer = match equal_old {
                Some(&(pointer, _)) => pointer,
                None => Pointer {
                    offset: used,
                    item: store_once(&mut stored, sector),
                },
            };
            table[number as usize] = Some(pointer);
        }

        // "Appended at `used`, without gaps: one data block if anything is stored; a table of the
        // same count; an index." As `used` is at most 2^32, these sums stay far below 2^64.
        let block_length = match stored.len() as u64 {
            0 => 0,
            items => BLOCK + items * size,
        };
        let block_offset = (!stored.is_empty()).then_some(used);
        let table_offset = used + block_length;
        let index_offset = table_offset + table_length(disc.table.count);
        let index = new_index(&disc.index, table_offset, block_offset);
        let new_used = index_offset + INDEX + INDEX_ENTRY * index.len() as u64;
        Ok(Commit {
            stored,
            size,
            table,
            index,
            index_offset,
            used: new_used,
        })
    }

    fn appended(&self) -> Vec<u8> {
        let mut appended = Vec::new();
        if !self.stored.is_empty() {
            put_block(&mut appended, self.size, &self.stored.concat());
        }
        put_table(&mut appended, &self.table, smallest_shift(&self.table));
        put_index(&mut appended, &self.index);
        appended
    }
}

/// Goes back, or forward again, to the index at `offset`. Gives `used` and that offset. For 74 the
/// table that this index names counts: "rollback: at its offset".
pub fn rollback(
    buffer: &mut [u8],
    used: u64,
    offset: u64,
    time: u64,
) -> Result<(u64, u64), Refusal> {
    let image = lent_image(buffer, used)?;
    open_header(image)?;
    refuse_second(&open_at(image, offset)?)?;
    set_header(buffer, offset, time);
    Ok((used, offset))
}

/// "The image is the first `used` bytes of a lent buffer." Checks 31 and 32.
fn lent_image(buffer: &[u8], used: u64) -> Result<&[u8], Refusal> {
    if buffer.len() as u64 > MOST_BYTES {
        return Err(refusal(31));
    }
    part(buffer, 0, used).ok_or(refusal(32))
}

/// "Commit, rollback, storing a track list and flattening such a child are refused": "74, one of
/// those four on such an image".
fn refuse_second(disc: &Disc) -> Result<(), Refusal> {
    match disc.table.kind {
        Kind::Old => Ok(()),
        Kind::Second => Err(refusal(74)),
    }
}

/// The written sectors of a disc of the old kind by rising address, each with its pointer; "the
/// first that reads as a refusal other than 21 gives that number", and with it the place of that
/// read. An entry of this kind that names nothing is 21.
fn old_sectors<'a>(disc: &Disc<'a>) -> Result<Vec<(Pointer, &'a [u8])>, Refusal> {
    let mut old = Vec::new();
    let mut right = BTreeMap::new();
    for entry_number in 0..disc.table.count {
        let Ok(pointer) = disc.table.pointer(entry_number) else {
            continue;
        };
        let (place, size) = read(disc, entry_number, &mut right)?;
        let bytes = &disc.image[place as usize..(place + size) as usize];
        old.push((pointer, bytes));
    }
    Ok(old)
}

/// The item number of the first stored sector with these bytes. "Exactly if there is none, the
/// sector is stored as the next item."
fn store_once<'a>(stored: &mut Vec<&'a [u8]>, sector: &'a [u8]) -> u64 {
    let item = match stored.iter().position(|&bytes| bytes == sector) {
        Some(item) => item,
        None => {
            stored.push(sector);
            stored.len() - 1
        }
    };
    item as u64
}

/// "The table's shift is the smallest shift that every item number fits under (each one in the new
/// table is below 2^shift)."
fn smallest_shift(table: &[Option<Pointer>]) -> u64 {
    let items = table.iter().flatten().map(|pointer| pointer.item);
    let largest = items.max().unwrap_or(0);
    let mut shift = 0;
    while largest >= 1 << shift {
        shift += 1;
    }
    shift
}

/// "The index holds the old entries in order, the table's entry replaced in its place, every 'CKSM'
/// entry left out (004 calls it stale), and the new data block's entry (dataType 1) last."
fn new_index(old: &[IndexEntry], table_offset: u64, block_offset: Option<u64>) -> Vec<IndexEntry> {
    let mut index = Vec::new();
    for &entry in old {
        if entry.is_user_data(DDT) {
            index.push(IndexEntry {
                offset: table_offset,
                ..entry
            });
        } else if entry.block_type != CKSM {
            index.push(entry);
        }
    }
    if let Some(offset) = block_offset {
        index.push(IndexEntry {
            block_type: DBLK,
            data_type: USER_DATA,
            offset,
        });
    }
    index
}

/// Appends a data block of sectors of one size.
fn put_block(image: &mut Vec<u8>, sector_size: u64, payload: &[u8]) {
    let sum = checksum(payload);
    put(image, DBLK, 4);
    put(image, USER_DATA, 2);
    put(image, NO_COMPRESSION, 2);
    put(image, sector_size, 4);
    put(image, payload.len() as u64, 4);
    put(image, payload.len() as u64, 4);
    put(image, sum, 8);
    put(image, sum, 8);
    image.extend_from_slice(payload);
}

/// The length of a table of the old kind.
fn table_length(count: u64) -> u64 {
    Kind::Old.header() + Kind::Old.width() * count
}

/// Appends a table of the old kind, its entries encoded for `shift`.
fn put_table(image: &mut Vec<u8>, table: &[Option<Pointer>], shift: u64) {
    let mut payload = Vec::new();
    for &pointer in table {
        put(&mut payload, encode(pointer, shift), 8);
    }
    let sum = checksum(&payload);
    put(image, DDT, 4);
    put(image, USER_DATA, 2);
    put(image, NO_COMPRESSION, 2);
    put(image, shift, 1);
    put(image, table.len() as u64, 8);
    put(image, payload.len() as u64, 8);
    put(image, payload.len() as u64, 8);
    put(image, sum, 8);
    put(image, sum, 8);
    image.extend_from_slice(&payload);
}

/// Appends an index.
fn put_index(image: &mut Vec<u8>, index: &[IndexEntry]) {
    let mut payload = Vec::new();
    for entry in index {
        put(&mut payload, entry.block_type, 4);
        put(&mut payload, entry.data_type, 4);
        put(&mut payload, entry.offset, 8);
    }
    put(image, IDX2, 4);
    put(image, index.len() as u64, 8);
    put(image, checksum(&payload), 8);
    image.extend_from_slice(&payload);
}

/// Sets indexOffset and lastWrittenTime.
fn set_header(buffer: &mut [u8], index_offset: u64, time: u64) {
    buffer[INDEX_OFFSET..INDEX_OFFSET + 8].copy_from_slice(&index_offset.to_le_bytes());
    buffer[LAST_WRITTEN_TIME..LAST_WRITTEN_TIME + 8].copy_from_slice(&time.to_le_bytes());
}

// Flat sector files in and out (4/13, with the filled gaps of 9/13).

/// "The plain call now writes zeros of the size of the lowest written sector for each unwritten one
/// and reports how many it filled" (9/13). Order: opening's numbers, the sectors' other than 21; "a
/// disc with nothing written still refuses with 21"; 40, 41.
pub fn export(image: &[u8], out: &mut [u8]) -> Result<Flat, Refusal> {
    let reads = sectors_of(image)?.into_iter();
    let sectors = reads.map(|read| match read {
        Err(refused) if refused.number == 21 => Ok(None),
        read => read.map(Some),
    });
    let sectors: Vec<Option<&[u8]>> = sectors.collect::<Result<_, _>>()?;
    let unwritten = sectors.iter().filter(|sector| sector.is_none()).count();
    if unwritten > 0 && unwritten == sectors.len() {
        return Err(refusal(21));
    }
    Ok(Flat {
        length: write_flat(&sectors, out)?,
        filled: unwritten as u64,
    })
}

/// The former rule: "an unwritten sector refuses with 21". Order: "opening's numbers, then the
/// sectors' by rising address, then 40, sizes differ, then 41, buffer too short". Gives the length.
pub fn export_exact(image: &[u8], out: &mut [u8]) -> Result<u64, Refusal> {
    let reads = sectors_of(image)?.into_iter();
    let sectors: Vec<Option<&[u8]>> = reads.map(|read| read.map(Some)).collect::<Result<_, _>>()?;
    write_flat(&sectors, out)
}

/// What a read of each address gives, by rising address: entry 0 is that of the lowest.
fn sectors_of(image: &[u8]) -> Result<Vec<Result<&[u8], Refusal>>, Refusal> {
    let disc = open_disc(image)?;
    let mut right = BTreeMap::new();
    let sectors = (0..disc.table.count).map(|number| {
        let (place, size) = read(&disc, number, &mut right)?;
        Ok(&image[place as usize..(place + size) as usize])
    });
    Ok(sectors.collect())
}

/// Checks 40 and 41, then "fills the front of a lent buffer" with the sectors, zeros where there is
/// none, "and reports the length".
fn write_flat(sectors: &[Option<&[u8]>], out: &mut [u8]) -> Result<u64, Refusal> {
    let mut sizes = sectors.iter().flatten().map(|sector| sector.len());
    // "A disc of no sectors gives length 0": there is no size, and nothing to write.
    let Some(size) = sizes.next() else {
        return Ok(0);
    };
    if sizes.any(|other| other != size) {
        return Err(refusal(40));
    }
    if size as u128 * sectors.len() as u128 > out.len() as u128 {
        return Err(refusal(41));
    }
    for (sector, room) in sectors.iter().zip(out.chunks_exact_mut(size)) {
        match sector {
            Some(sector) => room.copy_from_slice(sector),
            None => room.fill(0),
        }
    }
    Ok((size * sectors.len()) as u64)
}

/// Import "makes an image as creating and one commit at the last time would"; of creating's two
/// times the last is lastWrittenTime. Order: "31, 30 (also a length of 0 or above 65,536 x size),
/// 42, length no multiple of the size, 33, 35". Gives `used` and the index's offset.
pub fn import(buffer: &mut [u8], import: &Import) -> Result<(u64, u64), Refusal> {
    let (size, length) = (import.sector_size, import.flat.len() as u64);
    if buffer.len() as u64 > MOST_BYTES {
        return Err(refusal(31));
    }
    if size == 0 || size > MOST_SECTOR_SIZE {
        return Err(refusal(30));
    }
    if length == 0 || length > MOST_ADDRESSES as u64 * size {
        return Err(refusal(30));
    }
    if length % size != 0 {
        return Err(refusal(42));
    }
    if import.application.len() != APPLICATION_LENGTH {
        return Err(refusal(33));
    }
    let creation = Creation {
        sectors: length / size,
        application: import.application,
        major: import.major,
        minor: import.minor,
        media_type: import.media_type,
        created: import.created,
        written: import.written,
    };
    let numbers: Vec<u64> = (0..creation.sectors).collect();
    create_and_commit(buffer, &creation, &numbers, size, import.flat)
}

/// "As creating and one commit at the last time would", of sectors of one size for the table entries
/// with these numbers. Of their checks only 35 is left. The commit only adds to what creating makes,
/// so that its end decides.
fn create_and_commit(
    buffer: &mut [u8],
    creation: &Creation,
    numbers: &[u64],
    size: u64,
    sectors: &[u8],
) -> Result<(u64, u64), Refusal> {
    let (mut image, _) = created_image(creation);
    let disc = open_disc(&image)?;
    let commit = Commit::new(&disc, numbers, size, sectors)?;
    if commit.used > buffer.len() as u64 {
        return Err(refusal(35));
    }
    let (appended, index_offset) = (commit.appended(), commit.index_offset);
    image.extend_from_slice(&appended);
    set_header(&mut image, index_offset, creation.written);
    fill(buffer, &image, index_offset)
}

// A disc over its parent (8/13).

/// "One image or the other".
#[derive(Clone, Copy, Debug, PartialEq)]
pub enum Which {
    Child,
    Parent,
}

/// Which image a sector of the pair lies in, the place of its first byte there, and its size.
type Located = (Which, u64, u64);

/// A read of the pair.
pub fn locate_over(child: &[u8], parent: &[u8], address: i64) -> Result<Located, Refusal> {
    read_over(
        &open_disc(child)?,
        &open_disc(parent),
        address,
        &mut Default::default(),
    )
}

/// "The parent is looked at only where the child answers 21; if the parent's own answer is 20 or 21,
/// the answer is 21." "Other parent numbers come back with 100 added, places in the parent, after the
/// child's." The parent's opening is part of its answer, and is left aside where it isn't looked at.
/// `right` is what `read` remembers of the child and of the parent.
fn read_over(
    child: &Disc,
    parent: &Result<Disc, Refusal>,
    address: i64,
    right: &mut [BTreeMap<u64, bool>; 2],
) -> Result<Located, Refusal> {
    match read_at(child, address, &mut right[0]) {
        Err(refused) if refused.number == 21 => {}
        answer => return answer.map(|(place, size)| (Which::Child, place, size)),
    }
    let parents_answer = match parent {
        Ok(disc) => read_at(disc, address, &mut right[1]),
        Err(refused) => Err(*refused),
    };
    match parents_answer {
        Ok((place, size)) => Ok((Which::Parent, place, size)),
        Err(refused) if matches!(refused.number, 20 | 21) => Err(refusal(21)),
        Err(refused) => Err(refusal_at(refused.number + 100, refused.place)),
    }
}

/// "Flattening makes a new image in a third buffer, as creating with the child's count and one commit
/// (timed as in import) of all sectors of the pair that aren't 21 would (creating alone if there are
/// none)." Order: "31, 33, the child's opening numbers, the sectors' other than 21 by rising address,
/// 40, mixed sizes, 30, 35", with 74 "after opening's" (11/13). Gives `used` and the index's offset.
pub fn flatten(buffer: &mut [u8], flattening: &Flattening) -> Result<(u64, u64), Refusal> {
    if buffer.len() as u64 > MOST_BYTES {
        return Err(refusal(31));
    }
    if flattening.application.len() != APPLICATION_LENGTH {
        return Err(refusal(33));
    }
    let child = open_disc(flattening.child)?;
    refuse_second(&child)?;
    let (numbers, sectors) = sectors_over(&child, flattening)?;

    let mut sizes = sectors.iter().map(|sector| sector.len() as u64);
    let size = sizes.next();
    if sizes.any(|other| Some(other) != size) {
        return Err(refusal(40));
    }
    if child.table.count == 0
        || child.table.count > MOST_SECTORS
        || size.is_some_and(|size| size > MOST_SECTOR_SIZE)
        || numbers.len() > MOST_ADDRESSES
    {
        return Err(refusal(30));
    }
    let creation = Creation {
        sectors: child.table.count,
        application: flattening.application,
        major: flattening.major,
        minor: flattening.minor,
        media_type: flattening.media_type,
        created: flattening.created,
        written: flattening.written,
    };
    match size {
        Some(size) => create_and_commit(buffer, &creation, &numbers, size, &sectors.concat()),
        None => create(buffer, &creation),
    }
}

/// "All sectors of the pair that aren't 21", each with the number of its table entry in the child;
/// "the sectors' [numbers] other than 21 by rising address".
fn sectors_over<'a>(
    child: &Disc,
    flattening: &Flattening<'a>,
) -> Result<(Vec<u64>, Vec<&'a [u8]>), Refusal> {
    let parent = open_disc(flattening.parent);
    let (mut numbers, mut sectors) = (Vec::new(), Vec::new());
    let mut right = Default::default();
    for number in 0..child.table.count {
        // The lowest address is 0: the child is of the old kind.
        let (which, place, size) = match read_over(child, &parent, number as i64, &mut right) {
            Err(refused) if refused.number == 21 => continue,
            answer => answer?,
        };
        let image = match which {
            Which::Child => flattening.child,
            Which::Parent => flattening.parent,
        };
        numbers.push(number);
        sectors.push(&image[place as usize..(place + size) as usize]);
    }
    Ok((numbers, sectors))
}

/// "A small disc, worked out", and where its damaged copies are refused.
mod tests {
    use super::*;

    /// No two bytes are equal, so that a shifted or cut name is seen.
    const NAME: &[u8] = b"0123456789abcdefghijklmnopqrstuvwxyzABCDEFGHIJKLMNOPQRSTUVWXYZ-.";

    /// A buffer with the disc of P1 in it, and some bytes to spare.
    fn p1() -> Vec<u8> {
        let mut buffer = vec![0xEE; 700];
        assert_eq!(create_disc(&mut buffer, 3), Ok((213, 177)));
        buffer
    }

    fn p2() -> Vec<u8> {
        let mut buffer = p1();
        let result = commit(&mut buffer, 213, &[0, 2], 4, b"AAAABBBB", 7);
        assert_eq!(result, Ok((382, 330)));
        buffer
    }

    fn p3() -> Vec<u8> {
        let mut buffer = p2();
        let result = commit(&mut buffer, 382, &[1], 4, b"AAAA", 8);
        assert_eq!(result, Ok((507, 455)));
        buffer
    }

    fn p4() -> Vec<u8> {
        let mut buffer = p3();
        assert_eq!(rollback(&mut buffer, 507, 330, 9), Ok((507, 330)));
        buffer
    }

    fn creation(sectors: u64, application: &[u8]) -> Creation<'_> {
        Creation {
            sectors,
            application,
            major: 5,
            minor: 6,
            media_type: 0x0403_0201,
            created: 3,
            written: 4,
        }
    }

    fn create_disc(buffer: &mut [u8], sectors: u64) -> Result<(u64, u64), Refusal> {
        create(buffer, &creation(sectors, NAME))
    }

    /// The index entries of the image in use.
    fn index(image: &[u8]) -> Vec<(u64, u64, u64)> {
        let disc = open_disc(image).ok().unwrap();
        let entries = disc.index.iter();
        entries
            .map(|entry| (entry.block_type, entry.data_type, entry.offset))
            .collect()
    }

    /// The shift and the entries of the table in use, which is of the old kind.
    fn table(image: &[u8]) -> (u64, Vec<u64>) {
        let table = open_disc(image).ok().unwrap().table;
        let entries = table.payload.chunks_exact(8);
        (
            table.shift,
            entries.map(|entry| number(entry, 0, 8)).collect(),
        )
    }

    fn range(count: u64, lowest: i64) -> AddressRange {
        AddressRange { count, lowest }
    }

    fn user_data(block_type: u64, offset: u64) -> IndexEntry {
        IndexEntry {
            block_type,
            data_type: USER_DATA,
            offset,
        }
    }

    fn sector(image: &[u8], address: i64) -> Result<&[u8], Refusal> {
        let (place, size) = locate(image, address)?;
        Ok(&image[place as usize..(place + size) as usize])
    }

    /// Asserts that two buffers are the same outside the given bytes.
    fn same_outside(old: &[u8], new: &[u8], changed: &[std::ops::Range<usize>]) {
        assert_eq!(old.len(), new.len());
        for at in 0..old.len() {
            let free = changed.iter().any(|range| range.contains(&at));
            assert!(free || old[at] == new[at], "byte {at}");
        }
    }

    #[test]
    fn p1_create() {
        let buffer = p1();
        let image = &buffer[..213];
        assert_eq!(&image[..8], b"AARUFRMT");
        assert_eq!(&image[8..72], NAME);
        assert_eq!(&image[72..80], [2, 0, 5, 6, 1, 2, 3, 4]);
        assert_eq!(number(image, 80, 8), 177);
        assert_eq!(number(image, 88, 8), 3);
        assert_eq!(number(image, 96, 8), 4);
        assert_eq!(&image[104..108], b"DDT*");
        assert_eq!(&image[177..181], b"IDX2");
        assert_eq!(index(image), [(DDT, 1, 104)]);
        assert_eq!(table(image), (0, vec![0, 0, 0]));
        assert_eq!(sector_count(image), Ok(range(3, 0)));
        assert_eq!(locate(image, 0), Err(refusal(21)));
        assert_eq!(locate(image, 3), Err(refusal(20)));
        assert!(buffer[213..].iter().all(|&byte| byte == 0xEE));
        assert_eq!(create_disc(&mut [0; 212], 3), Err(refusal(35)));
    }

    #[test]
    fn p2_commit() {
        let buffer = p2();
        let image = &buffer[..382];
        assert_eq!(&image[213..217], b"DBLK");
        assert_eq!(&image[257..261], b"DDT*");
        assert_eq!(&image[330..334], b"IDX2");
        assert_eq!(number(image, 80, 8), 330);
        assert_eq!(number(image, 96, 8), 7);
        assert_eq!(index(image), [(DDT, 1, 257), (DBLK, 1, 213)]);
        assert_eq!(table(image), (1, vec![426, 0, 427]));
        assert_eq!(sector(image, 0), Ok(&b"AAAA"[..]));
        assert_eq!(sector(image, 1), Err(refusal(21)));
        assert_eq!(sector(image, 2), Ok(&b"BBBB"[..]));
        same_outside(&p1(), &buffer, &[80..88, 96..104, 213..382]);
    }

    #[test]
    fn p3_commit_of_an_equal_sector() {
        let buffer = p3();
        let image = &buffer[..507];
        assert_eq!(&image[382..386], b"DDT*");
        assert_eq!(&image[455..459], b"IDX2");
        assert_eq!(index(image), [(DDT, 1, 382), (DBLK, 1, 213)]);
        assert_eq!(table(image), (1, vec![426, 426, 427]));
        assert_eq!(sector_count(image), Ok(range(3, 0)));
        assert_eq!(locate(image, 0), Ok((249, 4)));
        assert_eq!(locate(image, 1), Ok((249, 4)));
        assert_eq!(locate(image, 2), Ok((253, 4)));
        same_outside(&p2(), &buffer, &[80..88, 96..104, 382..507]);
    }

    #[test]
    fn p4_p5_rollback_and_back() {
        let mut buffer = p4();
        assert_eq!(locate(&buffer[..507], 1), Err(refusal(21)));
        assert_eq!(number(&buffer, 80, 8), 330);
        assert_eq!(number(&buffer, 96, 8), 9);
        same_outside(&p3(), &buffer, &[80..88, 96..104]);
        assert_eq!(rollback(&mut buffer, 507, 455, 10), Ok((507, 455)));
        assert_eq!(sector(&buffer[..507], 1), Ok(&b"AAAA"[..]));
        assert_eq!(locate(&buffer[..507], 1), Ok((249, 4)));
    }

    #[test]
    fn p6_commit_after_rollback() {
        let mut buffer = p4();
        let result = commit(&mut buffer, 507, &[1], 4, b"BBBB", 11);
        assert_eq!(result, Ok((632, 580)));
        assert_eq!(index(&buffer[..632]), [(DDT, 1, 507), (DBLK, 1, 213)]);
        assert_eq!(table(&buffer[..632]), (1, vec![426, 427, 427]));
        same_outside(&p4(), &buffer, &[80..88, 96..104, 507..632]);
    }

    #[test]
    fn p7_empty_commit() {
        let mut buffer = p1();
        assert_eq!(commit(&mut buffer, 213, &[], 4, b"", 12), Ok((322, 286)));
        assert_eq!(index(&buffer[..322]), [(DDT, 1, 213)]);
        assert_eq!(table(&buffer[..322]), (0, vec![0, 0, 0]));
    }

    #[test]
    fn p8_smallest_shift() {
        for (largest, shift) in [0, 1, 2, 2, 3].into_iter().enumerate() {
            let mut buffer = vec![0; 500];
            let (used, _) = create_disc(&mut buffer, 5).unwrap();
            let addresses = &[0, 1, 2, 3, 4][..=largest];
            let sectors = &b"abcde"[..=largest];
            let (used, _) = commit(&mut buffer, used, addresses, 1, sectors, 0).unwrap();
            assert_eq!(table(&buffer[..used as usize]).0, shift);
        }
    }

    #[test]
    fn p9_index_offset_past_the_end() {
        // At 104, the lowest offset, is the table.
        let cases = [
            (4_294_967_295u64, 4),
            (194, 4),
            (103, 4),
            (193, 5),
            (104, 5),
        ];
        for (offset, number) in cases {
            let mut buffer = p1();
            buffer[80..88].copy_from_slice(&offset.to_le_bytes());
            let refused = refusal_at(number, offset);
            assert_eq!(sector_count(&buffer[..213]), Err(refused));
            assert_eq!(rollback(&mut p1(), 213, offset, 4), Err(refused));
        }
    }

    #[test]
    fn p10_block_length_past_the_end() {
        let mut buffer = p2();
        for at in [213 + 12, 213 + 16] {
            buffer[at..at + 4].copy_from_slice(&4_294_967_292u32.to_le_bytes());
        }
        let refused = refusal_at(23, 213);
        assert_eq!(locate(&buffer[..382], 0), Err(refused));
        let damaged = buffer.clone();
        let result = commit(&mut buffer, 382, &[1], 4, b"AAAA", 8);
        assert_eq!(result, Err(refused));
        assert_eq!(buffer, damaged);
    }

    #[test]
    fn p11_checksum() {
        assert_eq!(checksum(b""), 0);
        assert_eq!(checksum(b"123456789"), 0x995D_C9BB_DF19_39FA);
    }

    #[test]
    fn p12_pointer() {
        let table = Table {
            kind: Kind::Old,
            offset: 0,
            payload: &0x8003u64.to_le_bytes(),
            count: 1,
            shift: 5,
            alignment: 0,
            negative: 0,
        };
        let (offset, item) = (1024, 3);
        assert_eq!(table.pointer(0), Ok(Pointer { offset, item }));
        assert_eq!(encode(table.pointer(0).ok(), 5), 0x8003);
    }

    /// P1's disc with an index that also names a 'CKSM' block and a table of another data type.
    #[test]
    fn commit_leaves_out_cksm() {
        let mut image = p1();
        image.truncate(213);
        image.extend_from_slice(b"CKSM");
        let mut entries = [(CKSM, 213), (DDT, 104), (DDT, 104)].map(|(t, at)| user_data(t, at));
        entries[0].data_type = 0;
        entries[1].data_type = 2;
        put_index(&mut image, &entries);
        set_header(&mut image, 217, 4);
        image.resize(600, 0);
        let result = commit(&mut image, 285, &[1], 4, b"AAAA", 7);
        assert_eq!(result, Ok((466, 398)));
        let expected = [(DDT, 2, 104), (DDT, 1, 325), (DBLK, 1, 285)];
        assert_eq!(index(&image[..466]), expected);
    }

    #[test]
    fn refused_addresses() {
        let cases: [(&[i64], u32); 7] = [
            (&[1, 1], 34),
            (&[2, 1], 34),
            (&[1, 3], 20),
            // By their sign these rise, or don't.
            (&[-1, 0], 20),
            (&[i64::MIN, i64::MAX], 20),
            (&[0, -1], 34),
            (&[-1, i64::MIN], 34),
        ];
        for (addresses, number) in cases {
            let mut buffer = p2();
            let result = commit(&mut buffer, 382, addresses, 4, b"CCCCDDDD", 8);
            assert_eq!(result, Err(refusal(number)));
            assert_eq!(buffer, p2());
        }
        for address in [3, -1, i64::MIN, i64::MAX] {
            assert_eq!(locate(&p2()[..382], address), Err(refusal(20)));
        }
        let result = commit(&mut p2(), 382, &[3], 4, b"CCCC", 8);
        assert_eq!(result, Err(refusal(20)));
    }

    /// P2's disc with some bits of one byte turned over, read at address 2.
    #[test]
    fn places_in_p2() {
        let cases = [
            (0, 1, refusal(2)),
            (72, 1, refusal(3)),
            // Three index entries, the last one past the end.
            (330 + 4, 2 ^ 3, refusal_at(4, 330)),
            (330, 1, refusal_at(5, 330)),
            (330 + 12, 1, refusal_at(6, 330)),
            (257, 1, refusal_at(8, 350)),
            (213, 1, refusal_at(8, 366)),
            (257 + 4, 1, refusal_at(12, 257)),
            (257 + 6, 1, refusal_at(13, 257)),
            (257 + 41, 1, refusal_at(14, 257)),
            // Shift 0, so that item 1 is a different block.
            (257 + 8, 1, refusal_at(22, 322)),
            (213 + 6, 1, refusal_at(24, 213)),
            (213 + 4, 1, refusal_at(25, 213)),
            // Sector size 8, so that the block has one item.
            (213 + 8, 4 ^ 8, refusal_at(26, 213)),
            (213 + 28, 1, refusal_at(27, 213)),
        ];
        for (at, bits, refused) in cases {
            let mut buffer = p2();
            buffer[at] ^= bits;
            assert_eq!(locate(&buffer[..382], 2), Err(refused), "byte {at}");
        }
        assert_eq!(sector_count(&p2()[..103]), Err(refusal(1)));
        // The header is whole and names an index past the end.
        assert_eq!(sector_count(&p2()[..104]), Err(refusal_at(4, 330)));
    }

    /// P1's disc with another index at 213, its checksum right, and last of all 'DDT*' and 'DDT2'.
    #[test]
    fn places_by_index() {
        let entry = user_data;
        let table = entry(DDT, 104);
        let cases: [(&[IndexEntry], Refusal); 8] = [
            (&[table, entry(DBLK, 103)], refusal_at(7, 249)),
            (&[table, entry(DBLK, u64::MAX)], refusal_at(7, 249)),
            (&[table, entry(DBLK, 104)], refusal_at(8, 249)),
            (&[], refusal_at(9, 213)),
            (&[table, table], refusal_at(10, 213)),
            (&[table, entry(DDT2, 269)], refusal_at(10, 213)),
            (&[entry(DDT, 249)], refusal_at(11, 249)),
            (&[entry(DDT2, 253)], refusal_at(11, 253)),
        ];
        for (entries, refused) in cases {
            let mut image = p1();
            image.truncate(213);
            put_index(&mut image, entries);
            put(&mut image, DDT, 4);
            put(&mut image, DDT2, 4);
            let used = image.len() as u64;
            assert_eq!(rollback(&mut image, used, 213, 5), Err(refused));
            set_header(&mut image, 213, 4);
            assert_eq!(sector_count(&image), Err(refused));
            assert_eq!(commit(&mut image, used, &[], 4, b"", 5), Err(refused));
        }
    }

    /// "Refusals: 1, 4, 7 and 33 take the new numbers." The buffer has room and stays as it was.
    #[test]
    fn refused_applications() {
        for length in [32, 63, 65] {
            let mut buffer = vec![0xEE; 700];
            let application = vec![b'n'; length];
            let result = create(&mut buffer, &creation(3, &application));
            assert_eq!(result, Err(refusal(33)), "{length} bytes");
            assert!(buffer.iter().all(|&byte| byte == 0xEE));
        }
    }

    /// "The short header isn't kept." P3's bytes as 01 had them, with a header of 72 bytes: where
    /// the image major now is, they have the first letter of 'DDT*'.
    #[test]
    fn short_header_is_not_kept() {
        let entry = user_data;
        let item = |item| Some(Pointer { offset: 181, item });
        let mut image = b"AARUFRMT".to_vec();
        image.extend_from_slice(&NAME[..32]);
        image.extend_from_slice(&[2, 0, 5, 6, 1, 2, 3, 4]);
        for field in [423, 3, 8] {
            put(&mut image, field, 8);
        }
        assert_eq!(image.len(), 72);
        put_table(&mut image, &[None, None, None], 0);
        assert_eq!(image.len(), 145);
        put_index(&mut image, &[entry(DDT, 72)]);
        assert_eq!(image.len(), 181);
        put_block(&mut image, 4, b"AAAABBBB");
        assert_eq!(image.len(), 225);
        put_table(&mut image, &[item(0), None, item(1)], 1);
        assert_eq!(image.len(), 298);
        put_index(&mut image, &[entry(DDT, 225), entry(DBLK, 181)]);
        assert_eq!(image.len(), 350);
        put_table(&mut image, &[item(0), item(0), item(1)], 1);
        assert_eq!(image.len(), 423);
        put_index(&mut image, &[entry(DDT, 350), entry(DBLK, 181)]);
        assert_eq!(image.len(), 475);
        let entries = [399, 407, 415].map(|at| number(&image, at, 8));
        assert_eq!(entries, [362, 362, 363]);

        let refused = refusal_at(3, 0);
        assert_eq!(sector_count(&image), Err(refused));
        assert_eq!(locate(&image, 0), Err(refused));
        let mut buffer = image.clone();
        buffer.resize(700, 0xEE);
        let old = buffer.clone();
        let result = commit(&mut buffer, 475, &[1], 4, b"BBBB", 9);
        assert_eq!(result, Err(refused));
        assert_eq!(rollback(&mut buffer, 475, 298, 9), Err(refused));
        assert_eq!(buffer, old);
    }

    /// Where the table of `second` stands, and its index.
    const SECOND_TABLE: usize = 214;
    const SECOND_INDEX: u64 = 316;

    /// A disc of the second kind: alignment 4, so that blocks stand at multiples of 16; dataShift
    /// 2; negative 2 and overflow 1, as many as blocks allows. Block 128 = 8 x 16 has three
    /// sectors, block 176 = 11 x 16 has one. Fields that are not looked at are filled with ones.
    fn second() -> Vec<u8> {
        let mut image = p1();
        image.truncate(HEADER as usize);
        set_header(&mut image, SECOND_INDEX, 4);
        image.resize(128, 0xEE);
        put_block(&mut image, 4, b"AAAABBBBCCCC");
        assert_eq!(image.len(), 176);
        put_block(&mut image, 2, b"DD");
        assert_eq!(image.len(), SECOND_TABLE);
        let entries = [
            0x1000_0020,
            0x0000_0022,
            0x1000_0022,
            0x2000_0022,
            0x1000_002C,
        ];
        let payload = entries.map(u32::to_le_bytes).concat();
        put(&mut image, DDT2, 4);
        put(&mut image, USER_DATA, 2);
        put(&mut image, NO_COMPRESSION, 2);
        image.extend_from_slice(&[1, 0xFF]);
        put(&mut image, u64::MAX, 8);
        for (field, width) in [(2, 2), (3, 8), (1, 2), (u64::MAX, 8)] {
            put(&mut image, field, width);
        }
        image.extend_from_slice(&[4, 2, 0xFF, 0]);
        for field in [5, 20, 20, checksum(&payload), checksum(&payload)] {
            put(&mut image, field, 8);
        }
        image.extend_from_slice(&payload);
        assert_eq!(image.len() as u64, SECOND_INDEX);
        let entries = [(DBLK, 128), (DDT2, SECOND_TABLE as u64), (DBLK, 176)];
        put_index(
            &mut image,
            &entries.map(|(letters, at)| user_data(letters, at)),
        );
        assert_eq!(image.len(), 384);
        image
    }

    #[test]
    fn second_kind() {
        let image = second();
        assert_eq!(sector_count(&image), Ok(range(5, -2)));
        assert_eq!(locate(&image, -2), Ok((164, 4)));
        assert_eq!(sector(&image, -2), Ok(&b"AAAA"[..]));
        assert_eq!(locate(&image, -1), Err(refusal(21)));
        assert_eq!(locate(&image, 0), Ok((172, 4)));
        assert_eq!(sector(&image, 0), Ok(&b"CCCC"[..]));
        assert_eq!(locate(&image, 1), Err(refusal(73)));
        assert_eq!(locate(&image, 2), Ok((212, 2)));
        assert_eq!(sector(&image, 2), Ok(&b"DD"[..]));
        for address in [-3, 3, i64::MIN, i64::MIN + 1, i64::MAX - 2, i64::MAX] {
            assert_eq!(locate(&image, address), Err(refusal(20)));
        }
    }

    /// The disc above with one byte changed, read at address 2.
    #[test]
    fn places_in_second_kind() {
        let table = SECOND_TABLE as u64;
        let cases = [
            (4, 2, refusal_at(12, table)),
            (6, 1, refusal_at(13, table)),
            (8, 0, refusal(70)),
            (8, 2, refusal(70)),
            (20, 2, refusal(72)),
            (18, 3, refusal(72)),
            (28, 2, refusal(72)),
            (38, 33, refusal_at(12, table)),
            (39, 33, refusal_at(12, table)),
            (41, 1, refusal(71)),
            (42, 10, refusal_at(12, table)),
            (50, 24, refusal_at(12, table)),
            (58, 24, refusal_at(12, table)),
            (66, 0, refusal_at(14, table)),
            (74, 0, refusal_at(14, table)),
            // The fifth entry then means another offset.
            (38, 3, refusal_at(22, table + 82 + 16)),
            (39, 1, refusal_at(22, table + 82 + 16)),
            // The sector is then at address 3.
            (18, 1, refusal(73)),
            (0, 0, refusal_at(8, SECOND_INDEX + 36)),
        ];
        for (at, byte, refused) in cases {
            let mut image = second();
            image[SECOND_TABLE + at] = byte;
            assert_eq!(locate(&image, 2), Err(refused), "byte {at} is {byte}");
        }
        // 23 entries run up to 388, past the end.
        let mut image = second();
        for (at, byte) in [(42, 23), (50, 92), (58, 92)] {
            image[SECOND_TABLE + at] = byte;
        }
        assert_eq!(locate(&image, 2), Err(refusal_at(11, table)));
    }

    /// "In that order after 13; 12 then": each fault alone hides all that follow.
    #[test]
    fn order_in_second_kind() {
        let table = SECOND_TABLE as u64;
        let faults = [(6, 1), (8, 2), (41, 1), (20, 2), (4, 2), (74, 0)];
        let refusals = [
            refusal_at(13, table),
            refusal(70),
            refusal(71),
            refusal(72),
            refusal_at(12, table),
            refusal_at(14, table),
        ];
        for (first, refused) in refusals.into_iter().enumerate() {
            let mut image = second();
            for (at, byte) in &faults[first..] {
                image[SECOND_TABLE + at] = *byte;
            }
            assert_eq!(sector_count(&image), Err(refused));
            assert_eq!(rollback(&mut image, 384, SECOND_INDEX, 5), Err(refused));
        }
    }

    /// "`negative` and `overflow` together exceed blocks": the sum is a whole number.
    #[test]
    fn sums_in_second_kind() {
        let cases = [
            (0xFFFF, 0xFFFF, 0x1_FFFE, true),
            (0xFFFF, 0xFFFF, 0x1_FFFD, false),
            (0xFFFF, 1, 0xFFFF, false),
            (0xFFFF, 0xFFFF, u64::MAX, true),
            (0, 0, 0, true),
        ];
        for (negative, overflow, blocks, accepted) in cases {
            let mut image = second();
            for (at, width, field) in [(18, 2, negative), (20, 8, blocks), (28, 2, overflow)] {
                let at = SECOND_TABLE + at;
                image[at..at + width].copy_from_slice(&field.to_le_bytes()[..width]);
            }
            let expected = match accepted {
                true => Ok(range(5, -(negative as i64))),
                false => Err(refusal(72)),
            };
            assert_eq!(sector_count(&image), expected);
        }
    }

    /// The largest pointer and the largest shifts: 28 ones times 2^32 is a whole number.
    #[test]
    fn largest_pointer() {
        let table = |shift| Table {
            kind: Kind::Second,
            offset: 0,
            payload: &[0xFF, 0xFF, 0xFF, 0x1F],
            count: 1,
            shift,
            alignment: 32,
            negative: 0,
        };
        let ones = 0x0FFF_FFFF;
        let cases = [
            (0, ones << 32, 0),
            (27, 1 << 32, ones >> 1),
            (28, 0, ones),
            (32, 0, ones),
        ];
        for (shift, offset, item) in cases {
            assert_eq!(table(shift).pointer(0), Ok(Pointer { offset, item }));
        }
    }

    /// "74 ... (rollback: at its offset), after opening's", and before 20.
    #[test]
    fn second_kind_is_not_written() {
        let mut buffer = second();
        buffer.resize(700, 0xEE);
        let old = buffer.clone();
        for addresses in [&[0][..], &[9], &[i64::MIN], &[]] {
            let sectors = vec![b'A'; 4 * addresses.len()];
            let result = commit(&mut buffer, 384, addresses, 4, &sectors, 5);
            assert_eq!(result, Err(refusal(74)));
        }
        let result = commit(&mut buffer, 384, &[0, -1], 4, b"AAAABBBB", 5);
        assert_eq!(result, Err(refusal(34)));
        let result = rollback(&mut buffer, 384, SECOND_INDEX, 5);
        assert_eq!(result, Err(refusal(74)));
        assert_eq!(buffer, old);
    }

    /// Both kinds in one buffer: P1's disc, whose sectors nothing was written to, behind the one
    /// above. Only going to the old kind is accepted.
    #[test]
    fn rollback_between_kinds() {
        let mut buffer = second();
        put_table(&mut buffer, &[None; 3], 0);
        let (offset, table) = (buffer.len() as u64, 384);
        put_index(&mut buffer, &[user_data(DDT, table)]);
        let used = buffer.len() as u64;
        assert_eq!(sector_count(&buffer), Ok(range(5, -2)));
        assert_eq!(rollback(&mut buffer, used, offset, 5), Ok((used, offset)));
        assert_eq!(sector_count(&buffer), Ok(range(3, 0)));
        let refused = rollback(&mut buffer, used, SECOND_INDEX, 6);
        assert_eq!(refused, Err(refusal(74)));
        assert_eq!(sector_count(&buffer), Ok(range(3, 0)));
        // A table of the other kind and another data type doesn't count.
        let mut other = user_data(DDT2, SECOND_TABLE as u64);
        other.data_type = 2;
        put_index(&mut buffer, &[other, user_data(DDT, table)]);
        let longer = buffer.len() as u64;
        assert_eq!(rollback(&mut buffer, longer, used, 7), Ok((longer, used)));
        assert_eq!(sector_count(&buffer), Ok(range(3, 0)));
    }

    fn flat_file<'a>(flat: &'a [u8], sector_size: u64, application: &'a [u8]) -> Import<'a> {
        Import {
            flat,
            sector_size,
            application,
            major: 5,
            minor: 6,
            media_type: 0x0403_0201,
            created: 3,
            written: 4,
        }
    }

    /// Three sectors, two of them equal, worked out: P1's disc with all its addresses committed to.
    #[test]
    fn import_is_create_and_commit() {
        let flat = b"AAAABBBBAAAA";
        let mut buffer = vec![0xEE; 700];
        let result = import(&mut buffer, &flat_file(flat, 4, NAME));
        assert_eq!(result, Ok((382, 330)));
        let mut made = p1();
        assert_eq!(commit(&mut made, 213, &[0, 1, 2], 4, flat, 4), result);
        assert_eq!(buffer, made);
        let image = &buffer[..382];
        assert_eq!([80, 88, 96].map(|at| number(image, at, 8)), [330, 3, 4]);
        assert_eq!(index(image), [(DDT, 1, 257), (DBLK, 1, 213)]);
        assert_eq!(table(image), (1, vec![426, 427, 426]));

        let mut out = [0xEE; 15];
        assert_eq!(export_by_both(image, &mut out), Ok(12));
        assert_eq!(&out, b"AAAABBBBAAAA\xEE\xEE\xEE");
        for length in [381, 382] {
            let mut buffer = vec![0xEE; length];
            let result = import(&mut buffer, &flat_file(flat, 4, NAME));
            assert_eq!(result.is_ok(), length == 382);
            assert_eq!(buffer == vec![0xEE; length], length == 381);
        }
    }

    /// Each with an application that is too short, where that is not to be met.
    #[test]
    fn refused_imports() {
        let flat = [b'A'; 131_074];
        let short = &NAME[..63];
        let cases = [
            (4, 0, short, 30),
            (4, 65_537, short, 30),
            (0, 4, short, 30),
            (131_073, 2, short, 30),
            (131_074, 2, short, 30),
            (131_071, 2, short, 42),
            (5, 4, short, 42),
            (4, 4, short, 33),
            (131_072, 2, NAME, 35),
            (8, 4, NAME, 35),
        ];
        for (length, size, application, number) in cases {
            let mut buffer = vec![0xEE; 300];
            let result = import(&mut buffer, &flat_file(&flat[..length], size, application));
            assert_eq!(
                result,
                Err(refusal(number)),
                "{length} bytes of size {size}"
            );
            assert!(buffer.iter().all(|&byte| byte == 0xEE));
        }
    }

    fn flat(length: u64, filled: u64) -> Flat {
        Flat { length, filled }
    }

    /// An export where both rules have to give the same.
    fn export_by_both(image: &[u8], out: &mut [u8]) -> Result<u64, Refusal> {
        let mut exact = out.to_vec();
        let result = export_exact(image, &mut exact);
        let plain = export(image, out);
        assert_eq!(plain, result.map(|length| flat(length, 0)));
        assert_eq!(out, exact);
        result
    }

    #[test]
    fn refused_exports() {
        let mut out = [0xEE; 20];
        let export = export_by_both;
        assert_eq!(export(&p1()[..213], &mut out), Err(refusal(21)));
        assert_eq!(export(&p1()[..213], &mut []), Err(refusal(21)));
        assert_eq!(export(&p3()[..507], &mut out[..11]), Err(refusal(41)));
        assert_eq!(export(&p3()[..507], &mut []), Err(refusal(41)));
        // Another size at the last address, then its first sector's block damaged as well.
        let mut buffer = p3();
        let (used, _) = commit(&mut buffer, 507, &[2], 3, b"CCC", 9).unwrap();
        let image = &mut buffer[..used as usize];
        assert_eq!(export(image, &mut out), Err(refusal(40)));
        assert_eq!(export(image, &mut []), Err(refusal(40)));
        image[213 + 28] ^= 1;
        assert_eq!(export(image, &mut []), Err(refusal_at(27, 213)));
        assert_eq!(export(&image[..103], &mut out), Err(refusal(1)));
        assert_eq!(out, [0xEE; 20]);
        assert_eq!(export(&p3()[..507], &mut out), Ok(12));
        assert_eq!(&out[..13], b"AAAAAAAABBBB\xEE");
    }

    #[test]
    fn export_of_no_sectors() {
        let mut image = p1();
        image.truncate(HEADER as usize);
        put_table(&mut image, &[], 0);
        put_index(&mut image, &[user_data(DDT, HEADER)]);
        set_header(&mut image, HEADER + 49, 4);
        let mut out = [0xEE; 3];
        assert_eq!(export_by_both(&image, &mut out), Ok(0));
        assert_eq!(out, [0xEE; 3]);
        assert_eq!(export_by_both(&image, &mut []), Ok(0));
    }

    /// Gaps in the middle (P2), then at both ends, which a damaged block leaves refused.
    #[test]
    fn filled_gaps() {
        let mut out = [0xEE; 14];
        let image = &p2()[..382];
        assert_eq!(export_exact(image, &mut out), Err(refusal(21)));
        assert_eq!(export(image, &mut out[..11]), Err(refusal(41)));
        assert_eq!(out, [0xEE; 14]);
        assert_eq!(export(image, &mut out), Ok(flat(12, 1)));
        assert_eq!(&out, b"AAAA\0\0\0\0BBBB\xEE\xEE");

        let mut out = [0xEE; 10];
        let mut buffer = p1();
        let (used, _) = commit(&mut buffer, 213, &[1], 3, b"CCC", 7).unwrap();
        let image = &mut buffer[..used as usize];
        assert_eq!(export(image, &mut out), Ok(flat(9, 2)));
        assert_eq!(&out, b"\0\0\0CCC\0\0\0\xEE");
        image[213 + 28] ^= 1;
        assert_eq!(export(image, &mut []), Err(refusal_at(27, 213)));
        assert_eq!(export_exact(image, &mut []), Err(refusal(21)));
    }

    /// The lowest written sector has 3 bytes, the other one 4.
    #[test]
    fn gap_and_sizes() {
        let mut buffer = p1();
        let (used, _) = commit(&mut buffer, 213, &[1], 3, b"CCC", 7).unwrap();
        let (used, _) = commit(&mut buffer, used, &[2], 4, b"BBBB", 8).unwrap();
        let (image, mut out) = (&buffer[..used as usize], [0xEE; 14]);
        assert_eq!(export(image, &mut out), Err(refusal(40)));
        assert_eq!(export(image, &mut []), Err(refusal(40)));
        assert_eq!(export_exact(image, &mut out), Err(refusal(21)));
        assert_eq!(out, [0xEE; 14]);
    }

    /// What the plain rule refuses is mended first, then what it fills; the exact one meets that
    /// before.
    #[test]
    fn export_of_second_kind() {
        let mut image = second();
        let entries = SECOND_TABLE + 82;
        let mut out = [0xEE; 20];
        for (entry, mended, plain) in [
            (3, 0x1000_0022u32, Err(refusal(73))),
            (4, 0x1000_0020, Err(refusal(40))),
            (1, 0x1000_0021, Ok(flat(20, 1))),
        ] {
            assert_eq!(export_exact(&image, &mut out), Err(refusal(21)));
            assert_eq!(out, [0xEE; 20]);
            assert_eq!(export(&image, &mut out), plain);
            if plain.is_ok() {
                assert_eq!(&out, b"AAAA\0\0\0\0CCCCCCCCAAAA");
                out = [0xEE; 20];
            }
            let at = entries + 4 * entry;
            image[at..at + 4].copy_from_slice(&mended.to_le_bytes());
            let sum = checksum(&image[entries..entries + 20]).to_le_bytes();
            image[entries - 16..entries].copy_from_slice(&[sum, sum].concat());
        }
        assert_eq!(export_by_both(&image, &mut out[..19]), Err(refusal(41)));
        assert_eq!(out, [0xEE; 20]);
        assert_eq!(export_by_both(&image, &mut out), Ok(20));
        assert_eq!(&out, b"AAAABBBBCCCCCCCCAAAA");
    }
}
