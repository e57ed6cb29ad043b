//! An image in Rust, by the same rules: opening it, checking its sectors, and the records that are written to it.
use crate::rust;

pub type Refused = u32;

// The header's length, that of the application's name in it, and where its fields stand.
const HEADER: u64 = 104;
const APPLICATION_LENGTH: usize = 64;
const IMAGE_MAJOR: usize = 72;
const MEDIA_TYPE: usize = 76;
const INDEX_OFFSET: usize = 80;
const CREATION_TIME: usize = 88;
const LAST_WRITTEN_TIME: usize = 96;

/// Of the forms in `rust`, the faster one for so many bytes.
fn checksum(s: &[u8]) -> u64 {
    if s.len() < 4096 {
        rust::slicing(s)
    } else {
        rust::lanes::checksum(s)
    }
}

fn get<const K: usize>(s: &[u8], at: usize) -> u64 {
    let mut bytes = [0; 8];
    bytes[..K].copy_from_slice(&s[at..at + K]);
    u64::from_le_bytes(bytes)
}

fn put<const K: usize>(s: &mut [u8], at: usize, v: u64) {
    s[at..at + K].copy_from_slice(&v.to_le_bytes()[..K]);
}

fn part(s: &[u8], at: u64, n: u64) -> Option<&[u8]> {
    s.get(at as usize..at.checked_add(n)? as usize)
}

fn refuse_if(test: bool, number: Refused) -> Result<(), Refused> {
    if test {
        Err(number)
    } else {
        Ok(())
    }
}

#[derive(Clone, Copy)]
pub struct Pointer {
    pub block: u64,
    pub item: u64,
}

impl Pointer {
    pub fn encode(self, shift: u32) -> u64 {
        (self.block << shift) + self.item
    }
}

/// An opened image: its index's entries, and its table's entries and shift.
pub struct Disc<'a> {
    pub image: &'a [u8],
    entries: &'a [u8],
    table: &'a [u8],
    shift: u32,
}

/// An index entry is for this kind of block, of user data.
fn is_user_data(entry: &[u8], kind: &[u8; 4]) -> bool {
    entry[..4] == kind[..] && get::<4>(entry, 4) == 1
}

/// Checks 4 to 6: the index's entries.
fn index_entries(image: &[u8], index: u64) -> Result<&[u8], Refused> {
    refuse_if(index < HEADER, 4)?;
    let header = part(image, index, 20).ok_or(4u32)?;
    refuse_if(header[..4] != b"IDX2"[..], 5)?;
    let length = get::<8>(header, 4).checked_mul(16).ok_or(4u32)?;
    let entries = part(image, index + 20, length).ok_or(4u32)?;
    refuse_if(checksum(entries) != get::<8>(header, 12), 6)?;
    Ok(entries)
}

/// Checks 7 to 10: the one table.
fn one_table(image: &[u8], entries: &[u8]) -> Result<u64, Refused> {
    let mut tables = 0;
    let mut table = 0;
    for entry in entries.chunks_exact(16) {
        let offset = get::<8>(entry, 8);
        refuse_if(offset < HEADER, 7)?;
        let kind = part(image, offset, 4).ok_or(7u32)?;
        refuse_if(kind != &entry[..4], 8)?;
        if is_user_data(entry, b"DDT*") {
            tables += 1;
            table = offset;
        }
    }
    refuse_if(tables == 0, 9)?;
    refuse_if(tables > 1, 10)?;
    Ok(table)
}

/// Checks 11 to 14: the table's entries and shift.
fn table_entries(image: &[u8], table: u64) -> Result<(&[u8], u32), Refused> {
    let header = part(image, table, 49).ok_or(11u32)?;
    let shift = header[8].into();
    let length = get::<8>(header, 25);
    refuse_if(get::<2>(header, 6) != 0, 13)?;
    let malformed = get::<2>(header, 4) != 1
        || shift > 32
        || get::<8>(header, 9).checked_mul(8) != Some(length)
        || get::<8>(header, 17) != length;
    refuse_if(malformed, 12)?;
    let entries = part(image, table + 49, length).ok_or(11u32)?;
    let sum = checksum(entries);
    refuse_if(
        sum != get::<8>(header, 33) || sum != get::<8>(header, 41),
        14,
    )?;
    Ok((entries, shift))
}

/// A block's payload: checks 23 to 25.
fn payload(image: &[u8], block: u64) -> Result<&[u8], Refused> {
    let header = part(image, block, 36).ok_or(23u32)?;
    refuse_if(get::<2>(header, 6) != 0, 24)?;
    let size = get::<4>(header, 8);
    let length = get::<4>(header, 16);
    let malformed = get::<2>(header, 4) != 1
        || size == 0
        || get::<4>(header, 12) != length
        || length % size != 0;
    refuse_if(malformed, 25)?;
    part(image, block + 36, length).ok_or(23)
}

/// Whether a block's checksum is wrong.
pub fn is_damaged(image: &[u8], block: u64) -> bool {
    let at = block as usize;
    payload(image, block).is_ok_and(|p| {
        let sum = checksum(p);
        sum != get::<8>(image, at + 20) || sum != get::<8>(image, at + 28)
    })
}

impl<'a> Disc<'a> {
    /// Checks 1 to 14.
    pub fn open(image: &'a [u8]) -> Result<Self, Refused> {
        refuse_if((image.len() as u64) < HEADER, 1)?;
        refuse_if(!matches!(&image[..8], b"AARUFRMT" | b"DICMFRMT"), 2)?;
        refuse_if(image[IMAGE_MAJOR] != 2, 3)?;
        let entries = index_entries(image, get::<8>(image, INDEX_OFFSET))?;
        let (table, shift) = table_entries(image, one_table(image, entries)?)?;
        Ok(Self {
            image,
            entries,
            table,
            shift,
        })
    }

    pub fn count(&self) -> usize {
        self.table.len() / 8
    }

    /// What a table entry means.
    fn pointer(&self, entry: &[u8]) -> Option<Pointer> {
        let entry = get::<8>(entry, 0);
        let pointer = Pointer {
            block: entry >> self.shift,
            item: entry & ((1 << self.shift) - 1),
        };
        (entry != 0).then_some(pointer)
    }

    /// What each address has, by rising address.
    pub fn pointers(&self) -> impl Iterator<Item = Option<Pointer>> + '_ {
        self.table.chunks_exact(8).map(|entry| self.pointer(entry))
    }

    pub fn blocks(&self) -> impl Iterator<Item = u64> + '_ {
        let entries = self.entries.chunks_exact(16);
        let blocks = entries.filter(|entry| is_user_data(entry, b"DBLK"));
        blocks.map(|entry| get::<8>(entry, 8))
    }

    /// Checks 22 to 26. Of the block that is known only the item's number is looked at.
    pub fn check_form(&self, p: Pointer, known: Option<u64>) -> Result<(), Refused> {
        if known != Some(p.block) {
            refuse_if(self.blocks().all(|b| b != p.block), 22)?;
            payload(self.image, p.block)?;
        }
        let at = p.block as usize;
        let items = get::<4>(self.image, at + 16) / get::<4>(self.image, at + 8);
        refuse_if(items <= p.item, 26)
    }

    /// All sectors by rising address: the first refusal other than 21. No block is summed twice.
    pub fn check_sectors(&self) -> Result<(), Refused> {
        let mut first = (self.count(), Ok(()));
        let mut known = None;
        for (a, p) in self.pointers().enumerate() {
            let Some(p) = p else { continue };
            if let Err(number) = self.check_form(p, known) {
                first = (a, Err(number));
                break;
            }
            known = Some(p.block);
        }
        for (n, block) in self.blocks().enumerate() {
            let again = self.blocks().skip(n + 1).any(|b| b == block);
            if !again && is_damaged(self.image, block) {
                let into = |p: Option<Pointer>| p.is_some_and(|p| p.block == block);
                if let Some(a) = self.pointers().take(first.0).position(into) {
                    first = (a, Err(27));
                }
            }
        }
        first.1
    }

    /// Checks 20 to 27, and the sector at an address.
    pub fn read(&self, address: u64) -> Result<&'a [u8], Refused> {
        refuse_if(address >= self.count() as u64, 20)?;
        let p = self.pointer(&self.table[8 * address as usize..][..8]);
        let p = p.ok_or(21u32)?;
        self.check_form(p, None)?;
        refuse_if(is_damaged(self.image, p.block), 27)?;
        Ok(self.sector(p))
    }

    /// The sector that a pointer of a checked disc names.
    pub fn sector(&self, p: Pointer) -> &'a [u8] {
        let size = get::<4>(self.image, p.block as usize + 8);
        let start = (p.block + 36 + p.item * size) as usize;
        &self.image[start..start + size as usize]
    }

    /// The sector at an address of a checked disc whose sectors all have this size.
    #[inline]
    pub fn sector_of_size(&self, address: usize, size: usize) -> Option<&'a [u8]> {
        let entry = get::<8>(self.table.get(8 * address..8 * address + 8)?, 0);
        if entry == 0 {
            return None;
        }
        let start = (entry >> self.shift) as usize + 36 + (entry & ((1 << self.shift) - 1)) as usize * size;
        self.image.get(start..start + size)
    }

    /// The old index entries that a commit keeps.
    fn kept(&self) -> impl Iterator<Item = &'a [u8]> {
        let entries = self.entries.chunks_exact(16);
        entries.filter(|entry| entry[..4] != b"CKSM"[..])
    }

    /// How long the index of a commit is that adds a block or not.
    pub fn new_index_length(&self, block: bool) -> usize {
        20 + 16 * (self.kept().count() + usize::from(block))
    }

    /// Writes the index of a commit, with the table at `table` and a block at `block` if there is one.
    pub fn put_index(&self, index: &mut [u8], table: u64, block: Option<u64>) {
        let mut at = 20;
        for entry in self.kept() {
            index[at..at + 16].copy_from_slice(entry);
            if is_user_data(entry, b"DDT*") {
                put::<8>(index, at + 8, table);
            }
            at += 16;
        }
        if let Some(block) = block {
            put_entry(index, at, b"DBLK", block);
        }
        seal_index(index);
    }
}

/// Writes an index entry of user data.
pub fn put_entry(s: &mut [u8], at: usize, kind: &[u8; 4], offset: u64) {
    s[at..at + 4].copy_from_slice(kind);
    put::<4>(s, at + 4, 1);
    put::<8>(s, at + 8, offset);
}

fn put_identifier(s: &mut [u8], kind: &[u8; 4]) {
    s[..4].copy_from_slice(kind);
    put::<2>(s, 4, 1);
    put::<2>(s, 6, 0);
}

/// Writes a data block's header before its payload.
pub fn seal_block(block: &mut [u8], size: u64) {
    let (header, payload) = block.split_at_mut(36);
    let sum = checksum(payload);
    put_identifier(header, b"DBLK");
    put::<4>(header, 8, size);
    put::<4>(header, 12, payload.len() as u64);
    put::<4>(header, 16, payload.len() as u64);
    put::<8>(header, 20, sum);
    put::<8>(header, 28, sum);
}

/// Writes a table's header before its entries.
pub fn seal_table(table: &mut [u8], shift: u32) {
    let (header, entries) = table.split_at_mut(49);
    let sum = checksum(entries);
    put_identifier(header, b"DDT*");
    put::<1>(header, 8, shift.into());
    put::<8>(header, 9, entries.len() as u64 / 8);
    put::<8>(header, 17, entries.len() as u64);
    put::<8>(header, 25, entries.len() as u64);
    put::<8>(header, 33, sum);
    put::<8>(header, 41, sum);
}

/// Writes an index's header before its entries.
pub fn seal_index(index: &mut [u8]) {
    let (header, entries) = index.split_at_mut(20);
    header[..4].copy_from_slice(b"IDX2");
    put::<8>(header, 4, entries.len() as u64 / 16);
    put::<8>(header, 12, checksum(entries));
}

pub fn set_header(image: &mut [u8], index: u64, time: u64) {
    put::<8>(image, INDEX_OFFSET, index);
    put::<8>(image, LAST_WRITTEN_TIME, time);
}

/// Creates an image with application version 1.0 and media type 1.
pub fn create(
    buffer: &mut [u8],
    count: u64,
    application: &[u8],
    time: u64,
) -> Result<u64, Refused> {
    refuse_if(buffer.len() > 1 << 32, 31)?;
    refuse_if(count == 0 || count > 1 << 20, 30)?;
    refuse_if(application.len() != APPLICATION_LENGTH, 33)?;
    let index_offset = HEADER + 49 + 8 * count;
    let used = index_offset + 36;
    refuse_if((buffer.len() as u64) < used, 35)?;
    let (header, rest) = buffer[..used as usize].split_at_mut(HEADER as usize);
    let (table, index) = rest.split_at_mut(49 + 8 * count as usize);
    header[..8].copy_from_slice(b"AARUFRMT");
    header[8..IMAGE_MAJOR].copy_from_slice(application);
    header[IMAGE_MAJOR..IMAGE_MAJOR + 4].copy_from_slice(&[2, 0, 1, 0]);
    put::<4>(header, MEDIA_TYPE, 1);
    put::<8>(header, CREATION_TIME, time);
    set_header(header, index_offset, time);
    table.fill(0);
    seal_table(table, 0);
    put_entry(index, 20, b"DDT*", HEADER);
    seal_index(index);
    Ok(used)
}
