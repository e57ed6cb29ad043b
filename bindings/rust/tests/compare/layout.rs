//! Where each field of an image stands, and its checksums made right again after a field is set.

use crate::independent::checksum;
use std::ops::Range;

pub const HEADER: usize = 104;
pub const INDEX: usize = 20;
pub const INDEX_ENTRY: usize = 16;
pub const BLOCK: usize = 36;

/// How many bytes an application's name has, and where two fields of the header stand.
pub const APPLICATION: usize = 64;
pub const IMAGE_MAJOR: usize = 72;
pub const INDEX_OFFSET: usize = 80;

/// A created image, but for its table's entries.
pub const CREATED: usize = 189;

/// The place and width of each field within its record; of the application's 64 bytes the first
/// and the last.
const HEADER_FIELDS: [(usize, usize); 11] = [
    (0, 8),
    (8, 8),
    (64, 8),
    (72, 1),
    (73, 1),
    (74, 1),
    (75, 1),
    (76, 4),
    (80, 8),
    (88, 8),
    (96, 8),
];
const INDEX_FIELDS: [(usize, usize); 3] = [(0, 4), (4, 8), (12, 8)];
const INDEX_ENTRY_FIELDS: [(usize, usize); 3] = [(0, 4), (4, 4), (8, 8)];
const BLOCK_FIELDS: [(usize, usize); 8] = [
    (0, 4),
    (4, 2),
    (6, 2),
    (8, 4),
    (12, 4),
    (16, 4),
    (20, 8),
    (28, 8),
];
const TABLE_FIELDS: [(usize, usize); 9] = [
    (0, 4),
    (4, 2),
    (6, 2),
    (8, 1),
    (9, 8),
    (17, 8),
    (25, 8),
    (33, 8),
    (41, 8),
];
const SECOND_TABLE_FIELDS: [(usize, usize); 19] = [
    (0, 4),
    (4, 2),
    (6, 2),
    (LEVELS, 1),
    (9, 1),
    (10, 8),
    (NEGATIVE, 2),
    (BLOCKS, 8),
    (OVERFLOW, 2),
    (30, 8),
    (ALIGNMENT, 1),
    (39, 1),
    (40, 1),
    (SIZE_TYPE, 1),
    (42, 8),
    (50, 8),
    (58, 8),
    (66, 8),
    (74, 8),
];

/// Where the fields that only 'DDT2' has stand in its header.
pub const LEVELS: usize = 8;
pub const NEGATIVE: usize = 18;
pub const BLOCKS: usize = 20;
pub const OVERFLOW: usize = 28;
pub const ALIGNMENT: usize = 38;
pub const SIZE_TYPE: usize = 41;

/// How many bits of an entry of 'DDT2' are its pointer, and one whose status is 1, dumped.
pub const POINTER_BITS: u64 = 28;
pub const DUMPED: u64 = 1 << POINTER_BITS;

/// The two kinds of table.
#[derive(Clone, Copy, Debug, Default, PartialEq)]
pub enum Kind {
    /// 'DDT*', the only one that is written.
    #[default]
    Old,
    /// 'DDT2'.
    Second,
}

impl Kind {
    pub fn other(self) -> Kind {
        match self {
            Kind::Old => Kind::Second,
            Kind::Second => Kind::Old,
        }
    }

    pub fn letters(self) -> &'static [u8; 4] {
        match self {
            Kind::Old => b"DDT*",
            Kind::Second => b"DDT2",
        }
    }

    fn fields(self) -> &'static [(usize, usize)] {
        match self {
            Kind::Old => &TABLE_FIELDS,
            Kind::Second => &SECOND_TABLE_FIELDS,
        }
    }

    /// The length of a table's header.
    pub fn header(self) -> usize {
        match self {
            Kind::Old => 49,
            Kind::Second => 82,
        }
    }

    /// The length of a table's entry.
    pub fn width(self) -> usize {
        match self {
            Kind::Old => 8,
            Kind::Second => 4,
        }
    }

    /// How many entries have 2^64 bytes.
    pub fn wrapping(self) -> u64 {
        (1 << 63) / (self.width() as u64 / 2)
    }

    /// Where `entries` stands; cmpLength, length and two checksums follow it and end the header.
    pub fn entries(self) -> usize {
        self.header() - 40
    }

    /// Where the shift, of 'DDT2' dataShift, stands.
    pub fn shift(self) -> usize {
        match self {
            Kind::Old => 8,
            Kind::Second => 39,
        }
    }
}

pub fn get(image: &[u8], at: usize, width: usize) -> u64 {
    let mut bytes = [0; 8];
    bytes[..width].copy_from_slice(&image[at..at + width]);
    u64::from_le_bytes(bytes)
}

pub fn put(image: &mut [u8], at: usize, width: usize, value: u64) {
    image[at..at + width].copy_from_slice(&value.to_le_bytes()[..width]);
}

pub fn identifier(letters: &[u8; 4]) -> u64 {
    u64::from(u32::from_le_bytes(*letters))
}

/// A field belongs to one of these; entries and blocks are counted from 0.
#[derive(Clone, Copy, PartialEq)]
pub enum Record {
    Header,
    Index,
    IndexEntry(usize),
    Table,
    TableEntry(usize),
    Block(usize),
}

/// Where a field stands.
#[derive(Clone, Copy)]
pub struct Place {
    pub record: Record,
    pub at: usize,
    pub width: usize,
}

/// The places of the records of an image that opens.
#[derive(Clone, Default)]
pub struct Layout {
    pub index: usize,
    pub entries: usize,
    pub kind: Kind,
    pub table: usize,
    pub count: usize,
    pub shift: u64,
    pub alignment: u64,
    pub negative: u64,
    /// The blocks that the index names, in its order.
    pub blocks: Vec<usize>,
    pub length: usize,
}

impl Layout {
    pub fn of(image: &[u8]) -> Layout {
        Layout::at(image, get(image, INDEX_OFFSET, 8) as usize)
    }

    /// The layout by an index that the header need not name.
    pub fn at(image: &[u8], index: usize) -> Layout {
        let mut layout = Layout {
            index,
            entries: get(image, index + 4, 8) as usize,
            length: image.len(),
            ..Layout::default()
        };
        for entry in 0..layout.entries {
            let at = layout.index_entry(entry);
            let offset = get(image, at + 8, 8) as usize;
            match (&image[at..at + 4], get(image, at + 4, 4)) {
                (b"DDT*", 1) => (layout.kind, layout.table) = (Kind::Old, offset),
                (b"DDT2", 1) => (layout.kind, layout.table) = (Kind::Second, offset),
                (b"DBLK", 1) if !layout.blocks.contains(&offset) => layout.blocks.push(offset),
                _ => {}
            }
        }
        let (kind, table) = (layout.kind, layout.table);
        layout.count = get(image, table + kind.entries(), 8) as usize;
        layout.shift = get(image, table + kind.shift(), 1);
        if kind == Kind::Second {
            layout.alignment = get(image, table + ALIGNMENT, 1);
            layout.negative = get(image, table + NEGATIVE, 2);
        }
        layout
    }

    pub fn index_entry(&self, number: usize) -> usize {
        self.index + INDEX + INDEX_ENTRY * number
    }

    pub fn table_entry(&self, number: usize) -> usize {
        self.table + self.kind.header() + self.kind.width() * number
    }

    pub fn addresses(&self) -> Range<i64> {
        self.address(0)..self.address(self.count)
    }

    /// The address of a table entry.
    pub fn address(&self, number: usize) -> i64 {
        number as i64 - self.negative as i64
    }

    /// The number of the table entry of an address that the disc has.
    pub fn number(&self, address: i64) -> usize {
        (address + self.negative as i64) as usize
    }

    /// The table entry that names an item of the block at an offset, or none if it has no bits for
    /// them.
    pub fn entry(&self, offset: u64, item: u64) -> Option<u64> {
        let pointer = (u128::from(offset >> self.alignment) << self.shift) + u128::from(item);
        let (bits, dumped) = match self.kind {
            Kind::Old => (64, 0),
            Kind::Second => (POINTER_BITS, DUMPED),
        };
        let exact = offset.is_multiple_of(1 << self.alignment) && item < 1 << self.shift;
        (exact && pointer < 1 << bits).then_some(dumped + pointer as u64)
    }

    /// The offset and the item that a table entry names, if it names one.
    pub fn named(&self, image: &[u8], number: usize) -> Option<(u64, u64)> {
        let entry = get(image, self.table_entry(number), self.kind.width());
        let pointer = match self.kind {
            Kind::Old => (entry != 0).then_some(entry),
            Kind::Second => (entry / DUMPED == 1).then_some(entry % DUMPED),
        }?;
        let offset = pointer >> self.shift << self.alignment;
        Some((offset, pointer % (1 << self.shift)))
    }

    pub fn fields(&self) -> Vec<Place> {
        let mut fields = Vec::new();
        let mut add = |record, start: usize, places: &[(usize, usize)]| {
            for &(at, width) in places {
                fields.push(Place {
                    record,
                    at: start + at,
                    width,
                });
            }
        };
        add(Record::Header, 0, &HEADER_FIELDS);
        add(Record::Index, self.index, &INDEX_FIELDS);
        for number in 0..self.entries {
            let start = self.index_entry(number);
            add(Record::IndexEntry(number), start, &INDEX_ENTRY_FIELDS);
        }
        add(Record::Table, self.table, self.kind.fields());
        for number in 0..self.count {
            let start = self.table_entry(number);
            add(Record::TableEntry(number), start, &[(0, self.kind.width())]);
        }
        for (number, &start) in self.blocks.iter().enumerate() {
            add(Record::Block(number), start, &BLOCK_FIELDS);
        }
        fields
    }

    /// Sets the checksums of every record whose payload, with the length that now stands there,
    /// lies in the image.
    pub fn make_right(&self, image: &mut [u8]) {
        let mut records = vec![(self.index, Record::Index), (self.table, Record::Table)];
        let blocks = self.blocks.iter().enumerate();
        records.extend(blocks.map(|(number, &at)| (at, Record::Block(number))));
        // A payload may run over later records and their checksums, never over earlier ones.
        records.sort_by_key(|&(at, _)| std::cmp::Reverse(at));
        for (at, record) in records {
            let (header, length) = match record {
                Record::Index => (INDEX, 16 * u128::from(get(image, at + 4, 8))),
                Record::Table => {
                    let length = at + self.kind.entries() + 16;
                    (self.kind.header(), get(image, length, 8).into())
                }
                _ => (BLOCK, get(image, at + 16, 4).into()),
            };
            let start = at + header;
            if length > (image.len() - start) as u128 {
                continue;
            }
            let sum = checksum(&image[start..start + length as usize]);
            put(image, start - 8, 8, sum);
            if record != Record::Index {
                put(image, start - 16, 8, sum);
            }
        }
    }
}
