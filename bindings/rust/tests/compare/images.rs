//! Images to try things on: built with what the format allows and the library never writes, and
//! made by the library.

use crate::arguments::{self, sector, SIZES};
use crate::layout::{
    get, put, Kind, Layout, ALIGNMENT, BLOCK, BLOCKS, DUMPED, HEADER, IMAGE_MAJOR, INDEX,
    INDEX_ENTRY, INDEX_OFFSET, LEVELS, NEGATIVE, OVERFLOW, POINTER_BITS, SIZE_TYPE,
};
use crate::random::Random;
use crate::sides::{raw, Call};

struct Block {
    sector_size: usize,
    payload: Vec<u8>,
    data_type: u64,
    /// How many index entries name it.
    named: usize,
    /// Whether no table entry names it.
    spare: bool,
}

impl Block {
    fn items(&self) -> usize {
        self.payload.len() / self.sector_size
    }
}

/// A record to be laid out, with all its bytes but those that need other records' places.
enum Part {
    Index(usize),
    Table,
    Block(Block),
    /// What is not looked into: other block types, a table of another data type.
    Other(Vec<u8>, u64),
}

/// What a table's entries name.
#[derive(Clone, Copy, PartialEq)]
pub enum Entries {
    /// Items that can be read, every one.
    Written,
    /// Such items, or nothing: not written.
    Some,
    /// Also what can't be read.
    Wild,
}

/// How an image is to be built.
pub struct Description {
    kind: Kind,
    /// Blocks stand at multiples of 2^alignment. The old kind has none.
    alignment: u64,
    blocks: Vec<Block>,
    others: Vec<(Vec<u8>, u64)>,
    count: usize,
    entries: Entries,
    /// Bytes behind the last record, the second of them where a block may stand.
    tail: [Vec<u8>; 2],
}

fn random_block(random: &mut Random) -> Block {
    let (sector_size, items) = (random.pick(&SIZES), random.below(5));
    block_of(sector_size, items, random)
}

fn block_of(sector_size: usize, items: usize, random: &mut Random) -> Block {
    Block {
        sector_size,
        payload: (0..items)
            .flat_map(|_| sector(random, sector_size))
            .collect(),
        data_type: if random.once_in(6) { 2 } else { 1 },
        named: if random.once_in(5) { 2 } else { 1 },
        spare: false,
    }
}

fn random_other(random: &mut Random) -> (Vec<u8>, u64) {
    let (letters, data_type) = random.pick(&[
        (b"CKSM", 0),
        (b"CKSM", 1),
        (b"TRKS", 0),
        (b"DDT*", 2),
        (b"DDT2", 2),
        (b"DBLK", 10),
    ]);
    let length = random.below(30);
    let more = random.bytes(length);
    ([&letters[..], &more].concat(), data_type)
}

/// Bytes that end with the first letters of a table of each kind and of a block, all cut short by
/// the image's end; faults lead there.
fn cut_short(random: &mut Random) -> [Vec<u8>; 2] {
    let mut some = |below| {
        let length = random.below(below);
        random.bytes(length)
    };
    let tables = [b"DDT2", &some(9)[..], b"DDT*", &some(9)].concat();
    let block = [b"DBLK", &some(BLOCK - 4)[..]].concat();
    [tables, block]
}

fn random_alignment(kind: Kind, random: &mut Random) -> u64 {
    match kind {
        Kind::Old => 0,
        Kind::Second => random.pick(&[0, 0, 1, 2, 3, 4, 6, 9]),
    }
}

impl Description {
    pub fn random(kind: Kind, random: &mut Random) -> Description {
        Description {
            kind,
            alignment: random_alignment(kind, random),
            blocks: (0..random.below(4)).map(|_| random_block(random)).collect(),
            others: (0..random.below(4)).map(|_| random_other(random)).collect(),
            count: random.below(9),
            entries: match random.below(3) {
                0 => Entries::Wild,
                _ => Entries::Some,
            },
            tail: match random.below(3) {
                0 => Default::default(),
                1 => [Vec::new(), random.bytes(5)],
                _ => cut_short(random),
            },
        }
    }

    /// One that faults of every kind can be brought into: with sectors to read, two blocks, an
    /// entry that may become a second table, and records cut short at the end.
    pub fn rich(kind: Kind, random: &mut Random) -> Description {
        let blocks = (0..2 + random.below(2)).map(|_| {
            let mut block = random_block(random);
            while block.items() == 0 {
                block = random_block(random);
            }
            block.data_type = 1;
            block
        });
        Description {
            kind,
            blocks: blocks.collect(),
            others: (0..1 + random.below(3))
                .map(|_| random_other(random))
                .collect(),
            count: 4 + random.below(3),
            entries: Entries::Some,
            tail: cut_short(random),
            alignment: random_alignment(kind, random),
        }
    }

    /// A rich one whose sectors are all written and of one size, so that it can be exported; a block
    /// of another size stands by.
    pub fn even(kind: Kind, random: &mut Random) -> Description {
        let mut sizes = SIZES.to_vec();
        random.shuffle(&mut sizes);
        let size = sizes[0];
        sizes.retain(|&other| other != size);
        Description::even_of(kind, size, sizes[0], random)
    }

    /// One of these sizes, of which the second is that of the block that stands by.
    pub fn even_of(kind: Kind, size: usize, other: usize, random: &mut Random) -> Description {
        let mut blocks: Vec<Block> = (0..1 + random.below(2))
            .map(|_| block_of(size, 1 + random.below(4), random))
            .collect();
        blocks.push(Block {
            spare: true,
            ..block_of(other, 1 + random.below(4), random)
        });
        for block in &mut blocks {
            block.data_type = 1;
        }
        Description {
            blocks,
            entries: Entries::Written,
            ..Description::rich(kind, random)
        }
    }

    pub fn with_count(self, count: usize) -> Description {
        Description { count, ..self }
    }

    /// With table entries that may name what can't be read.
    pub fn wild(self) -> Description {
        Description {
            entries: Entries::Wild,
            ..self
        }
    }

    pub fn build(mut self, random: &mut Random) -> Vec<u8> {
        let blocks = std::mem::take(&mut self.blocks);
        let others = std::mem::take(&mut self.others);
        let named: usize = blocks.iter().map(|block| block.named).sum();
        let entries = 1 + named + others.len();
        let mut parts = vec![Part::Index(entries), Part::Table];
        parts.extend(blocks.into_iter().map(Part::Block));
        let others = others.into_iter();
        parts.extend(others.map(|(bytes, data_type)| Part::Other(bytes, data_type)));
        random.shuffle(&mut parts);

        let mut image = header(random);
        let mut placed = Vec::new();
        for part in parts {
            let gap = random.below(3) * random.below(9);
            image.extend(random.bytes(gap));
            if let Part::Block(_) = part {
                self.align(&mut image, 0, random);
            }
            let at = image.len();
            self.append(&mut image, &part, random);
            placed.push((at, part));
        }
        let [before, behind] = &self.tail;
        self.align(&mut image, before.len(), random);
        image.extend([&before[..], behind].concat());
        fill_index(&mut image, &placed, random);
        let mut layout = Layout::of(&image);
        let items = items(&placed, self.entries);
        fill_table(&mut image, &items, &mut layout, self.entries, random);
        layout.make_right(&mut image);
        image
    }

    /// Leaves a gap, so that what stands behind some more bytes is aligned as a block.
    fn align(&self, image: &mut Vec<u8>, more: usize, random: &mut Random) {
        let end = image.len() + more;
        image.extend(random.bytes(end.next_multiple_of(1 << self.alignment) - end));
    }

    fn append(&self, image: &mut Vec<u8>, part: &Part, random: &mut Random) {
        let at = image.len();
        match part {
            Part::Index(entries) => {
                image.resize(at + INDEX + INDEX_ENTRY * entries, 0);
                image[at..at + 4].copy_from_slice(b"IDX2");
                put(image, at + 4, 8, *entries as u64);
                put(image, INDEX_OFFSET, 8, at as u64);
            }
            Part::Table => image.extend(table(self.kind, self.count, self.alignment, random)),
            Part::Block(block) => {
                image.resize(at + BLOCK, 0);
                image[at..at + 4].copy_from_slice(b"DBLK");
                put(image, at + 4, 2, 1);
                put(image, at + 8, 4, block.sector_size as u64);
                put(image, at + 12, 4, block.payload.len() as u64);
                put(image, at + 16, 4, block.payload.len() as u64);
                image.extend(&block.payload);
            }
            Part::Other(bytes, _) => image.extend(bytes),
        }
    }
}

/// A table without its shift, entries and checksums. Of 'DDT2', fields that are not looked at have
/// any values, and blocks is at times the least that is accepted.
pub fn table(kind: Kind, count: usize, alignment: u64, random: &mut Random) -> Vec<u8> {
    let length = kind.width() * count;
    let mut table = vec![0; kind.header() + length];
    if kind == Kind::Second {
        table[..kind.header()].copy_from_slice(&random.bytes(kind.header()));
        let negative = random.pick(&[0, 1, 2, 3, 3, 5, 65_535]);
        let overflow = random.pick(&[0, 0, 1, 65_535]);
        let least = negative + overflow;
        let blocks = random.pick(&[least, least + 1, 1 << 32, u64::MAX]);
        for (at, width, value) in [
            (6, 2, 0),
            (LEVELS, 1, 1),
            (NEGATIVE, 2, negative),
            (BLOCKS, 8, blocks),
            (OVERFLOW, 2, overflow),
            (ALIGNMENT, 1, alignment),
            (SIZE_TYPE, 1, 0),
        ] {
            put(&mut table, at, width, value);
        }
    }
    table[..4].copy_from_slice(kind.letters());
    put(&mut table, 4, 2, 1);
    put(&mut table, kind.entries(), 8, count as u64);
    put(&mut table, kind.entries() + 8, 8, length as u64);
    put(&mut table, kind.entries() + 16, 8, length as u64);
    table
}

fn header(random: &mut Random) -> Vec<u8> {
    let mut header = random.bytes(HEADER);
    header[..8].copy_from_slice(random.pick(&[b"AARUFRMT", b"DICMFRMT"]));
    header[IMAGE_MAJOR] = 2;
    header
}

/// Writes the index's entries in any order.
fn fill_index(image: &mut [u8], placed: &[(usize, Part)], random: &mut Random) {
    let mut entries = Vec::new();
    let mut index = 0;
    for (at, part) in placed {
        match part {
            Part::Index(_) => index = *at,
            Part::Table => entries.push((*at, 1)),
            Part::Block(block) => entries.extend(vec![(*at, block.data_type); block.named]),
            Part::Other(_, data_type) => entries.push((*at, *data_type)),
        }
    }
    random.shuffle(&mut entries);
    for (number, (offset, data_type)) in entries.into_iter().enumerate() {
        let at = index + INDEX + INDEX_ENTRY * number;
        image.copy_within(offset..offset + 4, at);
        put(image, at + 4, 4, data_type);
        put(image, at + 8, 8, offset as u64);
    }
}

/// The items that table entries may name, each with its block's offset.
fn items(placed: &[(usize, Part)], entries: Entries) -> Vec<(u64, u64)> {
    let mut items = Vec::new();
    for (at, part) in placed {
        if let Part::Block(block) = part {
            let readable = match (block.spare, block.data_type) {
                (false, 1) => block.items(),
                _ => 0,
            };
            let end = match entries {
                Entries::Wild => readable + 2,
                _ => readable,
            };
            items.extend((0..end).map(|item| (*at as u64, item as u64)));
        }
    }
    items
}

/// Writes the table's shift, often larger than needed, and its entries.
pub fn fill_table(
    image: &mut [u8],
    items: &[(u64, u64)],
    layout: &mut Layout,
    entries: Entries,
    random: &mut Random,
) {
    let (kind, table) = (layout.kind, layout.table);
    layout.shift = match kind {
        Kind::Old => random.pick(&[0, 1, 2, 3, 3, 5, 12, 31, 32]),
        Kind::Second => {
            // With a larger one no entry can name the image's last bytes.
            let bits = u64::from((layout.length >> layout.alignment).ilog2()) + 1;
            let largest = POINTER_BITS - bits;
            random.pick(&[0, 1, 2, 3, 3, 5, 12, largest]).min(largest)
        }
    };
    put(image, table + kind.shift(), 1, layout.shift);
    let named = items
        .iter()
        .filter_map(|&(at, item)| layout.entry(at, item));
    let named: Vec<u64> = named.collect();
    for number in 0..layout.count {
        let any = random.number();
        let entry = match kind {
            Kind::Second if entries == Entries::Wild && random.once_in(3) => any,
            _ if !named.is_empty() && (entries == Entries::Written || !random.once_in(4)) => {
                random.pick(&named)
            }
            Kind::Old => 0,
            // Not dumped, whatever the pointer is.
            Kind::Second => any % DUMPED,
        };
        put(image, layout.table_entry(number), kind.width(), entry);
    }
}

/// An image that the library made by a creation and some commits.
fn made(random: &mut Random) -> Vec<u8> {
    let mut buffer = vec![0; 4000];
    let sectors = 4 + random.below(3);
    let create = arguments::create(random, sectors as u64);
    let (mut used, _) = raw(&mut buffer, 0, &Call::Create(create)).unwrap();
    for _ in 0..2 + random.below(3) {
        let commit = arguments::commit(random, 0..sectors as i64);
        (used, _) = raw(&mut buffer, used, &Call::Commit(commit)).unwrap();
    }
    buffer.truncate(used as usize);
    buffer
}

/// An image to try things on: in one of four cases an even one, and in another, if it is of the old
/// kind, made by the library.
pub fn base(kind: Kind, number: usize, random: &mut Random) -> Vec<u8> {
    match (kind, number % 4) {
        (Kind::Old, 0) => made(random),
        (_, 1) => Description::even(kind, random).build(random),
        _ => Description::rich(kind, random).build(random),
    }
}

/// The addresses whose table entries name a block.
pub fn addresses_in(image: &[u8], layout: &Layout, block: usize) -> Vec<i64> {
    let offset = layout.blocks[block] as u64;
    let names = |entry| matches!(layout.named(image, entry), Some((at, _)) if at == offset);
    let entries = (0..layout.count).filter(|&entry| names(entry));
    entries.map(|entry| layout.address(entry)).collect()
}

/// The table entry that names the first item of an even image's block of another size.
pub fn spare_entry(image: &[u8], layout: &Layout) -> u64 {
    let size = |block: u64| get(image, block as usize + 8, 4);
    let (first, _) = layout.named(image, 0).expect("all sectors are written");
    let mut blocks = layout.blocks.iter().map(|&block| block as u64);
    let spare = blocks.find(|&block| size(block) != size(first));
    let entry = layout.entry(spare.expect("a block stands by"), 0);
    entry.expect("an entry has bits for it")
}
