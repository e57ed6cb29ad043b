//! Faults that can be brought into an accepted input, alone or two at once.

use crate::images::addresses_in;
use crate::layout::{
    get, identifier, put, Kind, Layout, ALIGNMENT, BLOCK, BLOCKS, DUMPED, IMAGE_MAJOR,
    INDEX_OFFSET, LEVELS, NEGATIVE, OVERFLOW, SIZE_TYPE,
};
use crate::sides::{Call, Commit, Create, Import};
use std::mem::discriminant;

#[derive(Clone)]
pub struct Input {
    pub buffer: Vec<u8>,
    pub used: u64,
    pub call: Call,
}

#[derive(Clone, Copy, Debug)]
pub enum Edit {
    /// A field of the image: place, width and new value. The checksums are made right again.
    Field(usize, usize, u64),
    /// The same, but the checksums stay as they are.
    Damage(usize, usize, u64),
    Used(u64),
    BufferLength(usize),
    Address(i64),
    Offset(u64),
    Sectors(u64),
    ApplicationLength(usize),
    Size(u64),
    BytesLength(usize),
    FirstAddress(i64),
    LastAddress(i64),
    AddressCount(usize),
    FlatLength(usize),
}
use Edit::*;

impl Edit {
    /// Whether two edits change the same thing, or one cuts off what the other changes, so that
    /// they can't be had at once.
    fn clashes(&self, other: &Edit) -> bool {
        match (*self, *other) {
            (
                Field(at, width, _) | Damage(at, width, _),
                Field(to, more, _) | Damage(to, more, _),
            ) => at < to + more && to < at + width,
            (Used(used), Field(at, width, _) | Damage(at, width, _))
            | (Field(at, width, _) | Damage(at, width, _), Used(used)) => {
                (at + width) as u64 > used
            }
            (FirstAddress(_) | LastAddress(_) | BytesLength(_), AddressCount(_)) => true,
            (AddressCount(_), FirstAddress(_) | LastAddress(_) | BytesLength(_)) => true,
            _ => discriminant(self) == discriminant(other),
        }
    }

    fn argument(&self, call: &mut Call) {
        match (*self, call) {
            (Address(new), Call::Locate(address)) => *address = new,
            (Offset(new), Call::Rollback { offset, .. }) => *offset = new,
            (Sectors(new), Call::Create(create)) => create.sectors = new,
            (
                ApplicationLength(new),
                Call::Create(Create { about, .. }) | Call::Import(Import { about, .. }),
            ) => about.application.resize(new, 7),
            (Size(new), Call::Commit(Commit { size, .. }) | Call::Import(Import { size, .. })) => {
                *size = new
            }
            (FlatLength(new), Call::Import(import)) => import.flat.resize(new, 7),
            (BytesLength(new), Call::Commit(commit)) => commit.sectors.resize(new, 7),
            (FirstAddress(new), Call::Commit(commit)) => commit.addresses[0] = new,
            (LastAddress(new), Call::Commit(commit)) => {
                *commit.addresses.last_mut().unwrap() = new;
            }
            (AddressCount(new), Call::Commit(commit)) => {
                commit.addresses = (0..new as i64).collect();
                commit.sectors.resize(new * commit.size as usize, 7);
            }
            _ => {}
        }
    }
}

/// Edits that are one fault together.
pub type Fault = Vec<Edit>;

pub fn clash(one: &Fault, other: &Fault) -> bool {
    one.iter()
        .any(|edit| other.iter().any(|more| edit.clashes(more)))
}

/// Makes those of the edits that are to the image. The layout is that of the image before them.
pub fn edit_image(image: &mut [u8], layout: &Layout, edits: &[Edit]) {
    for edit in edits {
        if let Field(at, width, value) = *edit {
            put(image, at, width, value);
        }
    }
    if edits.iter().any(|edit| matches!(edit, Field(..))) {
        layout.make_right(image);
    }
    for edit in edits {
        if let Damage(at, width, value) = *edit {
            put(image, at, width, value);
        }
    }
}

/// The input with these edits.
pub fn with(base: &Input, layout: &Layout, edits: &[Edit]) -> Input {
    let mut input = base.clone();
    edit_image(&mut input.buffer[..base.used as usize], layout, edits);
    for edit in edits {
        match *edit {
            Used(used) => input.used = used,
            BufferLength(length) => input.buffer.truncate(length),
            _ => edit.argument(&mut input.call),
        }
    }
    input
}

/// The image's last place of a record's letters.
fn last(image: &[u8], letters: &[u8; 4]) -> u64 {
    let place = image.windows(4).rposition(|window| window == letters);
    place.unwrap_or(image.len() - 4) as u64
}

/// Faults that an opening meets.
pub fn of_opening(image: &[u8], layout: &Layout) -> Vec<Fault> {
    let (length, index, table) = (layout.length as u64, layout.index, layout.table);
    let index_end = layout.index_entry(layout.entries);
    let table_end = layout.table_entry(layout.count);
    let mut faults = vec![
        vec![Used(0)],
        vec![Used(103)],
        vec![Used(index as u64 + 19)],
        vec![Used(index_end as u64 - 1)],
        vec![Used(table_end as u64 - 1)],
        vec![Field(0, 8, get(image, 0, 8) ^ 1)],
        vec![Field(7, 1, 0)],
        vec![Field(IMAGE_MAJOR, 1, 1)],
        vec![Field(IMAGE_MAJOR, 1, 3)],
        vec![Field(index, 4, identifier(b"INDX"))],
        vec![Field(index + 4, 8, (1 << 60) + layout.entries as u64)],
        vec![Field(index + 4, 8, (length - index as u64 - 20) / 16 + 1)],
        vec![Damage(index + 12, 8, !get(image, index + 12, 8))],
    ];
    for offset in [
        103,
        length - 19,
        (1 << 32) - 1,
        u64::MAX,
        index as u64 + 1,
        table as u64,
    ] {
        faults.push(vec![Field(INDEX_OFFSET, 8, offset)]);
    }
    for entry in [0, layout.entries - 1] {
        faults.extend(of_index_entry(image, layout, entry));
    }
    faults.extend(of_table(image, layout));
    faults
}

fn of_index_entry(image: &[u8], layout: &Layout, entry: usize) -> Vec<Fault> {
    let at = layout.index_entry(entry);
    let (block_type, offset) = (get(image, at, 4), get(image, at + 8, 8));
    vec![
        vec![Field(at, 4, block_type ^ 0x20)],
        vec![Field(at + 8, 8, 103)],
        vec![Field(at + 8, 8, layout.length as u64 - 3)],
        vec![Field(at + 8, 8, u64::MAX - 3)],
        vec![Field(at + 8, 8, offset + 1)],
        vec![Field(offset as usize, 1, 0)],
        vec![Damage(at + 5, 1, !get(image, at + 5, 1))],
    ]
}

fn of_table(image: &[u8], layout: &Layout) -> Vec<Fault> {
    let (kind, table, count) = (layout.kind, layout.table, layout.count as u64);
    let (width, payload) = (kind.width() as u64, layout.table_entry(0));
    let fits = (layout.length - payload) as u64 / width;
    let entries = table + kind.entries();
    let (cmp_length, length) = (entries + 8, entries + 16);
    let sums = [entries + 24, entries + 32];
    let mut faults = vec![
        vec![Field(table + 6, 2, 1)],
        vec![Field(table + 4, 2, 2)],
        vec![Field(table + kind.shift(), 1, 33)],
        vec![Field(entries, 8, count + 1)],
        vec![Field(entries, 8, kind.wrapping() + count)],
        vec![Field(cmp_length, 8, width * (count + 1))],
        vec![Field(length, 8, width * (count + 1))],
        table_count(layout, fits + 1),
        table_count(layout, kind.wrapping() - 1),
        vec![Damage(sums[0], 8, !get(image, sums[0], 8))],
        vec![Damage(sums[1], 8, !get(image, sums[1], 8))],
    ];
    if kind == Kind::Second {
        faults.extend(of_second_table(table));
    }
    if count > 0 {
        let bit = get(image, payload, 1) ^ 1;
        faults.push(vec![Damage(payload, 1, bit)]);
    }
    for entry in 0..layout.entries {
        let at = layout.index_entry(entry);
        let offset = get(image, at + 8, 8) as usize;
        if offset == table && get(image, at + 4, 4) == 1 {
            faults.push(vec![Field(at + 4, 4, 2)]);
            faults.push(vec![Field(at + 8, 8, last(image, kind.letters()))]);
        } else {
            let other = kind.other();
            let places = [(kind, table as u64), (other, last(image, other.letters()))];
            faults.extend(places.map(|(kind, offset)| {
                vec![
                    Field(at, 4, identifier(kind.letters())),
                    Field(at + 4, 4, 1),
                    Field(at + 8, 8, offset),
                ]
            }));
        }
    }
    faults
}

/// Faults of the fields that only 'DDT2' has.
fn of_second_table(table: usize) -> Vec<Fault> {
    vec![
        vec![Field(table + LEVELS, 1, 0)],
        vec![Field(table + LEVELS, 1, 2)],
        vec![Field(table + SIZE_TYPE, 1, 1)],
        vec![Field(table + SIZE_TYPE, 1, 255)],
        table_blocks(table, 1, 0, 0),
        table_blocks(table, 65_535, 65_535, 131_069),
        vec![Field(table + ALIGNMENT, 1, 33)],
    ]
}

/// The displacements of a 'DDT2' and its number of blocks.
pub fn table_blocks(table: usize, negative: u64, overflow: u64, blocks: u64) -> Fault {
    vec![
        Field(table + NEGATIVE, 2, negative),
        Field(table + OVERFLOW, 2, overflow),
        Field(table + BLOCKS, 8, blocks),
    ]
}

/// A table's count with the lengths that go with it.
pub fn table_count(layout: &Layout, count: u64) -> Fault {
    let entries = layout.table + layout.kind.entries();
    let length = count.wrapping_mul(layout.kind.width() as u64);
    vec![
        Field(entries, 8, count),
        Field(entries + 8, 8, length),
        Field(entries + 16, 8, length),
    ]
}

/// Both lengths of a block.
pub fn block_lengths(block: usize, length: u64) -> Fault {
    vec![Field(block + 12, 4, length), Field(block + 16, 4, length)]
}

/// Faults that a read of this address meets after the opening.
pub fn of_reading(image: &[u8], layout: &Layout, address: i64) -> Vec<Fault> {
    let number = layout.number(address);
    let (table_entry, width) = (layout.table_entry(number), layout.kind.width());
    let entry = get(image, table_entry, width);
    let (block, item) = layout.named(image, number).expect("it names an item");
    let block = block as usize;
    let size = get(image, block + 8, 4);
    let items = get(image, block + 16, 4) / size;
    let fits = (layout.length - block - BLOCK) as u64 / size;
    let cut_short = last(image, b"DBLK");
    let mut faults = vec![
        vec![Field(table_entry, width, 0)],
        vec![Field(table_entry, width, entry + (1 << layout.shift))],
        vec![Field(table_entry, width, entry - item + items)],
        vec![Field(table_entry, width, entry | ((1 << layout.shift) - 1))],
        block_lengths(block, size * (fits + 1)),
        block_lengths(block, u64::from(u32::MAX) / size * size),
        block_lengths(block, 0),
        block_lengths(block, size * items + 1),
        vec![Field(block + 6, 2, 1)],
        vec![Field(block + 4, 2, 2)],
        vec![Field(block + 8, 4, 0)],
        vec![Field(block + 12, 4, size * (items + 1))],
        vec![Field(block + 16, 4, size * (items + 1))],
        vec![Damage(block + 20, 8, !get(image, block + 20, 8))],
        vec![Damage(block + 28, 8, !get(image, block + 28, 8))],
        vec![Damage(block + BLOCK, 1, get(image, block + BLOCK, 1) ^ 1)],
    ];
    if layout.kind == Kind::Second {
        let pointer = entry % DUMPED;
        let entries = [pointer, pointer + 2 * DUMPED, pointer + 15 * DUMPED];
        faults.extend(entries.map(|entry| vec![Field(table_entry, width, entry)]));
    }
    let (mut unnamed, mut elsewhere) = (Vec::new(), Vec::new());
    if let Some(entry) = layout.entry(cut_short, 0) {
        elsewhere.push(Field(table_entry, width, entry));
    }
    for at in (0..layout.entries).map(|entry| layout.index_entry(entry)) {
        if get(image, at + 8, 8) == block as u64 {
            unnamed.push(Field(at + 4, 4, 2));
            elsewhere.push(Field(at + 8, 8, cut_short));
        }
    }
    faults.push(unnamed);
    faults.push(elsewhere);
    faults
}

/// Up to two addresses whose sectors lie in different blocks.
pub fn read_addresses(image: &[u8], layout: &Layout) -> Vec<i64> {
    let mut addresses: Vec<i64> = (0..layout.blocks.len())
        .filter_map(|block| addresses_in(image, layout, block).first().copied())
        .collect();
    addresses.sort();
    addresses.truncate(2);
    addresses
}
