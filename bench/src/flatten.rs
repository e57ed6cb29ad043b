//! Flattening a child over its parent in Rust, by the same rules for 'DDT*', three ways: in the lent memory alone with
//! one search or with two, and free to allocate.
use crate::disc::{self, is_damaged, put_entry, seal_block, seal_index, seal_table, set_header, Disc, Pointer, Refused};
use std::collections::HashMap;
use std::iter::repeat;

/// A flattening's arguments besides the buffer.
pub struct Flatten<'a> {
    pub child: &'a [u8],
    pub parent: &'a [u8],
    pub application: &'a [u8],
    pub time: u64,
}

/// Both images; the parent may be refused.
struct Pair<'a> {
    child: Disc<'a>,
    parent: Result<Disc<'a>, Refused>,
}

/// What an address of the pair has.
#[derive(Clone, Copy)]
enum Named {
    Child(Pointer),
    Parent(Pointer),
    Nothing,
    Refused(Refused),
}

impl<'a> Pair<'a> {
    /// The child's opening numbers.
    fn open(f: &Flatten<'a>) -> Result<Self, Refused> {
        Ok(Self {
            child: Disc::open(f.child)?,
            parent: Disc::open(f.parent),
        })
    }

    /// By rising address.
    fn named(&self) -> impl Iterator<Item = Named> + '_ {
        let missing = match self.parent {
            Ok(_) => Named::Nothing,
            Err(number) => Named::Refused(100 + number),
        };
        let parents = self.parent.iter().flat_map(Disc::pointers);
        let parents = parents.map(|p| p.map_or(Named::Nothing, Named::Parent));
        let both = self.child.pointers().zip(parents.chain(repeat(missing)));
        both.map(|(own, parents)| own.map_or(parents, Named::Child))
    }

    /// Of a checked pair, by rising address.
    fn sectors(&self) -> impl Iterator<Item = Option<&'a [u8]>> + '_ {
        self.named().map(|named| match (named, &self.parent) {
            (Named::Child(p), _) => Some(self.child.sector(p)),
            (Named::Parent(p), Ok(parent)) => Some(parent.sector(p)),
            _ => None,
        })
    }

    /// The sector at an address of a checked pair whose sectors all have this size.
    #[inline]
    fn sector(&self, address: usize, size: usize) -> Option<&'a [u8]> {
        let own = self.child.sector_of_size(address, size);
        own.or_else(|| self.parent.as_ref().ok()?.sector_of_size(address, size))
    }

    /// The sectors' numbers other than 21 by rising address. No block is summed twice, and only such as a sector is
    /// looked for in.
    fn check(&self) -> Result<(), Refused> {
        let mut first = (self.child.count(), Ok(()));
        let (mut own, mut parents) = (None, None);
        for (a, named) in self.named().enumerate() {
            let checked = match (named, &self.parent) {
                (Named::Child(p), _) => self.child.check_form(p, own.replace(p.block)),
                (Named::Parent(p), Ok(parent)) => {
                    let checked = parent.check_form(p, parents.replace(p.block));
                    checked.map_err(|number| 100 + number)
                }
                (Named::Refused(number), _) => Err(number),
                _ => Ok(()),
            };
            if checked.is_err() {
                first = (a, checked);
                break;
            }
        }
        let is_own = |named, block| matches!(named, Named::Child(p) if p.block == block);
        self.check_sums(&self.child, &mut first, 27, is_own);
        if let Ok(parent) = &self.parent {
            let is_parents = |named, block| matches!(named, Named::Parent(p) if p.block == block);
            self.check_sums(parent, &mut first, 127, is_parents);
        }
        first.1
    }

    /// The lowest address that names a block of the disc whose checksums are wrong.
    fn check_sums(
        &self,
        disc: &Disc,
        first: &mut (usize, Result<(), Refused>),
        number: Refused,
        into: impl Fn(Named, u64) -> bool,
    ) {
        for (n, block) in disc.blocks().enumerate() {
            if disc.blocks().skip(n + 1).any(|b| b == block) {
                continue;
            }
            let named = self.named().take(first.0).position(|named| into(named, block));
            if let Some(a) = named.filter(|_| is_damaged(disc.image, block)) {
                *first = (a, Err(number));
            }
        }
    }

    /// 40, then 30: the size and the number of all sectors; of none the size is 0.
    fn extent(&self) -> Result<(usize, usize), Refused> {
        let (mut size, mut found, mut mixed) = (0, 0, false);
        for sector in self.sectors().flatten() {
            mixed |= found > 0 && sector.len() != size;
            size = sector.len();
            found += 1;
        }
        if mixed {
            return Err(40);
        }
        let count = self.child.count();
        if count == 0 || count > 1 << 20 || size > 65536 || found > 65536 {
            return Err(30);
        }
        Ok((size, found))
    }
}

/// All checks but 35, in their order.
fn open<'a>(buffer: &[u8], f: &Flatten<'a>) -> Result<(Pair<'a>, usize, usize), Refused> {
    if buffer.len() > 1 << 32 {
        return Err(31);
    }
    if f.application.len() != 64 {
        return Err(33);
    }
    let pair = Pair::open(f)?;
    pair.check()?;
    let (size, found) = pair.extent()?;
    Ok((pair, size, found))
}

/// How long the image is if so many sectors are stored.
fn used(count: usize, stored: usize, size: usize) -> usize {
    let block = if stored == 0 { 0 } else { 36 + stored * size + 49 + 8 * count + 52 };
    189 + 8 * count + block
}

/// Most sectors differ in their first bytes; then `==`, which is a call, is not made.
fn same(s: &[u8], t: &[u8]) -> bool {
    match (s.first_chunk::<8>(), t.first_chunk::<8>()) {
        (Some(a), Some(b)) => a == b && s == t,
        _ => s == t,
    }
}

fn among(sectors: &[u8], sector: &[u8]) -> Option<usize> {
    sectors.chunks_exact(sector.len()).position(|s| same(s, sector))
}

/// The number of sectors that are not equal to one before them.
fn plan(pair: &Pair, size: usize) -> usize {
    let count = pair.child.count();
    let is_new = |a: usize| {
        pair.sector(a, size).is_some_and(|sector| {
            let mut before = (0..a).filter_map(|a| pair.sector(a, size));
            !before.any(|s| same(s, sector))
        })
    };
    (0..count).filter(|a| is_new(*a)).count()
}

/// What creating leaves, and behind it the block, the table and the index; `item` finds a sector among those that are
/// stored or stores it. There is room.
fn write(
    buffer: &mut [u8],
    f: &Flatten,
    pair: &Pair,
    size: usize,
    mut item: impl FnMut(&mut [u8], usize, &[u8]) -> usize,
) -> Result<u64, Refused> {
    let count = pair.child.count();
    let block = disc::create(buffer, count as u64, f.application, f.time)?;
    let (image, rest) = buffer.split_at_mut(block as usize);
    if size == 0 {
        return Ok(block);
    }
    let payload = &mut rest[36..];
    let mut stored = 0;
    // The items' numbers stand in the created table until the shift is known.
    let items = image[153..].chunks_exact_mut(8);
    for (a, entry) in items.take(count).enumerate() {
        let Some(sector) = pair.sector(a, size) else { continue };
        let k = item(payload, stored, sector);
        stored = stored.max(k + 1);
        entry.copy_from_slice(&(k as u64 + 1).to_le_bytes());
    }
    let shift = (stored as u64 - 1).checked_ilog2().map_or(0, |n| n + 1);
    let (block_bytes, rest) = rest.split_at_mut(36 + stored * size);
    seal_block(block_bytes, size as u64);
    let (table, rest) = rest.split_at_mut(49 + 8 * count);
    let entries = table[49..].chunks_exact_mut(8);
    for (entry, created) in entries.zip(image[153..].chunks_exact_mut(8)) {
        let item = u64::from_le_bytes(created.try_into().unwrap());
        created.fill(0);
        let entry_of = |item| Pointer { block, item }.encode(shift);
        let value = item.checked_sub(1).map_or(0, entry_of);
        entry.copy_from_slice(&value.to_le_bytes());
    }
    seal_table(table, shift);
    let table_at = block + block_bytes.len() as u64;
    let index_at = table_at + table.len() as u64;
    let index = &mut rest[..52];
    put_entry(index, 20, b"DDT*", table_at);
    put_entry(index, 36, b"DBLK", block);
    seal_index(index);
    set_header(image, index_at, f.time);
    Ok(index_at + 52)
}

/// Searches in order among the stored sectors.
fn search(payload: &mut [u8], stored: usize, sector: &[u8]) -> usize {
    let end = stored * sector.len();
    among(&payload[..end], sector).unwrap_or_else(|| {
        payload[end..end + sector.len()].copy_from_slice(sector);
        stored
    })
}

/// In the lent memory. Where there is room for all sectors each is searched for once, else first to count.
pub fn once(buffer: &mut [u8], f: &Flatten) -> Result<u64, Refused> {
    let (pair, size, found) = open(buffer, f)?;
    let count = pair.child.count();
    if used(count, found, size) > buffer.len() && used(count, plan(&pair, size), size) > buffer.len() {
        return Err(35);
    }
    write(buffer, f, &pair, size, search)
}

/// In the lent memory: each sector is searched for twice, once to count and once to write.
pub fn twice(buffer: &mut [u8], f: &Flatten) -> Result<u64, Refused> {
    let (pair, size, _) = open(buffer, f)?;
    if used(pair.child.count(), plan(&pair, size), size) > buffer.len() {
        return Err(35);
    }
    write(buffer, f, &pair, size, search)
}

/// Free to allocate: a map from sectors to item numbers.
pub fn map(buffer: &mut [u8], f: &Flatten) -> Result<u64, Refused> {
    let (pair, size, found) = open(buffer, f)?;
    let mut items = HashMap::with_capacity(found);
    for sector in pair.sectors().flatten() {
        let next = items.len();
        items.entry(sector).or_insert(next);
    }
    if used(pair.child.count(), items.len(), size) > buffer.len() {
        return Err(35);
    }
    write(buffer, f, &pair, size, |payload, stored, sector| {
        let item = items[sector];
        if item == stored {
            payload[item * size..(item + 1) * size].copy_from_slice(sector);
        }
        item
    })
}
