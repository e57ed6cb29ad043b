//! Committing in Rust, by the same rules, two ways: in the lent memory alone, and free to allocate.
use crate::disc::{seal_block, seal_table, set_header, Disc, Pointer, Refused};
use std::collections::HashMap;

/// A commit's arguments besides the buffer.
pub struct Commit<'a> {
    pub used: u64,
    pub addresses: &'a [i64],
    pub size: u64,
    pub sectors: &'a [u8],
    pub time: u64,
}

/// The parts that a commit appends.
struct Parts<'a> {
    block: &'a mut [u8],
    table: &'a mut [u8],
    index: &'a mut [u8],
}

fn shift_for(largest: u64) -> u32 {
    64 - largest.leading_zeros()
}

fn item(p: Option<Pointer>) -> u64 {
    p.map_or(0, |p| p.item)
}

impl Commit<'_> {
    /// 31, 32, 30, 33, 34: the image, and the room after it.
    fn split<'b>(&self, buffer: &'b mut [u8]) -> Result<(&'b mut [u8], &'b mut [u8]), Refused> {
        if buffer.len() > 1 << 32 {
            return Err(31);
        }
        if buffer.len() < self.used as usize {
            return Err(32);
        }
        if self.size == 0 || self.size > 65536 || self.addresses.len() > 65536 {
            return Err(30);
        }
        if self.sectors.len() != self.addresses.len() * self.size as usize {
            return Err(33);
        }
        if self.addresses.windows(2).any(|w| w[1] <= w[0]) {
            return Err(34);
        }
        Ok(buffer.split_at_mut(self.used as usize))
    }

    /// Opening's numbers, 20, the sectors' numbers.
    fn open<'b>(&self, image: &'b [u8]) -> Result<Disc<'b>, Refused> {
        let disc = Disc::open(image)?;
        if self.addresses.iter().any(|a| *a as u64 >= disc.count() as u64) {
            return Err(20);
        }
        disc.check_sectors()?;
        Ok(disc)
    }

    fn sector(&self, k: usize) -> &[u8] {
        let size = self.size as usize;
        &self.sectors[k * size..(k + 1) * size]
    }

    /// What each address of the new table has; `handed` answers for the handed-in sectors.
    fn pointers<'b>(
        &'b self,
        disc: &'b Disc,
        mut handed: impl FnMut(usize) -> Pointer + 'b,
    ) -> impl Iterator<Item = Option<Pointer>> + 'b {
        let mut k = 0;
        disc.pointers().enumerate().map(move |(a, old)| {
            if self.addresses.get(k) != Some(&(a as i64)) {
                return old;
            }
            k += 1;
            Some(handed(k - 1))
        })
    }

    /// 35: the parts that are appended, if so many sectors are stored.
    fn parts<'b>(
        &self,
        disc: &Disc,
        rest: &'b mut [u8],
        stored: usize,
    ) -> Result<Parts<'b>, Refused> {
        let block = if stored == 0 {
            0
        } else {
            36 + stored * self.size as usize
        };
        let table = 49 + 8 * disc.count();
        let index = disc.new_index_length(stored != 0);
        let all = rest.get_mut(..block + table + index).ok_or(35u32)?;
        let (block, rest) = all.split_at_mut(block);
        let (table, index) = rest.split_at_mut(table);
        Ok(Parts {
            block,
            table,
            index,
        })
    }

    /// Writes all headers and the index; answers where the index is, and the new `used`.
    fn seal(&self, disc: &Disc, parts: Parts, shift: u32) -> (u64, u64) {
        let stores = !parts.block.is_empty();
        if stores {
            seal_block(parts.block, self.size);
        }
        seal_table(parts.table, shift);
        let table = self.used + parts.block.len() as u64;
        let index = table + parts.table.len() as u64;
        disc.put_index(parts.index, table, stores.then_some(self.used));
        (index, index + parts.index.len() as u64)
    }

    fn new_item(&self, item: usize) -> Pointer {
        Pointer {
            block: self.used,
            item: item as u64,
        }
    }
}

fn put_entries(table: &mut [u8], shift: u32, pointers: impl Iterator<Item = Option<Pointer>>) {
    for (bytes, p) in table[49..].chunks_exact_mut(8).zip(pointers) {
        let entry = p.map_or(0, |p| p.encode(shift));
        bytes.copy_from_slice(&entry.to_le_bytes());
    }
}

/// In the lent memory: each sector is searched for twice, once to count and once to write.
pub mod lent {
    use super::*;

    /// How two sectors are compared.
    pub trait Same: Fn(&[u8], &[u8]) -> bool + Copy {}

    impl<F: Fn(&[u8], &[u8]) -> bool + Copy> Same for F {}

    fn on_disc(disc: &Disc, sector: &[u8], same: impl Same) -> Option<Pointer> {
        disc.pointers()
            .flatten()
            .find(|p| same(disc.sector(*p), sector))
    }

    fn among(sectors: &[u8], sector: &[u8], same: impl Same) -> Option<usize> {
        sectors
            .chunks_exact(sector.len())
            .position(|s| same(s, sector))
    }

    /// How many sectors are stored, and the largest item number.
    fn plan(c: &Commit, disc: &Disc, same: impl Same) -> (usize, u64) {
        let mut stored = 0;
        let pointers = c.pointers(disc, |k| {
            let sector = c.sector(k);
            if let Some(p) = on_disc(disc, sector, same) {
                return p;
            }
            if among(&c.sectors[..k * sector.len()], sector, same).is_some() {
                return c.new_item(0);
            }
            stored += 1;
            c.new_item(stored - 1)
        });
        let largest = pointers.map(item).max().unwrap_or(0);
        (stored, largest)
    }

    /// Writes the stored sectors and the table's entries.
    fn store(c: &Commit, disc: &Disc, parts: &mut Parts, shift: u32, same: impl Same) {
        let items = parts.block.get_mut(36..).unwrap_or_default();
        let mut end = 0;
        let pointers = c.pointers(disc, |k| {
            let sector = c.sector(k);
            if let Some(p) = on_disc(disc, sector, same) {
                return p;
            }
            let found = among(&items[..end], sector, same);
            let item = found.unwrap_or(end / sector.len());
            if found.is_none() {
                items[end..end + sector.len()].copy_from_slice(sector);
                end += sector.len();
            }
            c.new_item(item)
        });
        put_entries(parts.table, shift, pointers);
    }

    pub fn commit(buffer: &mut [u8], c: &Commit, same: impl Same) -> Result<u64, Refused> {
        let (image, rest) = c.split(buffer)?;
        let disc = c.open(image)?;
        let (stored, largest) = plan(c, &disc, same);
        let mut parts = c.parts(&disc, rest, stored)?;
        let shift = shift_for(largest);
        store(c, &disc, &mut parts, shift, same);
        let (index, used) = c.seal(&disc, parts, shift);
        set_header(image, index, c.time);
        Ok(used)
    }
}

/// Free to allocate: a map from sectors to pointers, made once for each commit.
pub mod map {
    use super::*;

    /// The first address's pointer for each sector of the disc.
    fn sectors<'a>(disc: &Disc<'a>) -> HashMap<&'a [u8], Pointer> {
        let mut map = HashMap::with_capacity(disc.count());
        for p in disc.pointers().flatten() {
            map.entry(disc.sector(p)).or_insert(p);
        }
        map
    }

    pub fn commit(buffer: &mut [u8], c: &Commit) -> Result<u64, Refused> {
        let (image, rest) = c.split(buffer)?;
        let disc = c.open(image)?;
        let mut map = sectors(&disc);
        let mut stored = Vec::new();
        let handed: Vec<_> = (0..c.addresses.len())
            .map(|k| {
                *map.entry(c.sector(k)).or_insert_with(|| {
                    stored.push(k);
                    c.new_item(stored.len() - 1)
                })
            })
            .collect();
        let pointers: Vec<_> = c.pointers(&disc, |k| handed[k]).collect();
        let parts = c.parts(&disc, rest, stored.len())?;
        let items = parts.block.get_mut(36..).unwrap_or_default();
        for (place, k) in items.chunks_exact_mut(c.size as usize).zip(stored) {
            place.copy_from_slice(c.sector(k));
        }
        let shift = shift_for(pointers.iter().copied().map(item).max().unwrap_or(0));
        put_entries(parts.table, shift, pointers.into_iter());
        let (index, used) = c.seal(&disc, parts, shift);
        set_header(image, index, c.time);
        Ok(used)
    }
}
