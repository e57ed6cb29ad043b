//! Reads and writes AaruFormat disc images by the proved library.
//!
//! An image is the first `used` bytes of a lent buffer. Every call is answered or refused by a
//! number of documents 01 and 02 and a place in the image, on every input; a refused call changes
//! nothing. The numbers are those of `bindings/c/aaru.h`, which says for each call what it gives, and
//! for each number where its place is.
//!
//! ```
//! let mut buffer = [0; 4096];
//! let about = aaru::Creation { sectors: 16, application: &[0; 64], major: 1, minor: 0, media_type: 3, created: 0, written: 0 };
//! let made = aaru::create(&mut buffer, &about)?;
//! let take = aaru::commit(&mut buffer, made.used, &[0, 5], 4, b"AAAABBBB", 1)?;
//! let image = &buffer[..take.used as usize];
//! assert_eq!(aaru::sector_count(image)?.count, 16);
//! assert_eq!(aaru::read(image, 5)?.bytes, b"BBBB");
//! assert_eq!(aaru::read(image, 1).unwrap_err().number, 21); // not written
//! let mut out = [7; 64];
//! assert_eq!(aaru::export(image, &mut out)?, aaru::Flat { length: 64, filled: 14 });
//! assert_eq!(out[12..28], *b"\0\0\0\0\0\0\0\0BBBB\0\0\0\0");
//! let refusal = aaru::rollback(&mut buffer, take.used, 104, 2).unwrap_err();
//! assert_eq!((refusal.number, refusal.place), (5, 104)); // a table there, no index
//!
//! let (flat, application) = (b"AAAABBBBAAAA", &[0; 64]);
//! let (major, minor, media_type) = (1, 0, 3);
//! let about = aaru::Import { flat, sector_size: 4, application, major, minor, media_type, created: 0, written: 2 };
//! let made = aaru::import(&mut buffer, &about)?;
//! assert_eq!(aaru::export_exact(&buffer[..made.used as usize], &mut out)?, 12);
//! assert_eq!(out[..12], flat[..]);
//!
//! // a disc of changes over that one: only address 1 is written, the others come from the parent
//! let parent = &buffer[..made.used as usize];
//! let (mut changes, mut whole) = ([0; 1024], [0; 1024]);
//! let about = aaru::Creation { sectors: 3, application, major, minor, media_type, created: 0, written: 3 };
//! let made = aaru::create(&mut changes, &about)?;
//! let made = aaru::commit(&mut changes, made.used, &[1], 4, b"CCCC", 4)?;
//! let child = &changes[..made.used as usize];
//! assert!(matches!(aaru::read_over(child, parent, 1)?, aaru::Layered::Child(s) if s.bytes == b"CCCC"));
//! assert!(matches!(aaru::read_over(child, parent, 2)?, aaru::Layered::Parent(s) if s.bytes == b"AAAA"));
//! let about = aaru::Flattening { child, parent, application, major, minor, media_type, created: 0, written: 5 };
//! let made = aaru::flatten(&mut whole, &about)?; // one disc that reads so
//! assert_eq!(aaru::export_exact(&whole[..made.used as usize], &mut out)?, 12);
//! assert_eq!(out[..12], *b"AAAACCCCAAAA");
//! # Ok::<(), aaru::Refusal>(())
//! ```
use std::{error, fmt};

pub mod ffi;

/// Why a call is refused: the number of document 01 or 02, and where.
#[derive(Clone, Copy, Debug, PartialEq, Eq)]
pub struct Refusal {
    pub number: u32,
    /// The byte offset that `bindings/c/aaru.h` gives for the number: in the image, or in the parent for a number
    /// above 100.
    pub place: u64,
}

impl fmt::Display for Refusal {
    fn fmt(&self, f: &mut fmt::Formatter) -> fmt::Result {
        write!(f, "refused with {} at byte {}", self.number, self.place)
    }
}

impl error::Error for Refusal {}

/// A sector: a part of the image that was lent.
#[derive(Clone, Copy, Debug, PartialEq, Eq)]
pub struct Sector<'a> {
    /// Where its first byte stands in the image.
    pub start: u64,
    pub bytes: &'a [u8],
}

/// A sector of a child over its parent: a part of the one image or of the other.
#[derive(Clone, Copy, Debug, PartialEq, Eq)]
pub enum Layered<'c, 'p> {
    Child(Sector<'c>),
    Parent(Sector<'p>),
}

impl<'a> Layered<'a, 'a> {
    /// The sector, whichever image it is a part of.
    pub fn sector(self) -> Sector<'a> {
        match self {
            Layered::Child(sector) | Layered::Parent(sector) => sector,
        }
    }
}

/// Where a call that writes left the image: how many bytes of the buffer it has, and where its index stands.
#[derive(Clone, Copy, Debug, PartialEq, Eq)]
pub struct Placed {
    pub used: u64,
    pub index: u64,
}

/// What a new image is made of. The application's name has 64 bytes; times are stored as they are.
#[derive(Clone, Copy, Debug)]
pub struct Creation<'a> {
    pub sectors: u64,
    pub application: &'a [u8],
    pub major: u8,
    pub minor: u8,
    pub media_type: u32,
    pub created: u64,
    pub written: u64,
}

/// What an image is made of a flat file with: the file, the size of its sectors, and all else as for a `Creation`.
#[derive(Clone, Copy, Debug)]
pub struct Import<'a> {
    pub flat: &'a [u8],
    pub sector_size: u64,
    pub application: &'a [u8],
    pub major: u8,
    pub minor: u8,
    pub media_type: u32,
    pub created: u64,
    pub written: u64,
}

/// What one image is made of a child over its parent with: both, and all else as for a `Creation`.
#[derive(Clone, Copy, Debug)]
pub struct Flattening<'a> {
    pub child: &'a [u8],
    pub parent: &'a [u8],
    pub application: &'a [u8],
    pub major: u8,
    pub minor: u8,
    pub media_type: u32,
    pub created: u64,
    pub written: u64,
}

fn answer<T>(number: u32, place: u64, value: T) -> Result<T, Refusal> {
    match number {
        0 => Ok(value),
        number => Err(Refusal { number, place }),
    }
}

/// The addresses of an image: how many there are, and the lowest; the others follow it.
#[derive(Clone, Copy, Debug, PartialEq, Eq)]
pub struct AddressRange {
    pub count: u64,
    pub lowest: i64,
}

/// How many sectors the image has, and which address is the lowest. Refused with 1 to 14, 70 to 72.
pub fn sector_count(image: &[u8]) -> Result<AddressRange, Refusal> {
    let (mut range, mut place) = (
        AddressRange {
            count: 0,
            lowest: 0,
        },
        0,
    );
    // SAFETY: the slice is valid for its length, and the numbers are not part of it.
    let number = unsafe {
        ffi::aaru_sector_count(
            image.as_ptr(),
            image.len(),
            &mut range.count,
            &mut range.lowest,
            &mut place,
        )
    };
    answer(number, place, range)
}

/// The sector at an address. Refused with 1 to 14, 70 to 72, 20 to 27, 73.
pub fn read(image: &[u8], address: i64) -> Result<Sector<'_>, Refusal> {
    let (mut start, mut size, mut place) = (0, 0, 0);
    // SAFETY: as for `sector_count`.
    let number = unsafe {
        ffi::aaru_locate(
            image.as_ptr(),
            image.len(),
            address,
            &mut start,
            &mut size,
            &mut place,
        )
    };
    answer(number, place, ())?;
    Ok(Sector {
        start,
        bytes: &image[start as usize..][..size as usize],
    })
}

/// The sector at an address of a child over its parent: the child's, or the parent's where the child's is not written.
/// Refused with 1 to 14, 70 to 72, 20, 22 to 27, 73, then the parent's numbers, 101 to 114, 170 to 172, 122 to 127,
/// 173, then 21.
pub fn read_over<'c, 'p>(
    child: &'c [u8],
    parent: &'p [u8],
    address: i64,
) -> Result<Layered<'c, 'p>, Refusal> {
    let (mut which, mut start, mut size, mut place) = (0, 0, 0, 0);
    // SAFETY: both slices are valid for their lengths and only read, and the numbers are parts of neither.
    let number = unsafe {
        ffi::aaru_locate_over(
            child.as_ptr(),
            child.len(),
            parent.as_ptr(),
            parent.len(),
            address,
            &mut which,
            &mut start,
            &mut size,
            &mut place,
        )
    };
    answer(number, place, ())?;
    let part = start as usize..(start + size) as usize;
    Ok(match which {
        0 => Layered::Child(Sector {
            start,
            bytes: &child[part],
        }),
        _ => Layered::Parent(Sector {
            start,
            bytes: &parent[part],
        }),
    })
}

/// Makes a new image at the start of the buffer, of sectors that are not written. Refused with 30, 31, 33, 35.
pub fn create(buffer: &mut [u8], about: &Creation) -> Result<Placed, Refusal> {
    let (mut placed, mut place) = (Placed { used: 0, index: 0 }, 0);
    // SAFETY: both slices are valid for their lengths, the buffer is borrowed alone, and the numbers are parts of neither.
    let number = unsafe {
        ffi::aaru_create(
            buffer.as_mut_ptr(),
            buffer.len(),
            about.sectors,
            about.application.as_ptr(),
            about.application.len(),
            about.major,
            about.minor,
            about.media_type,
            about.created,
            about.written,
            &mut placed.used,
            &mut placed.index,
            &mut place,
        )
    };
    answer(number, place, placed)
}

/// Commits sectors of `sector_size` bytes, which stand one after another in `sectors`, to rising addresses. Refused with 1 to 14, 20, 22 to 27,
/// 30 to 35, 70 to 72, 74.
pub fn commit(
    buffer: &mut [u8],
    used: u64,
    addresses: &[i64],
    sector_size: u64,
    sectors: &[u8],
    time: u64,
) -> Result<Placed, Refusal> {
    let (mut placed, mut place) = (Placed { used: 0, index: 0 }, 0);
    // SAFETY: as for `create`.
    let number = unsafe {
        ffi::aaru_commit(
            buffer.as_mut_ptr(),
            buffer.len(),
            used,
            addresses.as_ptr(),
            addresses.len(),
            sector_size,
            sectors.as_ptr(),
            sectors.len(),
            time,
            &mut placed.used,
            &mut placed.index,
            &mut place,
        )
    };
    answer(number, place, placed)
}

/// Makes the disc read as right after the call that answered `offset` as its index. Refused with 1 to 14, 31, 32, 70 to 72, 74.
pub fn rollback(buffer: &mut [u8], used: u64, offset: u64, time: u64) -> Result<Placed, Refusal> {
    let (mut placed, mut place) = (Placed { used: 0, index: 0 }, 0);
    // SAFETY: as for `create`.
    let number = unsafe {
        ffi::aaru_rollback(
            buffer.as_mut_ptr(),
            buffer.len(),
            used,
            offset,
            time,
            &mut placed.used,
            &mut placed.index,
            &mut place,
        )
    };
    answer(number, place, placed)
}

/// A flat file as it was written: its length in bytes, and how many sectors zeros stand in for.
#[derive(Clone, Copy, Debug, PartialEq, Eq)]
pub struct Flat {
    pub length: u64,
    pub filled: u64,
}

/// Writes all sectors, by rising address, to the start of `out`, with zeros for each that is not written. Refused with
/// 1 to 14, 70 to 72, 22 to 27, 73, 21, 40, 41.
pub fn export(image: &[u8], out: &mut [u8]) -> Result<Flat, Refusal> {
    let (mut flat, mut place) = (
        Flat {
            length: 0,
            filled: 0,
        },
        0,
    );
    // SAFETY: both slices are valid for their lengths, `out` is borrowed alone, and the numbers are parts of neither.
    let number = unsafe {
        ffi::aaru_export(
            image.as_ptr(),
            image.len(),
            out.as_mut_ptr(),
            out.len(),
            &mut flat.length,
            &mut flat.filled,
            &mut place,
        )
    };
    answer(number, place, flat)
}

/// The same where every sector has to be written, and answers how many bytes they are. Refused with 1 to 14, 70 to 72,
/// 21 to 27, 73, 40, 41.
pub fn export_exact(image: &[u8], out: &mut [u8]) -> Result<u64, Refusal> {
    let (mut written, mut place) = (0, 0);
    // SAFETY: as for `export`.
    let number = unsafe {
        ffi::aaru_export_exact(
            image.as_ptr(),
            image.len(),
            out.as_mut_ptr(),
            out.len(),
            &mut written,
            &mut place,
        )
    };
    answer(number, place, written)
}

/// Makes a new image of a flat file at the start of the buffer, as creating and one commit at the time `written` would.
/// Refused with 30, 31, 33, 35, 42.
pub fn import(buffer: &mut [u8], about: &Import) -> Result<Placed, Refusal> {
    let (mut placed, mut place) = (Placed { used: 0, index: 0 }, 0);
    // SAFETY: as for `create`.
    let number = unsafe {
        ffi::aaru_import(
            buffer.as_mut_ptr(),
            buffer.len(),
            about.flat.as_ptr(),
            about.flat.len(),
            about.sector_size,
            about.application.as_ptr(),
            about.application.len(),
            about.major,
            about.minor,
            about.media_type,
            about.created,
            about.written,
            &mut placed.used,
            &mut placed.index,
            &mut place,
        )
    };
    answer(number, place, placed)
}

/// Makes one new image of a child over its parent at the start of the buffer, as creating and one commit at the time
/// `written` of all sectors that `read_over` finds would, and creating alone if there are none. Refused with 31, 33,
/// 1 to 14, 70 to 72, 74, 22 to 27, 101 to 114, 170 to 172, 122 to 127, 173, 40, 30, 35.
pub fn flatten(buffer: &mut [u8], about: &Flattening) -> Result<Placed, Refusal> {
    let (mut placed, mut place) = (Placed { used: 0, index: 0 }, 0);
    // SAFETY: as for `create`; child and parent are only read.
    let number = unsafe {
        ffi::aaru_flatten(
            buffer.as_mut_ptr(),
            buffer.len(),
            about.child.as_ptr(),
            about.child.len(),
            about.parent.as_ptr(),
            about.parent.len(),
            about.application.as_ptr(),
            about.application.len(),
            about.major,
            about.minor,
            about.media_type,
            about.created,
            about.written,
            &mut placed.used,
            &mut placed.index,
            &mut place,
        )
    };
    answer(number, place, placed)
}
