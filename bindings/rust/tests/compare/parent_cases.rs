//! What 8/13 says of a disc over its parent, case by case on small discs, by the library and by the
//! independent implementation. `parents` has the many other pairs.

use crate::independent::{self, Which};
use crate::layout::{get, put, Layout, CREATED};
use aaru::{Creation, Flattening, Layered, Refusal};

const NAME: &[u8; 64] = &[b'n'; 64];

/// A disc of so many sectors with these takes: a take's addresses, and its sectors one after another.
fn disc(sectors: u64, takes: &[(&[i64], &[u8])]) -> Vec<u8> {
    let about = Creation {
        sectors,
        application: NAME,
        major: 1,
        minor: 2,
        media_type: 3,
        created: 4,
        written: 5,
    };
    let mut buffer = vec![0; 4000];
    let mut used = aaru::create(&mut buffer, &about).expect("room enough").used;
    for (addresses, bytes) in takes {
        let size = (bytes.len() / addresses.len()) as u64;
        let placed = aaru::commit(&mut buffer, used, addresses, size, bytes, 6);
        used = placed.expect("room enough").used;
    }
    buffer.truncate(used as usize);
    buffer
}

/// A disc of the second kind with two sectors from address -1 on, "MMMM" and "ZZZZ", none of which is
/// missing. Its one block stands at 104, its table at 148.
fn second() -> Vec<u8> {
    let mut image = disc(1, &[])[..104].to_vec();
    image.extend_from_slice(b"DBLK\x01\0\0\0");
    image.resize(104 + 36, 0);
    for (at, length) in [(8, 4), (12, 8), (16, 8)] {
        put(&mut image, 104 + at, 4, length);
    }
    image.extend_from_slice(b"MMMMZZZZ");
    let table = image.len();
    image.extend_from_slice(b"DDT2\x01\0\0\0\x01");
    image.resize(table + 82, 0);
    for (at, width, value) in [
        (18, 2, 1),
        (20, 8, 2),
        (39, 1, 1),
        (42, 8, 2),
        (50, 8, 8),
        (58, 8, 8),
    ] {
        put(&mut image, table + at, width, value);
    }
    for item in 0..2 {
        let entry = (1u32 << 28) + (104 << 1) + item;
        image.extend_from_slice(&entry.to_le_bytes());
    }
    let index = image.len();
    image.extend_from_slice(b"IDX2\x02\0\0\0\0\0\0\0");
    image.resize(index + 20 + 32, 0);
    for (entry, (letters, at)) in [(b"DDT2", table), (b"DBLK", 104)].into_iter().enumerate() {
        let place = index + 20 + 16 * entry;
        image[place..place + 4].copy_from_slice(letters);
        put(&mut image, place + 4, 4, 1);
        put(&mut image, place + 8, 8, at as u64);
    }
    put(&mut image, 80, 8, index as u64);
    Layout::of(&image).make_right(&mut image);
    image
}

/// The bytes at an address of the pair and where they come from, or number and place.
type Over = Result<(Which, Vec<u8>), (u32, u64)>;

fn read(child: &[u8], parent: &[u8], address: i64) -> Over {
    let refused = |refusal: Refusal| (refusal.number, refusal.place);
    let library = aaru::read_over(child, parent, address).map_err(refused);
    let library = library.map(|layered| match layered {
        Layered::Child(sector) => (Which::Child, sector.start, sector.bytes),
        Layered::Parent(sector) => (Which::Parent, sector.start, sector.bytes),
    });
    let other = independent::locate_over(child, parent, address).map_err(refused);
    let places = library.map(|(which, start, bytes)| (which, start, bytes.len() as u64));
    assert_eq!(places, other);
    library.map(|(which, _, bytes)| (which, bytes.to_vec()))
}

fn of_child(bytes: &[u8]) -> Over {
    Ok((Which::Child, bytes.to_vec()))
}

fn of_parent(bytes: &[u8]) -> Over {
    Ok((Which::Parent, bytes.to_vec()))
}

fn flattening<'a>(child: &'a [u8], parent: &'a [u8]) -> Flattening<'a> {
    Flattening {
        child,
        parent,
        application: NAME,
        major: 7,
        minor: 8,
        media_type: 9,
        created: 10,
        written: 11,
    }
}

/// The flattened image, or number and place. A refusal leaves the buffer as it was.
fn flatten_into(length: usize, about: &Flattening) -> Result<Vec<u8>, (u32, u64)> {
    let (mut buffer, mut other) = (vec![0xEE; length], vec![0xEE; length]);
    let answer = aaru::flatten(&mut buffer, about).map(|placed| (placed.used, placed.index));
    assert_eq!(independent::flatten(&mut other, about), answer);
    assert_eq!(buffer, other);
    let used = answer.map_or(0, |(used, _)| used as usize);
    assert!(buffer[used..].iter().all(|&byte| byte == 0xEE));
    buffer.truncate(used);
    match answer {
        Ok((_, index)) => {
            assert_eq!(get(&buffer, 80, 8), index);
            Ok(buffer)
        }
        Err(refusal) => Err((refusal.number, refusal.place)),
    }
}

fn flatten(child: &[u8], parent: &[u8]) -> Result<Vec<u8>, (u32, u64)> {
    flatten_into(2000, &flattening(child, parent))
}

/// That the flattened disc reads as the pair, from -2 up to some addresses past both ends.
fn reads_the_same(flat: &[u8], child: &[u8], parent: &[u8]) {
    for address in -2..12 {
        let alone = aaru::read(flat, address).map(|sector| sector.bytes.to_vec());
        let alone = alone.map_err(|refusal| (refusal.number, refusal.place));
        let pair = read(child, parent, address).map(|(_, bytes)| bytes);
        assert_eq!(alone, pair, "address {address}");
    }
}

/// What flattening stands for, by the library's other calls.
fn created_and_committed(sectors: u64, addresses: &[i64], bytes: &[u8]) -> Vec<u8> {
    let about = Creation {
        sectors,
        application: NAME,
        major: 7,
        minor: 8,
        media_type: 9,
        created: 10,
        written: 11,
    };
    let mut buffer = vec![0; 2000];
    let mut placed = aaru::create(&mut buffer, &about).expect("room enough");
    if !addresses.is_empty() {
        let size = (bytes.len() / addresses.len()) as u64;
        placed = aaru::commit(&mut buffer, placed.used, addresses, size, bytes, 11)
            .expect("room enough");
    }
    buffer.truncate(placed.used as usize);
    buffer
}

fn factory() -> Vec<u8> {
    disc(4, &[(&[0, 1, 2], b"AAAABBBBCCCC")])
}

fn changes() -> Vec<u8> {
    disc(4, &[(&[1], b"XXXX")])
}

#[test]
fn changes_over_a_factory_disc() {
    let (child, parent) = (changes(), factory());
    assert_eq!(read(&child, &parent, 0), of_parent(b"AAAA"));
    assert_eq!(read(&child, &parent, 1), of_child(b"XXXX"));
    assert_eq!(read(&child, &parent, 2), of_parent(b"CCCC"));
    assert_eq!(read(&child, &parent, 3), Err((21, 0)));
    assert_eq!(read(&child, &parent, 4), Err((20, 0)));
    assert_eq!(read(&child, &parent, -1), Err((20, 0)));
    let flat = flatten(&child, &parent).expect("room enough");
    assert_eq!(flat, created_and_committed(4, &[0, 1, 2], b"AAAAXXXXCCCC"));
    assert_eq!([88, 96].map(|at| get(&flat, at, 8)), [10, 11]);
    reads_the_same(&flat, &child, &parent);
}

/// Equal sectors of the two images are stored once.
#[test]
fn equal_sectors_of_both() {
    let (child, parent) = (disc(3, &[(&[0], b"CCCC")]), factory());
    let flat = flatten(&child, &parent).expect("room enough");
    assert_eq!(flat, created_and_committed(3, &[0, 1, 2], b"CCCCBBBBCCCC"));
    let [first, last] = [0, 2].map(|address| aaru::read(&flat, address).unwrap().start);
    assert_eq!(first, last);
    reads_the_same(&flat, &child, &parent);
}

#[test]
fn shorter_parent() {
    let (child, parent) = (disc(9, &[(&[8], b"XXXX")]), factory());
    assert_eq!(read(&child, &parent, 2), of_parent(b"CCCC"));
    for address in 3..8 {
        assert_eq!(read(&child, &parent, address), Err((21, 0)));
    }
    assert_eq!(read(&child, &parent, 8), of_child(b"XXXX"));
    let flat = flatten(&child, &parent).expect("room enough");
    assert_eq!(
        flat,
        created_and_committed(9, &[0, 1, 2, 8], b"AAAABBBBCCCCXXXX")
    );
    reads_the_same(&flat, &child, &parent);
}

/// The child says which addresses there are: what the parent has beyond is 20, and is not flattened.
#[test]
fn longer_parent() {
    let (child, parent) = (disc(2, &[(&[0], b"XXXX")]), factory());
    assert_eq!(read(&child, &parent, 1), of_parent(b"BBBB"));
    assert_eq!(read(&child, &parent, 2), Err((20, 0)));
    assert_eq!(aaru::read(&parent, 2).unwrap().bytes, b"CCCC");
    let flat = flatten(&child, &parent).expect("room enough");
    assert_eq!(flat, created_and_committed(2, &[0, 1], b"XXXXBBBB"));
    reads_the_same(&flat, &child, &parent);
}

/// The parent's block, in which its three sectors lie, stands at 189 + 8 x 4.
#[test]
fn damaged_parent() {
    let (child, mut parent) = (changes(), factory());
    let block = CREATED + 32;
    parent[block + 36] ^= 1;
    assert_eq!(read(&child, &parent, 0), Err((127, block as u64)));
    assert_eq!(read(&child, &parent, 1), of_child(b"XXXX"));
    assert_eq!(read(&child, &parent, 3), Err((21, 0)));
    assert_eq!(read(&child, &parent, 4), Err((20, 0)));
    assert_eq!(flatten(&child, &parent), Err((127, block as u64)));
    assert_eq!(
        flatten_into(0, &flattening(&child, &parent)),
        Err((127, block as u64))
    );
    // A child that has all of these sectors is flattened whatever the parent's block is.
    let child = disc(3, &[(&[0, 1, 2], b"XXXXYYYYZZZZ")]);
    let flat = flatten(&child, &parent).expect("room enough");
    reads_the_same(&flat, &child, &parent);
}

/// Where the child has its sector the parent is not looked at, whatever it is.
#[test]
fn parent_that_is_no_image() {
    let child = changes();
    for parent in [&b""[..], b"not a disc"] {
        assert_eq!(read(&child, parent, 0), Err((101, 0)));
        assert_eq!(read(&child, parent, 1), of_child(b"XXXX"));
        assert_eq!(read(&child, parent, 4), Err((20, 0)));
        assert_eq!(flatten(&child, parent), Err((101, 0)));
    }
    let whole = factory();
    let cut = &whole[..whole.len() - 1];
    let index = get(&whole, 80, 8);
    assert_eq!(read(&child, cut, 0), Err((104, index)));
    assert_eq!(flatten(&child, cut), Err((104, index)));
    let full = disc(1, &[(&[0], b"XXXX")]);
    assert_eq!(
        flatten(&full, b""),
        Ok(created_and_committed(1, &[0], b"XXXX"))
    );
    // A child that is no image has its own number, and its parent none.
    assert_eq!(read(b"", b"", 0), Err((1, 0)));
    assert_eq!(read(&child[..103], &whole, 0), Err((1, 0)));
    assert_eq!(flatten(&child[..103], b""), Err((1, 0)));
}

/// The addresses of both are signed: -1 is none of the child's.
#[test]
fn parent_of_the_second_kind() {
    let (child, mut parent) = (changes(), second());
    assert_eq!(read(&child, &parent, 0), of_parent(b"ZZZZ"));
    assert_eq!(read(&child, &parent, 1), of_child(b"XXXX"));
    assert_eq!(read(&child, &parent, 2), Err((21, 0)));
    assert_eq!(read(&child, &parent, -1), Err((20, 0)));
    let flat = flatten(&child, &parent).expect("room enough");
    assert_eq!(flat, created_and_committed(4, &[0, 1], b"ZZZZXXXX"));
    reads_the_same(&flat, &child, &parent);

    let layout = Layout::of(&parent);
    put(&mut parent, layout.table_entry(1), 4, 2 << 28);
    layout.make_right(&mut parent);
    assert_eq!(read(&child, &parent, 0), Err((173, 0)));
    assert_eq!(flatten(&child, &parent), Err((173, 0)));
    for (at, number) in [(8, 170), (41, 171), (28, 172)] {
        let mut parent = second();
        parent[layout.table + at] = 7;
        assert_eq!(read(&child, &parent, 0), Err((number, 0)));
        assert_eq!(flatten(&child, &parent), Err((number, 0)));
    }
}

/// It reads as the parent of a child of either kind, and is not flattened: 74 comes before all that
/// sectors and parent have, and after its own opening's.
#[test]
fn child_of_the_second_kind() {
    let (child, parent) = (second(), factory());
    assert_eq!(read(&child, &parent, -1), of_child(b"MMMM"));
    assert_eq!(read(&child, &parent, 0), of_child(b"ZZZZ"));
    assert_eq!(read(&child, &parent, 1), Err((20, 0)));
    assert_eq!(flatten(&child, &parent), Err((74, 0)));
    assert_eq!(flatten(&child, b""), Err((74, 0)));
    assert_eq!(flatten_into(0, &flattening(&child, &child)), Err((74, 0)));

    let mut gap = child.clone();
    let layout = Layout::of(&gap);
    put(&mut gap, layout.table_entry(1), 4, 7);
    layout.make_right(&mut gap);
    assert_eq!(read(&gap, &parent, 0), of_parent(b"AAAA"));
    assert_eq!(read(&gap, &child, 0), of_parent(b"ZZZZ"));
    put(&mut gap, layout.table_entry(1), 4, 2 << 28);
    layout.make_right(&mut gap);
    assert_eq!(read(&gap, &parent, 0), Err((73, 0)));
    assert_eq!(flatten(&gap, &parent), Err((74, 0)));
    gap[layout.table + 8] = 7;
    assert_eq!(flatten(&gap, &parent), Err((70, 0)));
}

#[test]
fn child_as_its_own_parent() {
    let child = changes();
    for address in [0, 2, 3] {
        assert_eq!(read(&child, &child, address), Err((21, 0)));
    }
    assert_eq!(read(&child, &child, 1), of_child(b"XXXX"));
    assert_eq!(read(&child, &child, 4), Err((20, 0)));
    let flat = flatten(&child, &child).expect("room enough");
    assert_eq!(flat, created_and_committed(4, &[1], b"XXXX"));
    // One image as a part of the other.
    let longer = [&child[..], b"and more"].concat();
    assert_eq!(read(&child, &longer, 1), of_child(b"XXXX"));
    assert_eq!(read(&longer, &longer[..child.len()], 2), Err((21, 0)));
}

/// Its own number and place, though the parent has the sector; and the child's block comes first
/// where both are damaged.
#[test]
fn damaged_child_over_a_good_parent() {
    let (mut child, mut parent) = (changes(), factory());
    let block = CREATED + 32;
    child[block + 28] ^= 1;
    assert_eq!(read(&child, &parent, 1), Err((27, block as u64)));
    assert_eq!(read(&child, &parent, 0), of_parent(b"AAAA"));
    assert_eq!(flatten(&child, &parent), Err((27, block as u64)));
    parent[block + 28] ^= 1;
    assert_eq!(read(&child, &parent, 1), Err((27, block as u64)));
    // By rising address: the parent's at 0 is before the child's at 1.
    assert_eq!(flatten(&child, &parent), Err((127, block as u64)));
}

/// A place is one in the parent: its table entry, which stands elsewhere than the child's.
#[test]
fn places_of_both() {
    let mut parent = factory();
    let layout = Layout::of(&parent);
    put(&mut parent, layout.table_entry(2), 8, 7);
    layout.make_right(&mut parent);
    let place = layout.table_entry(2) as u64;
    assert_eq!(read(&changes(), &parent, 2), Err((122, place)));
    assert_eq!(flatten(&changes(), &parent), Err((122, place)));
    assert_eq!(read(&parent, &changes(), 2), Err((22, place)));
    assert_eq!(flatten(&parent, &changes()), Err((22, place)));
}

#[test]
fn none_written() {
    let (empty, full) = (disc(3, &[]), factory());
    assert_eq!(
        flatten(&empty, &disc(9, &[])),
        Ok(created_and_committed(3, &[], b""))
    );
    assert_eq!(
        flatten(&empty, &empty),
        Ok(created_and_committed(3, &[], b""))
    );
    // The parent has sectors, but none that the child has an address for.
    let beyond = disc(4, &[(&[3], b"DDDD")]);
    assert_eq!(
        flatten(&empty, &beyond),
        Ok(created_and_committed(3, &[], b""))
    );
    let flat = flatten(&empty, &full).expect("room enough");
    assert_eq!(flat, created_and_committed(3, &[0, 1, 2], b"AAAABBBBCCCC"));
}

/// Sizes of the two images may differ, and so they are read; one disc of them is not made.
#[test]
fn mixed_sizes() {
    let (child, parent) = (disc(4, &[(&[1], b"XX")]), factory());
    assert_eq!(read(&child, &parent, 1), of_child(b"XX"));
    assert_eq!(read(&child, &parent, 2), of_parent(b"CCCC"));
    assert_eq!(flatten(&child, &parent), Err((40, 0)));
    assert_eq!(flatten_into(0, &flattening(&child, &parent)), Err((40, 0)));
    // A number of a later sector comes before.
    let mut damaged = parent.clone();
    let layout = Layout::of(&damaged);
    put(&mut damaged, layout.table_entry(2), 8, 7);
    layout.make_right(&mut damaged);
    let place = layout.table_entry(2) as u64;
    assert_eq!(flatten(&child, &damaged), Err((122, place)));
    // What the child hides has no size here.
    let parent = disc(4, &[(&[0], b"AAAA"), (&[1], b"BB")]);
    assert_eq!(flatten(&parent, &parent), Err((40, 0)));
    let flat = flatten(&changes(), &parent).expect("room enough");
    assert_eq!(flat, created_and_committed(4, &[0, 1], b"AAAAXXXX"));
}

#[test]
fn one_byte_too_short() {
    let (child, parent) = (changes(), factory());
    let about = flattening(&child, &parent);
    let needed = flatten(&child, &parent).expect("room enough").len();
    for length in [0, CREATED + 31, CREATED + 32, needed - 1] {
        assert_eq!(flatten_into(length, &about), Err((35, 0)));
    }
    for length in [needed, needed + 1] {
        assert_eq!(
            flatten_into(length, &about).map(|image| image.len()),
            Ok(needed)
        );
    }
    let empty = disc(4, &[]);
    let about = flattening(&empty, &empty);
    assert_eq!(flatten_into(CREATED + 31, &about), Err((35, 0)));
    assert!(flatten_into(CREATED + 32, &about).is_ok());
}

/// No creation makes one, but it opens: every address is 20.
#[test]
fn child_of_no_sectors() {
    let mut child = disc(1, &[]);
    let layout = Layout::of(&child);
    for at in [9, 17, 25] {
        put(&mut child, layout.table + at, 8, 0);
    }
    layout.make_right(&mut child);
    assert_eq!(aaru::sector_count(&child).map(|range| range.count), Ok(0));
    assert_eq!(read(&child, &factory(), 0), Err((20, 0)));
    assert_eq!(read(&factory(), &child, 0), of_child(b"AAAA"));
    assert_eq!(read(&factory(), &child, 3), Err((21, 0)));
    assert_eq!(flatten(&child, &factory()), Err((30, 0)));
    // The parent is looked at nowhere.
    assert_eq!(flatten(&child, b""), Err((30, 0)));
    assert_eq!(flatten_into(0, &flattening(&child, b"")), Err((30, 0)));
    // Of the second kind it is refused before.
    let mut child = second();
    let layout = Layout::of(&child);
    for at in [42, 50, 58] {
        put(&mut child, layout.table + at, 8, 0);
    }
    layout.make_right(&mut child);
    assert_eq!(read(&child, &factory(), 0), Err((20, 0)));
    assert_eq!(flatten(&child, &factory()), Err((74, 0)));
}

/// 33 comes before the child's opening, and after nothing but 31.
#[test]
fn name_of_another_length() {
    for length in [0, 63, 65] {
        let (child, parent, name) = (changes(), factory(), vec![b'n'; length]);
        for (child, parent) in [(&child[..], &parent[..]), (b"", b"")] {
            let about = Flattening {
                application: &name,
                ..flattening(child, parent)
            };
            assert_eq!(flatten_into(2000, &about), Err((33, 0)));
            assert_eq!(flatten_into(0, &about), Err((33, 0)));
        }
    }
}

/// Commits and rollbacks of the child over a parent that stays: each point reads the same with it.
#[test]
fn history_over_a_parent() {
    let (mut buffer, parent) = (changes(), factory());
    let (used, index) = (buffer.len() as u64, get(&buffer, 80, 8));
    buffer.resize(2000, 0);
    let before = [0, 1, 2, 3].map(|address| read(&buffer[..used as usize], &parent, address));
    // The sector stands on the parent, where it is not searched for: the child stores it.
    let placed = aaru::commit(&mut buffer, used, &[3], 4, b"AAAA", 7).expect("room enough");
    assert_eq!(
        read(&buffer[..placed.used as usize], &parent, 3),
        of_child(b"AAAA")
    );
    assert_eq!(
        aaru::read(&buffer[..placed.used as usize], 3)
            .unwrap()
            .start,
        used + 36
    );
    let rolled = aaru::rollback(&mut buffer, placed.used, index, 8).expect("a point");
    let after = [0, 1, 2, 3].map(|address| read(&buffer[..rolled.used as usize], &parent, address));
    assert_eq!(after, before);
    let flat = flatten(&buffer[..rolled.used as usize], &parent);
    assert_eq!(
        flat,
        Ok(created_and_committed(4, &[0, 1, 2], b"AAAAXXXXCCCC"))
    );
}
