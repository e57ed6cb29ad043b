//! Measures opening and reading the two kinds of table, on the same sectors at the same places.
use crate::{median, rust, Random};
use std::hint::black_box;
use std::time::Instant;

const REPETITIONS: usize = 201;

/// Blocks stand at multiples of 64, so that a pointer of 28 bits reaches all of 16 MiB and 1,024 items.
const ALIGNMENT: u32 = 6;

const HEADER: usize = 104;

fn put(image: &mut Vec<u8>, width: usize, number: u64) {
    image.extend_from_slice(&number.to_le_bytes()[..width]);
}

/// Both checksums of a payload, the end of a block's or a table's header, and the payload.
fn sealed(image: &mut Vec<u8>, payload: &[u8]) {
    for _ in 0..2 {
        put(image, 8, rust::slicing(payload));
    }
    image.extend_from_slice(payload);
}

/// The header, filled in but for the index's offset, and one data block for each `each` sectors. The blocks' places.
fn blocks(random: &mut Random, sectors: usize, size: usize, each: usize) -> (Vec<u8>, Vec<u64>) {
    let mut image = vec![0; HEADER];
    image[..8].copy_from_slice(b"AARUFRMT");
    image[72] = 2;
    let places = (0..sectors.div_ceil(each)).map(|_| {
        image.resize(image.len().next_multiple_of(1 << ALIGNMENT), 0);
        let place = image.len() as u64;
        let payload = random.bytes(each * size);
        image.extend_from_slice(b"DBLK\x01\0\0\0");
        put(&mut image, 4, size as u64);
        put(&mut image, 4, payload.len() as u64);
        put(&mut image, 4, payload.len() as u64);
        sealed(&mut image, &payload);
        place
    });
    let places = places.collect();
    (image, places)
}

/// A 'DDT*' table of these pointers, each a block and an item.
fn first(image: &mut Vec<u8>, shift: u32, pointers: &[(u64, u64)]) {
    let mut entries = Vec::new();
    for (block, item) in pointers {
        put(&mut entries, 8, (block << shift) + item);
    }
    image.extend_from_slice(b"DDT*\x01\0\0\0");
    put(image, 1, shift.into());
    put(image, 8, pointers.len() as u64);
    put(image, 8, entries.len() as u64);
    put(image, 8, entries.len() as u64);
    sealed(image, &entries);
}

/// A 'DDT2' table of the same, whose lowest address is -1.
fn second(image: &mut Vec<u8>, shift: u32, pointers: &[(u64, u64)]) {
    let mut entries = Vec::new();
    for (block, item) in pointers {
        put(&mut entries, 4, (1 << 28) + ((block >> ALIGNMENT) << shift) + item);
    }
    image.extend_from_slice(b"DDT2\x01\0\0\0");
    let levels = [(1, 1), (1, 0), (8, 0)];
    let extent = [(2, 1), (8, pointers.len() as u64), (2, 0), (8, 0)];
    let shifts = [(1, ALIGNMENT.into()), (1, shift.into()), (1, 0), (1, 0)];
    for (width, number) in levels.into_iter().chain(extent).chain(shifts) {
        put(image, width, number);
    }
    put(image, 8, pointers.len() as u64);
    put(image, 8, entries.len() as u64);
    put(image, 8, entries.len() as u64);
    sealed(image, &entries);
}

/// One image with a table of each kind: the same blocks at the same places.
fn both(random: &mut Random, sectors: usize, size: usize, each: usize) -> [Vec<u8>; 2] {
    let (image, places) = blocks(random, sectors, size, each);
    let shift = usize::BITS - (each - 1).leading_zeros();
    let pointers: Vec<_> = (0..sectors)
        .map(|n| (places[n / each], (n % each) as u64))
        .collect();
    [(b"DDT*", false), (b"DDT2", true)].map(|(kind, newer)| {
        let mut image = image.clone();
        let table = image.len() as u64;
        if newer {
            second(&mut image, shift, &pointers);
        } else {
            first(&mut image, shift, &pointers);
        }
        let index = image.len() as u64;
        let mut entries = Vec::new();
        let blocks = places.iter().map(|place| (b"DBLK", *place));
        for (kind, offset) in [(kind, table)].into_iter().chain(blocks) {
            entries.extend_from_slice(kind);
            put(&mut entries, 4, 1);
            put(&mut entries, 8, offset);
        }
        image.extend_from_slice(b"IDX2");
        put(&mut image, 8, places.len() as u64 + 1);
        put(&mut image, 8, rust::slicing(&entries));
        image.extend_from_slice(&entries);
        image[80..88].copy_from_slice(&index.to_le_bytes());
        image
    })
}

/// Microseconds a call on each kind of image, the median of repetitions in which they take turns. `number` is that of a table entry.
fn times(images: &[Vec<u8>; 2], number: Option<i64>, calls: u32) -> [f64; 2] {
    let mut times = [const { Vec::new() }; 2];
    for _ in 0..REPETITIONS {
        for ((image, times), lowest) in images.iter().zip(&mut times).zip([0, -1]) {
            let clock = Instant::now();
            for _ in 0..calls {
                match number {
                    None => _ = black_box(aaru::sector_count(black_box(image))),
                    Some(n) => _ = black_box(aaru::read(black_box(image), black_box(lowest + n))),
                }
            }
            times.push(clock.elapsed().as_secs_f64() * 1e6 / f64::from(calls));
        }
    }
    times.map(|mut t| median(&mut t))
}

pub fn measure(random: &mut Random) {
    let small = both(random, 16, 512, 16);
    let bank = both(random, 8192, 2048, 1024);
    let blocks = both(random, 1024, 16, 1);
    for [old, new] in [&small, &bank, &blocks] {
        let count = aaru::sector_count(old).expect("opens").count as i64;
        for n in (0..count).step_by(7).chain([count - 1]) {
            let [old, new] = [aaru::read(old, n), aaru::read(new, n - 1)];
            assert_eq!(old.expect("read"), new.expect("read"));
        }
    }
    println!("\nThe two kinds of table, microseconds a call, median of {REPETITIONS}:");
    let rows = [
        ("open, 16 sectors of 512 bytes", &small, None, 100),
        ("read, the same", &small, Some(9), 100),
        ("open, 8,192 sectors of 2,048", &bank, None, 10),
        ("read, the same", &bank, Some(5000), 1),
        ("open, 1,024 blocks", &blocks, None, 10),
        ("read, the same", &blocks, Some(1000), 10),
    ];
    println!(
        "  {:<32} {:>10} {:>10} {:>12}",
        "", "DDT*", "DDT2", "DDT2 / DDT*"
    );
    for (name, images, number, calls) in rows {
        let [old, new] = times(images, number, calls);
        println!("  {name:<32} {old:>10.2} {new:>10.2} {:>12.3}", new / old);
    }
}
