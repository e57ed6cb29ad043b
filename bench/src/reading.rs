//! Measures opening and reading beside the same in Rust.
//! First checks that both answer the same.
use crate::disc::Disc;
use crate::{median, Random};
use std::hint::black_box;
use std::time::Instant;

const REPETITIONS: usize = 201;

/// An image of so many sectors, of which the first ones are written, in commits of at most `each`.
fn image(random: &mut Random, sectors: u64, written: usize, size: usize, each: usize) -> Vec<u8> {
    let about = aaru::Creation {
        sectors,
        application: &[0; 64],
        major: 1,
        minor: 0,
        media_type: 1,
        created: 1,
        written: 1,
    };
    let commits = written.div_ceil(each);
    let records = 8 * sectors as usize + 16 * commits + 1000;
    let mut buffer = vec![0; 1000 + written * size + (commits + 1) * records];
    let mut used = aaru::create(&mut buffer, &about).expect("created").used;
    let addresses: Vec<_> = (0..written as i64).collect();
    for addresses in addresses.chunks(each) {
        let sectors = random.bytes(addresses.len() * size);
        let placed = aaru::commit(&mut buffer, used, addresses, size as u64, &sectors, 1);
        used = placed.expect("committed").used;
    }
    buffer.truncate(used as usize);
    buffer
}

/// Where the sector at an address ends, or, of no address, how many sectors there are; or the refusal.
type Read = fn(&[u8], Option<i64>) -> Result<u64, u32>;

fn ours(image: &[u8], address: Option<i64>) -> Result<u64, u32> {
    match address {
        None => aaru::sector_count(image).map(|s| s.count),
        Some(a) => aaru::read(image, a).map(|s| s.start + s.bytes.len() as u64),
    }
    .map_err(|refusal| refusal.number)
}

fn rust(image: &[u8], address: Option<i64>) -> Result<u64, u32> {
    let disc = Disc::open(image)?;
    let Some(a) = address else {
        return Ok(disc.count() as u64);
    };
    let sector = disc.read(a as u64)?;
    let start = sector.as_ptr() as usize - image.as_ptr() as usize;
    Ok((start + sector.len()) as u64)
}

/// Microseconds a call, ours and Rust's: the median of repetitions in which they take turns.
fn times(image: &[u8], address: Option<i64>, calls: u32) -> [f64; 2] {
    let forms: [Read; 2] = [ours, rust];
    let mut times = [const { Vec::new() }; 2];
    for _ in 0..REPETITIONS {
        for (form, times) in forms.iter().zip(&mut times) {
            let clock = Instant::now();
            for _ in 0..calls {
                let _ = black_box(form(black_box(image), black_box(address)));
            }
            times.push(clock.elapsed().as_secs_f64() * 1e6 / f64::from(calls));
        }
    }
    times.map(|mut t| median(&mut t))
}

pub fn measure(random: &mut Random) {
    let small = image(random, 16, 16, 512, 1024);
    let bank = image(random, 8192, 8192, 2048, 1024);
    let empty = image(random, 1_048_576, 0, 1, 1024);
    let blocks = image(random, 1024, 1024, 16, 1);
    for image in [&small, &bank, &empty, &blocks] {
        let addresses = (0..9000).step_by(7).map(Some);
        for address in addresses.chain([None, Some(-1)]) {
            assert_eq!(ours(image, address), rust(image, address));
        }
    }
    println!("\nOpening and reading, microseconds a call, median of {REPETITIONS}:");
    let rows = [
        ("open, 16 sectors of 512 bytes", &small, None, 100),
        ("read, the same", &small, Some(9), 100),
        ("open, 8,192 sectors of 2,048", &bank, None, 10),
        ("read, the same", &bank, Some(5000), 1),
        ("open, 1,048,576 not written", &empty, None, 1),
        ("open, 1,024 blocks", &blocks, None, 10),
        ("read, the same", &blocks, Some(1000), 10),
    ];
    println!(
        "  {:<32} {:>10} {:>10} {:>12}",
        "", "ours", "Rust", "ours / Rust"
    );
    for (name, image, address, calls) in rows {
        let [ours, rust] = times(image, address, calls);
        println!(
            "  {name:<32} {ours:>10.2} {rust:>10.2} {:>12.3}",
            ours / rust
        );
    }
}
