//! Measures flat files in and out, each beside the calls that do the same work.
use crate::{median, Random};
use aaru::{Creation, Flat, Import};
use std::time::Instant;

const REPETITIONS: usize = 21;

const SIZE: usize = 2048;

const NAME: [u8; 64] = [0; 64];

fn milliseconds<T>(call: impl FnOnce() -> T) -> (f64, T) {
    let start = Instant::now();
    let answer = call();
    (start.elapsed().as_secs_f64() * 1e3, answer)
}

/// An image of which every other sector of a flat file is written.
fn every_other(creation: &Creation, flat: &[u8]) -> Vec<u8> {
    let addresses: Vec<i64> = (0..creation.sectors as i64).step_by(2).collect();
    let sectors: Vec<&[u8]> = flat.chunks_exact(SIZE).step_by(2).collect();
    let mut image = vec![0; flat.len() + 32 * sectors.len() + 1000];
    let made = aaru::create(&mut image, creation).unwrap();
    let made = aaru::commit(&mut image, made.used, &addresses, SIZE as u64, &sectors.concat(), 0).unwrap();
    image.truncate(made.used as usize);
    image
}

/// The exact export of a full disc, the plain one, and the plain one of a disc with every other sector missing.
fn exports(image: &[u8], half: &[u8], flat: &[u8], out: &mut [u8]) -> [f64; 3] {
    let length = flat.len() as u64;
    let (exact, written) = milliseconds(|| aaru::export_exact(image, out).unwrap());
    assert_eq!((written, &*out), (length, flat));
    let (plain, written) = milliseconds(|| aaru::export(image, out).unwrap());
    assert_eq!(written, Flat { length, filled: 0 });
    let (gaps, written) = milliseconds(|| aaru::export(half, out).unwrap());
    let filled = length / SIZE as u64 / 2;
    assert_eq!(written, Flat { length, filled });
    [exact, plain, gaps]
}

/// An import beside a creation and a commit of all sectors; an exact export beside a commit of none, which makes the
/// same checks, and beside a copy of the file; plain exports beside the exact one.
fn measure_sectors(random: &mut Random, sectors: usize) {
    let flat = random.bytes(sectors * SIZE);
    let addresses: Vec<i64> = (0..sectors as i64).collect();
    let about = Import {
        flat: &flat,
        sector_size: SIZE as u64,
        application: &NAME,
        major: 0,
        minor: 0,
        media_type: 0,
        created: 0,
        written: 0,
    };
    let creation = Creation {
        sectors: sectors as u64,
        application: &NAME,
        major: 0,
        minor: 0,
        media_type: 0,
        created: 0,
        written: 0,
    };
    let length = flat.len() + 32 * sectors + 1000;
    let (mut image, mut other) = (vec![0; length], vec![0; length]);
    let half = every_other(&creation, &flat);
    let mut out = vec![0; flat.len()];
    let mut times: [Vec<f64>; 7] = Default::default();
    for _ in 0..REPETITIONS {
        let (import, made) = milliseconds(|| aaru::import(&mut image, &about).unwrap());
        let used = made.used as usize;
        let [exact, plain, gaps] = exports(&image[..used], &half, &flat, &mut out);
        other[..used].copy_from_slice(&image[..used]);
        let (empty, _) = milliseconds(|| aaru::commit(&mut other, made.used, &[], SIZE as u64, &[], 0).unwrap());
        let (both, placed) = milliseconds(|| {
            let placed = aaru::create(&mut other, &creation).unwrap();
            aaru::commit(&mut other, placed.used, &addresses, SIZE as u64, &flat, 0).unwrap()
        });
        assert_eq!((placed.used, &other[..used]), (made.used, &image[..used]));
        let (copy, _) = milliseconds(|| out.copy_from_slice(&flat));
        for (list, time) in times.iter_mut().zip([exact, plain, gaps, empty, copy, import, both]) {
            list.push(time);
        }
    }
    let [exact, plain, gaps, empty, copy, import, both] = times.map(|mut list| median(&mut list));
    println!(
        "{sectors:>6} sectors: exact export {exact:.3} ms, empty commit {empty:.3}, copy {copy:.3}: {:.2}; \
         plain export {plain:.3}: {:.2}, with every other sector missing {gaps:.3}: {:.2}; \
         import {import:.1}, create and commit {both:.1}: {:.2}",
        exact / empty,
        plain / exact,
        gaps / exact,
        import / both,
    );
}

pub fn measure(random: &mut Random) {
    println!("\nflat files of {SIZE}-byte sectors, no two equal");
    for sectors in [1024, 2048, 4096, 8192] {
        measure_sectors(random, sectors);
    }
}
