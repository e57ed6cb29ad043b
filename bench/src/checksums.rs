//! Measures the checksum of the crate `crc64` beside checksums in Rust.
//! First checks that all give the same values.
use crate::{median, rust, Random};
use std::hint::black_box;
use std::time::Instant;

extern "C" {
    fn bench_checksum(s: *const u8, length: usize) -> u64;
    fn bench_bitwise(s: *const u8, length: usize) -> u64;
    fn bench_by_tables(s: *const u8, length: usize) -> u64;
}

// The exports have no `requires`, so each call on a lent slice is allowed.
fn ours(s: &[u8]) -> u64 {
    unsafe { bench_checksum(s.as_ptr(), s.len()) }
}

fn ours_bitwise(s: &[u8]) -> u64 {
    !unsafe { bench_bitwise(s.as_ptr(), s.len()) }
}

fn ours_by_tables(s: &[u8]) -> u64 {
    !unsafe { bench_by_tables(s.as_ptr(), s.len()) }
}

type Checksum = (&'static str, fn(&[u8]) -> u64);

const LONG: usize = 16 << 20;
const LONG_REPETITIONS: usize = 21;
const SHORT_REPETITIONS: usize = 101;
const SHORT_CALLS: u32 = 50;
const SHORT: [usize; 16] = [
    32, 64, 96, 112, 128, 144, 160, 192, 256, 384, 512, 768, 1024, 1536, 2048, 4096,
];

fn check(all: &[Checksum], s: &[u8]) {
    let (_, first) = all[0];
    for (name, checksum) in all {
        assert_eq!(checksum(s), first(s), "{name}, {} bytes", s.len());
    }
}

/// Nanoseconds a call, for each: the median of repetitions in which they take turns.
fn medians(all: &[Checksum], s: &[u8], repetitions: usize, calls: u32) -> Vec<f64> {
    let mut times = vec![Vec::new(); all.len()];
    for _ in 0..repetitions {
        for (n, (_, checksum)) in all.iter().enumerate() {
            let start = Instant::now();
            for _ in 0..calls {
                black_box(checksum(black_box(s)));
            }
            times[n].push(start.elapsed().as_secs_f64() * 1e9 / f64::from(calls));
        }
    }
    times.iter_mut().map(|t| median(t)).collect()
}

pub fn measure(random: &mut Random) {
    let all: [Checksum; 6] = [
        ("ours", ours),
        ("Rust, same algorithm", rust::lanes::checksum),
        ("Rust, byte table", rust::bytewise),
        ("Rust, slicing by 8", rust::slicing),
        ("ours, bitwise alone", ours_bitwise),
        ("ours, tables alone", ours_by_tables),
    ];
    assert_eq!(
        ours(b"123456789"),
        0x995D_C9BB_DF19_39FA,
        "published check value"
    );
    let bytes = random.bytes(LONG);
    for length in 0..=200 {
        check(&all, &bytes[..length]);
    }
    for _ in 0..1000 {
        let length = random.next() as usize % 10_001;
        let start = random.next() as usize % (LONG - length);
        check(&all, &bytes[start..start + length]);
    }
    check(&all[..4], &bytes);
    println!("All give the same values.\n");

    println!(
        "{} MiB, all bytes written before; median of {LONG_REPETITIONS}:",
        LONG >> 20
    );
    let long = medians(&all[..4], &bytes, LONG_REPETITIONS, 1);
    for ((name, _), time) in all.iter().zip(&long) {
        println!(
            "  {name:<22} {:8.3} ms  {:6.2} GB/s  ours / this = {:.3}",
            time / 1e6,
            LONG as f64 / time,
            long[0] / time
        );
    }
    println!("  asked: ours / same algorithm at most 1.2, ours / byte table at most 0.5");

    println!(
        "\nShort lengths, ns a call, filling of tables included; median of {SHORT_REPETITIONS}:"
    );
    println!(
        "  {:>6} {:>10} {:>10} {:>10} {:>16}",
        "bytes", "bitwise", "tables", "checksum", "bitwise / tables"
    );
    let forms = [all[4], all[5], all[0]];
    for length in SHORT {
        let t = medians(&forms, &bytes[..length], SHORT_REPETITIONS, SHORT_CALLS);
        println!(
            "  {length:>6} {:>10.0} {:>10.0} {:>10.0} {:>16.2}",
            t[0],
            t[1],
            t[2],
            t[0] / t[1]
        );
    }
}
