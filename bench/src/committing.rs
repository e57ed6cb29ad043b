//! Measures creating and committing beside the same in Rust.
//! First checks that all leave the same bytes and the same `used`.
use crate::commit::{lent, map, Commit};
use crate::{disc, median, Random};
use aaru::Creation;
use std::hint::black_box;
use std::time::Instant;

const APPLICATION: &[u8; 64] = &[7; 64];
const TIME: u64 = 1;
const SIZE: usize = 2048;
const SECTORS: usize = 8192;
const COMMITS: usize = 8;
const NEW: usize = 256;
const ALIKE: usize = 16;
const ROOM: usize = (SECTORS + NEW) * SIZE + (COMMITS + 2) * (8 * SECTORS + 1000);
const COMMIT_REPETITIONS: usize = 21;
const DISC_REPETITIONS: usize = 7;

/// The same calls, one of four ways. Each answers the new `used`, and 0 for a refusal.
struct Form {
    name: &'static str,
    create: fn(&mut [u8], u64) -> u64,
    commit: fn(&mut [u8], &Commit) -> u64,
}

const FORMS: [Form; 4] = [
    Form {
        name: "ours",
        create: ours_create,
        commit: ours_commit,
    },
    Form {
        name: "Rust, same memory",
        create: rust_create,
        commit: |buffer, c| lent::commit(buffer, c, |s, t| s == t).unwrap_or(0),
    },
    Form {
        name: "the same, first byte first",
        create: rust_create,
        commit: |buffer, c| lent::commit(buffer, c, first_byte_first).unwrap_or(0),
    },
    Form {
        name: "Rust, free to allocate",
        create: rust_create,
        commit: |buffer, c| map::commit(buffer, c).unwrap_or(0),
    },
];

fn ours_create(b: &mut [u8], count: u64) -> u64 {
    let about = Creation {
        sectors: count,
        application: APPLICATION,
        major: 1,
        minor: 0,
        media_type: 1,
        created: TIME,
        written: TIME,
    };
    aaru::create(b, &about).map_or(0, |p| p.used)
}

fn ours_commit(b: &mut [u8], c: &Commit) -> u64 {
    aaru::commit(b, c.used, c.addresses, c.size, c.sectors, c.time).map_or(0, |p| p.used)
}

fn rust_create(b: &mut [u8], count: u64) -> u64 {
    disc::create(b, count, APPLICATION, TIME).unwrap_or(0)
}

/// Most sectors differ in their first byte; then `==`, which is a call, is not made.
fn first_byte_first(s: &[u8], t: &[u8]) -> bool {
    s.first() == t.first() && s == t
}

/// All forms, each on a copy of the buffer, leave the same; answers what they leave.
fn check(buffer: &[u8], call: impl Fn(&Form, &mut [u8]) -> u64) -> (Vec<u8>, u64) {
    let mut left = FORMS.iter().map(|form| {
        let mut b = buffer.to_vec();
        let used = call(form, &mut b);
        (b, used)
    });
    let ours = left.next().unwrap();
    for (other, form) in left.zip(&FORMS[1..]) {
        assert_eq!(ours.1, other.1, "{}: used", form.name);
        assert!(ours.0 == other.0, "{}: bytes", form.name);
    }
    ours
}

/// A small disc on which many sectors are equal, and some commits are refused.
fn check_small(random: &mut Random) {
    let count = 1 + random.next() % 12;
    let room = 300 + random.next() as usize % 2000;
    let (mut buffer, mut used) = check(&vec![7; room], |form, b| (form.create)(b, count));
    for time in 0..6 {
        let size = 1 + random.next() % 3;
        let addresses: Vec<_> = (0..=count as i64).filter(|_| random.next() % 20 < 7).collect();
        let mut sectors = random.bytes(addresses.len() * size as usize);
        sectors.iter_mut().for_each(|b| *b %= 2);
        let c = Commit {
            used,
            addresses: &addresses,
            size,
            sectors: &sectors,
            time,
        };
        let (b, next) = check(&buffer, |form, b| (form.commit)(b, &c));
        (buffer, used) = (b, if next == 0 { used } else { next });
    }
}

/// What is measured: the sectors of a disc, and new ones for some of its addresses.
struct Input {
    addresses: Vec<i64>,
    sectors: Vec<u8>,
    some: Vec<i64>,
    new: Vec<u8>,
}

/// Random sectors; the first `alike` bytes of each are 0.
fn random_sectors(random: &mut Random, count: usize, alike: usize) -> Vec<u8> {
    let mut sectors = random.bytes(count * SIZE);
    for sector in sectors.chunks_mut(SIZE) {
        sector[..alike].fill(0);
    }
    sectors
}

impl Input {
    fn new(random: &mut Random, alike: usize) -> Self {
        let addresses: Vec<_> = (0..SECTORS as i64).collect();
        Self {
            some: addresses.iter().step_by(SECTORS / NEW).copied().collect(),
            addresses,
            sectors: random_sectors(random, SECTORS, alike),
            new: random_sectors(random, NEW, alike),
        }
    }

    /// The disc by eight commits of 1,024 sectors.
    fn make_disc(&self, form: &Form, buffer: &mut [u8]) -> u64 {
        let each = SECTORS / COMMITS;
        let sectors = self.sectors.chunks(each * SIZE);
        let used = (form.create)(buffer, SECTORS as u64);
        let parts = self.addresses.chunks(each).zip(sectors);
        parts.fold(used, |used, (addresses, sectors)| {
            let c = Commit {
                used,
                addresses,
                size: SIZE as u64,
                sectors,
                time: TIME,
            };
            (form.commit)(buffer, &c)
        })
    }

    fn disc_times(&self) -> Vec<f64> {
        let make = |form: &Form, b: &mut [u8]| self.make_disc(form, b);
        times(&vec![0; ROOM], DISC_REPETITIONS, make)
    }

    fn commit_times(&self) -> Vec<f64> {
        let mut disc = vec![0; ROOM];
        let c = Commit {
            used: self.make_disc(&FORMS[3], &mut disc),
            addresses: &self.some,
            size: SIZE as u64,
            sectors: &self.new,
            time: TIME,
        };
        times(&disc, COMMIT_REPETITIONS, |form, b| (form.commit)(b, &c))
    }
}

/// Milliseconds, for each form: the median of repetitions in which they take turns. Before each, outside of the time, the
/// buffer is copied anew. First checks that all leave the same.
fn times(start: &[u8], repetitions: usize, call: impl Fn(&Form, &mut [u8]) -> u64) -> Vec<f64> {
    let (mut buffer, used) = check(start, &call);
    assert_ne!(used, 0, "accepted");
    let mut times = vec![Vec::new(); FORMS.len()];
    for _ in 0..repetitions {
        for (form, times) in FORMS.iter().zip(&mut times) {
            buffer.copy_from_slice(start);
            let clock = Instant::now();
            black_box(call(form, black_box(&mut buffer)));
            times.push(clock.elapsed().as_secs_f64() * 1e3);
        }
    }
    times.iter_mut().map(|t| median(t)).collect()
}

pub fn measure(random: &mut Random) {
    for _ in 0..2000 {
        check_small(random);
    }
    let apart = Input::new(random, 0);
    let alike = Input::new(random, ALIKE);
    println!(
        "\n{NEW} new sectors to a disc of {SECTORS}, and {ALIKE} bytes alike, median of {COMMIT_REPETITIONS}; \
         whole disc by {COMMITS} commits, median of {DISC_REPETITIONS}:"
    );
    let columns = [
        ("256 sectors", apart.commit_times()),
        ("16 alike", alike.commit_times()),
        ("whole disc", apart.disc_times()),
    ];
    print!("  {:<28}", "ms");
    for (title, _) in &columns {
        print!(" {title:>12} {:>12}", "ours / this");
    }
    for (n, form) in FORMS.iter().enumerate() {
        print!("\n  {:<28}", form.name);
        for (_, t) in &columns {
            print!(" {:>12.1} {:>12.3}", t[n], t[0] / t[n]);
        }
    }
    println!("\n  all left the same bytes");
}
