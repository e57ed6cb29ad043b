//! Measures flattening beside the same in Rust. First checks that all answer the same and leave the same bytes.
use crate::commit::{map, Commit};
use crate::flatten::{self, Flatten};
use crate::{disc, median, Random};
use aaru::Flattening;
use std::hint::black_box;
use std::time::Instant;

const APPLICATION: &[u8; 64] = &[7; 64];
const TIME: u64 = 1;
const SECTORS: usize = 8192;
const CHANGED: usize = 64;
const DIFFERENT: usize = 256;
const BLOCKS: usize = 8;
const REPETITIONS: usize = 7;

/// Each answers the new `used`, or the number that refuses.
type Form = (&'static str, fn(&mut [u8], &Flatten) -> Result<u64, u32>);

const FORMS: [Form; 4] = [
    ("ours", ours),
    ("Rust, one search", flatten::once),
    ("Rust, two searches", flatten::twice),
    ("Rust, free to allocate", flatten::map),
];

fn ours(b: &mut [u8], f: &Flatten) -> Result<u64, u32> {
    let about = Flattening {
        child: f.child,
        parent: f.parent,
        application: f.application,
        major: 1,
        minor: 0,
        media_type: 1,
        created: f.time,
        written: f.time,
    };
    let placed = aaru::flatten(b, &about);
    placed.map(|p| p.used).map_err(|refusal| refusal.number)
}

/// All forms, each on a copy of the buffer, answer and leave the same.
fn check(buffer: &[u8], f: &Flatten) -> Result<u64, u32> {
    let mut left = FORMS.iter().map(|(name, form)| {
        let mut b = buffer.to_vec();
        let answer = form(&mut b, f);
        (name, b, answer)
    });
    let (_, ours, answer) = left.next().unwrap();
    for (name, other, others_answer) in left {
        assert_eq!(answer, others_answer, "{name}: answer");
        assert!(ours == other, "{name}: bytes");
    }
    answer
}

/// A disc of so many sectors, with sectors of a size at these addresses, in so many commits.
fn image(count: usize, addresses: &[i64], size: usize, sectors: &[u8], commits: usize) -> Vec<u8> {
    let mut buffer = vec![0; 1000 + sectors.len() + (commits + 2) * (8 * count + 1000)];
    let mut used = disc::create(&mut buffer, count as u64, APPLICATION, TIME).expect("created");
    let each = addresses.len().div_ceil(commits).max(1);
    for (addresses, sectors) in addresses.chunks(each).zip(sectors.chunks(each * size)) {
        let c = Commit {
            used,
            addresses,
            size: size as u64,
            sectors,
            time: TIME,
        };
        used = map::commit(&mut buffer, &c).expect("committed");
    }
    buffer.truncate(used as usize);
    buffer
}

/// Small pairs with many equal sectors and now and then another size, some of them damaged, and buffers that may be too
/// short.
fn check_small(random: &mut Random) {
    let [child, parent] = [0; 2].map(|_| {
        let (count, size) = (1 + random.next() as usize % 12, 2 + usize::from(random.next() % 12 == 0));
        let addresses: Vec<i64> = (0..count as i64).filter(|_| random.next() % 2 == 0).collect();
        let mut sectors = random.bytes(addresses.len() * size);
        sectors.iter_mut().for_each(|b| *b %= 2);
        let mut image = image(count, &addresses, size, &sectors, 2);
        if random.next() % 8 == 0 {
            let at = random.next() as usize % image.len();
            image[at] ^= 1;
        }
        image
    });
    let f = Flatten {
        child: &child,
        parent: &parent,
        application: APPLICATION,
        time: TIME,
    };
    let room = 200 + random.next() as usize % 400;
    let _ = check(&vec![7; room], &f);
}

/// A child of which `changed` sectors are written, over a parent of which all are; no two are equal but those of one
/// number modulo `different`.
struct Input {
    size: usize,
    child: Vec<u8>,
    parent: Vec<u8>,
}

impl Input {
    fn new(random: &mut Random, size: usize, changed: usize, different: usize) -> Self {
        let pool = random.bytes(different * size);
        let sectors: Vec<u8> = pool.iter().cycle().take(SECTORS * size).copied().collect();
        let every: Vec<i64> = (0..SECTORS as i64).collect();
        let some: Vec<i64> = (0..changed).map(|n| (n * (SECTORS / CHANGED)) as i64).collect();
        Self {
            size,
            child: image(SECTORS, &some, size, &random.bytes(changed * size), 1),
            parent: image(SECTORS, &every, size, &sectors, BLOCKS),
        }
    }

    /// Milliseconds, for each form: the median of repetitions in which they take turns. There is room for all sectors.
    fn times(&self) -> Vec<f64> {
        let f = Flatten {
            child: &self.child,
            parent: &self.parent,
            application: APPLICATION,
            time: TIME,
        };
        let mut buffer = vec![0; SECTORS * self.size + 16 * SECTORS + 1000];
        check(&buffer, &f).expect("accepted");
        let mut times = vec![Vec::new(); FORMS.len()];
        for _ in 0..REPETITIONS {
            for ((_, form), times) in FORMS.iter().zip(&mut times) {
                let clock = Instant::now();
                let _ = black_box(form(black_box(&mut buffer), &f));
                times.push(clock.elapsed().as_secs_f64() * 1e3);
            }
        }
        times.iter_mut().map(|t| median(t)).collect()
    }
}

pub fn measure(random: &mut Random) {
    for _ in 0..3000 {
        check_small(random);
    }
    println!(
        "\nFlattening a child of {SECTORS} sectors, {CHANGED} or none of them written, over a parent with all of them; \
         no two equal, or {DIFFERENT} different ones on the parent; median of {REPETITIONS}:"
    );
    let columns = [
        ("512 bytes", Input::new(random, 512, CHANGED, SECTORS)),
        ("2,048 bytes", Input::new(random, 2048, CHANGED, SECTORS)),
        ("none written", Input::new(random, 2048, 0, SECTORS)),
        ("many equal", Input::new(random, 2048, CHANGED, DIFFERENT)),
    ];
    let columns = columns.map(|(title, input)| (title, input.times()));
    print!("  {:<24}", "ms");
    for (title, _) in &columns {
        print!(" {title:>12} {:>12}", "ours / this");
    }
    for (n, (name, _)) in FORMS.iter().enumerate() {
        print!("\n  {name:<24}");
        for (_, t) in &columns {
            print!(" {:>12.1} {:>12.3}", t[n], t[0] / t[n]);
        }
    }
    println!("\n  all left the same bytes");
}
