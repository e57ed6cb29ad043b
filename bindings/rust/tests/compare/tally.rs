//! What was tried and how it was answered.

use crate::layout::Kind;
use crate::sides::{Answer, Call, Rule};
use aaru::Refusal;
use std::collections::{BTreeMap, HashMap, HashSet};
use std::hash::{DefaultHasher, Hasher};

pub const CALLS: [&str; 10] = [
    "sector_count",
    "locate",
    "create",
    "commit",
    "rollback",
    "export",
    "export_exact",
    "import",
    "locate_over",
    "flatten",
];
const NUMBERS: usize = 174;

/// Whether a call can give a number on images of a kind; 0 stands for an accepted call. A rollback
/// may lead from one kind to the other, and of the second kind what was exported is imported. Where
/// there is a parent, the child is of the kind; the parent, whose numbers are above 100, is of either.
fn possible(kind: Kind, call: usize, number: usize) -> bool {
    let old = kind == Kind::Old;
    match (CALLS[call], number) {
        ("import", 0) => true,
        ("create", 0 | 30 | 31 | 33 | 35) | ("import", 30 | 31 | 33 | 35 | 42) => old,
        ("create" | "import", _) => false,
        ("commit", 0 | 20 | 22..=27 | 35) => old,
        ("commit", 30..=34) => true,
        ("rollback", 31 | 32 | 70..=72 | 74) => true,
        ("flatten", 0 | 22..=27 | 30 | 35 | 40) => old,
        ("flatten", 31 | 33) => true,
        ("locate_over", 101..=114 | 122..=127 | 170..=173) => true,
        ("flatten", 101..=114 | 122..=127 | 170..=173) => old,
        ("locate" | "locate_over", 20..=27) | ("export" | "export_exact", 21..=27 | 40 | 41) => {
            true
        }
        (_, 0..=14) => true,
        (_, 70..=72) | ("commit" | "flatten", 74) => !old,
        ("locate" | "locate_over" | "export" | "export_exact", 73) => !old,
        _ => false,
    }
}

/// Buffers too long for 31 are few; every other answer has to be met often.
fn least(number: usize) -> u64 {
    match number {
        31 => 1,
        _ => 100,
    }
}

/// Whether a number has a place; that of every other number is 0.
fn placed(number: usize) -> bool {
    matches!(number % 100, 4..=14 | 22..=27)
}

/// Whether some of a call's places with a number are telling: past the end (4), of an index that
/// the header does not name (5, 6, 9, 10), or of an entry that is not the first (7, 8, 22).
fn telling(call: usize, number: usize) -> bool {
    match number % 100 {
        4 | 7 | 8 | 22 => true,
        5 | 6 | 9 | 10 => CALLS[call] == "rollback",
        _ => false,
    }
}

/// How many different places have to be met, and how many telling ones where there are such.
const LEAST_PLACES: usize = 20;

/// What a call gave with a number.
#[derive(Default)]
struct Met {
    times: u64,
    places: HashSet<u64>,
    telling: HashSet<u64>,
}

impl Met {
    /// That the places could not be right by chance.
    fn check_places(&self, call: usize, number: usize) {
        let (name, places) = (CALLS[call], &self.places);
        let enough = places.len() >= LEAST_PLACES;
        assert!(enough, "{name} met {number} at {} places", places.len());
        let enough = !telling(call, number) || self.telling.len() >= LEAST_PLACES;
        assert!(enough, "{name} met {number} at few telling places");
        // A buffer that is written can't be so long.
        let far = places.iter().any(|&place| place >= 1 << 32);
        let enough = far || matches!(name, "create" | "commit" | "rollback" | "import");
        assert!(enough, "{name} met {number} at no place above 4 GiB");
        let enough = number % 100 != 4 || places.contains(&u64::MAX);
        assert!(enough, "{name} never met the last offset");
    }
}

/// Of one kind of image.
#[derive(Default)]
pub struct Tally {
    pub kind: Kind,
    /// By call and number.
    answers: BTreeMap<(usize, usize), Met>,
    /// Whether each image opens. An image is known by a hash of its bytes, so that it counts once.
    images: HashMap<u64, bool>,
    /// Inputs that bring together two faults, each of which alone is refused with another number
    /// or place.
    pub two_faults: u64,
    /// Reads of what a call left, beyond the inputs.
    pub reads: u64,
    /// By call, how often a negative address was refused with 20.
    negative: [u64; CALLS.len()],
    /// Exports that filled gaps.
    filled: u64,
    /// How many sectors of a child over its parent were the child's, and how many the parent's.
    pub found: [u64; 2],
}

impl Tally {
    pub fn new(kind: Kind) -> Tally {
        Tally {
            kind,
            ..Tally::default()
        }
    }

    pub fn count(&mut self, call: &Call, answer: Answer) {
        let lowest = match call {
            Call::Locate(address) | Call::LocateOver(_, address) => Some(address),
            Call::Commit(commit) => commit.addresses.first(),
            _ => None,
        };
        let fills = matches!((call, answer), (Call::Export(Rule::Plain), Ok((_, 1..))));
        self.filled += u64::from(fills);
        let call = call.column();
        let (number, place) = match answer {
            Ok(_) => (0, 0),
            Err(Refusal { number, place }) => (number as usize, place),
        };
        let known = number < NUMBERS && possible(self.kind, call, number);
        let right = place == 0 || placed(number);
        assert!(known && right, "{} gave {answer:?}", CALLS[call]);
        let met = self.answers.entry((call, number)).or_default();
        met.times += 1;
        met.places.insert(place);
        let negative = number == 20 && lowest.is_some_and(|&address| address < 0);
        self.negative[call] += u64::from(negative);
    }

    /// Notes that the place of a counted refusal is a telling one.
    pub fn count_telling(&mut self, call: &Call, refusal: Refusal) {
        let met = self.answers.entry((call.column(), refusal.number as usize));
        met.or_default().telling.insert(refusal.place);
    }

    pub fn image(&mut self, image: &[u8], opens: impl Fn(&[u8]) -> bool) {
        let mut hasher = DefaultHasher::new();
        hasher.write(image);
        let hash = hasher.finish();
        self.images.entry(hash).or_insert_with(|| opens(image));
    }

    pub fn add(&mut self, other: Tally) {
        for (pair, other) in other.answers {
            let met = self.answers.entry(pair).or_default();
            met.times += other.times;
            met.places.extend(other.places);
            met.telling.extend(other.telling);
        }
        self.images.extend(other.images);
        self.two_faults += other.two_faults;
        self.reads += other.reads;
        self.filled += other.filled;
        for (found, more) in self.found.iter_mut().zip(other.found) {
            *found += more;
        }
        for (times, more) in self.negative.iter_mut().zip(other.negative) {
            *times += more;
        }
    }

    fn times(&self, call: usize, number: usize) -> u64 {
        self.answers.get(&(call, number)).map_or(0, |met| met.times)
    }

    /// The different places that calls gave with a number.
    fn places(&self, number: usize) -> HashSet<u64> {
        let met = (0..CALLS.len()).filter_map(|call| self.answers.get(&(call, number)));
        met.flat_map(|met| &met.places).copied().collect()
    }

    fn inputs(&self) -> u64 {
        self.answers.values().map(|met| met.times).sum()
    }

    fn opened(&self) -> usize {
        self.images.values().filter(|&&opens| opens).count()
    }

    pub fn print(&self) {
        print!("\n  {}", String::from_utf8_lossy(self.kind.letters()));
        for call in CALLS {
            print!("{call:>13}");
        }
        println!("{:>13}", "places");
        for number in 0..NUMBERS {
            if (0..CALLS.len()).any(|call| possible(self.kind, call, number)) {
                self.print_row(number);
            }
        }
        println!();
        println!("{:>9} inputs", self.inputs());
        println!("{:>9} of them with two faults at once", self.two_faults);
        println!(
            "{:>9} images, {} of them open",
            self.images.len(),
            self.opened()
        );
        println!("{:>9} reads after calls that write", self.reads);
        println!("{:>9} exports that fill gaps", self.filled);
        let [child, parent] = self.found;
        println!("{child:>9} sectors of a child, and {parent} of its parent");
    }

    fn print_row(&self, number: usize) {
        print!("{number:>6}");
        for call in 0..CALLS.len() {
            match possible(self.kind, call, number) {
                true => print!("{:>13}", self.times(call, number)),
                false => print!("{:>13}", "-"),
            }
        }
        match placed(number) {
            true => println!("{:>13}", self.places(number).len()),
            false => println!("{:>13}", "-"),
        }
    }

    /// That enough was tried.
    pub fn check(&self) {
        for (call, name) in CALLS.iter().enumerate() {
            for number in (0..NUMBERS).filter(|&number| possible(self.kind, call, number)) {
                let times = self.times(call, number);
                let enough = times >= least(number);
                assert!(enough, "{:?}: {name} met {number} {times} times", self.kind);
            }
            if possible(self.kind, call, 20) {
                let times = self.negative[call];
                assert!(times >= least(20), "{name} met few negative addresses");
            }
        }
        for (&(call, number), met) in &self.answers {
            if placed(number) {
                met.check_places(call, number);
            }
        }
        assert!(self.filled >= least(0), "few exports filled gaps");
        let enough = self.found.iter().all(|&times| times >= least(0));
        assert!(enough, "few sectors of the child or of the parent");
        assert!(self.inputs() >= 100_000);
        assert!(10 * self.two_faults >= self.inputs());
        assert!(2 * self.opened() >= self.images.len());
    }
}
