//! Measures the library beside Rust programs. Times are medians of repetitions in which the forms take turns.
mod checksums; // the checksum, measured
mod commit; // committing in Rust
mod committing; // creating and committing, measured
mod disc; // an image in Rust
mod flat; // flat files in and out, measured
mod flatten; // flattening in Rust
mod flattening; // flattening, measured
mod kinds; // opening and reading the two kinds of table, measured
mod reading; // opening and reading, measured
mod rust; // checksums in Rust

/// The same bytes in each run (xorshift64).
pub struct Random(u64);

impl Random {
    pub fn next(&mut self) -> u64 {
        self.0 ^= self.0 << 13;
        self.0 ^= self.0 >> 7;
        self.0 ^= self.0 << 17;
        self.0
    }

    pub fn bytes(&mut self, length: usize) -> Vec<u8> {
        (0..length).map(|_| self.next() as u8).collect()
    }
}

pub fn median(times: &mut [f64]) -> f64 {
    times.sort_by(f64::total_cmp);
    times[times.len() / 2]
}

fn main() {
    let mut random = Random(0x9E37_79B9_7F4A_7C15);
    checksums::measure(&mut random);
    reading::measure(&mut random);
    kinds::measure(&mut random);
    committing::measure(&mut random);
    flat::measure(&mut random);
    flattening::measure(&mut random);
}
