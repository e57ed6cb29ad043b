//! Runs the library beside an independent implementation of documents 01 and 02 on several hundred
//! thousand inputs for each kind of table, and compares answers, bytes and reads. An input is one
//! call with all its arguments, its buffer included.

mod arguments;
mod exports;
mod faults;
mod fields;
mod histories;
mod images;
mod imports;
mod independent;
mod large;
mod layout;
mod lengths;
mod mixed;
mod pairs;
mod parent_cases;
mod parents;
mod random;
mod sides;
mod sparse;
mod tables;
mod tally;

use aaru::ffi::*;
use aaru::Creation;
use layout::Kind;
use random::seed_of_run;
use sides::Sides;
use std::ptr::{null, null_mut};
use std::thread;
use tally::Tally;

type Part = (Kind, fn(&mut Sides));

/// Each part has images of one kind. The numbers after `sides` are seeds, to which that of the run
/// is added; those after them say how many images or histories.
const PARTS: [Part; 25] = [
    (Kind::Old, |sides| fields::run(sides, 1, 9)),
    (Kind::Old, |sides| fields::run(sides, 2, 9)),
    (Kind::Old, |sides| pairs::run(sides, 3, 18)),
    (Kind::Old, |sides| pairs::run(sides, 4, 18)),
    (Kind::Old, |sides| histories::run(sides, 5, 2000)),
    (Kind::Old, |sides| lengths::run(sides, 6, 3200)),
    (Kind::Old, |sides| large::run(sides, 7)),
    (Kind::Old, |sides| sparse::run(sides, 8)),
    (Kind::Old, |sides| mixed::run(sides, 9, 60)),
    (Kind::Old, |sides| exports::run(sides, 20, 260)),
    (Kind::Old, |sides| imports::run(sides, 21, 400)),
    (Kind::Old, |sides| parents::run(sides, 23, 400)),
    (Kind::Old, |sides| parents::run_faults(sides, 24, 24)),
    (Kind::Second, |sides| fields::run(sides, 11, 9)),
    (Kind::Second, |sides| fields::run(sides, 12, 9)),
    (Kind::Second, |sides| pairs::run(sides, 13, 18)),
    (Kind::Second, |sides| pairs::run(sides, 15, 18)),
    (Kind::Second, |sides| tables::run(sides, 14, 1440)),
    (Kind::Second, |sides| lengths::run(sides, 16, 3000)),
    (Kind::Second, |sides| large::run(sides, 17)),
    (Kind::Second, |sides| sparse::run(sides, 18)),
    (Kind::Second, |sides| mixed::run(sides, 19, 60)),
    (Kind::Second, |sides| exports::run(sides, 22, 260)),
    (Kind::Second, |sides| parents::run(sides, 25, 400)),
    (Kind::Second, |sides| parents::run_faults(sides, 26, 24)),
];

#[test]
fn both_sides_agree() {
    // First, so that a run that fails can be made again.
    println!("\nthe comparison runs with SEED={}", seed_of_run());
    let mut tallies = [Kind::Old, Kind::Second].map(Tally::new);
    thread::scope(|scope| {
        let run = |(kind, part): Part| {
            let run = move || {
                let mut sides = Sides::new(kind);
                part(&mut sides);
                sides.tally
            };
            (kind, scope.spawn(run))
        };
        for (kind, part) in PARTS.map(run) {
            tallies[kind as usize].add(part.join().expect("a part failed"));
        }
    });
    tallies.iter().for_each(Tally::print);
    tallies.iter().for_each(Tally::check);
}

/// As bindings/c/aaru.h says: where a length is 0, the pointer may be null.
#[test]
fn null_pointers_to_nothing() {
    let nothing = (null(), null_mut::<u8>());
    let about = Creation {
        sectors: 3,
        application: &[0; 64],
        major: 1,
        minor: 0,
        media_type: 0,
        created: 0,
        written: 0,
    };
    let mut buffer = [0; 400];
    let used = aaru::create(&mut buffer, &about).expect("room enough").used;
    let (start, length) = (buffer.as_mut_ptr(), buffer.len());
    let (mut a, mut b) = (0, 0);
    // One for each call: a refused one sets it.
    let mut places = [7; 10];
    // SAFETY: those pointers that are not null are valid for their lengths and apart from others.
    unsafe {
        let mut lowest = 0;
        let count = aaru_sector_count(nothing.0, 0, &mut a, &mut lowest, &mut places[0]);
        assert_eq!(count, 1);
        let locate = aaru_locate(nothing.0, 0, 0, &mut a, &mut b, &mut places[1]);
        assert_eq!(locate, 1);
        let create = aaru_create(
            nothing.1,
            0,
            3,
            nothing.0,
            0,
            1,
            0,
            0,
            0,
            0,
            &mut a,
            &mut b,
            &mut places[2],
        );
        assert_eq!(create, 33);
        let rollback = aaru_rollback(nothing.1, 0, 0, 0, 0, &mut a, &mut b, &mut places[3]);
        assert_eq!(rollback, 1);
        let no_sectors = aaru_commit(
            start,
            length,
            used,
            null(),
            0,
            4,
            nothing.0,
            0,
            1,
            &mut a,
            &mut b,
            &mut places[4],
        );
        assert_eq!((no_sectors, a), (0, used + 109));
        let export = aaru_export(nothing.0, 0, nothing.1, 0, &mut a, &mut b, &mut places[5]);
        assert_eq!(export, 1);
        let exact = aaru_export_exact(nothing.0, 0, nothing.1, 0, &mut a, &mut places[6]);
        assert_eq!(exact, 1);
        let import = aaru_import(
            nothing.1,
            0,
            nothing.0,
            0,
            4,
            nothing.0,
            0,
            1,
            0,
            0,
            0,
            0,
            &mut a,
            &mut b,
            &mut places[7],
        );
        assert_eq!(import, 30);
        let (mut which, place) = (0, &mut places[8]);
        let over = aaru_locate_over(
            nothing.0, 0, nothing.0, 0, 0, &mut which, &mut a, &mut b, place,
        );
        assert_eq!(over, 1);
        // The child has no sector that is written, so that the parent is looked at.
        let name = about.application;
        let flatten = aaru_flatten(
            nothing.1,
            0,
            start,
            used as usize,
            nothing.0,
            0,
            name.as_ptr(),
            name.len(),
            1,
            0,
            0,
            0,
            0,
            &mut a,
            &mut b,
            &mut places[9],
        );
        assert_eq!(flatten, 4);
    }
    assert_eq!(places, [0, 0, 0, 0, 7, 0, 0, 0, 0, 286]);
}
