//! Random histories: a creation or an import, then commits and rollbacks with free arguments. Beside
//! the comparison, what each call promises about the disc is checked from outside.

use crate::arguments::{self, outside, with_room, SIZES};
use crate::exports::{as_it_reads, Read};
use crate::images::Description;
use crate::layout::{Kind, Layout, CREATED, INDEX, INDEX_ENTRY};
use crate::random::Random;
use crate::sides::{refused, Answer, Call, Commit, Sides};
use aaru::Refusal;

/// How a disc reads, at every address and some that no disc has.
type Reading = Vec<Read>;

fn reading(image: &[u8]) -> Reading {
    let range = aaru::sector_count(image).expect("a disc of a history opens");
    let all = range.lowest..range.lowest + range.count as i64;
    let read = |address| aaru::read(image, address).map(|sector| sector.bytes.to_vec());
    all.clone().chain(outside(&all)).map(read).collect()
}

struct History<'a> {
    sides: &'a mut Sides,
    buffer: Vec<u8>,
    used: u64,
    /// Each returned index offset, and how the disc read then.
    points: Vec<(u64, Reading)>,
    /// The index of the creation that an import stands for: it opens, and no call has returned it.
    unreturned: Option<u64>,
    now: Reading,
    count: i64,
}

/// Histories of created discs, of imported ones and of built images.
pub fn run(sides: &mut Sides, seed: u64, histories: usize) {
    let mut random = Random::new(seed);
    let mut damaged = 0;
    let any = |random: &mut Random| Description::random(Kind::Old, random);
    for number in 0..histories {
        let mut history = match number % 6 {
            0 => built(sides, any(&mut random).wild(), &mut random),
            3 => built(sides, any(&mut random), &mut random),
            1 | 4 => imported(sides, &mut random),
            _ => created(sides, &mut random),
        };
        damaged += usize::from(history.damage().is_some());
        for _ in 0..5 + random.below(16) {
            history.step(&mut random);
        }
        history.go_everywhere(&mut random);
    }
    // Only their reads are refused with a place other than 0.
    assert!(20 * damaged >= histories, "{damaged} damaged discs");
}

fn created<'a>(sides: &'a mut Sides, random: &mut Random) -> History<'a> {
    let sectors = 1 + random.below(8);
    let room = 300 + random.below(3000);
    let mut buffer = random.bytes(room);
    let create = Call::Create(arguments::create(random, sectors as u64));
    let (used, index) = sides.run_on(&mut buffer, 0, &create).unwrap();
    start(sides, buffer, used, index)
}

/// Its one point reads as the flat file.
fn imported<'a>(sides: &'a mut Sides, random: &mut Random) -> History<'a> {
    let (sectors, size) = (1 + random.below(8), random.pick(&SIZES));
    let import = arguments::import(random, sectors, size);
    let room = 600 + random.below(3000);
    let mut buffer = random.bytes(room);
    let call = Call::Import(import.clone());
    let (used, index) = sides.run_on(&mut buffer, 0, &call).unwrap();
    let mut history = start(sides, buffer, used, index);
    let flat = import.flat.chunks_exact(size);
    let flat: Reading = flat.map(|sector| Ok(sector.to_vec())).collect();
    assert_eq!(history.now[..sectors], flat);
    history.unreturned = Some((CREATED + 8 * sectors - INDEX - INDEX_ENTRY) as u64);
    history.export();
    history
}

fn built<'a>(sides: &'a mut Sides, description: Description, random: &mut Random) -> History<'a> {
    let image = description.build(random);
    let room = 300 + random.below(3000);
    let buffer = with_room(&image, room, random);
    let index = Layout::of(&image).index as u64;
    start(sides, buffer, image.len() as u64, index)
}

fn start(sides: &mut Sides, buffer: Vec<u8>, used: u64, index: u64) -> History<'_> {
    let now = reading(&buffer[..used as usize]);
    History {
        sides,
        used,
        points: vec![(index, now.clone())],
        unreturned: None,
        count: aaru::sector_count(&buffer[..used as usize]).unwrap().count as i64,
        buffer,
        now,
    }
}

impl History<'_> {
    fn step(&mut self, random: &mut Random) {
        match random.below(16) {
            0 => self.refused_commit(random),
            1 => self.telling_rollback(random),
            2..=4 => {
                let (offset, then) = random.pick(&self.points);
                self.rollback(offset, then, random);
            }
            5 => self.commit(&Commit {
                addresses: Vec::new(),
                size: 1 + random.below(65_536) as u64,
                sectors: Vec::new(),
                time: random.number(),
            }),
            6 | 7 => {
                let commit = self.exchange(random);
                self.commit(&commit);
            }
            8 => self.export(),
            _ => self.commit(&arguments::commit(random, 0..self.count)),
        }
    }

    fn call(&mut self, call: &Call) -> Answer {
        let answer = self.sides.run_on(&mut self.buffer, self.used, call);
        if let Ok((used, _)) = answer {
            self.used = used;
        }
        let before = std::mem::take(&mut self.now);
        self.now = reading(&self.buffer[..self.used as usize]);
        assert!(answer.is_ok() || self.now == before);
        answer
    }

    /// The named addresses must read as handed in, every other as before. A refusal must be that
    /// of the first damaged sector or, if there is none, be for want of room.
    fn commit(&mut self, commit: &Commit) {
        let damage = self.damage();
        let mut expected = self.now.clone();
        let sectors = commit.sectors.chunks_exact(commit.size as usize);
        for (&address, sector) in commit.addresses.iter().zip(sectors) {
            expected[address as usize] = Ok(sector.to_vec());
        }
        match self.call(&Call::Commit(commit.clone())) {
            Ok((_, index)) => {
                assert_eq!(damage, None);
                assert_eq!(self.now, expected);
                self.points.push((index, expected));
            }
            answer => assert_eq!(answer, damage.map_or(refused(35), Err)),
        }
    }

    /// How the first sector reads, by rising address, that is written but can't be read.
    fn damage(&self) -> Option<Refusal> {
        let mut refusals = self.now.iter().filter_map(|read| read.as_ref().err());
        let damage = refusals.find(|refusal| !matches!(refusal.number, 20 | 21));
        damage.copied()
    }

    /// Hands in sectors that stand elsewhere on the disc, at addresses that change as well.
    fn exchange(&self, random: &mut Random) -> Commit {
        let mut pool: Vec<Vec<u8>> = self.now.iter().flatten().cloned().collect();
        pool.push(b"Z".to_vec());
        let size = random.pick(&pool).len();
        pool.retain(|sector| sector.len() == size);
        let mut commit = arguments::commit(random, 0..self.count);
        let sectors = commit.addresses.iter().flat_map(|_| random.pick(&pool));
        commit.sectors = sectors.collect();
        commit.size = size as u64;
        commit
    }

    fn refused_commit(&mut self, random: &mut Random) {
        let mut commit = arguments::commit(random, 0..self.count);
        let size = commit.size as usize;
        let beyond = random.pick(&[-1, i64::MIN, self.count, self.count, i64::MAX]);
        match random.below(5) {
            0 => commit.size = random.pick(&[0, 65_537, 1 << 32, u64::MAX]),
            1 => commit.sectors.push(0),
            2 => commit.addresses.insert(0, beyond),
            3 => commit.addresses = vec![0, 0],
            _ => commit.addresses = vec![beyond],
        }
        if commit.addresses.contains(&beyond) {
            commit.sectors.resize(size * commit.addresses.len(), 1);
        }
        assert!(self.call(&Call::Commit(commit)).is_err());
    }

    fn telling_rollback(&mut self, random: &mut Random) {
        let any = random.number() % self.used;
        let (point, _) = random.pick(&self.points);
        let mut offsets = vec![point - 1, point + 1, any, self.used - 20, self.used];
        offsets.extend([0, 103, 104, 1 << 32]);
        offsets.extend(self.unreturned);
        let offset = random.pick(&offsets);
        let mut points = self.points.iter().map(|(point, _)| *point);
        let known = points.any(|point| point == offset) || self.unreturned == Some(offset);
        let answer = self.call(&Call::Rollback {
            offset,
            time: random.number(),
        });
        assert_eq!(answer.is_ok(), known);
    }

    /// Must be accepted and bring back how the disc read then.
    fn rollback(&mut self, offset: u64, then: Reading, random: &mut Random) {
        let time = random.number();
        let answer = self.call(&Call::Rollback { offset, time });
        assert_eq!(answer, Ok((self.used, offset)));
        assert_eq!(self.now, then);
    }

    /// Into the room behind the image.
    fn export(&mut self) {
        let reads = &self.now[..self.count as usize];
        as_it_reads(self.sides, &self.buffer, self.used, reads);
    }

    fn go_everywhere(&mut self, random: &mut Random) {
        let mut points = self.points.clone();
        random.shuffle(&mut points);
        for (offset, then) in points {
            self.rollback(offset, then, random);
            self.export();
        }
    }
}
