// Legal sequences in regions of some hundred thousand bytes up to 2^30, with chunks up to the largest that fits.
use crate::sequence::{How, Limit, Owner, Place, Random, Sequence, Size, Step, MINIMUMS};

const MOST: usize = 1 << 30;
// A sequence has few bytes carried, copied and filled, but for those that are about it.
const FEW: usize = 1 << 22;
const MANY: usize = 1 << 28;

// What a sequence is mostly about.
#[derive(Clone, Copy, PartialEq)]
enum Kind {
    // Each chunk twice the one before it, as long as that fits, and smaller ones in what is left.
    Doubling,
    // Blocks of every size, among them such as need a chunk of their own.
    Mixed,
    // Limits on both sides of what the next rungs take.
    Limited,
    // Long blocks that grow, shrink and are resized.
    Carried,
}

struct Maker<'a> {
    random: &'a mut Random,
    kind: Kind,
    region: usize,
    aligns: usize,
}

// The usable sizes of a new arena's chunks, each by twice the one before it.
fn rungs() -> impl Iterator<Item = usize> {
    let next = |n: &usize| if 2 * n < 4096 { Some((2 * n + 64).next_power_of_two() - 64) } else { Some((2 * n + 64).next_multiple_of(4096) - 64) };
    std::iter::successors(Some(448), next).take_while(|&n| n < 2 * MOST)
}

// A number near a line: a little below, on it, a little above.
fn near(random: &mut Random, line: usize) -> usize {
    let off = random.of(&[-4097, -113, -112, -65, -64, -63, -49, -48, -47, -17, -16, -15, -2, -1, 0, 0, 0, 1, 2, 15, 16, 17, 48, 64, 4096]);
    line.saturating_add_signed(off)
}

// Every magnitude is as likely.
fn of_any_length(random: &mut Random, most: usize) -> usize {
    let bits = random.below(most.ilog2() as usize + 1);
    ((1 << bits) + random.below(1 << bits)).min(most)
}

fn region(random: &mut Random) -> usize {
    let length = match random.below(8) {
        0 => MOST,
        1 => MOST - random.of(&[1, 15, 16, 47, 48, 49, 63, 64, 65, 112, 4095, 4096, 4097]),
        2 | 3 => {
            // Just room for so many doublings, or a little less or more.
            let count = 8 + random.below(13);
            let whole = rungs().take(count).map(|n| n + 48).sum();
            near(random, whole)
        }
        4 => {
            let line = 1 << (17 + random.below(14));
            near(random, line)
        }
        _ => of_any_length(random, MOST),
    };
    length.clamp(100_000, MOST)
}

impl Maker<'_> {
    fn align(&mut self) -> usize {
        match self.random.below(4) {
            0 | 1 => 1 << self.random.below(5),
            2 => 1 << self.random.below(self.aligns + 1),
            _ => 1,
        }
    }

    fn plain_size(&mut self) -> usize {
        let random = &mut *self.random;
        let size = match random.below(12) {
            0 => {
                let line = 1 << random.below(31);
                near(random, line)
            }
            1 => {
                let pages = of_any_length(random, self.region / 4096);
                near(random, 4096 * pages)
            }
            2 => {
                let rung = random.of(&rungs().collect::<Vec<_>>());
                near(random, rung)
            }
            3 => near(random, self.region),
            4..=6 => of_any_length(random, self.region),
            7 => MOST - random.below(5000),
            8 => random.below(5000),
            _ => random.below(100),
        };
        size.min(MOST)
    }

    fn size(&mut self) -> Size {
        let often = if self.kind == Kind::Doubling { 2 } else { 6 };
        if self.random.one_in(often) {
            return Size::Room(self.random.of(&[-4096, -17, -16, -8, -1, 0, 1, 1, 1, 2, 16, 4096]));
        }
        Size::Of(self.plain_size())
    }

    fn owner(&mut self) -> Owner {
        (!self.random.one_in(5)).then(|| self.random.byte())
    }

    fn place(&mut self) -> Place {
        if self.random.one_in(3) {
            self.random.below(64)
        } else {
            0
        }
    }

    fn limit(&mut self) -> Limit {
        let rung = self.random.of(&rungs().collect::<Vec<_>>());
        match self.random.below(8) {
            0 => {
                let line = 1 << self.random.below(64);
                Limit::Of(self.random.of(&[line - 1, line, line + 1, line | 1 << 32, line | 1 << 63]))
            }
            1 => Limit::Of(self.random.of(&[u64::MAX, u64::MAX - 1, 1 << 63, (1 << 63) - 1, 1 << 32, (1 << 32) - 1])),
            2 => Limit::Of(self.plain_size() as u64),
            3 => Limit::Held(self.random.of(&[-4096, -1, 0, 1, 447, 448, 449, i64::MAX])),
            4 => {
                let page = (self.plain_size() + 64).next_multiple_of(4096) - 64;
                Limit::Held(near(self.random, page) as i64)
            }
            _ => Limit::Held(rung as i64 + self.random.of(&[-1, 0, 0, 1])),
        }
    }

    fn allocate(&mut self) -> Step {
        let how = match self.random.below(12) {
            0 => How::CopyIn(self.random.byte()),
            1 => How::Fill(self.random.byte()),
            2 | 3 => How::WithToken,
            _ => How::Plain,
        };
        Step::Allocate { size: self.size(), align: self.align(), how, owner: self.owner() }
    }

    // Fills the current chunk and asks for a little more, so that the next chunk is by twice this one.
    fn double(&mut self, list: &mut Vec<Step>) {
        let how = self.random.of(&[How::Plain, How::Plain, How::WithToken]);
        let owner = self.owner();
        list.push(Step::Allocate { size: Size::Room(0), align: 1, how, owner });
        list.push(Step::Allocate { size: Size::Of(1 + self.random.below(100)), align: self.align(), how, owner });
    }

    fn step(&mut self) -> Step {
        match self.random.below(100) {
            0..=39 => self.allocate(),
            40..=49 => Step::Free(self.place()),
            50..=61 => Step::Grow {
                place: self.place(),
                extra: if self.random.one_in(2) { self.random.below(20) } else { self.plain_size() },
                align: self.align(),
                zeroed: self.random.one_in(3),
                owner: self.owner(),
            },
            62..=73 => Step::Shrink { place: self.place(), less: self.plain_size(), align: self.align(), owner: self.owner() },
            74..=82 => Step::Resize { place: self.place(), size: self.plain_size(), owner: self.owner() },
            83..=88 => Step::Cancel(self.place()),
            89 | 90 => Step::Reset,
            91 | 92 => Step::NoLimit,
            93..=96 if self.kind != Kind::Doubling => Step::SetLimit(self.limit()),
            _ => Step::Write { place: self.place(), pattern: self.random.byte() },
        }
    }

    fn carry(&mut self) -> Step {
        let (align, owner) = (self.align(), self.owner());
        let size = self.region / 128 + self.random.below(self.region / 6);
        match self.random.below(6) {
            0 | 1 => Step::Allocate { size: Size::Of(size), align, how: How::Plain, owner },
            2 => Step::Grow { place: 0, extra: self.random.below(100_000), align: 1, zeroed: self.random.one_in(3), owner },
            3 => Step::Grow { place: self.place(), extra: size, align, zeroed: self.random.one_in(3), owner },
            4 => Step::Shrink { place: 0, less: size, align, owner },
            _ => Step::Resize { place: self.place(), size, owner },
        }
    }

    fn steps(&mut self) -> Vec<Step> {
        let mut list = Vec::new();
        let count = 10 + self.random.below(80);
        if self.kind == Kind::Limited {
            list.push(Step::SetLimit(self.limit()));
        }
        while list.len() < count {
            match self.kind {
                Kind::Doubling if !self.random.one_in(5) => self.double(&mut list),
                Kind::Limited if self.random.one_in(3) => list.push(Step::SetLimit(self.limit())),
                Kind::Carried if !self.random.one_in(3) => list.push(self.carry()),
                _ => list.push(self.step()),
            }
        }
        list
    }
}

pub fn sequence(random: &mut Random) -> Sequence {
    let region = region(random);
    let kind = if random.one_in(32) { Kind::Carried } else { random.of(&[Kind::Doubling, Kind::Mixed, Kind::Limited]) };
    let (minimum, background, aligns) = (random.of(&MINIMUMS), random.byte(), random.of(&[4, 12]));
    let budget = if kind == Kind::Carried { MANY } else { FEW };
    let mut maker = Maker { random, kind, region, aligns };
    let capacity = if maker.random.one_in(4) { maker.plain_size() } else { 0 };
    Sequence { minimum, region, capacity, background, budget, steps: maker.steps() }
}
