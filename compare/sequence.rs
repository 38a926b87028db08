// Legal sequences, and how they are made. A step names a live block or token by its place in the ledger, so any list of steps is legal and a
// failing list can be made shorter by leaving steps out.

#[derive(Clone)]
pub struct Sequence {
    pub minimum: usize,
    pub region: usize,
    pub capacity: usize,
    pub background: u8,
    // How many bytes it may have carried, copied or filled; a step that would need more is left out.
    pub budget: usize,
    pub steps: Vec<Step>,
}

#[derive(Clone, Copy, Debug)]
pub enum Size {
    Of(usize),
    // The room left in the current chunk, and this much more or less.
    Room(isize),
}

#[derive(Clone, Copy, Debug)]
pub enum How {
    Plain,
    WithToken,
    CopyIn(u8),
    Fill(u8),
}

#[derive(Clone, Copy, Debug)]
pub enum Limit {
    Of(u64),
    // The held bytes, and this much more or less.
    Held(i64),
}

// A place in the ledger, counted from the newest, modulo its length.
pub type Place = usize;

// The owner's pattern, written in the block as soon as it is given; none leaves what stood there.
pub type Owner = Option<u8>;

#[derive(Clone, Copy, Debug)]
pub enum Step {
    Allocate { size: Size, align: usize, how: How, owner: Owner },
    Free(Place),
    Grow { place: Place, extra: usize, align: usize, zeroed: bool, owner: Owner },
    Shrink { place: Place, less: usize, align: usize, owner: Owner },
    Resize { place: Place, size: usize, owner: Owner },
    Cancel(Place),
    Reset,
    SetLimit(Limit),
    NoLimit,
    Write { place: Place, pattern: u8 },
}

// SplitMix64.
pub struct Random(pub u64);

impl Random {
    fn next(&mut self) -> u64 {
        self.0 = self.0.wrapping_add(0x9E37_79B9_7F4A_7C15);
        let mut z = self.0;
        z = (z ^ (z >> 30)).wrapping_mul(0xBF58_476D_1CE4_E5B9);
        z = (z ^ (z >> 27)).wrapping_mul(0x94D0_49BB_1331_11EB);
        z ^ (z >> 31)
    }

    pub fn below(&mut self, n: usize) -> usize {
        (self.next() % n as u64) as usize
    }

    pub fn one_in(&mut self, n: usize) -> bool {
        self.below(n) == 0
    }

    pub fn of<T: Copy>(&mut self, choices: &[T]) -> T {
        choices[self.below(choices.len())]
    }

    pub fn byte(&mut self) -> u8 {
        self.next() as u8
    }
}

pub const MINIMUMS: [usize; 5] = [1, 2, 4, 8, 16];

// Both sides of every line that document 01 draws: a first chunk, sizes of rungs, pages, the largest size.
pub const SIZES: [usize; 40] = [
    0, 1, 2, 3, 5, 7, 8, 9, 15, 16, 17, 31, 32, 33, 63, 64, 65, 127, 128, 129, 191, 192, 193, 447, 448, 449, 500, 959, 960, 961, 1983, 1984, 1985,
    4031, 4032, 4033, 4095, 4096, 4097, 8128,
];

pub const REGIONS: [usize; 30] = [
    0, 1, 47, 48, 49, 63, 64, 111, 112, 113, 240, 495, 496, 497, 511, 512, 992, 1007, 1008, 1504, 2031, 2032, 4079, 4080, 4096, 8175, 8176, 12288,
    16384, 65536,
];

pub const LIMITS: [u64; 27] =
    [0, 1, 10, 15, 16, 17, 63, 64, 65, 100, 191, 192, 193, 200, 447, 448, 449, 959, 960, 961, 1407, 1408, 1409, 5000, 65536, 1 << 30, u64::MAX];

// What a sequence is mostly about.
#[derive(Clone, Copy, PartialEq)]
enum Kind {
    Small,
    Mixed,
    // Many chunks: limits that leave room for one small chunk at a time.
    Deep,
    Large,
}

struct Maker<'a> {
    random: &'a mut Random,
    kind: Kind,
    // The exponent of the largest alignment asked for.
    aligns: usize,
}

impl Maker<'_> {
    fn align(&mut self) -> usize {
        if self.random.one_in(3) {
            return 1;
        }
        1 << self.random.below(self.aligns + 1)
    }

    fn plain_size(&mut self) -> usize {
        match self.kind {
            Kind::Small => self.random.below(40),
            Kind::Deep if self.random.one_in(2) => self.random.below(449),
            Kind::Large if self.random.one_in(2) => self.random.below(9000),
            _ if self.random.one_in(3) => self.random.of(&SIZES),
            _ if self.random.one_in(60) => self.random.of(&[(1 << 30) - 1, 1 << 30, 65_488, 65_472, 32_768]),
            _ => self.random.below(100),
        }
    }

    fn size(&mut self) -> Size {
        let often = if self.kind == Kind::Deep { 2 } else { 8 };
        if self.random.one_in(often) {
            return Size::Room(self.random.of(&[-17, -16, -8, -1, 0, 1, 2, 16]));
        }
        Size::Of(self.plain_size())
    }

    fn owner(&mut self) -> Owner {
        if self.random.one_in(5) {
            None
        } else {
            Some(self.random.byte())
        }
    }

    // The newest most often: it is the only one that gives room back.
    fn place(&mut self) -> Place {
        if self.random.one_in(3) {
            self.random.below(64)
        } else {
            0
        }
    }

    fn limit(&mut self) -> Limit {
        match self.random.below(3) {
            0 => Limit::Of(self.random.of(&LIMITS)),
            1 => Limit::Of(self.random.below(6000) as u64),
            _ => Limit::Held(self.random.of(&[-1, 0, 1, 191, 192, 447, 448, 449, 959, 960, 1983, 1984, 4032])),
        }
    }

    fn allocate(&mut self) -> Step {
        let how = match self.random.below(10) {
            0 => How::CopyIn(self.random.byte()),
            1 => How::Fill(self.random.byte()),
            2 | 3 => How::WithToken,
            _ => How::Plain,
        };
        Step::Allocate { size: self.size(), align: self.align(), how, owner: self.owner() }
    }

    fn step(&mut self) -> Step {
        // A limit for one chunk of 448 more, and a request that the current chunk can't take.
        if self.kind == Kind::Deep {
            match self.random.below(10) {
                0..=2 => return Step::SetLimit(Limit::Held(448)),
                3..=6 => {
                    let how = self.random.of(&[How::Plain, How::Plain, How::WithToken]);
                    return Step::Allocate { size: Size::Room(1), align: 1, how, owner: self.owner() };
                }
                _ => {}
            }
        }
        match self.random.below(100) {
            0..=39 => self.allocate(),
            40..=49 => Step::Free(self.place()),
            50..=63 => Step::Grow {
                place: self.place(),
                extra: if self.random.one_in(2) { self.random.below(20) } else { self.plain_size() },
                align: self.align(),
                zeroed: self.random.one_in(3),
                owner: self.owner(),
            },
            64..=75 => Step::Shrink { place: self.place(), less: self.plain_size(), align: self.align(), owner: self.owner() },
            76..=85 => Step::Resize { place: self.place(), size: self.plain_size(), owner: self.owner() },
            86..=91 => Step::Cancel(self.place()),
            92 if self.kind != Kind::Deep || self.random.one_in(4) => Step::Reset,
            93..=96 if self.kind == Kind::Deep && !self.random.one_in(20) => Step::SetLimit(Limit::Held(self.random.of(&[448, 449, 960]))),
            93..=95 => Step::SetLimit(self.limit()),
            96 => Step::NoLimit,
            _ => Step::Write { place: self.place(), pattern: self.random.byte() },
        }
    }
}

pub fn random(random: &mut Random) -> Sequence {
    let kind = match random.below(40) {
        0..=21 => Kind::Small,
        22..=35 => Kind::Mixed,
        36..=38 => Kind::Deep,
        _ => Kind::Large,
    };
    let region = match kind {
        Kind::Deep => random.of(&[15_871, 15_872, 16_384, 17_000, 20_000, 24_000]),
        Kind::Large => random.below(65_537),
        _ if random.one_in(3) => random.of(&REGIONS),
        Kind::Small => random.below(2048),
        _ => random.below(8192),
    };
    let steps = match kind {
        Kind::Deep => 300,
        _ => 4 + random.below(120),
    };
    let aligns = if random.one_in(2) { 4 } else { 12 };
    let minimum = random.of(&MINIMUMS);
    let background = random.byte();
    let mut maker = Maker { random, kind, aligns };
    let capacity = if maker.random.one_in(4) { maker.plain_size() } else { 0 };
    let mut list = Vec::with_capacity(steps);
    // Small limits only bite while nothing is held.
    if kind != Kind::Deep && maker.random.one_in(3) {
        list.push(Step::SetLimit(maker.limit()));
    }
    for _ in 0..steps {
        list.push(maker.step());
    }
    Sequence { minimum, region, capacity, background, budget: usize::MAX, steps: list }
}

// Every list of so many steps from a small set, in a few regions, under a few limits, for each minimum.

const FIRST: [Option<Limit>; 6] = [None, Some(Limit::Of(0)), Some(Limit::Of(64)), Some(Limit::Of(100)), Some(Limit::Of(200)), Some(Limit::Of(448))];

fn plain(size: usize, align: usize) -> Step {
    Step::Allocate { size: Size::Of(size), align, how: How::Plain, owner: Some(1) }
}

fn with_token(size: usize, align: usize) -> Step {
    Step::Allocate { size: Size::Of(size), align, how: How::WithToken, owner: Some(2) }
}

fn short_steps() -> Vec<Step> {
    let grow = |place, extra, align, zeroed| Step::Grow { place, extra, align, zeroed, owner: Some(3) };
    let shrink = |place, less, align| Step::Shrink { place, less, align, owner: None };
    let resize = |place, size| Step::Resize { place, size, owner: Some(4) };
    vec![
        plain(0, 1),
        plain(1, 1),
        plain(5, 1),
        plain(3, 8),
        plain(40, 32),
        plain(448, 1),
        plain(449, 16),
        with_token(0, 4),
        with_token(6, 1),
        with_token(440, 8),
        Step::Free(0),
        Step::Free(1),
        grow(0, 0, 1, false),
        grow(0, 7, 1, false),
        grow(1, 20, 8, true),
        grow(0, 430, 64, false),
        shrink(0, 2, 1),
        shrink(0, 3, 1),
        shrink(0, 1, 16),
        resize(0, 0),
        resize(0, 2),
        resize(0, 9),
        Step::Cancel(0),
        Step::Cancel(1),
        Step::Reset,
        Step::SetLimit(Limit::Held(448)),
    ]
}

pub fn exhaustive(length: usize) -> impl Iterator<Item = Sequence> {
    let steps = short_steps();
    let lists = steps.len().pow(length as u32);
    let regions = [0, 240, 495, 496, 1100, 6000];
    (0..MINIMUMS.len() * regions.len() * FIRST.len() * lists).map(move |number| {
        let mut rest = number;
        let mut digit = |base: usize| {
            let d = rest % base;
            rest /= base;
            d
        };
        let mut list: Vec<Step> = FIRST[digit(FIRST.len())].map(Step::SetLimit).into_iter().collect();
        let (minimum, region) = (MINIMUMS[digit(MINIMUMS.len())], regions[digit(regions.len())]);
        list.extend((0..length).map(|_| steps[digit(steps.len())]));
        Sequence { minimum, region, capacity: 0, background: 7, budget: usize::MAX, steps: list }
    })
}
