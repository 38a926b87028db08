// Requests that need not be legal: bad sizes, alignments, blocks, directions and tokens, and size 0 with no chunk. The Rust has no answer to these,
// so only the model and our program are compared.
use crate::model::Model;
use crate::ours::Ours;
use crate::play::Fault;
use crate::request::{Answer, Block, Request, Side, Token};
use crate::sequence::{Random, LIMITS, MINIMUMS, REGIONS, SIZES};
use crate::tape::{digest, Tape};

const TOO_LARGE: [usize; 4] = [1 << 30, (1 << 30) + 1, 1 << 31, u32::MAX as usize];
const NO_ALIGNS: [usize; 8] = [0, 3, 6, 17, 4095, 4097, 8192, u32::MAX as usize];

struct Maker<'a> {
    random: &'a mut Random,
    // Whatever was given out, live or not.
    blocks: Vec<Block>,
    tokens: Vec<(usize, Token)>,
}

impl Maker<'_> {
    fn size(&mut self) -> usize {
        match self.random.below(40) {
            0 => self.random.of(&TOO_LARGE),
            1..=15 => self.random.of(&SIZES),
            _ => self.random.below(64),
        }
    }

    fn align(&mut self) -> usize {
        if self.random.one_in(25) {
            return self.random.of(&NO_ALIGNS);
        }
        let exponents = self.random.of(&[4, 13]);
        1 << self.random.below(exponents)
    }

    // Nearly the number.
    fn near(&mut self, x: usize) -> usize {
        match self.random.below(16) {
            0 => x + 1,
            1 => x.saturating_sub(1),
            2 => x + 8,
            3 => self.random.below(70_000),
            4 => self.random.of(&TOO_LARGE),
            _ => x,
        }
    }

    fn block(&mut self) -> Block {
        let b = match self.blocks.len() {
            0 => Block { offset: 0, size: 0, align: 1 },
            n if self.random.one_in(3) => self.blocks[self.random.below(n)],
            n => self.blocks[n - 1],
        };
        let align = if self.random.one_in(12) { self.align() } else { b.align };
        Block { offset: self.near(b.offset), size: self.near(b.size), align }
    }

    fn token(&mut self) -> (usize, Token) {
        let (offset, t) = match self.tokens.len() {
            0 => (0, Token { count: 0, pointer: 0 }),
            n => self.tokens[n - 1 - self.random.below(n.min(3))],
        };
        let count = if self.random.one_in(6) { self.random.below(4) } else { t.count };
        (self.near(offset), Token { count, pointer: self.near(t.pointer) })
    }

    fn request(&mut self) -> Request {
        use Request::*;
        let (size, align) = (self.size(), self.align());
        match self.random.below(20) {
            0..=3 => Allocate { size, align },
            4 => AllocateWithToken { size, align },
            5 => CopyIn { size: size % 65_536, align, pattern: self.random.byte() },
            6 => Fill { size, align, value: self.random.byte() },
            7 | 8 => Free(self.block()),
            9 | 10 => {
                let block = self.block();
                Grow { block, size: if self.random.one_in(4) { size } else { block.size + size % 64 }, align }
            }
            11 => GrowZeroed { block: self.block(), size, align },
            12 | 13 => Shrink { block: self.block(), size, align },
            14 | 15 => Resize { block: self.block(), size },
            16 | 17 => {
                let (offset, token) = self.token();
                Cancel { offset, token }
            }
            18 => SetLimit(self.random.of(&LIMITS)),
            _ => self.random.of(&[Reset, NoLimit, NoLimit]),
        }
    }

    fn keep(&mut self, request: &Request, answer: Answer, token: Token) {
        use Request::*;
        let Answer::At(offset) = answer else {
            return;
        };
        let (size, align) = match *request {
            Allocate { size, align } | AllocateWithToken { size, align } | CopyIn { size, align, .. } | Fill { size, align, .. } => (size, align),
            Grow { size, align, .. } | GrowZeroed { size, align, .. } | Shrink { size, align, .. } => (size, align),
            Resize { block, size } => (size, block.align),
            _ => return,
        };
        self.blocks.push(Block { offset, size, align });
        if let AllocateWithToken { .. } = request {
            self.tokens.push((offset, token));
        }
    }
}

pub fn requests(random: &mut Random) -> Vec<Request> {
    let mut model = Model::new();
    let region = if random.one_in(2) { random.of(&REGIONS) } else { random.below(4096) };
    let minimum = if random.one_in(20) { random.below(40) } else { random.of(&MINIMUMS) };
    let capacity = if random.one_in(4) { random.of(&[0, 1, 448, 449, (1 << 30) + 1]) } else { 0 };
    let first = Request::Create { minimum, region, capacity, background: random.byte() };
    let mut list = vec![first];
    // The record of a refused creation fits no lent region, and the model has no such record.
    if model.ask(&first).0 != Answer::Done {
        return list;
    }
    let count = 4 + random.below(100);
    let mut maker = Maker { random, blocks: Vec::new(), tokens: Vec::new() };
    for _ in 0..count {
        let request = maker.request();
        let (answer, token) = model.ask(&request);
        maker.keep(&request, answer, token);
        list.push(request);
    }
    list
}

fn tape(list: &[Request], weights: &[u64]) -> Tape {
    let mut tape = Tape::default();
    let mut model = Model::new();
    let mut table = Vec::new();
    for request in list {
        let answer = model.ask(request);
        model.chunks(&mut table);
        tape.push(request);
        tape.digests.extend_from_slice(&digest(weights, answer, &table, model.held(), model.bytes()));
    }
    tape
}

fn smallest(mut list: Vec<Request>, ours: &Ours, weights: &[u64]) -> Fault {
    let mut i = list.len();
    while i > 1 {
        i -= 1;
        let mut shorter = list.clone();
        shorter.remove(i);
        if ours.agrees(&tape(&shorter, weights)).is_err() {
            list = shorter;
        }
    }
    ours.said(&tape(&list, weights)).expect("a disagreement that stays")
}

// How often each refusal was compared, or the first disagreement.
pub fn compare(ours: &Ours, weights: &[u64], seed: u64, count: usize) -> Result<[usize; 9], Fault> {
    let mut random = Random(seed);
    let mut by_number = [0; 9];
    let mut done = 0;
    while done < count {
        let mut lists = Vec::new();
        let mut batch = 0;
        while batch < count.min(100_000) {
            lists.push(requests(&mut random));
            batch += lists.last().unwrap().len();
        }
        let whole = tape(&lists.concat(), weights);
        if ours.agrees(&whole).is_err() {
            let list = lists.into_iter().find(|list| ours.agrees(&tape(list, weights)).is_err()).expect("one list that disagrees");
            return Err(smallest(list, ours, weights));
        }
        done += batch;
        for number in whole.refusals() {
            by_number[number] += 1;
        }
    }
    Ok(by_number)
}
