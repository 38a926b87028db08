// Requests, answers and states as both sides speak of them.

#[derive(Clone, Copy, Debug, PartialEq, Eq, Hash)]
pub struct Block {
    pub offset: usize,
    pub size: usize,
    pub align: usize,
}

#[derive(Clone, Copy, Debug, PartialEq, Eq, Hash)]
pub struct Token {
    pub count: usize,
    pub pointer: usize,
}

#[derive(Clone, Copy, Debug, PartialEq, Eq)]
pub enum Request {
    Create { minimum: usize, region: usize, capacity: usize, background: u8 },
    Allocate { size: usize, align: usize },
    Free(Block),
    Grow { block: Block, size: usize, align: usize },
    Shrink { block: Block, size: usize, align: usize },
    Reset,
    SetLimit(u64),
    NoLimit,
    AllocateWithToken { size: usize, align: usize },
    Cancel { offset: usize, token: Token },
    Resize { block: Block, size: usize },
    GrowZeroed { block: Block, size: usize, align: usize },
    CopyIn { size: usize, align: usize, pattern: u8 },
    Fill { size: usize, align: usize, value: u8 },
    // The owner of a block writes in it. No call, but part of a sequence.
    Write { block: Block, pattern: u8 },
}

#[derive(Clone, Copy, Debug, PartialEq, Eq)]
pub enum Answer {
    At(usize),
    Done,
    Refused(u32),
}

pub const ROOM: u32 = 8;

#[derive(Clone, Copy, Debug, PartialEq, Eq)]
pub struct Chunk {
    pub start: usize,
    pub size: usize,
    pub pointer: usize,
}

// A part of the region, by its offset and length.
pub type Part = (usize, usize);

// A side that answers requests and shows its state.
pub trait Side {
    fn name(&self) -> &'static str;
    // The token is what an allocation with one recorded, and 0 and 0 otherwise.
    fn ask(&mut self, request: &Request) -> (Answer, Token);
    // In the order taken.
    fn chunks(&self, table: &mut Vec<Chunk>);
    fn held(&self) -> usize;
    fn limit(&self) -> Option<u64>;
    // What its walk gives.
    fn walk(&mut self, parts: &mut Vec<Part>);
    fn bytes(&self) -> &[u8];
    fn bytes_mut(&mut self) -> &mut [u8];
}

pub const NO_TOKEN: Token = Token { count: 0, pointer: 0 };

// Byte i of an owner's pattern. It repeats only after 2^32 bytes, so that bytes moved too far are seen.
pub fn pattern(p: u8, i: usize) -> u8 {
    ((p as usize + 167 * i + i / 256 + 91 * (i >> 16) + 53 * (i >> 24)) % 256) as u8
}

// What stands in a region before an arena is made in it. In a long one only 64 pages have a pattern: the system gives the others when they are touched.
pub fn lay(region: &mut [u8], background: u8) {
    const PAGE: usize = 4096;
    let step = region.len().div_ceil(64).next_multiple_of(PAGE).max(PAGE);
    for (number, part) in region.chunks_mut(step).enumerate() {
        for (i, b) in part.iter_mut().take(PAGE).enumerate() {
            *b = pattern(background, number * step + i);
        }
    }
}

// A record of the tape has 24 bytes: code, one byte, two zeros, five numbers of 4 bytes, big-endian.
pub fn encode(request: &Request, out: &mut Vec<u8>) {
    use Request::*;
    let (code, byte, n): (u8, u8, [usize; 5]) = match *request {
        Create { minimum, region, capacity, background } => (0, background, [minimum, region, capacity, 0, 0]),
        Allocate { size, align } => (1, 0, [size, align, 0, 0, 0]),
        Free(b) => (2, 0, [b.offset, b.size, b.align, 0, 0]),
        Grow { block: b, size, align } => (3, 0, [b.offset, b.size, b.align, size, align]),
        Shrink { block: b, size, align } => (4, 0, [b.offset, b.size, b.align, size, align]),
        Reset => (5, 0, [0; 5]),
        SetLimit(limit) => (6, 0, [(limit >> 32) as usize, limit as u32 as usize, 0, 0, 0]),
        NoLimit => (7, 0, [0; 5]),
        AllocateWithToken { size, align } => (8, 0, [size, align, 0, 0, 0]),
        Cancel { offset, token } => (9, 0, [offset, token.count, token.pointer, 0, 0]),
        Resize { block: b, size } => (10, 0, [b.offset, b.size, b.align, size, 0]),
        GrowZeroed { block: b, size, align } => (11, 0, [b.offset, b.size, b.align, size, align]),
        CopyIn { size, align, pattern } => (12, pattern, [size, align, 0, 0, 0]),
        Fill { size, align, value } => (13, value, [size, align, 0, 0, 0]),
        Write { block: b, pattern } => (14, pattern, [b.offset, b.size, b.align, 0, 0]),
    };
    out.extend_from_slice(&[code, byte, 0, 0]);
    for x in n {
        out.extend_from_slice(&(x as u32).to_be_bytes());
    }
}
