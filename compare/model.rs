// Document 01 in plain Rust, written from its words and not from bumpalo's code: the third voice of the comparison.
// In its order: refusals, sizing and placing, the calls. mistakes.txt names lines of this file.
use crate::request::{lay, pattern, Answer, Block, Chunk, Part, Request, Side, Token, NO_TOKEN};

const FOOTER: usize = 48;
const OVERHEAD: usize = 64;
const DEFAULT: usize = 448;
const PAGE: usize = 4096;
const PLACES: usize = 32;
const MOST: usize = 1 << 30;
// Up to so many places are looked at one by one.
const FEW: usize = 65_536;

const SIZE: u32 = 3;
const ALIGN: u32 = 4;
const BLOCK: u32 = 5;
const DIRECTION: u32 = 6;
const TOKEN: u32 = 7;
const ROOM: u32 = 8;

type Offset = Result<usize, u32>;

pub struct Model {
    minimum: usize,
    limit: Option<u64>,
    // In the order taken; the last is current.
    chunks: Vec<Chunk>,
    region: Vec<u8>,
}

fn up(x: usize, to: usize) -> usize {
    x.div_ceil(to) * to
}

fn down(x: usize, to: usize) -> usize {
    x / to * to
}

fn end(c: &Chunk) -> usize {
    c.start + c.size
}

// Refusals

// Sizes before alignments, since the lowest number is answered.
fn allowed(sizes: &[usize], aligns: &[usize]) -> Result<(), u32> {
    if sizes.iter().any(|&size| MOST < size) {
        return Err(SIZE);
    }
    if aligns.iter().any(|&align| 4096 < align || align.count_ones() != 1) {
        return Err(ALIGN);
    }
    Ok(())
}

fn has(c: &Chunk, b: &Block) -> bool {
    if b.size == 0 {
        return c.start <= b.offset && b.offset <= end(c);
    }
    c.pointer <= b.offset && b.offset + b.size <= end(c)
}

fn acceptable(mut chunks: impl Iterator<Item = Chunk>, b: &Block) -> Result<(), u32> {
    if b.offset % b.align == 0 && chunks.any(|c| has(&c, b)) {
        Ok(())
    } else {
        Err(BLOCK)
    }
}

fn acceptable_token(minimum: usize, mut chunks: impl Iterator<Item = Chunk>, offset: usize, t: Token) -> Result<(), u32> {
    let current = chunks.next();
    let count = chunks.count() + current.is_some() as usize;
    let returns = |c: Chunk| c.pointer <= t.pointer && t.pointer <= end(&c) && t.pointer % minimum == 0;
    if t.count > count || t.count == count && current.is_some_and(|c| c.pointer == offset && !returns(c)) {
        return Err(TOKEN);
    }
    Ok(())
}

fn movable(chunks: impl Iterator<Item = Chunk>, b: &Block, size: usize, align: usize) -> Result<(), u32> {
    allowed(&[b.size, size], &[b.align, align])?;
    acceptable(chunks, b)
}

fn direction(is_right: bool) -> Result<(), u32> {
    if is_right {
        Ok(())
    } else {
        Err(DIRECTION)
    }
}

// All that is tested before a request is followed, over the chunks, newest first. What is left is ROOM, which the calls find out. There is no
// unsound record here and no other region than the record's.
pub fn tested(minimum: usize, chunks: impl Iterator<Item = Chunk>, request: &Request) -> Result<(), u32> {
    use Request::*;
    match *request {
        Allocate { size, align } | AllocateWithToken { size, align } => allowed(&[size], &[align]),
        CopyIn { size, align, .. } | Fill { size, align, .. } => allowed(&[size], &[align]),
        Free(b) => allowed(&[b.size], &[b.align]).and_then(|()| acceptable(chunks, &b)),
        Grow { block: b, size, align } | GrowZeroed { block: b, size, align } => {
            movable(chunks, &b, size, align)?;
            direction(b.size <= size)
        }
        Shrink { block: b, size, align } => {
            movable(chunks, &b, size, align)?;
            direction(size <= b.size)
        }
        Resize { block: b, size } if b.size == 0 => allowed(&[size], &[b.align]),
        Resize { block: b, size } => movable(chunks, &b, size, b.align),
        Cancel { offset, token } => acceptable_token(minimum, chunks, offset, token),
        Create { .. } | Reset | SetLimit(_) | NoLimit | Write { .. } => Ok(()),
    }
}

// Sizing and placing

fn usable(base: usize, size: usize, align: usize) -> usize {
    let a = align.max(16);
    let r = up(size, a);
    let m = base.max(r);
    if m < PAGE {
        (m + OVERHEAD).next_power_of_two() - OVERHEAD
    } else {
        up(m + OVERHEAD, PAGE) - OVERHEAD
    }
}

impl Model {
    pub fn new() -> Model {
        Model { minimum: 1, limit: None, chunks: Vec::new(), region: Vec::new() }
    }

    fn held_bytes(&self) -> usize {
        self.chunks.iter().map(|c| c.size).sum()
    }

    fn is_clear(&self, start: usize, size: usize) -> bool {
        self.chunks.iter().all(|c| start + size + FOOTER <= c.start || end(c) + FOOTER <= start)
    }

    // The multiples of a one by one: slow, and plainly the lowest. In a long region only 0 and the first multiple after each held chunk: the lowest is
    // among these, since at the multiple before it a held chunk is in the way, and at it no longer.
    fn place(&self, size: usize, a: usize) -> Option<usize> {
        let last = self.region.len().checked_sub(size + FOOTER)?;
        if last > FEW {
            let after = self.chunks.iter().map(|c| up(end(c) + FOOTER, a));
            return after.chain([0]).filter(|&start| start <= last && self.is_clear(start, size)).min();
        }
        (0..=last).step_by(a).find(|&start| self.is_clear(start, size))
    }

    fn is_under_limit(&self, size: usize) -> bool {
        let held = self.held_bytes() as u64;
        match self.limit {
            Some(limit) if held <= limit => size as u64 <= limit - held,
            _ => true,
        }
    }

    fn take(&mut self, base: usize, size: usize, align: usize) -> bool {
        let n = usable(base, size, align);
        if !self.is_under_limit(n) || self.chunks.len() == PLACES {
            return false;
        }
        let Some(start) = self.place(n, align.max(16)) else {
            return false;
        };
        self.chunks.push(Chunk { start, size: n, pointer: start + n });
        true
    }

    fn is_tried(&self, base: usize, size: usize) -> bool {
        let small = match self.limit {
            Some(limit) => (size as u64) < limit && base >= size && limit < DEFAULT as u64 && self.held_bytes() == 0,
            None => false,
        };
        base >= size.max(DEFAULT) || small
    }

    fn ladder(&mut self, size: usize, align: usize) -> bool {
        let twice = 2 * self.chunks.last().map_or(0, |c| c.size);
        let mut base = twice.max(size.max(DEFAULT));
        while self.is_tried(base, size) {
            if self.take(base, size, align) {
                return true;
            }
            if base == 0 {
                return false;
            }
            base /= 2;
        }
        false
    }

    // The calls

    fn create(&mut self, minimum: usize, region: usize, capacity: usize, background: u8) -> Result<(), u32> {
        // A refused creation's record holds no chunk, minimum 1 and no limit; the lent bytes stay as they are.
        *self = Model { region: vec![0; region], ..Model::new() };
        lay(&mut self.region, background);
        allowed(&[capacity], &[])?;
        if ![1, 2, 4, 8, 16].contains(&minimum) {
            return Err(ALIGN);
        }
        if capacity > 0 && !self.take(DEFAULT, capacity, minimum) {
            return Err(ROOM);
        }
        self.minimum = minimum;
        Ok(())
    }

    fn from_current(&mut self, size: usize, align: usize) -> Option<usize> {
        let minimum = self.minimum;
        let c = self.chunks.last_mut()?;
        let needed = up(size, align.max(minimum));
        let top = down(c.pointer, align);
        if top < c.start || top - c.start < needed {
            return None;
        }
        c.pointer = top - needed;
        Some(c.pointer)
    }

    fn allocate(&mut self, size: usize, align: usize) -> Offset {
        if let Some(offset) = self.from_current(size, align) {
            return Ok(offset);
        }
        if !self.ladder(size, align) {
            return Err(ROOM);
        }
        self.from_current(size, align).ok_or(ROOM)
    }

    fn is_at_pointer(&self, offset: usize) -> bool {
        self.chunks.last().is_some_and(|c| c.pointer == offset)
    }

    fn set_pointer(&mut self, pointer: usize) {
        self.chunks.last_mut().unwrap().pointer = pointer;
    }

    fn free(&mut self, b: &Block) {
        if self.is_at_pointer(b.offset) {
            self.set_pointer(up(b.offset + b.size, self.minimum));
        }
    }

    // Read whole first, then written.
    fn carry(&mut self, from: usize, to: usize, size: usize) {
        let bytes = self.region[from..from + size].to_vec();
        self.region[to..to + size].copy_from_slice(&bytes);
    }

    fn grow(&mut self, b: &Block, size: usize, align: usize) -> Offset {
        let mut new = None;
        if b.align >= align && self.is_at_pointer(b.offset) {
            let extra = up(size, self.minimum) - b.size;
            new = self.from_current(extra, b.align);
        }
        let new = match new {
            Some(offset) => offset,
            None => self.allocate(size, align)?,
        };
        self.carry(b.offset, new, b.size);
        Ok(new)
    }

    fn grow_zeroed(&mut self, b: &Block, size: usize, align: usize) -> Offset {
        let new = self.grow(b, size, align)?;
        self.region[new + b.size..new + size].fill(0);
        Ok(new)
    }

    fn shrink(&mut self, b: &Block, size: usize, align: usize) -> Offset {
        if b.align < align {
            if b.offset % align == 0 {
                return Ok(b.offset);
            }
            let new = self.allocate(size, align)?;
            self.carry(b.offset, new, size);
            return Ok(new);
        }
        let d = down(b.size - size, align.max(self.minimum));
        if self.is_at_pointer(b.offset) && d >= (b.size + 1) / 2 {
            self.set_pointer(b.offset + d);
            self.carry(b.offset, b.offset + d, size);
            return Ok(b.offset + d);
        }
        Ok(b.offset)
    }

    fn resize(&mut self, b: &Block, size: usize) -> Offset {
        if b.size == 0 {
            return self.allocate(size, b.align);
        }
        if size <= b.size {
            self.shrink(b, size, b.align)
        } else {
            self.grow(b, size, b.align)
        }
    }

    fn token(&self) -> Token {
        Token { count: self.chunks.len(), pointer: self.chunks.last().map_or(0, |c| c.pointer) }
    }

    fn cancel(&mut self, offset: usize, t: Token) {
        if !self.is_at_pointer(offset) {
            return;
        }
        let c = *self.chunks.last().unwrap();
        if t.count == self.chunks.len() {
            self.set_pointer(t.pointer);
        } else {
            self.set_pointer(end(&c));
        }
    }

    fn reset(&mut self) {
        if let Some(c) = self.chunks.pop() {
            self.chunks = vec![Chunk { pointer: end(&c), ..c }];
        }
    }

    fn write(&mut self, offset: usize, size: usize, byte: impl Fn(usize) -> u8) {
        for i in 0..size {
            self.region[offset + i] = byte(i);
        }
    }

    fn copy_in(&mut self, size: usize, align: usize, byte: impl Fn(usize) -> u8) -> Offset {
        let offset = self.allocate(size, align)?;
        self.write(offset, size, byte);
        Ok(offset)
    }

    // A request that passed the tests.
    fn follow(&mut self, request: &Request) -> Answer {
        use Request::*;
        match *request {
            Create { minimum, region, capacity, background } => self.create(minimum, region, capacity, background).map_or_else(Answer::Refused, done),
            Allocate { size, align } | AllocateWithToken { size, align } => at(self.allocate(size, align)),
            Free(b) => done(self.free(&b)),
            Grow { block, size, align } => at(self.grow(&block, size, align)),
            Shrink { block, size, align } => at(self.shrink(&block, size, align)),
            Reset => done(self.reset()),
            SetLimit(limit) => done(self.limit = Some(limit)),
            NoLimit => done(self.limit = None),
            Cancel { offset, token } => done(self.cancel(offset, token)),
            Resize { block, size } => at(self.resize(&block, size)),
            GrowZeroed { block, size, align } => at(self.grow_zeroed(&block, size, align)),
            CopyIn { size, align, pattern: p } => at(self.copy_in(size, align, |i| pattern(p, i))),
            Fill { size, align, value } => at(self.copy_in(size, align, |_| value)),
            // The owner is lent exactly the block's bytes.
            Write { block, pattern: p } => done(self.write(block.offset, block.size, |i| pattern(p, i))),
        }
    }
}

fn at(offset: Offset) -> Answer {
    offset.map_or_else(Answer::Refused, Answer::At)
}

fn done(_: ()) -> Answer {
    Answer::Done
}

impl Side for Model {
    fn name(&self) -> &'static str {
        "the model"
    }

    fn ask(&mut self, request: &Request) -> (Answer, Token) {
        let token = self.token();
        if let Err(number) = tested(self.minimum, self.chunks.iter().rev().copied(), request) {
            return (Answer::Refused(number), NO_TOKEN);
        }
        match (request, self.follow(request)) {
            (Request::AllocateWithToken { .. }, Answer::At(offset)) => (Answer::At(offset), token),
            (_, answer) => (answer, NO_TOKEN),
        }
    }

    fn chunks(&self, table: &mut Vec<Chunk>) {
        table.clear();
        table.extend_from_slice(&self.chunks);
    }

    fn held(&self) -> usize {
        self.held_bytes()
    }

    fn limit(&self) -> Option<u64> {
        self.limit
    }

    // From pointer to end, newest first.
    fn walk(&mut self, parts: &mut Vec<Part>) {
        parts.clear();
        parts.extend(self.chunks.iter().rev().map(|c| (c.pointer, end(c) - c.pointer)));
    }

    fn bytes(&self) -> &[u8] {
        &self.region
    }

    fn bytes_mut(&mut self) -> &mut [u8] {
        &mut self.region
    }
}
