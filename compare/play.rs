// Plays a sequence to the Rust and to other sides, request by request, and compares them after each.
use crate::agree::{first_difference, Seen};
use crate::placing::FOOTER;
use crate::real::Real;
use crate::request::*;
use crate::sequence::*;
use crate::tape::{digest, weights, Tape};
use std::ops::Range;

// What one side said or holds that another doesn't.
pub struct Fault {
    pub said: String,
    pub requests: Vec<Request>,
}

// Every byte of a region up to this length is compared after each request, and of a longer one those where something may have gone wrong.
pub const SHORT: usize = 65_536;
// Every byte of a region up to these lengths is compared now and then, and at a sequence's end.
const NOW_AND_THEN: usize = 1 << 20;
const AT_THE_END: usize = 1 << 24;

struct Live {
    block: Block,
    token: Option<Token>,
    // What its owner last put there: parts of the block, each with where it begins.
    content: Vec<(usize, Vec<u8>)>,
}

// The parts of a block that its owner writes in and looks at: the whole, or of a long one both ends and some places between.
fn windows(size: usize, whole: usize) -> Vec<Range<usize>> {
    if size <= whole {
        return vec![0..size];
    }
    let mut parts = vec![0..512, size - 512..size];
    parts.extend((1..8).map(|k| size / 8 * k..size / 8 * k + 64));
    parts
}

// The longest source of a copy.
const COPIED: usize = 1 << 22;

pub struct Player {
    pub real: Real,
    pub requests: u64,
    // How many were answered "no room", and after how many all 32 places were taken.
    pub refused: u64,
    pub full: u64,
    pub named: Named,
    pub long: Long,
    pub weights: Vec<u64>,
}

// What no region of 65,536 bytes can show.
#[derive(Default)]
pub struct Long {
    // The chunks taken that are longer than 65,488 bytes, and the longest.
    pub chunks: u64,
    pub longest: usize,
    // The longest block that was carried.
    pub carried: usize,
}

// The three places where document 01 says that the Rust may do otherwise: how often each was compared.
#[derive(Default)]
pub struct Named {
    pub ladder_after_reset: u64,
    pub resize_of_nothing: u64,
    pub cancel_of_chunk: u64,
}

// One sequence under way.
struct Run<'a> {
    player: &'a mut Player,
    // The first is compared with the Rust, but for the footers' places; the others with the first, there too.
    others: &'a mut [&'a mut dyn Side],
    tape: Option<&'a mut Tape>,
    live: Vec<Live>,
    trail: Vec<Request>,
    was_reset: bool,
    limited: bool,
    real: Seen,
    seen: Vec<Seen>,
    region: usize,
    // How many bytes may still be carried, copied or filled.
    budget: usize,
    samples: Random,
}

impl Player {
    pub fn new() -> Player {
        Player { real: Real::new(), requests: 0, refused: 0, full: 0, named: Named::default(), long: Long::default(), weights: weights() }
    }

    pub fn play<'a>(&'a mut self, s: &Sequence, others: &'a mut [&'a mut dyn Side], tape: Option<&'a mut Tape>) -> Result<(), Fault> {
        let mut tape = tape;
        if let Some(tape) = &mut tape {
            tape.starts.push(tape.answers());
        }
        let seen = others.iter().map(|_| Seen::new()).collect();
        let mut run = Run {
            player: self,
            others,
            tape,
            live: Vec::new(),
            trail: Vec::new(),
            was_reset: false,
            limited: false,
            real: Seen::new(),
            seen,
            region: s.region,
            budget: s.budget,
            samples: Random(s.region as u64),
        };
        let result = run.all(s);
        result.map_err(|said| Fault { said, requests: run.trail })
    }
}

fn bytes_agree(a: &dyn Side, b: &dyn Side, spans: &[Range<usize>], skipped: &[Range<usize>]) -> Result<(), String> {
    let (ours, theirs) = (a.bytes(), b.bytes());
    match first_difference(ours, theirs, spans, skipped) {
        None => Ok(()),
        Some(i) => Err(format!("byte {i}: {} {}, {} {}", a.name(), ours[i], b.name(), theirs[i])),
    }
}

impl Run<'_> {
    fn all(&mut self, s: &Sequence) -> Result<(), String> {
        let Sequence { minimum, region, capacity, background, .. } = *s;
        if self.ask(Request::Create { minimum, region, capacity, background })?.0 != Answer::Done {
            return Ok(());
        }
        for step in &s.steps {
            self.step(step)?;
        }
        self.all_keep()?;
        // Of the longest regions every byte of one in 64.
        if region <= AT_THE_END || background % 64 == 0 {
            self.bytes_agree(&[0..region])?;
        }
        Ok(())
    }

    // A live block holds what its owner last put there, carried through every move.
    fn keeps(&self, i: usize) -> Result<(), String> {
        let Live { block, content, .. } = &self.live[i];
        let region = self.player.real.bytes();
        let keeps = |(from, part): &(usize, Vec<u8>)| &region[block.offset + from..block.offset + from + part.len()] == part;
        if content.iter().all(keeps) {
            Ok(())
        } else {
            Err(format!("the Rust's block {block:?} lost its owner's bytes"))
        }
    }

    fn all_keep(&self) -> Result<(), String> {
        (0..self.live.len()).try_for_each(|i| self.keeps(i))
    }

    fn count(&mut self, request: &Request, before: Option<Chunk>, count: usize) {
        match request {
            Request::Reset => self.was_reset = true,
            Request::SetLimit(_) => self.limited = true,
            Request::NoLimit => self.limited = false,
            _ => {}
        }
        let held = self.real.chunks.len();
        let refused = matches!(self.real.said.0, Answer::Refused(_));
        let named = &mut self.player.named;
        named.ladder_after_reset += (self.was_reset && self.limited && (refused || held > count)) as u64;
        named.resize_of_nothing += matches!(request, Request::Resize { block, .. } if block.size == 0) as u64;
        let took_a_chunk = |offset: usize, token: &Token| token.count < count && before.is_some_and(|c| c.pointer == offset);
        named.cancel_of_chunk += matches!(request, Request::Cancel { offset, token } if took_a_chunk(*offset, token)) as u64;
        self.player.requests += 1;
        self.player.refused += refused as u64;
        self.player.full += (held == 32) as u64;
        if held > count {
            let taken = self.real.chunks[held - 1].size;
            self.player.long.chunks += (taken > 65_488) as u64;
            self.player.long.longest = self.player.long.longest.max(taken);
        }
    }

    // A request that all sides answer.
    fn ask(&mut self, request: Request) -> Result<(Answer, Token), String> {
        self.trail.push(request);
        let (before, count) = (self.real.chunks.last().copied(), self.real.chunks.len());
        self.real.ask(&mut self.player.real, &request);
        for (seen, side) in self.seen.iter_mut().zip(self.others.iter_mut()) {
            seen.ask(*side, &request);
        }
        self.count(&request, before, count);
        self.real.agrees(&self.seen[0])?;
        for seen in &self.seen[1..] {
            self.seen[0].agrees(seen)?;
        }
        let spans = self.spans();
        self.bytes_agree(&spans)?;
        if let Some(tape) = &mut self.tape {
            tape.push(&request);
            let digest = digest(&self.player.weights, self.real.said, &self.real.chunks, self.real.held, self.player.real.bytes());
            tape.digests.extend_from_slice(&digest);
        }
        Ok(self.real.said)
    }

    fn bytes_agree(&self, spans: &[Range<usize>]) -> Result<(), String> {
        let mut footers: Vec<Range<usize>> = self.real.chunks.iter().map(|c| c.start + c.size..c.start + c.size + FOOTER).collect();
        footers.sort_by_key(|footer| footer.start);
        bytes_agree(&self.player.real, self.others[0], spans, &footers)?;
        self.others[1..].iter().try_for_each(|other| bytes_agree(self.others[0], *other, spans, &[]))
    }

    // Which bytes are compared after a request. In a long region: its end, the bytes around each chunk's start, end and pointer, every live
    // block's windows, and samples.
    fn spans(&mut self) -> Vec<Range<usize>> {
        let region = self.region;
        if region <= SHORT || region <= NOW_AND_THEN && self.samples.one_in(16) {
            return vec![0..region];
        }
        let around = |at: usize, below: usize, above: usize| at.saturating_sub(below)..(at + above).min(region);
        let mut spans = vec![region - 64..region];
        for c in &self.real.chunks {
            spans.extend([around(c.start, 64, 64), around(c.start + c.size, 64, FOOTER + 16), around(c.pointer, 64, 64)]);
        }
        for Live { block, .. } in &self.live {
            let parts = windows(block.size, self.whole()).into_iter();
            spans.extend(parts.map(|part| block.offset + part.start..block.offset + part.end));
        }
        spans.extend((0..16).map(|_| around(self.samples.below(region), 16, 16)));
        spans
    }

    // The longest block of which every byte is the owner's business.
    fn whole(&self) -> usize {
        if self.region <= SHORT {
            SHORT
        } else {
            8192
        }
    }

    fn parts(&self, block: &Block) -> Vec<(usize, Vec<u8>)> {
        let region = self.player.real.bytes();
        let part = |w: Range<usize>| (w.start, region[block.offset + w.start..block.offset + w.end].to_vec());
        windows(block.size, self.whole()).into_iter().map(part).collect()
    }

    // The owner writes a pattern in each window of its block.
    fn write(&mut self, i: usize, p: u8) {
        let block = self.live[i].block;
        self.live[i].content.clear();
        for w in windows(block.size, self.whole()) {
            let p = p.wrapping_add(w.start as u8);
            self.live[i].content.push((w.start, (0..w.len()).map(|i| pattern(p, i)).collect()));
            let part = Block { offset: block.offset + w.start, size: w.len(), align: if w.start == 0 { block.align } else { 1 } };
            let request = Request::Write { block: part, pattern: p };
            self.trail.push(request);
            self.player.real.ask(&request);
            for other in self.others.iter_mut() {
                other.ask(&request);
            }
            if let Some(tape) = &mut self.tape {
                tape.push(&request);
            }
        }
    }

    fn place(&self, place: Place) -> Option<usize> {
        let n = self.live.len();
        if n == 0 {
            None
        } else {
            Some(n - 1 - place % n)
        }
    }

    fn size(&self, size: Size) -> usize {
        let room = self.real.chunks.last().map_or(0, |c| c.pointer - c.start);
        match size {
            Size::Of(n) => n,
            Size::Room(more) => room.saturating_add_signed(more).min(1 << 30),
        }
    }

    // Whether so many bytes may still be moved.
    fn spend(&mut self, bytes: usize) -> bool {
        let may = bytes <= self.budget;
        self.budget -= if may { bytes } else { 0 };
        may
    }

    // The block's new place, with the bytes that it must hold there.
    fn given(&mut self, block: Block, token: Option<Token>, kept: Vec<(usize, Vec<u8>)>, owner: Owner) -> Result<(), String> {
        self.live.push(Live { block, token, content: kept });
        let last = self.live.len() - 1;
        self.keeps(last)?;
        self.live[last].content = self.parts(&block);
        if let Some(p) = owner {
            self.write(last, p);
        }
        Ok(())
    }

    fn allocate(&mut self, size: usize, align: usize, how: How, owner: Owner) -> Result<(), String> {
        // Outside the compared domain.
        if size == 0 && self.player.real.held() == 0 {
            return Ok(());
        }
        let (request, kept) = match how {
            How::Plain => (Request::Allocate { size, align }, Vec::new()),
            How::WithToken => (Request::AllocateWithToken { size, align }, Vec::new()),
            // The Rust copies whole elements, whose size is a multiple of their alignment.
            _ if size % align != 0 || size > COPIED || !self.spend(size) => return Ok(()),
            How::CopyIn(p) => (Request::CopyIn { size, align, pattern: p }, (0..size).map(|i| pattern(p, i)).collect()),
            How::Fill(value) => (Request::Fill { size, align, value }, vec![value; size]),
        };
        let (answer, token) = self.ask(request)?;
        if let Answer::At(offset) = answer {
            let token = matches!(how, How::WithToken).then_some(token);
            self.given(Block { offset, size, align }, token, vec![(0, kept)], owner)?;
        }
        Ok(())
    }

    // A block that keeps its first bytes, as many as it then has.
    fn moved(&mut self, i: usize, request: Request, size: usize, align: usize, owner: Owner) -> Result<(), String> {
        let old = self.live[i].block.size;
        let cleared = if let Request::GrowZeroed { .. } = request { size - old } else { 0 };
        if !self.spend(old.min(size) + cleared) {
            return Ok(());
        }
        let (answer, _) = self.ask(request)?;
        if let Answer::At(offset) = answer {
            if offset != self.live[i].block.offset {
                self.player.long.carried = self.player.long.carried.max(old.min(size));
            }
            let mut kept = self.live.remove(i).content;
            kept.retain(|(from, _)| *from <= size);
            for (from, part) in &mut kept {
                part.truncate(size - *from);
            }
            // Cleared bytes, both ends of them.
            if cleared > 0 {
                kept.extend([(old, vec![0; cleared.min(512)]), (size - cleared.min(512), vec![0; cleared.min(512)])]);
            }
            self.given(Block { offset, size, align }, None, kept, owner)?;
        }
        Ok(())
    }

    fn step(&mut self, step: &Step) -> Result<(), String> {
        match *step {
            Step::Allocate { size, align, how, owner } => self.allocate(self.size(size), align, how, owner)?,
            Step::Free(place) => {
                if let Some(i) = self.place(place) {
                    self.keeps(i)?;
                    let block = self.live.remove(i).block;
                    self.ask(Request::Free(block))?;
                }
            }
            Step::Grow { place, extra, align, zeroed, owner } => {
                if let Some(i) = self.place(place) {
                    let block = self.live[i].block;
                    let size = (block.size + extra).min(1 << 30);
                    let request = if zeroed { Request::GrowZeroed { block, size, align } } else { Request::Grow { block, size, align } };
                    self.moved(i, request, size, align, owner)?;
                }
            }
            Step::Shrink { place, less, align, owner } => {
                if let Some(i) = self.place(place) {
                    let block = self.live[i].block;
                    let size = block.size.saturating_sub(less);
                    self.moved(i, Request::Shrink { block, size, align }, size, align, owner)?;
                }
            }
            Step::Resize { place, size, owner } => {
                if let Some(i) = self.place(place) {
                    let block = self.live[i].block;
                    self.moved(i, Request::Resize { block, size }, size, block.align, owner)?;
                }
            }
            Step::Cancel(place) => {
                let tokens: Vec<usize> = (0..self.live.len()).filter(|&i| self.live[i].token.is_some()).collect();
                if !tokens.is_empty() {
                    let i = tokens[tokens.len() - 1 - place % tokens.len()];
                    self.keeps(i)?;
                    let gone = self.live.remove(i);
                    self.ask(Request::Cancel { offset: gone.block.offset, token: gone.token.unwrap() })?;
                }
            }
            Step::Reset => {
                self.all_keep()?;
                self.live.clear();
                self.ask(Request::Reset)?;
            }
            Step::SetLimit(limit) => {
                let limit = match limit {
                    Limit::Of(n) => n,
                    Limit::Held(more) => (self.player.real.held() as u64).saturating_add_signed(more),
                };
                self.ask(Request::SetLimit(limit))?;
            }
            Step::NoLimit => {
                self.ask(Request::NoLimit)?;
            }
            Step::Write { place, pattern } => {
                if let Some(i) = self.place(place) {
                    self.write(i, pattern);
                }
            }
        }
        Ok(())
    }
}
