// Our entries for hosts, in a region of their own.
use crate::entries::{self, Named, Record, Said};
use crate::request::{lay, pattern, Answer, Block, Chunk, Part, Request, Side, Token, NO_TOKEN};

pub struct Host {
    record: Record,
    region: Vec<u8>,
}

fn named(b: &Block) -> Named {
    Named { offset: b.offset, size: b.size, align: b.align }
}

fn done(said: Said) -> Answer {
    match said.refusal {
        0 => Answer::Done,
        number => Answer::Refused(number as u32),
    }
}

fn at(said: Said) -> Answer {
    match said.refusal {
        0 => Answer::At(said.offset),
        number => Answer::Refused(number as u32),
    }
}

impl Host {
    pub fn new() -> Host {
        Host { record: Record::EMPTY, region: Vec::new() }
    }

    fn create(&mut self, minimum: usize, region: usize, capacity: usize, background: u8) -> Answer {
        // The old one goes first: there need not be room for both.
        self.region = Vec::new();
        self.region = vec![0; region];
        lay(&mut self.region, background);
        done(entries::create(&mut self.record, region, minimum, capacity))
    }

    // The owner is lent the block's own bytes.
    fn write(&mut self, block: &Block, p: u8) -> Answer {
        let part = entries::lend(&self.record, &self.region, named(block));
        for i in 0..part.length {
            self.region[part.offset + i] = pattern(p, i);
        }
        Answer::Done
    }
}

impl Side for Host {
    fn name(&self) -> &'static str {
        "ours"
    }

    fn ask(&mut self, request: &Request) -> (Answer, Token) {
        use Request::*;
        let (r, region) = (&mut self.record, &mut self.region[..]);
        let answer = match *request {
            Create { minimum, region, capacity, background } => return (self.create(minimum, region, capacity, background), NO_TOKEN),
            Allocate { size, align } => at(entries::allocate(r, region, size, align)),
            Free(b) => done(entries::free(r, named(&b))),
            Grow { block: b, size, align } => at(entries::grow(r, region, named(&b), size, align)),
            Shrink { block: b, size, align } => at(entries::shrink(r, region, named(&b), size, align)),
            Reset => done(entries::reset(r)),
            SetLimit(limit) => done(entries::set_limit(r, limit as usize)),
            NoLimit => done(entries::no_limit(r)),
            AllocateWithToken { size, align } => {
                let said = entries::allocate_with_token(r, region, size, align);
                let answer = at(Said { refusal: said.refusal, offset: said.offset });
                return (answer, Token { count: said.count, pointer: said.pointer });
            }
            Cancel { offset, token } => done(entries::cancel(r, offset, token.count, token.pointer)),
            Resize { block: b, size } => at(entries::resize(r, region, named(&b), size)),
            GrowZeroed { block: b, size, align } => at(entries::grow_zeroed(r, region, named(&b), size, align)),
            CopyIn { size, align, pattern: p } => {
                let source: Vec<u8> = (0..size).map(|i| pattern(p, i)).collect();
                at(entries::copy_in(r, region, &source, align))
            }
            Fill { size, align, value } => at(entries::fill(r, region, size, align, value)),
            Write { block, pattern } => self.write(&block, pattern),
        };
        (answer, NO_TOKEN)
    }

    fn chunks(&self, table: &mut Vec<Chunk>) {
        let r = &self.record;
        table.clear();
        table.extend((0..r.count).map(|i| Chunk { start: r.starts[i], size: r.sizes[i], pointer: r.pointers[i] }));
    }

    fn held(&self) -> usize {
        self.record.sizes.iter().sum()
    }

    fn limit(&self) -> Option<u64> {
        (self.record.limited == 1).then_some(self.record.limit as u64)
    }

    fn walk(&mut self, parts: &mut Vec<Part>) {
        parts.clear();
        let steps = (0..).map(|i| entries::walk(&self.record, &self.region, i));
        parts.extend(steps.take_while(|step| step.left > 0).map(|step| (step.offset, step.length)));
    }

    fn bytes(&self) -> &[u8] {
        &self.region
    }

    fn bytes_mut(&mut self) -> &mut [u8] {
        &mut self.region
    }
}
