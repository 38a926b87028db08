// Makes a night's request file in the lab's manner: read after read, each with its hits in blocks of 8 to 64 bytes, wiped by a reset. The model
// gives the offsets, so that every request is legal.
use crate::model::Model;
use crate::record;
use crate::request::{Answer, Block, Request, Side};
use crate::sequence::Random;

const MINIMUM: usize = 1;
const REGION: usize = 65_536;

struct Night {
    random: Random,
    model: Model,
    // The newest last.
    live: Vec<Block>,
    file: Vec<u8>,
    left: u64,
}

impl Night {
    fn ask(&mut self, request: Request) -> Answer {
        record::write(&request, &mut self.file);
        self.left -= 1;
        self.model.ask(&request).0
    }

    fn given(&mut self, answer: Answer, size: usize, align: usize) {
        if let Answer::At(offset) = answer {
            self.live.push(Block { offset, size, align });
        }
    }

    fn allocate(&mut self) {
        let (size, align) = (8 + self.random.below(57), self.random.of(&[1, 4, 8, 8]));
        let answer = self.ask(Request::Allocate { size, align });
        self.given(answer, size, align);
    }

    // The newest block's hits become more or fewer. Wiping a read always leaves room enough for the next, so no grow is refused.
    fn change_newest(&mut self) {
        let Some(block) = self.live.pop() else {
            return;
        };
        let Block { size, align, .. } = block;
        let (request, size) = if self.random.one_in(3) {
            let size = 1 + self.random.below(size);
            (Request::Shrink { block, size, align }, size)
        } else {
            let size = size + 8 + self.random.below(25);
            (Request::Grow { block, size, align }, size)
        };
        let answer = self.ask(request);
        self.given(answer, size, align);
    }

    fn free_one(&mut self) {
        let n = self.live.len();
        if n > 0 {
            let place = if self.random.one_in(2) { n - 1 } else { self.random.below(n) };
            let block = self.live.remove(place);
            self.ask(Request::Free(block));
        }
    }

    // One request.
    fn hit(&mut self) {
        match self.random.below(16) {
            0..=10 => self.allocate(),
            11..=14 => self.change_newest(),
            _ => self.free_one(),
        }
    }

    fn read(&mut self) {
        let requests = 30 + self.random.below(60);
        for _ in 0..requests {
            if self.left > 0 {
                self.hit();
            }
        }
        if self.left > 0 {
            self.ask(Request::Reset);
            self.live.clear();
        }
    }
}

pub fn file(seed: u64, requests: u64) -> Vec<u8> {
    let mut night = Night { random: Random(seed), model: Model::new(), live: Vec::new(), file: Vec::new(), left: requests };
    record::write_header(MINIMUM, REGION, &mut night.file);
    night.model.ask(&Request::Create { minimum: MINIMUM, region: REGION, capacity: 0, background: 0 });
    while night.left > 0 {
        night.read();
    }
    night.file
}
