// The tape of requests that our program reads, and the digest that is expected after each.
use crate::placing::FOOTER;
use crate::play::SHORT;
use crate::request::{encode, Answer, Chunk, Request, Token};

// Requests as our program reads them, and the Rust's digest after each.
#[derive(Default)]
pub struct Tape {
    pub requests: Vec<u8>,
    pub digests: Vec<u8>,
    // The answer with which each sequence begins.
    pub starts: Vec<usize>,
    said: Vec<Request>,
}

impl Tape {
    pub fn answers(&self) -> usize {
        self.digests.len() / DIGEST
    }

    // The requests up to the one that has this answer, owners' writes among them.
    pub fn upto(&self, answer: usize) -> Vec<Request> {
        let mut left = answer + 1;
        let mut out = Vec::new();
        for &request in &self.said {
            if left == 0 {
                break;
            }
            out.push(request);
            left -= !matches!(request, Request::Write { .. }) as usize;
        }
        out
    }

    // The number of each answer's refusal, 0 where it is none.
    pub fn refusals(&self) -> impl Iterator<Item = usize> + '_ {
        self.digests.chunks(DIGEST).map(|d| if d[..3] == [128, 0, 0] { d[3] as usize } else { 0 })
    }

    pub fn push(&mut self, request: &Request) {
        encode(request, &mut self.requests);
        self.said.push(*request);
    }
}

pub const DIGEST: usize = 36;

// The weight of each byte's place in the digest's sum.
pub fn weights() -> Vec<u64> {
    let next = |w: u64| (w * 1_103_515_245 + 12_345) % (1 << 31);
    let mut w = 1;
    (0..SHORT)
        .map(|_| {
            let high = next(w);
            w = next(high);
            (high << 31) + w
        })
        .collect()
}

fn sum(weights: &[u64], bytes: &[u8], from: usize, to: usize) -> u64 {
    let mixed = weights[from..to].iter().zip(&bytes[from..to]).map(|(&w, &b)| w ^ (b as u64 * 55_911_108_632_957_417));
    mixed.fold(0, u64::wrapping_add)
}

pub fn digest(weights: &[u64], (answer, token): (Answer, Token), table: &[Chunk], held: usize, bytes: &[u8]) -> [u8; DIGEST] {
    let said = match answer {
        Answer::At(offset) => offset,
        Answer::Done => 0xFFFF_FFFF,
        Answer::Refused(number) => 0x8000_0000 + number as usize,
    };
    let mut chunks: u64 = 0;
    let mut total = sum(weights, bytes, 0, bytes.len());
    for c in table {
        for x in [c.start, c.size, c.pointer] {
            chunks = (chunks * 1_000_003 + x as u64) % (1 << 32);
        }
        let end = c.start + c.size;
        total = total.wrapping_sub(sum(weights, bytes, end, end + FOOTER));
    }
    let pointer = table.last().map_or(0, |c| c.pointer);
    let mut out = [0; DIGEST];
    for (i, x) in [said, table.len(), held, pointer, token.count, token.pointer, chunks as usize].into_iter().enumerate() {
        out[4 * i..4 * i + 4].copy_from_slice(&(x as u32).to_be_bytes());
    }
    out[28..].copy_from_slice(&total.to_be_bytes());
    out
}
