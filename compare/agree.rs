// What is compared of two sides after a request.
use crate::request::{Answer, Chunk, Part, Request, Side, Token, NO_TOKEN};
use std::fmt::Debug;
use std::ops::Range;

// All that a side says and shows but its region's bytes.
pub struct Seen {
    name: &'static str,
    pub said: (Answer, Token),
    pub chunks: Vec<Chunk>,
    pub held: usize,
    limit: Option<u64>,
    parts: Vec<Part>,
}

fn first<T: PartialEq + Debug>(what: &str, names: [&str; 2], a: &T, b: &T) -> Result<(), String> {
    if a == b {
        return Ok(());
    }
    Err(format!("{what}: {} {a:?}, {} {b:?}", names[0], names[1]))
}

impl Seen {
    pub fn new() -> Seen {
        Seen { name: "", said: (Answer::Done, NO_TOKEN), chunks: Vec::new(), held: 0, limit: None, parts: Vec::new() }
    }

    pub fn ask(&mut self, side: &mut dyn Side, request: &Request) {
        self.name = side.name();
        self.said = side.ask(request);
        side.chunks(&mut self.chunks);
        self.held = side.held();
        self.limit = side.limit();
        side.walk(&mut self.parts);
    }

    // Else the first thing that differs.
    pub fn agrees(&self, other: &Seen) -> Result<(), String> {
        let names = [self.name, other.name];
        first("answer", names, &self.said.0, &other.said.0)?;
        first("token", names, &self.said.1, &other.said.1)?;
        first("chunks", names, &self.chunks, &other.chunks)?;
        first("held bytes", names, &self.held, &other.held)?;
        first("limit", names, &self.limit, &other.limit)?;
        first("walk", names, &self.parts, &other.parts)
    }
}

// The first byte of the spans in which two regions differ, outside the skipped ranges, which lie in order.
pub fn first_difference(a: &[u8], b: &[u8], spans: &[Range<usize>], skipped: &[Range<usize>]) -> Option<usize> {
    let differs = |from: usize, to: usize| {
        let differs = from < to && a[from..to] != b[from..to];
        differs.then(|| (from..to).find(|&i| a[i] != b[i]).unwrap())
    };
    spans.iter().find_map(|span| {
        let mut from = span.start;
        for skip in skipped {
            if let Some(i) = differs(from, skip.start.min(span.end)) {
                return Some(i);
            }
            from = from.max(skip.end);
        }
        differs(from, span.end)
    })
}
