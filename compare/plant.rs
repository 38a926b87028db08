// Planted differences: one thing that one side shows otherwise than it is. Each must be told, so that a comparison that sees nothing doesn't pass.
use crate::placing;
use crate::request::{Answer, Chunk, Part, Request, Side, Token};
use crate::sequence::{How, Limit, Sequence, Size, Step};
use crate::tape::DIGEST;
use std::ops::Range;
use std::process::Command;

#[derive(Clone, Copy, Debug, PartialEq)]
pub enum On {
    // The model is compared with the Rust, our entries with the model.
    Model,
    Ours,
    // Our program's digests, and the stored list.
    Program,
    Stored,
}

#[derive(Clone, Copy, Debug, PartialEq)]
pub enum Spoil {
    Answer,
    TokenCount,
    TokenPointer,
    LastChunk,
    Start,
    Usable,
    Pointer,
    Held,
    Limit,
    LastPart,
    PartOffset,
    PartLength,
    Byte(usize),
    // From one request to another, and then as it was.
    ByteUntil(usize, usize),
    Stretch(usize, usize),
    // A byte of the Rust's region alone; and of both regions alike, counted from the last block's offset.
    RustsByte(usize),
    Both(usize),
    // A byte of the last digest; the last digest missing; one more.
    DigestByte(usize),
    Shorter,
    Longer,
    Requests,
    Answers,
}

#[derive(Clone, Copy, Debug)]
pub struct Plant {
    pub on: On,
    pub spoil: Spoil,
    // At which request of a sequence, counted from its creation.
    when: usize,
    // What is run, and what must be told of it; nothing where the difference must be let pass.
    words: &'static str,
    told: &'static str,
}

// A side that shows all as it is, but for what is planted.
pub struct Spoilt {
    side: Box<dyn Side>,
    plant: Plant,
    asked: usize,
    // The last block's offset.
    last: usize,
}

impl Spoilt {
    pub fn new(side: Box<dyn Side>, plant: Plant) -> Spoilt {
        Spoilt { side, plant, asked: 0, last: 0 }
    }

    fn is(&self, spoil: Spoil) -> bool {
        self.asked == self.plant.when && self.plant.spoil == spoil
    }

    fn spoil_bytes(&mut self) {
        let is_now = self.asked == self.plant.when;
        let flip = |bytes: &mut [u8], range: Range<usize>| bytes[range].iter_mut().for_each(|b| *b ^= 1);
        match self.plant.spoil {
            Spoil::Byte(at) if is_now => flip(self.side.bytes_mut(), at..at + 1),
            Spoil::ByteUntil(at, until) if is_now || self.asked == until => flip(self.side.bytes_mut(), at..at + 1),
            Spoil::Stretch(from, to) if is_now => flip(self.side.bytes_mut(), from..to),
            Spoil::RustsByte(at) if is_now => flip(placing::region(), at..at + 1),
            Spoil::Both(after) if is_now => {
                let at = self.last + after;
                flip(self.side.bytes_mut(), at..at + 1);
                flip(placing::region(), at..at + 1);
            }
            _ => {}
        }
    }
}

impl Side for Spoilt {
    fn name(&self) -> &'static str {
        self.side.name()
    }

    fn ask(&mut self, request: &Request) -> (Answer, Token) {
        let (mut answer, mut token) = self.side.ask(request);
        match request {
            Request::Create { .. } => self.asked = 0,
            Request::Write { .. } => return (answer, token),
            _ => self.asked += 1,
        }
        if let Answer::At(offset) = answer {
            self.last = offset;
        }
        self.spoil_bytes();
        if self.is(Spoil::Answer) {
            answer = match answer {
                Answer::At(offset) => Answer::At(offset + 1),
                Answer::Done => Answer::Refused(1),
                Answer::Refused(number) => Answer::Refused(number - 1),
            }
        }
        token.count += self.is(Spoil::TokenCount) as usize;
        token.pointer += self.is(Spoil::TokenPointer) as usize;
        (answer, token)
    }

    fn chunks(&self, table: &mut Vec<Chunk>) {
        self.side.chunks(table);
        if let Some(first) = table.first_mut() {
            first.start += 16 * self.is(Spoil::Start) as usize;
            first.size += 16 * self.is(Spoil::Usable) as usize;
            first.pointer += self.is(Spoil::Pointer) as usize;
        }
        if self.is(Spoil::LastChunk) {
            table.pop();
        }
    }

    fn held(&self) -> usize {
        self.side.held() + self.is(Spoil::Held) as usize
    }

    fn limit(&self) -> Option<u64> {
        self.side.limit().filter(|_| !self.is(Spoil::Limit))
    }

    fn walk(&mut self, parts: &mut Vec<Part>) {
        self.side.walk(parts);
        if let Some(last) = parts.last_mut() {
            last.0 += self.is(Spoil::PartOffset) as usize;
            last.1 += self.is(Spoil::PartLength) as usize;
        }
        if self.is(Spoil::LastPart) {
            parts.pop();
        }
    }

    fn bytes(&self) -> &[u8] {
        self.side.bytes()
    }

    fn bytes_mut(&mut self) -> &mut [u8] {
        self.side.bytes_mut()
    }
}

impl Plant {
    // Our program's digests, as they are read.
    pub fn spoil_digests(&self, digests: &mut Vec<u8>) {
        let end = digests.len();
        match self.spoil {
            Spoil::DigestByte(i) => digests[end - DIGEST + i] ^= 1,
            Spoil::Shorter => digests.truncate(end - DIGEST),
            Spoil::Longer => digests.extend_from_within(end - DIGEST..),
            _ => {}
        }
    }

    pub fn spoil_list(&self, requests: &mut [u8], answers: &mut [u8]) {
        match self.spoil {
            Spoil::Requests => *requests.last_mut().unwrap() ^= 1,
            Spoil::Answers => *answers.last_mut().unwrap() ^= 1,
            _ => {}
        }
    }
}

const SHORT: usize = 4096;
const LONG: usize = 20 << 20;

fn allocate(size: Size, align: usize, how: How) -> Step {
    Step::Allocate { size, align, how, owner: Some(1) }
}

// A chunk of 448 at 0 with two blocks, a limit, a second chunk with one block, and a request that is refused: five requests after the creation. In
// the short region the second chunk is 496 to 1,456 and its block from 856 on; in the long one 496 to 102,832, and its block from 2,832 on.
fn five(region: usize, size: usize) -> Sequence {
    let steps = vec![
        allocate(Size::Of(10), 1, How::Plain),
        allocate(Size::Of(20), 1, How::WithToken),
        Step::SetLimit(Limit::Of(1 << 40)),
        allocate(Size::Of(size), 8, How::Plain),
        allocate(Size::Of(1 << 30), 1, How::Plain),
    ];
    Sequence { minimum: 1, region, capacity: 0, background: 7, budget: usize::MAX, steps }
}

// One block, a request that has nothing to do with it, and what becomes of it.
fn three(how: How, owner: Option<u8>, then: Option<Step>) -> Sequence {
    let first = Step::Allocate { size: Size::Of(64), align: 1, how, owner };
    let steps = [first, Step::NoLimit].into_iter().chain(then).collect();
    Sequence { minimum: 1, region: 4 * SHORT, capacity: 0, background: 7, budget: usize::MAX, steps }
}

// The sequences in which differences are planted, by their names.
pub fn scene(name: &str) -> Sequence {
    let grow = |zeroed| Some(Step::Grow { place: 0, extra: 2000, align: 1, zeroed, owner: None });
    match name {
        "short" => five(SHORT, 600),
        "long" => five(LONG, 100_000),
        "long-whole" => Sequence { background: 64, ..five(LONG, 100_000) },
        "middle" => five(2 << 20, 100_000),
        "many" => {
            let mut s = five(1 << 19, 100_000);
            s.steps.extend([Step::NoLimit; 80]);
            s
        }
        "free" => three(How::Plain, Some(1), Some(Step::Free(0))),
        "cancel" => three(How::WithToken, Some(1), Some(Step::Cancel(0))),
        "reset" => three(How::Plain, Some(1), Some(Step::Reset)),
        "grow" => three(How::Plain, Some(1), grow(false)),
        "grow-zeroed" => three(How::Plain, Some(1), grow(true)),
        "copy-in" => three(How::CopyIn(1), None, None),
        "fill" => three(How::Fill(1), None, None),
        "end" => three(How::Plain, None, None),
        _ => panic!("no scene {name}"),
    }
}

// What a side may show otherwise, the request of `five` at which it is, and what is told.
const SHOWN: [(Spoil, usize, &str, &str); 15] = [
    (Spoil::Answer, 3, "answer: the Rust Done", "answer: the model Done"),
    (Spoil::Answer, 4, "answer: the Rust At", "answer: the model At"),
    (Spoil::Answer, 5, "answer: the Rust Refused(8)", "answer: the model Refused(8)"),
    (Spoil::TokenCount, 2, "token: the Rust", "token: the model"),
    (Spoil::TokenPointer, 2, "token: the Rust", "token: the model"),
    (Spoil::LastChunk, 5, "chunks: the Rust", "chunks: the model"),
    (Spoil::Start, 5, "chunks: the Rust", "chunks: the model"),
    (Spoil::Usable, 5, "chunks: the Rust", "chunks: the model"),
    (Spoil::Pointer, 5, "chunks: the Rust", "chunks: the model"),
    (Spoil::Held, 5, "held bytes: the Rust", "held bytes: the model"),
    (Spoil::Limit, 5, "limit: the Rust", "limit: the model"),
    (Spoil::LastPart, 5, "walk: the Rust", "walk: the model"),
    (Spoil::PartOffset, 5, "walk: the Rust", "walk: the model"),
    (Spoil::PartLength, 5, "walk: the Rust", "walk: the model"),
    (Spoil::Held, 1, "held bytes: the Rust", "held bytes: the model"),
];

// In the long region, each seen by one kind of span alone: a chunk's start, the bytes after a footer, a pointer, a long block's first and last bytes
// and one between, a short block, the region's end.
const SEEN_BY_SPANS: [usize; 8] = [540, 102_885, 2_800, 3_000, 102_400, 15_335, 420, LONG - 1];

pub fn all() -> Vec<Plant> {
    let plant = |on, spoil, when, words, told| Plant { on, spoil, when, words, told };
    let mut list = Vec::new();
    for (spoil, when, rust, model) in SHOWN {
        list.push(plant(On::Model, spoil, when, "scene short", rust));
        list.push(plant(On::Ours, spoil, when, "scene long", model));
    }
    for at in [0, 447, 496, 700, 856, 1455, 1504, SHORT - 1] {
        list.push(plant(On::Model, Spoil::Byte(at), 5, "scene short", "byte "));
        list.push(plant(On::Model, Spoil::RustsByte(at), 5, "scene short", "byte "));
    }
    // The footers' places are the Rust's own, and ours leave them as they are.
    for at in [448, 495, 1456, 1503] {
        list.push(plant(On::Model, Spoil::Byte(at), 5, "scene short", ""));
    }
    for at in [448, 495, 102_832, 102_879] {
        list.push(plant(On::Ours, Spoil::Byte(at), 5, "scene long", "byte "));
    }
    for at in SEEN_BY_SPANS {
        list.push(plant(On::Model, Spoil::RustsByte(at), 5, "scene long", "byte "));
        list.push(plant(On::Ours, Spoil::Byte(at), 5, "scene long", "byte "));
    }
    for (on, told) in [(On::Model, ": the Rust"), (On::Ours, ": the model")] {
        list.push(plant(on, Spoil::Stretch(LONG / 2, LONG - 64), 5, "scene long", told));
        list.push(plant(on, Spoil::Byte(LONG / 2), 5, "scene long-whole", told));
        list.push(plant(on, Spoil::Byte(1_500_000), 5, "scene middle", told));
        list.push(plant(on, Spoil::ByteUntil(400_000, 80), 5, "scene many", told));
        list.push(plant(on, Spoil::Held, 2, "large 10 1", told));
    }
    list.push(plant(On::Model, Spoil::Held, 2, "random 7 1", "held bytes: the Rust"));
    list.push(plant(On::Model, Spoil::Limit, 1, "exhaustive 0", "limit: the Rust"));
    let lost = "lost its owner's bytes";
    for words in ["scene free", "scene cancel", "scene reset", "scene end"] {
        list.push(plant(On::Model, Spoil::Both(9), 2, words, lost));
    }
    for words in ["scene copy-in", "scene fill"] {
        list.push(plant(On::Model, Spoil::Both(9), 1, words, lost));
    }
    for (words, after) in [("scene grow", 9), ("scene grow-zeroed", 9), ("scene grow-zeroed", 64), ("scene grow-zeroed", 2063)] {
        list.push(plant(On::Model, Spoil::Both(after), 3, words, lost));
    }
    // One byte of each of a digest's fields.
    for i in [3, 7, 11, 15, 19, 23, 27, 35] {
        list.push(plant(On::Program, Spoil::DigestByte(i), 0, "exhaustive 0", "expected"));
    }
    for words in ["exhaustive 0", "random 7 1", "wild 13 1"] {
        list.push(plant(On::Program, Spoil::DigestByte(35), 0, words, "expected"));
        list.push(plant(On::Program, Spoil::Shorter, 0, words, "expected"));
        list.push(plant(On::Program, Spoil::Longer, 0, words, "expected"));
    }
    list.push(plant(On::Stored, Spoil::Requests, 0, "stored", "the stored requests"));
    list.push(plant(On::Stored, Spoil::Answers, 0, "stored", "the stored answers"));
    list
}

// Runs this program again for each planted difference. Those that were not told as they should be.
pub fn unseen(sides: &[String], has_ours: bool, has_program: bool) -> (usize, Vec<String>) {
    let program = std::env::current_exe().expect("this program");
    let mut tried = 0;
    let mut unseen = Vec::new();
    for (number, plant) in all().iter().enumerate() {
        if plant.on == On::Ours && !has_ours || plant.on == On::Program && !has_program {
            continue;
        }
        tried += 1;
        let words = plant.words.split(' ');
        let output = Command::new(&program).args(sides).args(["--plant", &number.to_string()]).args(words).output().expect("this program again");
        let said = String::from_utf8_lossy(&output.stdout).into_owned();
        let told = said.lines().any(|line| line.starts_with("DISAGREEMENT") && line.contains(plant.told));
        let (status, wanted) = (output.status.code(), if plant.told.is_empty() { Some(0) } else { Some(1) });
        if status != wanted || told == plant.told.is_empty() {
            unseen.push(format!("{plant:?}: status {status:?}, {}", said.lines().last().unwrap_or("nothing told")));
        }
    }
    (tried, unseen)
}
