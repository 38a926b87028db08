// Replays document 01's request file and prints its lines: `rust` by bumpalo itself, `model` by the model alone. `night SEED REQUESTS` writes such a
// file. `run` says how it is started.
#![allow(dead_code)]
mod model;
mod night;
mod placing;
mod real;
mod record;
mod request;
mod sequence;
mod tested;

use model::Model;
use request::{Answer, Request, Side};
use std::io::{stdin, stdout, BufWriter, Read, StdoutLock, Write};
use tested::{Tested, Why};

// Lines go out through one large buffer.
struct Lines(BufWriter<StdoutLock<'static>>);

impl Lines {
    fn new() -> Lines {
        Lines(BufWriter::with_capacity(1 << 16, stdout().lock()))
    }

    fn text(&mut self, text: &str) {
        self.0.write_all(text.as_bytes()).expect("standard output");
    }

    fn number(&mut self, mut n: usize) {
        let mut digits = [0; 20];
        let mut first = digits.len();
        loop {
            first -= 1;
            digits[first] = b'0' + (n % 10) as u8;
            n /= 10;
            if n == 0 {
                break;
            }
        }
        self.0.write_all(&digits[first..]).expect("standard output");
    }

    fn answer(&mut self, number: usize, answer: Answer) {
        self.number(number);
        match answer {
            Answer::Done => self.text(" done\n"),
            Answer::At(offset) => {
                self.text(" at ");
                self.number(offset);
                self.text("\n");
            }
            Answer::Refused(refusal) => {
                self.text(" refused ");
                self.number(refusal as usize);
                self.text("\n");
            }
        }
    }

    fn stop(&mut self, number: usize, why: &str) {
        self.number(number);
        self.text(why);
    }

    fn held(&mut self, side: &dyn Side) {
        let mut chunks = Vec::new();
        side.chunks(&mut chunks);
        self.text("held ");
        self.number(side.held());
        self.text(" in ");
        self.number(chunks.len());
        self.text(" chunks\n");
    }
}

// All lines but the last. An error is the number of a request outside the compared domain.
fn replay(input: &[u8], lines: &mut Lines, mut ask: impl FnMut(&Request) -> Result<Answer, Why>) -> Result<(), (usize, Why)> {
    let Some((minimum, region)) = record::read_header(input) else {
        lines.stop(0, " bad header\n");
        return Ok(());
    };
    ask(&Request::Create { minimum, region, capacity: 0, background: 0 }).map_err(|why| (0, why))?;
    let mut rest = &input[record::HEADER..];
    let mut number = 1;
    while !rest.is_empty() {
        let Some((record, after)) = record::split(rest) else {
            lines.stop(number, " cut off\n");
            return Ok(());
        };
        let Some(request) = record::read(record) else {
            lines.stop(number, " bad record\n");
            return Ok(());
        };
        let answer = ask(&request).map_err(|why| (number, why))?;
        lines.answer(number, answer);
        rest = after;
        number += 1;
    }
    Ok(())
}

fn input() -> Vec<u8> {
    let mut bytes = Vec::new();
    stdin().lock().read_to_end(&mut bytes).expect("standard input");
    bytes
}

fn by_rust() {
    let (mut rust, mut lines) = (Tested::new(), Lines::new());
    let outside = replay(&input(), &mut lines, |request| rust.ask(request)).err();
    if outside.is_none() {
        lines.held(&rust.real);
    }
    drop(lines);
    if let Some((number, why)) = outside {
        eprintln!("replay: request {number} is outside the compared domain: {why}");
        std::process::exit(2);
    }
}

fn by_model() {
    let (mut model, mut lines) = (Model::new(), Lines::new());
    replay(&input(), &mut lines, |request| Ok(model.ask(request).0)).expect("the model has an answer to every request");
    lines.held(&model);
}

fn main() {
    let words: Vec<String> = std::env::args().skip(1).collect();
    match words.iter().map(|w| w.as_str()).collect::<Vec<_>>()[..] {
        ["rust"] => by_rust(),
        ["model"] => by_model(),
        ["night", seed, requests] => {
            let file = night::file(seed.parse().expect("a seed"), requests.parse().expect("a number of requests"));
            stdout().write_all(&file).expect("standard output");
        }
        _ => panic!("rust, model or night SEED REQUESTS"),
    }
}
