// Compares bumpalo 3.20.3 with document 01's rules and with ours, request by request. `run` says how it is started.
mod agree;
#[cfg(host)]
#[allow(dead_code)]
#[path = "../bindings/rust/src/entries.rs"]
mod entries;
#[cfg(host)]
mod host;
mod large;
mod model;
mod ours;
mod placing;
mod plant;
mod play;
mod real;
mod request;
mod sequence;
mod tape;
mod wild;

use model::Model;
use ours::Ours;
use plant::{On, Plant, Spoilt};
use play::{Fault, Player};
use request::{Request, Side};
use sequence::{Random, Sequence};
use std::time::Instant;
use tape::Tape;

// About so many requests are handed to our program at a time.
const BATCH: usize = 200_000;
// Of the stored list.
const STORED: (u64, usize) = (8, 2000);

type Compared = Result<(), (Sequence, Fault)>;

struct Comparison {
    player: Player,
    model: Box<dyn Side>,
    program: Option<Ours>,
    // Our entries, for the long regions.
    entries: Option<Box<dyn Side>>,
    tape: Tape,
    sequences: Vec<Sequence>,
    plant: Option<Plant>,
}

#[cfg(host)]
fn entries_for_hosts() -> Option<Box<dyn Side>> {
    Some(Box::new(host::Host::new()))
}

#[cfg(not(host))]
fn entries_for_hosts() -> Option<Box<dyn Side>> {
    None
}

impl Comparison {
    fn new(program: Option<String>, plant: Option<Plant>) -> Comparison {
        let on = |side: Box<dyn Side>, on| match plant {
            Some(plant) if plant.on == on => Box::new(Spoilt::new(side, plant)),
            _ => side,
        };
        Comparison {
            player: Player::new(),
            model: on(Box::new(Model::new()), On::Model),
            program: program.map(|program| Ours::new(program, plant)),
            entries: entries_for_hosts().map(|side| on(side, On::Ours)),
            tape: Tape::default(),
            sequences: Vec::new(),
            plant,
        }
    }

    // The Rust against the model; against our program when a batch is full.
    fn play(&mut self, sequence: Sequence) -> Compared {
        let tape = self.program.is_some().then_some(&mut self.tape);
        if let Err(fault) = self.player.play(&sequence, &mut [self.model.as_mut()], tape) {
            return Err(smallest(self.plant, sequence, fault, &mut |s| self.player.play(s, &mut [self.model.as_mut()], None).err()));
        }
        if self.program.is_some() {
            self.sequences.push(sequence);
        }
        if self.tape.answers() >= BATCH {
            self.finish_batch()
        } else {
            Ok(())
        }
    }

    fn finish_batch(&mut self) -> Compared {
        let tape = std::mem::take(&mut self.tape);
        let sequences = std::mem::take(&mut self.sequences);
        let Some(program) = &self.program else {
            return Ok(());
        };
        let Err(at) = program.agrees(&tape) else {
            return Ok(());
        };
        let number = tape.starts.partition_point(|&start| start <= at) - 1;
        let Comparison { player, model, program, plant, .. } = self;
        let mut fails = |s: &Sequence| program.as_ref().unwrap().fault(player, model.as_mut(), s);
        let sequence = sequences.into_iter().nth(number).unwrap();
        let fault = fails(&sequence).expect("a disagreement that stays");
        Err(smallest(*plant, sequence, fault, &mut fails))
    }

    // The Rust, the model and our entries, in a long region.
    fn play_long(&mut self, sequence: Sequence) -> Compared {
        let Comparison { player, model, entries, plant, .. } = self;
        let mut fault = |s: &Sequence| match entries {
            Some(entries) => player.play(s, &mut [model.as_mut(), entries.as_mut()], None).err(),
            None => player.play(s, &mut [model.as_mut()], None).err(),
        };
        match fault(&sequence) {
            None => Ok(()),
            Some(first) => Err(smallest(*plant, sequence, first, &mut fault)),
        }
    }

    fn random(&mut self, seed: u64, requests: u64) -> Compared {
        let mut random = Random(seed);
        let until = self.player.requests + requests;
        while self.player.requests < until {
            self.play(sequence::random(&mut random))?;
        }
        self.finish_batch()
    }

    fn exhaustive(&mut self, length: usize) -> Compared {
        for sequence in sequence::exhaustive(length) {
            self.play(sequence)?;
        }
        self.finish_batch()
    }

    fn large(&mut self, seed: u64, requests: u64) -> Compared {
        let mut random = Random(seed);
        let until = self.player.requests + requests;
        while self.player.requests < until {
            self.play_long(large::sequence(&mut random))?;
        }
        Ok(())
    }

    // The requests and the Rust's answers, for a program that replays them with no Rust at hand.
    fn list(&mut self) -> Result<Tape, (Sequence, Fault)> {
        let (seed, requests) = STORED;
        let mut random = Random(seed);
        let mut tape = Tape::default();
        while tape.answers() < requests {
            let sequence = sequence::random(&mut random);
            if let Err(fault) = self.player.play(&sequence, &mut [self.model.as_mut()], Some(&mut tape)) {
                return Err((sequence, fault));
            }
        }
        Ok(tape)
    }

    // Whether the stored list is what the Rust answers.
    fn is_stored(&mut self, folder: &str) -> Result<(), String> {
        let tape = self.list().map_err(|(_, fault)| fault.said)?;
        let read = |name| std::fs::read(format!("{folder}/{name}")).expect("the stored list");
        let (mut requests, mut answers) = (read("stdin"), read("stdout"));
        if let Some(plant) = &self.plant {
            plant.spoil_list(&mut requests, &mut answers);
        }
        if tape.requests != requests {
            return Err("the stored requests are not those of the seed".to_string());
        }
        if tape.digests != answers {
            return Err("the stored answers are not the Rust's".to_string());
        }
        Ok(())
    }
}

// Leaves out steps while there is a disagreement. One that is planted is told as it was found: a shorter sequence may show it by another comparison.
fn smallest(plant: Option<Plant>, mut sequence: Sequence, mut fault: Fault, fails: &mut dyn FnMut(&Sequence) -> Option<Fault>) -> (Sequence, Fault) {
    let mut i = if plant.is_some() { 0 } else { sequence.steps.len() };
    while i > 0 {
        i -= 1;
        let mut shorter = sequence.clone();
        shorter.steps.remove(i);
        if let Some(f) = fails(&shorter) {
            (sequence, fault) = (shorter, f);
        }
    }
    (sequence, fault)
}

fn print(what: &str, comparison: &Comparison, is_long: bool, start: Instant, result: &Compared) {
    let Player { requests, refused, full, ref named, ref long, .. } = comparison.player;
    let sides = match is_long {
        true if comparison.entries.is_some() => "the Rust, the model and our entries",
        false if comparison.program.is_some() => "the Rust, the model and our program",
        _ => "the Rust and the model",
    };
    println!("{what}: {requests} requests so far, {refused} refused, {full} with all 32 places taken; {:.0} s", start.elapsed().as_secs_f32());
    println!(
        "  {} ladder calls under a limit after a reset, {} resizes of old size 0, {} cancels whose allocation took a chunk",
        named.ladder_after_reset, named.resize_of_nothing, named.cancel_of_chunk
    );
    if is_long {
        println!("  {} chunks longer than 65488 taken, the longest {}; the longest block carried {}", long.chunks, long.longest, long.carried);
    }
    match result {
        Ok(()) => println!("  {sides} agree"),
        Err((sequence, fault)) => {
            println!("DISAGREEMENT: {}", fault.said);
            println!("  minimum {}, region {}, capacity {}", sequence.minimum, sequence.region, sequence.capacity);
            print_requests(&fault.requests);
        }
    }
}

fn print_requests(requests: &[Request]) {
    for (i, request) in requests.iter().enumerate() {
        println!("  {i} {request:?}");
    }
}

fn print_wild(seed: u64, result: Result<[usize; 9], Fault>) -> bool {
    match &result {
        Ok(refusals) => {
            println!("not legal, seed {seed}: {} requests, refused by number {:?}", refusals.iter().sum::<usize>(), &refusals[1..]);
            println!("  the model and our program agree");
        }
        Err(fault) => {
            println!("DISAGREEMENT of the model and our program: {}", fault.said);
            print_requests(&fault.requests);
        }
    }
    result.is_ok()
}

fn print_stored(result: Result<(), String>) -> bool {
    match &result {
        Ok(()) => println!("stored list: as the Rust answers it"),
        Err(said) => println!("DISAGREEMENT: {said}"),
    }
    result.is_ok()
}

// Whether every planted difference was told.
fn planted(sides: &[String], comparison: &Comparison) -> bool {
    let (tried, unseen) = plant::unseen(sides, comparison.entries.is_some(), comparison.program.is_some());
    println!("planted: {tried} differences, {} not told as they should be", unseen.len());
    unseen.iter().for_each(|plant| println!("NOT SEEN: {plant}"));
    unseen.is_empty()
}

fn number(word: &str) -> u64 {
    word.parse().unwrap_or_else(|_| panic!("not a number: {word}"))
}

// What is run, word by word.
struct Words {
    left: std::vec::IntoIter<String>,
    // What every run of this program is told: our program, and the folder of the stored list.
    sides: Vec<String>,
    folder: String,
    start: Instant,
}

impl Words {
    fn next(&mut self) -> String {
        self.left.next().expect("a word more")
    }

    fn number(&mut self) -> u64 {
        number(&self.next())
    }

    // Runs one command. Whether nothing was found.
    fn run(&mut self, word: &str, comparison: &mut Comparison) -> bool {
        match word {
            "stored" => print_stored(comparison.is_stored(&self.folder)),
            "planted" => planted(&self.sides, comparison),
            "list" => {
                let tape = comparison.list().unwrap_or_else(|(_, fault)| panic!("{}", fault.said));
                std::fs::write(format!("{}/stdin", self.folder), &tape.requests).expect("the requests");
                std::fs::write(format!("{}/stdout", self.folder), &tape.digests).expect("the answers");
                true
            }
            "wild" => {
                let (seed, requests) = (self.number(), self.number() as usize);
                let Some(program) = &comparison.program else {
                    return true;
                };
                print_wild(seed, wild::compare(program, &comparison.player.weights, seed, requests))
            }
            _ => self.run_beside_the_rust(word, comparison),
        }
    }

    fn run_beside_the_rust(&mut self, word: &str, comparison: &mut Comparison) -> bool {
        let (what, is_long, result) = match word {
            "random" => {
                let (seed, requests) = (self.number(), self.number());
                (format!("random, seed {seed}"), false, comparison.random(seed, requests))
            }
            "exhaustive" => {
                let length = self.number();
                (format!("every list of {length} steps"), false, comparison.exhaustive(length as usize))
            }
            "large" => {
                let (seed, requests) = (self.number(), self.number());
                (format!("in regions up to 2^30 bytes, seed {seed}"), true, comparison.large(seed, requests))
            }
            "scene" => {
                let name = self.next();
                let sequence = plant::scene(&name);
                let is_long = sequence.region > play::SHORT;
                let result = if is_long { comparison.play_long(sequence) } else { comparison.play(sequence) };
                (format!("scene {name}"), is_long, result.and_then(|()| comparison.finish_batch()))
            }
            _ => panic!("not a command: {word}"),
        };
        print(&what, comparison, is_long, self.start, &result);
        result.is_ok()
    }
}

// WORDS: [--ours PROGRAM] [--plant NUMBER] --list FOLDER and what `run` lists, one after the other
fn main() {
    let mut words: Vec<String> = std::env::args().skip(1).collect();
    let mut option = |name: &str| {
        let place = words.iter().position(|w| w == name)?;
        words.remove(place);
        Some(words.remove(place))
    };
    let (program, plant) = (option("--ours"), option("--plant").map(|word| plant::all()[number(&word) as usize]));
    let folder = option("--list").expect("--list FOLDER");
    let mut sides = vec!["--list".to_string(), folder.clone()];
    sides.extend(program.iter().flat_map(|program| ["--ours".to_string(), program.clone()]));
    let mut comparison = Comparison::new(program, plant);
    let mut words = Words { left: words.into_iter(), sides, folder, start: Instant::now() };
    while let Some(word) = words.left.next() {
        if !words.run(&word, &mut comparison) {
            std::process::exit(1);
        }
    }
}
