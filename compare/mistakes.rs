// Plays requests to each wrong model until it disagrees, and says how many that took: legal sequences beside the Rust; where these don't show the
// mistake, requests that need not be legal beside the right model; and where these don't, legal sequences in long regions.
#![allow(dead_code)]
mod agree;
mod large;
mod model;
mod ours;
mod placing;
mod plant;
mod play;
mod real;
mod request;
mod sequence;
mod tape;
mod wild;
// The model with one mistake each; `run mistakes` makes them.
mod wrong {
    include!(env!("WRONG"));
}

use agree::{first_difference, Seen};
use model::Model;
use play::Player;
use request::{Request, Side};
use sequence::{Random, Sequence};
use std::panic::{catch_unwind, set_hook, AssertUnwindSafe};

const SEED: u64 = 1;
const MOST: u64 = 200_000;
const MOST_LONG: u64 = 20_000;

// A wrong model may also stop by a panic, which counts as seen.
fn is_seen(agree: impl FnOnce() -> bool) -> bool {
    !catch_unwind(AssertUnwindSafe(agree)).unwrap_or(false)
}

fn by_legal(wrong: &mut dyn Side, make: fn(&mut Random) -> Sequence, most: u64) -> Option<u64> {
    let mut player = Player::new();
    let mut random = Random(SEED);
    while player.requests < most {
        let sequence = make(&mut random);
        if is_seen(|| player.play(&sequence, &mut [&mut *wrong], None).is_ok()) {
            return Some(player.requests);
        }
    }
    None
}

fn agree(right: &mut Model, wrong: &mut dyn Side, request: &Request) -> bool {
    let (mut ours, mut theirs) = (Seen::new(), Seen::new());
    ours.ask(right, request);
    theirs.ask(wrong, request);
    let (a, b) = (right.bytes(), wrong.bytes());
    ours.agrees(&theirs).is_ok() && first_difference(a, b, &[0..a.len()], &[]).is_none()
}

fn by_wild(wrong: &mut dyn Side) -> Option<u64> {
    let mut random = Random(SEED);
    let mut right = Model::new();
    let mut asked = 0;
    while asked < MOST {
        for request in wild::requests(&mut random) {
            asked += 1;
            if is_seen(|| agree(&mut right, wrong, &request)) {
                return Some(asked);
            }
        }
    }
    None
}

fn main() {
    set_hook(Box::new(|_| {}));
    let mistakes = wrong::all();
    let (all, mut unseen) = (mistakes.len(), 0);
    for (name, mut wrong) in mistakes {
        let legal = by_legal(wrong.as_mut(), sequence::random, MOST).map(|n| (n, "legal"));
        let wild = || by_wild(wrong.as_mut()).map(|n| (n, "wild"));
        let seen = legal.or_else(wild).or_else(|| by_legal(wrong.as_mut(), large::sequence, MOST_LONG).map(|n| (n, "large")));
        unseen += seen.is_none() as u32;
        let (after, kind) = seen.map_or(("NOT SEEN".to_string(), ""), |(n, kind)| (n.to_string(), kind));
        println!("{after:>9} {kind:<5}  {name}");
    }
    println!("seed {SEED}: of {all} mistakes {unseen} were not seen");
    std::process::exit((unseen > 0) as i32);
}
