// Our program, which reads a tape of requests and writes a digest after each.
use crate::plant::Plant;
use crate::play::{Fault, Player};
use crate::request::Side;
use crate::sequence::Sequence;
use crate::tape::{Tape, DIGEST};
use std::fs::File;
use std::process::{Command, Stdio};

pub struct Ours {
    program: String,
    plant: Option<Plant>,
}

impl Ours {
    pub fn new(program: String, plant: Option<Plant>) -> Ours {
        Ours { program, plant }
    }

    fn digests(&self, tape: &Tape) -> Vec<u8> {
        let path = std::env::temp_dir().join(format!("compare-{}", std::process::id()));
        std::fs::write(&path, &tape.requests).expect("a temporary file");
        let input = File::open(&path).expect("the temporary file");
        let mut output = Command::new(&self.program).stdin(input).stderr(Stdio::inherit()).output().expect("our program runs");
        std::fs::remove_file(&path).expect("the temporary file goes");
        if let Some(plant) = &self.plant {
            plant.spoil_digests(&mut output.stdout);
        }
        output.stdout
    }

    // Else the first answer that differs.
    pub fn agrees(&self, tape: &Tape) -> Result<(), usize> {
        let ours = self.digests(tape);
        if ours == tape.digests {
            return Ok(());
        }
        let same = ours.iter().zip(&tape.digests).take_while(|(a, b)| a == b).count();
        Err(same / DIGEST)
    }

    // Plays one sequence to the Rust and to our program.
    pub fn fault(&self, player: &mut Player, model: &mut dyn Side, sequence: &Sequence) -> Option<Fault> {
        let mut tape = Tape::default();
        if let Err(fault) = player.play(sequence, &mut [model], Some(&mut tape)) {
            return Some(fault);
        }
        self.said(&tape)
    }

    // The first answer that differs, in words.
    pub fn said(&self, tape: &Tape) -> Option<Fault> {
        let at = self.agrees(tape).err()?;
        let ours = self.digests(tape);
        let of = |digests: &[u8]| digests.get(at * DIGEST..(at + 1) * DIGEST).map_or("nothing".to_string(), in_words);
        Some(Fault { said: format!("expected {}; ours {}", of(&tape.digests), of(&ours)), requests: tape.upto(at) })
    }
}

// A digest in words.
fn in_words(digest: &[u8]) -> String {
    let n = |i: usize| u32::from_be_bytes(digest[4 * i..4 * i + 4].try_into().unwrap());
    let answer = match n(0) {
        0xFFFF_FFFF => "done".to_string(),
        x if x >= 0x8000_0000 => format!("refused {}", x - 0x8000_0000),
        x => format!("at {x}"),
    };
    format!("{answer}, {} chunks, held {}, pointer {}, token {} {}, table {:08x}, bytes {:08x}{:08x}", n(1), n(2), n(3), n(4), n(5), n(6), n(7), n(8))
}
