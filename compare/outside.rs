// What the Rust does outside the compared domain, in the two cases of docs/DIFFERENCES.md that can be shown by running it.
#![allow(dead_code)]
mod placing;
mod real;
mod request;

use bumpalo::Bump;
use real::Real;
use request::{Request, Side};
use std::alloc::Layout;
use std::process::Command;
use std::time::Duration;

const ENDLESS: &str = "endless";

// Size 0 with no chunk: the address of the shared empty footer, and no chunk is taken.
fn size_0_with_no_chunk() {
    let mut real = Real::new();
    real.ask(&Request::Create { minimum: 1, region: 65_536, capacity: 0, background: 0 });
    let bump: Bump<1> = Bump::with_min_align();
    let address = placing::serving(|| bump.try_alloc_layout(Layout::from_size_align(0, 1).unwrap())).unwrap().as_ptr() as usize;
    let base = placing::base() as usize;
    let inside = (base..base + 65_536).contains(&address);
    let place = if inside { "in" } else { "outside" };
    println!("new arena, region 65536, size 0, alignment 1: an address {place} the region, held bytes {}", bump.allocated_bytes());
}

// Limit 1, region 0, size 0: rung 0 is tried again and again.
fn endless() {
    let mut real = Real::new();
    real.ask(&Request::Create { minimum: 1, region: 0, capacity: 0, background: 0 });
    real.ask(&Request::SetLimit(1));
    real.ask(&Request::Allocate { size: 0, align: 4096 });
}

fn main() {
    if std::env::args().nth(1).is_some_and(|word| word == ENDLESS) {
        return endless();
    }
    size_0_with_no_chunk();
    let mut child = Command::new(std::env::current_exe().unwrap()).arg(ENDLESS).spawn().expect("this program again");
    std::thread::sleep(Duration::from_secs(2));
    let ended = child.try_wait().unwrap().is_some();
    println!("limit 1, region 0, size 0, alignment 4096: {} after 2 seconds", if ended { "ended" } else { "had not returned" });
    if !ended {
        child.kill().unwrap();
    }
    child.wait().unwrap();
}
