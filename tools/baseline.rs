// The Rust library's own cost of the requests that crates/cost and tools/host-cost.c make: baseline WHAT TURNS SIZE ALIGN NEW. Counted as there, by the
// difference of two runs that differ in TURNS alone. Prints how many turns were served.
//
// As there, a turn's numbers are read from a list, and a second call names its block by them and by an address that was changed by a number of the list
// that is 0. So the compiler knows no number, and not that it is the block that was just given out.
#![feature(allocator_api)]
use bumpalo::Bump;
use std::alloc::{Allocator, GlobalAlloc, Layout, System};
use std::hint::black_box;
use std::ptr::NonNull;
use std::sync::atomic::{AtomicBool, Ordering::Relaxed};

// The system's allocator until it is told to refuse: then no chunk can be had.
struct Refusing(AtomicBool);

unsafe impl GlobalAlloc for Refusing {
    unsafe fn alloc(&self, layout: Layout) -> *mut u8 {
        if self.0.load(Relaxed) {
            return std::ptr::null_mut();
        }
        unsafe { System.alloc(layout) }
    }
    unsafe fn dealloc(&self, at: *mut u8, layout: Layout) {
        unsafe { System.dealloc(at, layout) }
    }
}

#[global_allocator]
static REFUSING: Refusing = Refusing(AtomicBool::new(false));

// Size and alignment asked for, those of the block that a second call names, those that it asks for, and two of 0.
type Numbers = [usize; 8];
const MOST_TURNS: usize = 128;

fn layout(size: usize, align: usize) -> Layout {
    // SAFETY: the alignments of the runs are powers of two, and the sizes are small.
    unsafe { Layout::from_size_align_unchecked(size, align) }
}

fn named(at: NonNull<u8>, zero: usize) -> NonNull<u8> {
    // SAFETY: zero is 0.
    unsafe { NonNull::new_unchecked((at.as_ptr() as usize ^ zero) as *mut u8) }
}

fn allocate(bump: &Bump, n: &Numbers) -> Option<NonNull<u8>> {
    bump.try_alloc_layout(layout(n[0], n[1])).ok()
}

// The user makes the layout by the constructor that tests its numbers.
fn allocate_tested(bump: &Bump, n: &Numbers) -> Option<NonNull<u8>> {
    bump.try_alloc_layout(Layout::from_size_align(n[0], n[1]).ok()?).ok()
}

// The alignment is known when the program is compiled, as that of a Rust type is.
fn allocate_constant(bump: &Bump, n: &Numbers) -> Option<NonNull<u8>> {
    bump.try_alloc_layout(layout(n[0], 8)).ok()
}

fn free(bump: &Bump, n: &Numbers, at: NonNull<u8>) {
    // SAFETY: at is the block that was just given out; so in the functions below.
    unsafe { bump.deallocate(named(at, n[6]), layout(n[2], n[3])) }
}

fn grow(bump: &Bump, n: &Numbers, at: NonNull<u8>) -> Option<NonNull<[u8]>> {
    unsafe { bump.grow(named(at, n[6]), layout(n[2], n[3]), layout(n[4], n[5])) }.ok()
}

fn grow_zeroed(bump: &Bump, n: &Numbers, at: NonNull<u8>) -> Option<NonNull<[u8]>> {
    unsafe { bump.grow_zeroed(named(at, n[6]), layout(n[2], n[3]), layout(n[4], n[5])) }.ok()
}

fn shrink(bump: &Bump, n: &Numbers, at: NonNull<u8>) -> Option<NonNull<[u8]>> {
    unsafe { bump.shrink(named(at, n[6]), layout(n[2], n[3]), layout(n[4], n[5])) }.ok()
}

// Every turn by one piece of work; one that answers nothing ends the run.
fn turns(list: &[Numbers], mut turn: impl FnMut(&Numbers) -> Option<()>) -> usize {
    let mut served = 0;
    for n in list {
        if turn(n).is_none() {
            break;
        }
        served += 1;
    }
    served
}

fn small(what: usize, list: &[Numbers]) -> usize {
    // room for every turn, as in crates/cost
    let mut bump = Bump::with_capacity(6144);
    let bump = black_box(&mut bump);
    match what {
        1 => turns(list, |n| allocate(bump, n).map(|_| ())),
        2 => turns(list, |n| Some(free(bump, n, allocate(bump, n)?))),
        3 => turns(list, |n| grow(bump, n, allocate(bump, n)?).map(|_| ())),
        4 => turns(list, |n| shrink(bump, n, allocate(bump, n)?).map(|_| ())),
        // A value that could not be made: the library allocates for it and takes the block back.
        6 => turns(list, |_| {
            let made: Result<&mut [u64; 3], _> = bump.try_alloc_try_with(|| black_box(Err::<[u64; 3], ()>(())));
            made.is_err().then_some(())
        }),
        7 => turns(list, |n| {
            allocate(bump, n)?;
            bump.reset();
            Some(())
        }),
        8 => turns(list, |n| allocate_tested(bump, n).map(|_| ())),
        9 => turns(list, |n| allocate_constant(bump, n).map(|_| ())),
        _ => 0,
    }
}

// Blocks of many bytes, each turn in the same chunk anew.
fn large(what: usize, list: &[Numbers], size: usize) -> usize {
    let mut bump = Bump::with_capacity(1 << 20);
    let bump = black_box(&mut bump);
    let source = vec![7u8; size];
    turns(list, |n| {
        match what {
            // The block at the pointer: its bytes move down by fewer than it has.
            30 => drop(grow(bump, n, allocate(bump, n)?)?),
            // Another block is at the pointer.
            31 => {
                let at = allocate(bump, n)?;
                bump.try_alloc_layout(layout(16, 1)).ok()?;
                grow(bump, n, at)?;
            }
            32 => drop(shrink(bump, n, allocate(bump, n)?)?),
            33 => drop(bump.try_alloc_slice_fill_copy(n[0], n[6] as u8).ok()?),
            34 => drop(grow_zeroed(bump, n, allocate(bump, n)?)?),
            35 => drop(bump.try_alloc_slice_copy(&source[..n[0]]).ok()?),
            _ => return None,
        }
        bump.reset();
        Some(())
    })
}

// A chunk of nearly 2^30 bytes that is full, and no other to be had.
fn no_room(list: &[Numbers]) -> usize {
    let bump = Bump::with_capacity((1 << 30) - 8192);
    let bump = black_box(&bump);
    bump.alloc_layout(layout(bump.chunk_capacity(), 1));
    REFUSING.0.store(true, Relaxed);
    let served = turns(list, |n| allocate(bump, n).is_none().then_some(()));
    REFUSING.0.store(false, Relaxed);
    served
}

fn main() {
    let words: Vec<usize> = std::env::args().skip(1).map(|word| word.parse().unwrap()).collect();
    let [what, turns, size, align, new] = words[..] else { panic!("baseline WHAT TURNS SIZE ALIGN NEW") };
    let list = black_box([[size, align, size, align, new, align, 0, 0]; MOST_TURNS]);
    let list = &list[..turns];
    let served = match what {
        40 => no_room(list),
        30.. => large(what, list, size),
        _ => small(what, list),
    };
    println!("{served}");
}
