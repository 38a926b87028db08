// The global allocator beneath bumpalo. While a call into bumpalo runs, and only then, a request is a chunk's: it is placed by document 01's
// rule in one buffer, whose first byte is offset 0. Every other request goes to the system, which also lends the buffer.
use std::alloc::{GlobalAlloc, Layout, System};
use std::cell::UnsafeCell;

pub const FOOTER: usize = 48;
const PLACES: usize = 32;
const MOST: usize = 1 << 30;
// The largest alignment: an offset has an alignment exactly when its address has.
const STRICT: usize = 4096;

#[derive(Clone, Copy)]
struct Taken {
    start: usize,
    // With the footer.
    size: usize,
    // What stood in the footer's place before it.
    before: [u8; FOOTER],
}

struct State {
    serving: bool,
    region: usize,
    count: usize,
    taken: [Taken; PLACES],
    // As the system gave it: its first multiple of the largest alignment is offset 0.
    buffer: *mut u8,
}

pub struct Placing(UnsafeCell<State>);

// The harness has one thread.
unsafe impl Sync for Placing {}

#[global_allocator]
static PLACING: Placing = Placing(UnsafeCell::new(State {
    serving: false,
    region: 0,
    count: 0,
    taken: [Taken { start: 0, size: 0, before: [0; FOOTER] }; PLACES],
    buffer: std::ptr::null_mut(),
}));

fn state() -> &'static mut State {
    unsafe { &mut *PLACING.0.get() }
}

// The lowest multiple of align with size bytes inside the region that meet no held chunk.
fn lowest(s: &State, size: usize, align: usize) -> Option<usize> {
    let mut at = 0;
    while at + size <= s.region {
        match s.taken[..s.count].iter().find(|t| t.start < at + size && at < t.start + t.size) {
            None => return Some(at),
            Some(t) => at = (t.start + t.size).next_multiple_of(align),
        }
    }
    None
}

unsafe impl GlobalAlloc for Placing {
    unsafe fn alloc(&self, layout: Layout) -> *mut u8 {
        let s = state();
        if !s.serving {
            return System.alloc(layout);
        }
        if s.count == PLACES {
            return std::ptr::null_mut();
        }
        let Some(start) = lowest(s, layout.size(), layout.align()) else {
            return std::ptr::null_mut();
        };
        let size = layout.size();
        let mut before = [0; FOOTER];
        before.copy_from_slice(&region()[start + size - FOOTER..start + size]);
        s.taken[s.count] = Taken { start, size, before };
        s.count += 1;
        base().add(start)
    }

    // bumpalo never asks for these. The system gives the pages of a long region when they are touched.
    unsafe fn alloc_zeroed(&self, layout: Layout) -> *mut u8 {
        System.alloc_zeroed(layout)
    }

    // A chunk is known by its address. Its footer's place gets back what stood there, since ours never wrote in it.
    unsafe fn dealloc(&self, ptr: *mut u8, layout: Layout) {
        let s = state();
        let offset = (ptr as usize).wrapping_sub(base() as usize);
        if s.region <= offset {
            return System.dealloc(ptr, layout);
        }
        let place = s.taken[..s.count].iter().position(|t| t.start == offset).expect("a held chunk");
        let t = s.taken[place];
        region()[t.start + t.size - FOOTER..t.start + t.size].copy_from_slice(&t.before);
        s.taken.copy_within(place + 1..s.count, place);
        s.count -= 1;
    }
}

// Runs a call into bumpalo. Nothing in it may allocate for itself.
pub fn serving<T>(call: impl FnOnce() -> T) -> T {
    state().serving = true;
    let answer = call();
    state().serving = false;
    answer
}

fn whole(region: usize) -> Layout {
    Layout::from_size_align(region + STRICT, 1).unwrap()
}

// A new buffer of zeros.
pub fn lend(region: usize) {
    let s = state();
    assert!(region <= MOST && s.count == 0);
    unsafe {
        if !s.buffer.is_null() {
            System.dealloc(s.buffer, whole(s.region));
        }
        s.buffer = System.alloc_zeroed(whole(region));
    }
    assert!(!s.buffer.is_null(), "a region of {region} bytes");
    s.region = region;
}

pub fn base() -> *mut u8 {
    let buffer = state().buffer;
    buffer.wrapping_add(buffer.align_offset(STRICT))
}

pub fn region() -> &'static mut [u8] {
    if state().buffer.is_null() {
        return &mut [];
    }
    unsafe { std::slice::from_raw_parts_mut(base(), state().region) }
}
