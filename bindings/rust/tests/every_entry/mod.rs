//! Every entry but creation by its number, in its plain, its fast and its sound form.
use miravoly::entries::{self, Named, Record, Said, SaidPart, SaidToken};
use std::ptr::addr_of_mut;

pub const ENTRIES: usize = 15;
/// So many of them have the three forms.
pub const IN_PLACE: usize = 12;

#[derive(Clone, Copy, Debug)]
pub struct Request<'a> {
    pub entry: usize,
    pub block: Named,
    /// Or the limit.
    pub size: usize,
    pub align: usize,
    /// A token's two numbers, or the walk's index.
    pub count: usize,
    pub pointer: usize,
    pub source: &'a [u8],
}

/// The refusal's number, the offset, and what else is answered.
pub type Answer = [usize; 4];

fn said(got: Said) -> Answer {
    [got.refusal, got.offset, 0, 0]
}

fn said_token(got: SaidToken) -> Answer {
    [got.refusal, got.offset, got.count, got.pointer]
}

fn said_part(got: SaidPart) -> Answer {
    [got.refusal, got.offset, got.length, 0]
}

pub fn plain(q: &Request, a: &mut Record, region: &mut [u8]) -> Answer {
    let (size, align, block) = (q.size, q.align, q.block);
    match q.entry {
        0 => said(entries::reset(a)),
        1 => said(entries::allocate(a, region, size, align)),
        2 => said(entries::copy_in(a, region, q.source, align)),
        3 => said(entries::fill(a, region, size, align, 7)),
        4 => said(entries::free(a, block)),
        5 => said(entries::grow(a, region, block, size, align)),
        6 => said(entries::grow_zeroed(a, region, block, size, align)),
        7 => said(entries::shrink(a, region, block, size, align)),
        8 => said(entries::resize(a, region, block, size)),
        9 => said_token(entries::allocate_with_token(a, region, size, align)),
        10 => said(entries::cancel(a, block.offset, q.count, q.pointer)),
        11 => said_part(entries::lend(a, region, block)),
        12 => said(entries::set_limit(a, size)),
        13 => said(entries::no_limit(a)),
        _ => {
            let step = entries::walk(a, region, q.count);
            [step.refusal, step.offset, step.length, step.left]
        }
    }
}

macro_rules! in_parts {
    ($($name:ident($($number:ty),*) -> $said:ty;)*) => {
        extern "C" {
            $(fn $name(head: *mut usize, starts: *mut usize, sizes: *mut usize, pointers: *mut usize $(, _: $number)*) -> $said;)*
        }
    };
}

// The crate doesn't call the fast entries, and keeps the sound ones to itself.
in_parts! {
    miravoly_fast_reset() -> Said;
    miravoly_fast_allocate(*const u8, usize, usize, usize) -> Said;
    miravoly_fast_copy_in(*mut u8, usize, *const u8, usize, usize) -> Said;
    miravoly_fast_fill(*mut u8, usize, usize, usize, u8) -> Said;
    miravoly_fast_free(usize, usize, usize) -> Said;
    miravoly_fast_grow(*mut u8, usize, usize, usize, usize, usize, usize) -> Said;
    miravoly_fast_grow_zeroed(*mut u8, usize, usize, usize, usize, usize, usize) -> Said;
    miravoly_fast_shrink(*mut u8, usize, usize, usize, usize, usize, usize) -> Said;
    miravoly_fast_resize(*mut u8, usize, usize, usize, usize, usize) -> Said;
    miravoly_fast_allocate_with_token(*const u8, usize, usize, usize) -> SaidToken;
    miravoly_fast_cancel(usize, usize, usize) -> Said;
    miravoly_fast_lend(*const u8, usize, usize, usize, usize) -> SaidPart;
    miravoly_sound_reset() -> Said;
    miravoly_sound_allocate(usize, usize) -> Said;
    miravoly_sound_copy_in(*mut u8, usize, *const u8, usize, usize) -> Said;
    miravoly_sound_fill(*mut u8, usize, usize, usize, u8) -> Said;
    miravoly_sound_free(usize, usize, usize) -> Said;
    miravoly_sound_grow(*mut u8, usize, usize, usize, usize, usize, usize) -> Said;
    miravoly_sound_grow_zeroed(*mut u8, usize, usize, usize, usize, usize, usize) -> Said;
    miravoly_sound_shrink(*mut u8, usize, usize, usize, usize, usize, usize) -> Said;
    miravoly_sound_resize(*mut u8, usize, usize, usize, usize, usize) -> Said;
    miravoly_sound_allocate_with_token(usize, usize) -> SaidToken;
    miravoly_sound_cancel(usize, usize, usize) -> Said;
    miravoly_sound_lend(usize, usize, usize) -> SaidPart;
}

fn parts(a: &mut Record) -> [*mut usize; 4] {
    let a: *mut Record = a;
    // SAFETY: places of a record are named, and nothing is read.
    unsafe {
        [
            a.cast(),
            addr_of_mut!((*a).starts).cast(),
            addr_of_mut!((*a).sizes).cast(),
            addr_of_mut!((*a).pointers).cast(),
        ]
    }
}

#[rustfmt::skip]
pub fn fast(q: &Request, a: &mut Record, region: &mut [u8]) -> Answer {
    let ([h, s, n, p], bytes, lent) = (parts(a), region.as_mut_ptr(), region.len());
    let (size, align, Named { offset, size: old, align: old_align }) = (q.size, q.align, q.block);
    // SAFETY: the parts are those of one record, and each slice goes with its length.
    unsafe {
        match q.entry {
            0 => said(miravoly_fast_reset(h, s, n, p)),
            1 => said(miravoly_fast_allocate(h, s, n, p, bytes, lent, size, align)),
            2 => said(miravoly_fast_copy_in(h, s, n, p, bytes, lent, q.source.as_ptr(), q.source.len(), align)),
            3 => said(miravoly_fast_fill(h, s, n, p, bytes, lent, size, align, 7)),
            4 => said(miravoly_fast_free(h, s, n, p, offset, old, old_align)),
            5 => said(miravoly_fast_grow(h, s, n, p, bytes, lent, offset, old, old_align, size, align)),
            6 => said(miravoly_fast_grow_zeroed(h, s, n, p, bytes, lent, offset, old, old_align, size, align)),
            7 => said(miravoly_fast_shrink(h, s, n, p, bytes, lent, offset, old, old_align, size, align)),
            8 => said(miravoly_fast_resize(h, s, n, p, bytes, lent, offset, old, old_align, size)),
            9 => said_token(miravoly_fast_allocate_with_token(h, s, n, p, bytes, lent, size, align)),
            10 => said(miravoly_fast_cancel(h, s, n, p, offset, q.count, q.pointer)),
            11 => said_part(miravoly_fast_lend(h, s, n, p, bytes, lent, offset, old, old_align)),
            other => panic!("entry {other} has no fast form"),
        }
    }
}

/// The record must be sound, and the region its own.
#[rustfmt::skip]
pub fn sound(q: &Request, a: &mut Record, region: &mut [u8]) -> Answer {
    let ([h, s, n, p], bytes, lent) = (parts(a), region.as_mut_ptr(), region.len());
    let (size, align, Named { offset, size: old, align: old_align }) = (q.size, q.align, q.block);
    // SAFETY: as above, and as the caller sees to it.
    unsafe {
        match q.entry {
            0 => said(miravoly_sound_reset(h, s, n, p)),
            1 => said(miravoly_sound_allocate(h, s, n, p, size, align)),
            2 => said(miravoly_sound_copy_in(h, s, n, p, bytes, lent, q.source.as_ptr(), q.source.len(), align)),
            3 => said(miravoly_sound_fill(h, s, n, p, bytes, lent, size, align, 7)),
            4 => said(miravoly_sound_free(h, s, n, p, offset, old, old_align)),
            5 => said(miravoly_sound_grow(h, s, n, p, bytes, lent, offset, old, old_align, size, align)),
            6 => said(miravoly_sound_grow_zeroed(h, s, n, p, bytes, lent, offset, old, old_align, size, align)),
            7 => said(miravoly_sound_shrink(h, s, n, p, bytes, lent, offset, old, old_align, size, align)),
            8 => said(miravoly_sound_resize(h, s, n, p, bytes, lent, offset, old, old_align, size)),
            9 => said_token(miravoly_sound_allocate_with_token(h, s, n, p, size, align)),
            10 => said(miravoly_sound_cancel(h, s, n, p, offset, q.count, q.pointer)),
            11 => said_part(miravoly_sound_lend(h, s, n, p, offset, old, old_align)),
            other => panic!("entry {other} has no sound form"),
        }
    }
}
