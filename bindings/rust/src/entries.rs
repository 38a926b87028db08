//! The proved entries as they are: a record that is lent and changed in place, plain numbers in, plain numbers out.
//!
//! Any record and any numbers may be passed; what does not suit is refused by its number. So these functions are safe. They
//! don't know which blocks are live: [`Arena`](crate::Arena) does.
//!
//! The `unsafe` blocks of this file have one reason. The record is a reference to a struct of the layout that the archive uses. A
//! slice goes as its pointer and its length, and outlives the call, which keeps nothing. The entries are proved to end, to touch
//! nothing but the record and the bytes of these slices, and to write only in those that are `mut` here. Rust's borrowing sees to
//! it that record, region and source share no byte.

/// The arena's record. Any numbers may stand in it.
#[repr(C)]
#[derive(Clone, Copy, Debug, PartialEq, Eq)]
pub struct Record {
    /// The region's length.
    pub region: usize,
    /// The minimum alignment.
    pub minimum: usize,
    /// 1 where there is a limit, else 0.
    pub limited: usize,
    pub limit: usize,
    /// How many chunks are held. The last is current.
    pub count: usize,
    pub starts: [usize; 32],
    /// The chunks' usable sizes.
    pub sizes: [usize; 32],
    /// What lies from a chunk's pointer to its end is given out.
    pub pointers: [usize; 32],
}

impl Record {
    /// An empty arena in a region of no bytes, as a refused creation stores it.
    pub const EMPTY: Record = Record {
        region: 0,
        minimum: 1,
        limited: 0,
        limit: 0,
        count: 0,
        starts: [0; 32],
        sizes: [0; 32],
        pointers: [0; 32],
    };
}

/// A refusal's number or 0, and the block's offset or 0.
#[repr(C)]
#[derive(Clone, Copy, Debug, PartialEq, Eq)]
pub struct Said {
    pub refusal: usize,
    pub offset: usize,
}

/// The same, with the block's token.
#[repr(C)]
#[derive(Clone, Copy, Debug, PartialEq, Eq)]
pub struct SaidToken {
    pub refusal: usize,
    pub offset: usize,
    pub count: usize,
    pub pointer: usize,
}

/// A refusal's number or 0, and a part of the region.
#[repr(C)]
#[derive(Clone, Copy, Debug, PartialEq, Eq)]
pub struct SaidPart {
    pub refusal: usize,
    pub offset: usize,
    pub length: usize,
}

/// The same of a step of the walk, with the number of parts from this one on.
#[repr(C)]
#[derive(Clone, Copy, Debug, PartialEq, Eq)]
pub struct SaidStep {
    pub refusal: usize,
    pub left: usize,
    pub offset: usize,
    pub length: usize,
}

/// A block by its numbers, for the calls that name one.
#[derive(Clone, Copy, Debug, PartialEq, Eq)]
pub struct Named {
    pub offset: usize,
    pub size: usize,
    pub align: usize,
}

mod border {
    use super::{Record, Said, SaidPart, SaidStep, SaidToken};

    #[link(name = "host", kind = "static")]
    #[rustfmt::skip]
    extern "C" {
        pub fn miravoly_create(a: &mut Record, region: usize, minimum: usize, capacity: usize) -> Said;
        pub fn miravoly_set_limit(a: &mut Record, limit: usize) -> Said;
        pub fn miravoly_no_limit(a: &mut Record) -> Said;
        pub fn miravoly_reset(a: &mut Record) -> Said;
        pub fn miravoly_allocate(a: &mut Record, region: *const u8, lent: usize, size: usize, align: usize) -> Said;
        pub fn miravoly_copy_in(a: &mut Record, region: *mut u8, lent: usize,
            source: *const u8, length: usize, align: usize) -> Said;
        pub fn miravoly_fill(a: &mut Record, region: *mut u8, lent: usize, size: usize, align: usize, value: u8) -> Said;
        pub fn miravoly_free(a: &mut Record, offset: usize, size: usize, align: usize) -> Said;
        pub fn miravoly_grow(a: &mut Record, region: *mut u8, lent: usize,
            offset: usize, old: usize, old_align: usize, new: usize, new_align: usize) -> Said;
        pub fn miravoly_grow_zeroed(a: &mut Record, region: *mut u8, lent: usize,
            offset: usize, old: usize, old_align: usize, new: usize, new_align: usize) -> Said;
        pub fn miravoly_shrink(a: &mut Record, region: *mut u8, lent: usize,
            offset: usize, old: usize, old_align: usize, new: usize, new_align: usize) -> Said;
        pub fn miravoly_resize(a: &mut Record, region: *mut u8, lent: usize,
            offset: usize, old: usize, align: usize, new: usize) -> Said;
        pub fn miravoly_allocate_with_token(a: &mut Record, region: *const u8, lent: usize, size: usize, align: usize) -> SaidToken;
        pub fn miravoly_cancel(a: &mut Record, offset: usize, count: usize, pointer: usize) -> Said;
        pub fn miravoly_lend(a: &Record, region: *const u8, lent: usize, offset: usize, size: usize, align: usize) -> SaidPart;
        pub fn miravoly_walk(a: &Record, region: *const u8, lent: usize, index: usize) -> SaidStep;
    }
}

pub fn create(a: &mut Record, region: usize, minimum: usize, capacity: usize) -> Said {
    // SAFETY: as above; no bytes are lent.
    unsafe { border::miravoly_create(a, region, minimum, capacity) }
}

pub fn set_limit(a: &mut Record, limit: usize) -> Said {
    // SAFETY: as above; no bytes are lent.
    unsafe { border::miravoly_set_limit(a, limit) }
}

pub fn no_limit(a: &mut Record) -> Said {
    // SAFETY: as above; no bytes are lent.
    unsafe { border::miravoly_no_limit(a) }
}

pub fn reset(a: &mut Record) -> Said {
    // SAFETY: as above; no bytes are lent.
    unsafe { border::miravoly_reset(a) }
}

pub fn allocate(a: &mut Record, region: &[u8], size: usize, align: usize) -> Said {
    // SAFETY: as above; no byte of the region is written.
    unsafe { border::miravoly_allocate(a, region.as_ptr(), region.len(), size, align) }
}

pub fn copy_in(a: &mut Record, region: &mut [u8], source: &[u8], align: usize) -> Said {
    let (bytes, lent) = (region.as_mut_ptr(), region.len());
    // SAFETY: as above; the source is read, and the region written.
    unsafe { border::miravoly_copy_in(a, bytes, lent, source.as_ptr(), source.len(), align) }
}

pub fn fill(a: &mut Record, region: &mut [u8], size: usize, align: usize, value: u8) -> Said {
    // SAFETY: as above; the region is written.
    unsafe { border::miravoly_fill(a, region.as_mut_ptr(), region.len(), size, align, value) }
}

pub fn free(a: &mut Record, block: Named) -> Said {
    // SAFETY: as above; no bytes are lent.
    unsafe { border::miravoly_free(a, block.offset, block.size, block.align) }
}

pub fn grow(a: &mut Record, region: &mut [u8], block: Named, size: usize, align: usize) -> Said {
    let (bytes, lent) = (region.as_mut_ptr(), region.len());
    // SAFETY: as above; the region is written.
    unsafe {
        border::miravoly_grow(
            a,
            bytes,
            lent,
            block.offset,
            block.size,
            block.align,
            size,
            align,
        )
    }
}

pub fn grow_zeroed(
    a: &mut Record,
    region: &mut [u8],
    block: Named,
    size: usize,
    align: usize,
) -> Said {
    let (bytes, lent) = (region.as_mut_ptr(), region.len());
    // SAFETY: as above; the region is written.
    unsafe {
        border::miravoly_grow_zeroed(
            a,
            bytes,
            lent,
            block.offset,
            block.size,
            block.align,
            size,
            align,
        )
    }
}

pub fn shrink(a: &mut Record, region: &mut [u8], block: Named, size: usize, align: usize) -> Said {
    let (bytes, lent) = (region.as_mut_ptr(), region.len());
    // SAFETY: as above; the region is written.
    unsafe {
        border::miravoly_shrink(
            a,
            bytes,
            lent,
            block.offset,
            block.size,
            block.align,
            size,
            align,
        )
    }
}

pub fn resize(a: &mut Record, region: &mut [u8], block: Named, size: usize) -> Said {
    let (bytes, lent) = (region.as_mut_ptr(), region.len());
    // SAFETY: as above; the region is written.
    unsafe { border::miravoly_resize(a, bytes, lent, block.offset, block.size, block.align, size) }
}

pub fn allocate_with_token(a: &mut Record, region: &[u8], size: usize, align: usize) -> SaidToken {
    // SAFETY: as above; no byte of the region is written.
    unsafe { border::miravoly_allocate_with_token(a, region.as_ptr(), region.len(), size, align) }
}

pub fn cancel(a: &mut Record, offset: usize, count: usize, pointer: usize) -> Said {
    // SAFETY: as above; no bytes are lent.
    unsafe { border::miravoly_cancel(a, offset, count, pointer) }
}

pub fn lend(a: &Record, region: &[u8], block: Named) -> SaidPart {
    let (bytes, lent) = (region.as_ptr(), region.len());
    // SAFETY: as above; neither record nor region is written.
    unsafe { border::miravoly_lend(a, bytes, lent, block.offset, block.size, block.align) }
}

pub fn walk(a: &Record, region: &[u8], index: usize) -> SaidStep {
    // SAFETY: as above; neither record nor region is written.
    unsafe { border::miravoly_walk(a, region.as_ptr(), region.len(), index) }
}
