//! A record together with the region that it was made for.
//!
//! The archive's entries `miravoly_sound_*` don't test the record. They require that it is sound, and that the region lent has the
//! length that stands in it. Both hold of every [`Sound`]:
//!
//! * Its fields are private to this file, and [`Sound::create`] alone makes one, from a creation that was served: the record is
//!   then sound and has the region's length (`created-started` in `crates/arena/proofs/StaysSound.antt`, by `standing-sound` in
//!   `Standing.antt` beside it).
//! * Only the proved calls are handed the record to change, and they are proved to leave a sound one with the same length: ten of
//!   them by `run_sound` and `run-region` in `crates/requests/proofs/Keeping.antt`. By their contracts copy_in and fill change the
//!   record as allocate does, and grow_zeroed as grow.
//! * Record and region move together. A slice's length doesn't change, and its bytes may be anything.
//!
//! The `unsafe` blocks of this file have that reason, and those of `entries.rs`: a slice goes as its pointer and its length and
//! outlives the call, which keeps nothing; the entries are proved to end, and to touch nothing but the record and the bytes of
//! these slices; borrowing sees to it that record, region and source share no byte.
use crate::entries::{self, Named, Record, Said, SaidPart, SaidToken};
use crate::Refusal;
use std::ptr::{addr_of, addr_of_mut};

mod border {
    use super::{Said, SaidPart, SaidToken};

    /// The five numbers of a record from `region` to `count`.
    pub type Head = [usize; 5];
    pub type Column = [usize; 32];

    /// What grow, grow_zeroed and shrink have in common.
    #[rustfmt::skip]
    pub type Move = unsafe extern "C" fn(
        head: *mut Head, starts: *mut Column, sizes: *mut Column, pointers: *mut Column, region: *mut u8, lent: usize,
        offset: usize, old: usize, old_align: usize, new: usize, new_align: usize) -> Said;

    #[link(name = "fast", kind = "static")]
    #[rustfmt::skip]
    extern "C" {
        pub fn miravoly_sound_reset(head: *mut Head, starts: *mut Column, sizes: *mut Column, pointers: *mut Column) -> Said;
        pub fn miravoly_sound_allocate(head: *mut Head, starts: *mut Column, sizes: *mut Column, pointers: *mut Column,
            size: usize, align: usize) -> Said;
        pub fn miravoly_sound_copy_in(head: *mut Head, starts: *mut Column, sizes: *mut Column, pointers: *mut Column,
            region: *mut u8, lent: usize, source: *const u8, length: usize, align: usize) -> Said;
        pub fn miravoly_sound_fill(head: *mut Head, starts: *mut Column, sizes: *mut Column, pointers: *mut Column,
            region: *mut u8, lent: usize, size: usize, align: usize, value: u8) -> Said;
        pub fn miravoly_sound_free(head: *mut Head, starts: *mut Column, sizes: *mut Column, pointers: *mut Column,
            offset: usize, size: usize, align: usize) -> Said;
        pub fn miravoly_sound_grow(head: *mut Head, starts: *mut Column, sizes: *mut Column, pointers: *mut Column,
            region: *mut u8, lent: usize, offset: usize, old: usize, old_align: usize, new: usize, new_align: usize) -> Said;
        pub fn miravoly_sound_grow_zeroed(head: *mut Head, starts: *mut Column, sizes: *mut Column, pointers: *mut Column,
            region: *mut u8, lent: usize, offset: usize, old: usize, old_align: usize, new: usize, new_align: usize) -> Said;
        pub fn miravoly_sound_shrink(head: *mut Head, starts: *mut Column, sizes: *mut Column, pointers: *mut Column,
            region: *mut u8, lent: usize, offset: usize, old: usize, old_align: usize, new: usize, new_align: usize) -> Said;
        pub fn miravoly_sound_resize(head: *mut Head, starts: *mut Column, sizes: *mut Column, pointers: *mut Column,
            region: *mut u8, lent: usize, offset: usize, old: usize, align: usize, new: usize) -> Said;
        pub fn miravoly_sound_allocate_with_token(head: *mut Head, starts: *mut Column, sizes: *mut Column, pointers: *mut Column,
            size: usize, align: usize) -> SaidToken;
        pub fn miravoly_sound_cancel(head: *mut Head, starts: *mut Column, sizes: *mut Column, pointers: *mut Column,
            offset: usize, count: usize, pointer: usize) -> Said;
        pub fn miravoly_sound_lend(head: *const Head, starts: *const Column, sizes: *const Column, pointers: *const Column,
            offset: usize, size: usize, align: usize) -> SaidPart;
    }
}

pub(crate) struct Sound<'r> {
    record: Record,
    region: &'r mut [u8],
}

/// Where the parts of one record are, and the bytes of its region.
struct Parts {
    head: *mut border::Head,
    starts: *mut border::Column,
    sizes: *mut border::Column,
    pointers: *mut border::Column,
    region: *mut u8,
    lent: usize,
}

// In a call across the border the parts have a line, and its own numbers another.
#[rustfmt::skip]
impl<'r> Sound<'r> {
    pub(crate) fn create(region: &'r mut [u8], minimum: usize, capacity: usize) -> Result<Sound<'r>, Refusal> {
        let mut record = Record::EMPTY;
        let said = entries::create(&mut record, region.len(), minimum, capacity);
        Refusal::heard(said.refusal)?;
        Ok(Sound { record, region })
    }

    pub(crate) fn record(&self) -> &Record {
        &self.record
    }

    pub(crate) fn region(&self) -> &[u8] {
        self.region
    }

    pub(crate) fn region_mut(&mut self) -> &mut [u8] {
        self.region
    }

    pub(crate) fn set_limit(&mut self, limit: usize) -> Said {
        entries::set_limit(&mut self.record, limit)
    }

    pub(crate) fn no_limit(&mut self) -> Said {
        entries::no_limit(&mut self.record)
    }

    pub(crate) fn reset(&mut self) -> Said {
        let p = self.parts();
        // SAFETY: as above; no bytes are lent.
        unsafe { border::miravoly_sound_reset(p.head, p.starts, p.sizes, p.pointers) }
    }

    pub(crate) fn allocate(&mut self, size: usize, align: usize) -> Said {
        let p = self.parts();
        // SAFETY: as above; no bytes are lent.
        unsafe { border::miravoly_sound_allocate(p.head, p.starts, p.sizes, p.pointers, size, align) }
    }

    pub(crate) fn copy_in(&mut self, source: &[u8], align: usize) -> Said {
        let p = self.parts();
        // SAFETY: as above; the source is read, and the region written.
        unsafe {
            border::miravoly_sound_copy_in(
                p.head, p.starts, p.sizes, p.pointers, p.region, p.lent,
                source.as_ptr(), source.len(), align,
            )
        }
    }

    pub(crate) fn fill(&mut self, size: usize, align: usize, value: u8) -> Said {
        let p = self.parts();
        // SAFETY: as above; the region is written.
        unsafe {
            border::miravoly_sound_fill(
                p.head, p.starts, p.sizes, p.pointers, p.region, p.lent,
                size, align, value,
            )
        }
    }

    pub(crate) fn free(&mut self, block: Named) -> Said {
        let p = self.parts();
        // SAFETY: as above; no bytes are lent.
        unsafe {
            border::miravoly_sound_free(
                p.head, p.starts, p.sizes, p.pointers,
                block.offset, block.size, block.align,
            )
        }
    }

    pub(crate) fn grow(&mut self, block: Named, size: usize, align: usize) -> Said {
        self.moved(border::miravoly_sound_grow, block, size, align)
    }

    pub(crate) fn grow_zeroed(&mut self, block: Named, size: usize, align: usize) -> Said {
        self.moved(border::miravoly_sound_grow_zeroed, block, size, align)
    }

    pub(crate) fn shrink(&mut self, block: Named, size: usize, align: usize) -> Said {
        self.moved(border::miravoly_sound_shrink, block, size, align)
    }

    pub(crate) fn resize(&mut self, block: Named, size: usize) -> Said {
        let p = self.parts();
        // SAFETY: as above; the region is written.
        unsafe {
            border::miravoly_sound_resize(
                p.head, p.starts, p.sizes, p.pointers, p.region, p.lent,
                block.offset, block.size, block.align, size,
            )
        }
    }

    pub(crate) fn allocate_with_token(&mut self, size: usize, align: usize) -> SaidToken {
        let p = self.parts();
        // SAFETY: as above; no bytes are lent.
        unsafe { border::miravoly_sound_allocate_with_token(p.head, p.starts, p.sizes, p.pointers, size, align) }
    }

    pub(crate) fn cancel(&mut self, offset: usize, count: usize, pointer: usize) -> Said {
        let p = self.parts();
        // SAFETY: as above; no bytes are lent.
        unsafe {
            border::miravoly_sound_cancel(
                p.head, p.starts, p.sizes, p.pointers,
                offset, count, pointer,
            )
        }
    }

    pub(crate) fn lend(&self, block: Named) -> SaidPart {
        let record: *const Record = &self.record;
        // SAFETY: as above; the record is read, and no bytes are lent.
        unsafe {
            border::miravoly_sound_lend(
                record.cast(), addr_of!((*record).starts), addr_of!((*record).sizes), addr_of!((*record).pointers),
                block.offset, block.size, block.align,
            )
        }
    }

    fn moved(&mut self, entry: border::Move, block: Named, size: usize, align: usize) -> Said {
        let p = self.parts();
        // SAFETY: as above; the region is written. The entry is one of the three that are named above.
        unsafe {
            entry(
                p.head, p.starts, p.sizes, p.pointers, p.region, p.lent,
                block.offset, block.size, block.align, size, align,
            )
        }
    }

    /// Every part is reached from one pointer to the whole record, so that the head's may go on from `region` to `count`.
    fn parts(&mut self) -> Parts {
        let length = self.record.region;
        let record: *mut Record = &mut self.record;
        // SAFETY: the pointer is that of a record; places in it are named, and nothing is read.
        let (starts, sizes, pointers) = unsafe {
            (
                addr_of_mut!((*record).starts),
                addr_of_mut!((*record).sizes),
                addr_of_mut!((*record).pointers),
            )
        };
        let parts = Parts {
            head: record.cast(),
            starts,
            sizes,
            pointers,
            region: self.region.as_mut_ptr(),
            lent: self.region.len(),
        };
        // The entries don't look at it.
        debug_assert_eq!(parts.lent, length);
        parts
    }
}
