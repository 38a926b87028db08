//! A memory arena over a region of bytes that you lend. Its calls are proved in Rattle against definitions written from the
//! paper that says what it must do; this crate is the thin layer over them, and it is tested.
//!
//! ```
//! use miravoly::{Arena, Refusal};
//!
//! # fn main() -> Result<(), Refusal> {
//! let mut region = vec![0; 65_536];
//! let mut arena = Arena::new(&mut region)?;
//! for read in ["ACGTACGTAC", "GATTACA"] {
//!     let hits = arena.copy_in(read.as_bytes(), 1)?;
//!     let hits = arena.grow_zeroed(hits, 20, 1)?;
//!     assert!(arena.bytes(&hits)?.starts_with(read.as_bytes()));
//!     arena.reset()?; // between two reads: every block ends
//! }
//! # Ok(())
//! # }
//! ```
//!
//! * The arena runs downward: also the newest block moves when it grows. So a call that moves or ends a [`Block`] takes it and
//!   gives another.
//! * Only the newest block's room is given back by [`Arena::free`].
//! * [`Arena::guarded`] gives a block that is taken back with its [`Guard`], for a value that may not come about.
//! * A refusal changes nothing, and gives the block back in [`Refused`]. [`Refusal::Room`] doesn't mean that the region is full.
//! * Regions and sizes go up to [`LARGEST`] bytes, alignments are powers of two up to [`LARGEST_ALIGN`].
//! * An alignment is one of the offset. For aligned addresses lend a region that begins at a multiple of 4,096.
//!
//! The archives `libhost.a` and `libfast.a` have the proved calls, for x86-64: `tools/build host fast` writes
//! them, and the build looks for them in the folder that `MIRAVOLY_ARCHIVE` names.
#![deny(unsafe_code)]
#![warn(missing_debug_implementations)]

#[cfg(not(target_arch = "x86_64"))]
compile_error!("the archives are for x86-64");

mod arena;
mod block;
#[allow(unsafe_code)]
pub mod entries;
mod guard;
mod refusal;
#[allow(unsafe_code)]
mod sound;
mod walk;

pub use arena::Arena;
pub use block::{Block, Token};
pub use guard::Guard;
pub use refusal::{Refusal, Refused};
pub use walk::Walk;

/// The largest region, and the largest size.
pub const LARGEST: usize = 1_073_741_824;

pub const LARGEST_ALIGN: usize = 4_096;

/// The examples of the bindings' README.
#[cfg(doctest)]
#[doc = include_str!("../../README.md")]
struct Readme;
