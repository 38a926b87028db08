use crate::{Arena, Block, Refusal, Token};

/// A new block together with its token, from [`Arena::guarded`]. When the guard is dropped, by `?` or in a panic too, the block is
/// taken back as by [`Arena::cancel`]. [`keep`](Guard::keep) hands the block over instead. Where a reset has ended the block,
/// nothing is taken back.
///
/// A read with an unknown base gets no block:
///
/// ```
/// use miravoly::{Arena, Block, Refusal};
///
/// fn read_in(arena: &mut Arena, read: &[u8]) -> Result<Option<Block>, Refusal> {
///     let mut guard = arena.guarded(read.len(), 1)?;
///     for (place, base) in guard.bytes_mut()?.iter_mut().zip(read) {
///         if !b"ACGT".contains(base) {
///             return Ok(None);
///         }
///         *place = *base;
///     }
///     Ok(Some(guard.keep()))
/// }
///
/// # fn main() -> Result<(), Refusal> {
/// let mut region = vec![0; 65_536];
/// let mut arena = Arena::new(&mut region)?;
/// let first = read_in(&mut arena, b"ACGT")?.unwrap();
/// let before = *arena.record();
/// assert!(read_in(&mut arena, b"GATTXCA")?.is_none());
/// assert_eq!(arena.record(), &before);
/// assert_eq!(arena.bytes(&first)?, b"ACGT");
/// # Ok(())
/// # }
/// ```
#[derive(Debug)]
#[must_use = "a guard that is dropped takes its block back"]
pub struct Guard<'a, 'r> {
    arena: &'a mut Arena<'r>,
    /// None only once it is kept.
    held: Option<(Block, Token)>,
}

impl<'a, 'r> Guard<'a, 'r> {
    pub(crate) fn new(arena: &'a mut Arena<'r>, block: Block, token: Token) -> Guard<'a, 'r> {
        Guard {
            arena,
            held: Some((block, token)),
        }
    }

    pub fn block(&self) -> &Block {
        held_block(&self.held)
    }

    /// The block's own bytes. Refused [`Refusal::Block`] where a reset has ended it.
    pub fn bytes(&self) -> Result<&[u8], Refusal> {
        self.arena.bytes(self.block())
    }

    /// The same, for writing.
    pub fn bytes_mut(&mut self) -> Result<&mut [u8], Refusal> {
        self.arena.bytes_mut(held_block(&self.held))
    }

    /// The arena, for any call. While a block that is allocated by it is live, the guarded one isn't the newest: dropped, the guard
    /// then ends its block, but gives no room back.
    pub fn arena(&mut self) -> &mut Arena<'r> {
        self.arena
    }

    /// Hands the block over. It is then as one of [`Arena::allocate`].
    pub fn keep(mut self) -> Block {
        let (block, _) = self.held.take().expect(HELD);
        block
    }
}

impl Drop for Guard<'_, '_> {
    fn drop(&mut self) {
        if let Some((block, token)) = self.held.take() {
            // Refused only where the block has ended by a reset, or another arena was put in the place of its own. There is nothing
            // to take back then, and nobody to tell.
            let _ = self.arena.cancel(block, token);
        }
    }
}

const HELD: &str = "a guard has its block until it is kept or dropped";

/// Of the field, so that the arena may be borrowed beside it.
fn held_block(held: &Option<(Block, Token)>) -> &Block {
    let (block, _) = held.as_ref().expect(HELD);
    block
}
