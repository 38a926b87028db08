use crate::entries::Named;

/// Bytes that an [`Arena`](crate::Arena) gave out.
///
/// Only an arena makes one, and it can't be copied: a call that ends the block takes it away. The arena knows its own blocks,
/// so a block of another arena, or from before a reset, is refused with [`Refusal::Block`](crate::Refusal::Block).
///
/// ```compile_fail
/// # let mut region = [0; 1024];
/// # let mut arena = miravoly::Arena::new(&mut region).unwrap();
/// let block = arena.allocate(10, 1).unwrap();
/// arena.free(block).unwrap();
/// arena.bytes(&block); // it was freed
/// ```
///
/// ```compile_fail
/// # let mut region = [0; 1024];
/// # let mut arena = miravoly::Arena::new(&mut region).unwrap();
/// let block = arena.allocate(10, 1).unwrap();
/// arena.free(block.clone()).unwrap(); // there is one block
/// ```
#[derive(Debug, PartialEq, Eq)]
#[must_use = "the block's bytes stay taken until the arena is reset"]
pub struct Block {
    pub(crate) arena: u64,
    /// A new one for each block that the arena gives, so that a moved block is not its old self.
    pub(crate) serial: u64,
    pub(crate) at: Named,
}

impl Block {
    /// Where its bytes begin in the region.
    pub fn offset(&self) -> usize {
        self.at.offset
    }

    pub fn size(&self) -> usize {
        self.at.size
    }

    pub fn align(&self) -> usize {
        self.at.align
    }
}

/// What was there before a block was allocated, to go back to it. It is void once its block is freed or moved.
///
/// ```compile_fail
/// # let mut region = [0; 1024];
/// # let mut arena = miravoly::Arena::new(&mut region).unwrap();
/// let (block, token) = arena.allocate_with_token(10, 1).unwrap();
/// arena.cancel(block, token.clone()).unwrap(); // there is one token
/// ```
#[derive(Debug, PartialEq, Eq)]
pub struct Token {
    pub(crate) arena: u64,
    pub(crate) serial: u64,
    pub(crate) count: usize,
    pub(crate) pointer: usize,
}

impl Token {
    /// How many chunks were held.
    pub fn count(&self) -> usize {
        self.count
    }

    /// The current chunk's pointer, or 0 with no chunk.
    pub fn pointer(&self) -> usize {
        self.pointer
    }
}
