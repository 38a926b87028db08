use crate::entries::{Named, Record, Said};
use crate::sound::Sound;
use crate::{Block, Guard, Refusal, Refused, Token, Walk};
use std::fmt;
use std::sync::atomic::{AtomicU64, Ordering};

static NEXT_ARENA: AtomicU64 = AtomicU64::new(0);

/// An arena in a region that it borrows.
///
/// Its record is made by a creation that was served, and only the proved calls change it, so it is sound from then on, and no call
/// but the walk and those on the limit tests it again.
///
/// A block that isn't a live one of this arena is refused [`Refusal::Block`], by [`cancel`](Arena::cancel)
/// [`Refusal::Token`], before anything else is looked at.
pub struct Arena<'r> {
    sound: Sound<'r>,
    identity: u64,
    next_serial: u64,
    /// Blocks of lower serials were ended by a reset.
    first_live: u64,
}

impl<'r> Arena<'r> {
    /// With minimum alignment 1, and no chunk yet.
    pub fn new(region: &'r mut [u8]) -> Result<Arena<'r>, Refusal> {
        Arena::with_min_align_and_capacity(region, 1, 0)
    }

    /// The minimum alignment is 1, 2, 4, 8 or 16. A first chunk is taken for `capacity` bytes; 0 takes none.
    pub fn with_min_align_and_capacity(
        region: &'r mut [u8],
        minimum: usize,
        capacity: usize,
    ) -> Result<Arena<'r>, Refusal> {
        Ok(Arena {
            sound: Sound::create(region, minimum, capacity)?,
            identity: NEXT_ARENA.fetch_add(1, Ordering::Relaxed),
            next_serial: 0,
            first_live: 0,
        })
    }

    /// A block of `size` bytes, which are those that stood there.
    pub fn allocate(&mut self, size: usize, align: usize) -> Result<Block, Refusal> {
        let said = self.sound.allocate(size, align);
        self.given(said.refusal, said.offset, size, align)
    }

    /// A block with a copy of the source.
    pub fn copy_in(&mut self, source: &[u8], align: usize) -> Result<Block, Refusal> {
        let said = self.sound.copy_in(source, align);
        self.given(said.refusal, said.offset, source.len(), align)
    }

    /// A block of `size` bytes of one value.
    pub fn fill(&mut self, size: usize, align: usize, value: u8) -> Result<Block, Refusal> {
        let said = self.sound.fill(size, align, value);
        self.given(said.refusal, said.offset, size, align)
    }

    /// Ends the block. Only the newest block's room is given back.
    pub fn free(&mut self, block: Block) -> Result<(), Refused<Block>> {
        let told = if self.knows(&block) {
            Refusal::heard(self.sound.free(block.at).refusal)
        } else {
            Err(Refusal::Block)
        };
        told.map_err(Refused::giving_back(block))
    }

    /// A larger block in place of this one, with its bytes carried over. The bytes after them are those that stood there.
    pub fn grow(
        &mut self,
        block: Block,
        size: usize,
        align: usize,
    ) -> Result<Block, Refused<Block>> {
        self.moved(block, size, align, |sound, at| sound.grow(at, size, align))
    }

    /// The same, with the bytes after them cleared.
    pub fn grow_zeroed(
        &mut self,
        block: Block,
        size: usize,
        align: usize,
    ) -> Result<Block, Refused<Block>> {
        self.moved(block, size, align, |sound, at| {
            sound.grow_zeroed(at, size, align)
        })
    }

    /// A smaller block in place of this one, with its first bytes.
    pub fn shrink(
        &mut self,
        block: Block,
        size: usize,
        align: usize,
    ) -> Result<Block, Refused<Block>> {
        self.moved(block, size, align, |sound, at| {
            sound.shrink(at, size, align)
        })
    }

    /// Grow or shrink, as the sizes say, with the alignment kept.
    pub fn resize(&mut self, block: Block, size: usize) -> Result<Block, Refused<Block>> {
        let align = block.align();
        self.moved(block, size, align, |sound, at| sound.resize(at, size))
    }

    /// A block, and a token to go back by.
    pub fn allocate_with_token(
        &mut self,
        size: usize,
        align: usize,
    ) -> Result<(Block, Token), Refusal> {
        let said = self.sound.allocate_with_token(size, align);
        let block = self.given(said.refusal, said.offset, size, align)?;
        let token = Token {
            arena: block.arena,
            serial: block.serial,
            count: said.count,
            pointer: said.pointer,
        };
        Ok((block, token))
    }

    /// Ends the block and, if it is the newest, takes back all that its allocation took from the chunk.
    pub fn cancel(&mut self, block: Block, token: Token) -> Result<(), Refused<(Block, Token)>> {
        let paired = (token.arena, token.serial) == (block.arena, block.serial);
        let told = if paired && self.knows(&block) {
            let said = self
                .sound
                .cancel(block.offset(), token.count, token.pointer);
            Refusal::heard(said.refusal)
        } else {
            Err(Refusal::Token)
        };
        told.map_err(Refused::giving_back((block, token)))
    }

    /// A block that is taken back when its guard is dropped, unless it is [kept](Guard::keep).
    pub fn guarded(&mut self, size: usize, align: usize) -> Result<Guard<'_, 'r>, Refusal> {
        let (block, token) = self.allocate_with_token(size, align)?;
        Ok(Guard::new(self, block, token))
    }

    /// Ends every block. The current chunk and the limit are kept.
    pub fn reset(&mut self) -> Result<(), Refusal> {
        Refusal::heard(self.sound.reset().refusal)?;
        self.first_live = self.next_serial;
        Ok(())
    }

    /// Bounds the bytes that chunks may hold. A limit below the bytes held already counts as none.
    pub fn set_limit(&mut self, limit: usize) -> Result<(), Refusal> {
        Refusal::heard(self.sound.set_limit(limit).refusal)
    }

    pub fn no_limit(&mut self) -> Result<(), Refusal> {
        Refusal::heard(self.sound.no_limit().refusal)
    }

    /// The block's own bytes.
    pub fn bytes(&self, block: &Block) -> Result<&[u8], Refusal> {
        let (from, to) = self.lent(block)?;
        Ok(&self.region()[from..to])
    }

    /// The block's own bytes, for writing.
    pub fn bytes_mut(&mut self, block: &Block) -> Result<&mut [u8], Refusal> {
        let (from, to) = self.lent(block)?;
        Ok(&mut self.sound.region_mut()[from..to])
    }

    /// Writes the source from the block's first byte on. Refused [`Refusal::Size`] where it is longer than the block.
    pub fn write(&mut self, block: &Block, source: &[u8]) -> Result<(), Refusal> {
        let bytes = self.bytes_mut(block)?;
        let part = bytes.get_mut(..source.len()).ok_or(Refusal::Size)?;
        part.copy_from_slice(source);
        Ok(())
    }

    /// Each chunk's bytes that are given out, newest chunk first.
    pub fn walk(&self) -> Result<Walk<'_>, Refusal> {
        Walk::new(self)
    }

    /// The sum of the held chunks' usable sizes.
    pub fn held_bytes(&self) -> usize {
        self.record().sizes[..self.record().count].iter().sum()
    }

    pub fn limit(&self) -> Option<usize> {
        (self.record().limited == 1).then_some(self.record().limit)
    }

    /// To read.
    ///
    /// ```compile_fail
    /// # let mut region = [0; 1024];
    /// # let mut arena = miravoly::Arena::new(&mut region).unwrap();
    /// arena.record().count = 33; // only the calls change it
    /// ```
    pub fn record(&self) -> &Record {
        self.sound.record()
    }

    /// Every lent byte, to read.
    pub fn region(&self) -> &[u8] {
        self.sound.region()
    }

    /// The proved calls take a stale block whose numbers suit the arena, so it is caught here.
    fn knows(&self, block: &Block) -> bool {
        block.arena == self.identity && self.first_live <= block.serial
    }

    fn given(
        &mut self,
        refusal: usize,
        offset: usize,
        size: usize,
        align: usize,
    ) -> Result<Block, Refusal> {
        Refusal::heard(refusal)?;
        let serial = self.next_serial;
        self.next_serial += 1;
        Ok(Block {
            arena: self.identity,
            serial,
            at: Named {
                offset,
                size,
                align,
            },
        })
    }

    fn moved(
        &mut self,
        block: Block,
        size: usize,
        align: usize,
        call: impl FnOnce(&mut Sound<'r>, Named) -> Said,
    ) -> Result<Block, Refused<Block>> {
        if !self.knows(&block) {
            return Err(Refused::giving_back(block)(Refusal::Block));
        }
        let said = call(&mut self.sound, block.at);
        let new = self.given(said.refusal, said.offset, size, align);
        new.map_err(Refused::giving_back(block))
    }

    fn lent(&self, block: &Block) -> Result<(usize, usize), Refusal> {
        if !self.knows(block) {
            return Err(Refusal::Block);
        }
        let part = self.sound.lend(block.at);
        Refusal::heard(part.refusal)?;
        Ok((part.offset, part.offset + part.length))
    }
}

/// Without the region's bytes.
impl fmt::Debug for Arena<'_> {
    fn fmt(&self, f: &mut fmt::Formatter<'_>) -> fmt::Result {
        f.debug_struct("Arena")
            .field("record", self.record())
            .finish_non_exhaustive()
    }
}
