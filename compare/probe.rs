/// Appended to a copy of bumpalo's lib.rs: reaches what is private there (the footers, `realloc`, the rewind guard).
/// The lines above it are the crate's own.
#[doc(hidden)]
#[allow(missing_docs, missing_debug_implementations)]
pub mod probe {
    use super::*;

    /// A chunk as the Rust holds it: its first address, usable size and bump pointer.
    #[derive(Clone, Copy)]
    pub struct Held {
        pub data: usize,
        pub usable: usize,
        pub pointer: usize,
    }

    /// The held chunks, newest first.
    pub struct Chunks(NonNull<ChunkFooter>);

    pub fn chunks<const M: usize>(bump: &Bump<M>) -> Chunks {
        Chunks(bump.current_chunk_footer.get())
    }

    impl Iterator for Chunks {
        type Item = Held;

        fn next(&mut self) -> Option<Held> {
            let f = unsafe { self.0.as_ref() };
            if f.is_empty() {
                return None;
            }
            self.0 = f.prev.get();
            Some(Held { data: f.data.as_ptr() as usize, usable: f.layout.size() - FOOTER_SIZE, pointer: f.ptr.get().as_ptr() as usize })
        }
    }

    pub unsafe fn realloc<const M: usize>(mut bump: &Bump<M>, ptr: NonNull<u8>, old: Layout, size: usize) -> Result<NonNull<u8>, AllocErr> {
        alloc::Alloc::realloc(&mut bump, ptr, old, size)
    }

    /// What a rewind guard keeps, taken out of it so that other calls can come before its drop.
    #[derive(Clone, Copy)]
    pub struct Token {
        ptr: NonNull<u8>,
        footer: NonNull<ChunkFooter>,
        footer_ptr: NonNull<u8>,
    }

    impl Token {
        pub fn block(&self) -> NonNull<u8> {
            self.ptr
        }
    }

    pub fn allocate_with_token<const M: usize>(bump: &Bump<M>, layout: Layout) -> Result<Token, AllocErr> {
        let guard = bump.try_alloc_layout_with_rewind(layout)?;
        let token = Token { ptr: guard.ptr, footer: guard.rewind_footer, footer_ptr: guard.rewind_footer_ptr };
        guard.finish();
        Ok(token)
    }

    pub unsafe fn cancel<const M: usize>(bump: &Bump<M>, token: Token) {
        drop(RewindGuard::new(bump, token.ptr, token.footer, token.footer_ptr))
    }
}
