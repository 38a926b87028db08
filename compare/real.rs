// bumpalo itself, over the placing allocator.
use crate::placing::{self, serving};
use crate::request::{lay, pattern, Answer, Block, Chunk, Part, Request, Side, Token, NO_TOKEN, ROOM};
use bumpalo::{probe, AllocErr, Bump};
use std::alloc::{AllocError, Allocator, Layout};
use std::collections::HashMap;
use std::ptr::NonNull;

enum Any {
    None,
    One(Bump<1>),
    Two(Bump<2>),
    Four(Bump<4>),
    Eight(Bump<8>),
    Sixteen(Bump<16>),
}

// The same expression for each minimum alignment, which is a constant of the Rust's type.
macro_rules! each {
    ($any:expr, $b:ident => $e:expr, $none:expr) => {
        match $any {
            Any::None => $none,
            Any::One($b) => $e,
            Any::Two($b) => $e,
            Any::Four($b) => $e,
            Any::Eight($b) => $e,
            Any::Sixteen($b) => $e,
        }
    };
}

pub struct Real {
    bump: Any,
    tokens: HashMap<(usize, Token), probe::Token>,
}

fn layout(size: usize, align: usize) -> Layout {
    Layout::from_size_align(size, align).unwrap()
}

fn old(block: &Block) -> Layout {
    layout(block.size, block.align)
}

fn pointer(offset: usize) -> NonNull<u8> {
    NonNull::new(placing::base().wrapping_add(offset)).unwrap()
}

fn offset(p: NonNull<u8>) -> usize {
    p.as_ptr() as usize - placing::base() as usize
}

fn at(p: Result<NonNull<u8>, AllocErr>) -> Answer {
    p.map_or(Answer::Refused(ROOM), |p| Answer::At(offset(p)))
}

// What the Rust's Allocator calls answer.
fn moved(p: Result<NonNull<[u8]>, AllocError>) -> Answer {
    at(p.map(|p| p.cast()).map_err(|_| AllocErr))
}

// The copy and the fill of the Rust go by an element's type: one type for each alignment, as long as it is aligned.
macro_rules! elements {
    ($($name:ident $align:literal)*) => {
        $(#[repr(C, align($align))] #[derive(Clone, Copy)] struct $name([u8; $align]);)*

        fn copy_in<const M: usize>(b: &Bump<M>, size: usize, align: usize, p: u8) -> Answer {
            match align {
                $($align => {
                    let source: Vec<$name> = (0..size / $align).map(|k| {
                        let mut element = $name([0; $align]);
                        for i in 0..$align { element.0[i] = pattern(p, k * $align + i); }
                        element
                    }).collect();
                    at(serving(|| b.try_alloc_slice_copy(&source).map(|s| NonNull::from(s).cast())))
                })*
                _ => unreachable!(),
            }
        }

        fn fill<const M: usize>(b: &Bump<M>, size: usize, align: usize, value: u8) -> Answer {
            match align {
                $($align => at(serving(|| b.try_alloc_slice_fill_copy(size / $align, $name([value; $align])).map(|s| NonNull::from(s).cast()))),)*
                _ => unreachable!(),
            }
        }
    };
}

elements! { A1 1 A2 2 A4 4 A8 8 A16 16 A32 32 A64 64 A128 128 A256 256 A512 512 A1024 1024 A2048 2048 A4096 4096 }

fn created<const M: usize>(capacity: usize, wrap: fn(Bump<M>) -> Any) -> Any {
    serving(|| Bump::<M>::try_with_min_align_and_capacity(capacity)).map_or(Any::None, wrap)
}

impl Real {
    pub fn new() -> Real {
        Real { bump: Any::None, tokens: HashMap::new() }
    }

    fn create(&mut self, minimum: usize, region: usize, capacity: usize, background: u8) -> Answer {
        self.bump = Any::None;
        self.tokens.clear();
        placing::lend(region);
        lay(placing::region(), background);
        self.bump = match minimum {
            1 => created(capacity, Any::One),
            2 => created(capacity, Any::Two),
            4 => created(capacity, Any::Four),
            8 => created(capacity, Any::Eight),
            16 => created(capacity, Any::Sixteen),
            _ => unreachable!(),
        };
        if let Any::None = self.bump {
            Answer::Refused(ROOM)
        } else {
            Answer::Done
        }
    }

    pub fn newest_first(&self) -> impl Iterator<Item = Chunk> {
        let base = placing::base() as usize;
        let held = each!(&self.bump, b => Some(probe::chunks(b)), None);
        held.into_iter().flatten().map(move |c| Chunk { start: c.data - base, size: c.usable, pointer: c.pointer - base })
    }

    fn token(&self) -> Token {
        Token { count: self.newest_first().count(), pointer: self.newest_first().next().map_or(0, |c| c.pointer) }
    }
}

impl Side for Real {
    fn name(&self) -> &'static str {
        "the Rust"
    }

    fn ask(&mut self, request: &Request) -> (Answer, Token) {
        use Request::*;
        let answer = match *request {
            Create { minimum, region, capacity, background } => self.create(minimum, region, capacity, background),
            Allocate { size, align } => {
                let l = layout(size, align);
                each!(&self.bump, b => at(serving(|| b.try_alloc_layout(l))), unreachable!())
            }
            Free(block) => {
                each!(&self.bump, b => serving(|| unsafe { b.deallocate(pointer(block.offset), old(&block)) }), unreachable!());
                Answer::Done
            }
            Grow { block, size, align } => {
                let new = layout(size, align);
                each!(&self.bump, b => moved(serving(|| unsafe { Allocator::grow(&b, pointer(block.offset), old(&block), new) })), unreachable!())
            }
            GrowZeroed { block, size, align } => {
                let new = layout(size, align);
                each!(&self.bump, b => moved(serving(|| unsafe { b.grow_zeroed(pointer(block.offset), old(&block), new) })), unreachable!())
            }
            Shrink { block, size, align } => {
                let new = layout(size, align);
                each!(&self.bump, b => moved(serving(|| unsafe { Allocator::shrink(&b, pointer(block.offset), old(&block), new) })), unreachable!())
            }
            Resize { block, size } => {
                each!(&self.bump, b => at(serving(|| unsafe { probe::realloc(b, pointer(block.offset), old(&block), size) })), unreachable!())
            }
            Reset => {
                self.tokens.clear();
                each!(&mut self.bump, b => serving(|| b.reset()), unreachable!());
                Answer::Done
            }
            SetLimit(limit) => {
                each!(&self.bump, b => b.set_allocation_limit(Some(limit as usize)), unreachable!());
                Answer::Done
            }
            NoLimit => {
                each!(&self.bump, b => b.set_allocation_limit(None), unreachable!());
                Answer::Done
            }
            AllocateWithToken { size, align } => {
                let before = self.token();
                let l = layout(size, align);
                let got = each!(&self.bump, b => serving(|| probe::allocate_with_token(b, l)), unreachable!());
                if let Ok(t) = got {
                    self.tokens.insert((offset(t.block()), before), t);
                    return (Answer::At(offset(t.block())), before);
                }
                Answer::Refused(ROOM)
            }
            Cancel { offset, token } => {
                let t = self.tokens[&(offset, token)];
                each!(&self.bump, b => serving(|| unsafe { probe::cancel(b, t) }), unreachable!());
                Answer::Done
            }
            CopyIn { size, align, pattern } => each!(&self.bump, b => copy_in(b, size, align, pattern), unreachable!()),
            Fill { size, align, value } => each!(&self.bump, b => fill(b, size, align, value), unreachable!()),
            Write { block, pattern: p } => {
                for i in 0..block.size {
                    placing::region()[block.offset + i] = pattern(p, i);
                }
                Answer::Done
            }
        };
        (answer, NO_TOKEN)
    }

    fn chunks(&self, table: &mut Vec<Chunk>) {
        table.clear();
        table.extend(self.newest_first());
        table.reverse();
    }

    fn held(&self) -> usize {
        each!(&self.bump, b => b.allocated_bytes(), 0)
    }

    fn limit(&self) -> Option<u64> {
        each!(&self.bump, b => b.allocation_limit().map(|limit| limit as u64), None)
    }

    fn walk(&mut self, parts: &mut Vec<Part>) {
        parts.clear();
        let base = placing::base() as usize;
        each!(&mut self.bump, b => parts.extend(b.iter_allocated_chunks().map(|part| (part.as_ptr() as usize - base, part.len()))), ());
    }

    fn bytes(&self) -> &[u8] {
        placing::region()
    }

    fn bytes_mut(&mut self) -> &mut [u8] {
        placing::region()
    }
}
