//! Random sequences through the safe layer, which doesn't test its record, beside the entries that do, on a copy of record and
//! region: the same answers, and the same record and bytes after every call.
mod common;

use common::Random;
use miravoly::entries::{self, Named, Record, Said};
use miravoly::{Arena, Block, Refusal, Refused, Token, LARGEST};

/// So many places of the source are copied from.
const STARTS: usize = 1000;

struct Beside<'r> {
    arena: Arena<'r>,
    live: Vec<(Block, Option<Token>)>,
    record: Record,
    region: Vec<u8>,
    /// How often a call was served, and refused 1 to 8.
    answered: &'r mut [usize; 9],
}

fn some_size(r: &mut Random) -> usize {
    match r.below(24) {
        0 => LARGEST + 1,
        1 | 2 => r.below(900),
        _ => r.below(60),
    }
}

fn some_align(r: &mut Random) -> usize {
    match r.below(24) {
        0 => [0, 3, 8192][r.below(3)],
        1 | 2 => 1 << r.below(13),
        _ => 1 << r.below(6),
    }
}

impl Beside<'_> {
    fn same(&mut self, got: Result<usize, Refusal>, expected: Said) {
        let got = match got {
            Ok(offset) => Said { refusal: 0, offset },
            Err(refused) => Said {
                refusal: refused.number(),
                offset: 0,
            },
        };
        assert_eq!(got, expected);
        self.answered[got.refusal] += 1;
    }

    fn new_block(&mut self, r: &mut Random, source: &[u8]) {
        let (size, align) = (some_size(r), some_align(r));
        let source = &source[r.below(STARTS)..][..size];
        let (a, region) = (&mut self.record, &mut self.region[..]);
        let (got, expected) = match r.below(4) {
            0 => (
                self.arena.allocate(size, align).map(|b| (b, None)),
                entries::allocate(a, region, size, align),
            ),
            1 => (
                self.arena.copy_in(source, align).map(|b| (b, None)),
                entries::copy_in(a, region, source, align),
            ),
            2 => (
                self.arena.fill(size, align, b'f').map(|b| (b, None)),
                entries::fill(a, region, size, align, b'f'),
            ),
            _ => {
                let got = self.arena.allocate_with_token(size, align);
                let said = entries::allocate_with_token(a, region, size, align);
                let token = got.as_ref().map(|(_, t)| (t.count(), t.pointer()));
                assert_eq!(token.unwrap_or((0, 0)), (said.count, said.pointer));
                let (refusal, offset) = (said.refusal, said.offset);
                (got.map(|(b, t)| (b, Some(t))), Said { refusal, offset })
            }
        };
        let got = got.map(|(block, token)| {
            let offset = block.offset();
            self.live.push((block, token));
            offset
        });
        self.same(got, expected);
    }

    /// Moves, ends or writes in a live block, mostly the newest.
    fn use_block(&mut self, r: &mut Random, source: &[u8]) {
        let newest = match self.live.len() {
            0 => return,
            n => n - 1,
        };
        let i = if r.one_in(2) {
            newest
        } else {
            r.below(newest + 1)
        };
        let (block, token) = self.live.remove(i);
        let at = Named {
            offset: block.offset(),
            size: block.size(),
            align: block.align(),
        };
        let (size, align) = match r.below(3) {
            0 => (some_size(r), some_align(r)),
            1 => (at.size + r.below(40), some_align(r)),
            _ => (r.below(at.size + 1), some_align(r)),
        };
        let (a, region) = (&mut self.record, &mut self.region[..]);
        let (got, expected) = match (r.below(7), token.is_some()) {
            (0, _) => (
                self.arena.grow(block, size, align),
                entries::grow(a, region, at, size, align),
            ),
            (1, _) => (
                self.arena.grow_zeroed(block, size, align),
                entries::grow_zeroed(a, region, at, size, align),
            ),
            (2, _) => (
                self.arena.shrink(block, size, align),
                entries::shrink(a, region, at, size, align),
            ),
            (3, _) => (
                self.arena.resize(block, size),
                entries::resize(a, region, at, size),
            ),
            (4, true) => {
                let token = token.unwrap();
                let expected = entries::cancel(a, at.offset, token.count(), token.pointer());
                let got = self.arena.cancel(block, token);
                return self.same(got.map(|()| 0).map_err(Refusal::from), expected);
            }
            (4, false) => {
                let (got, expected) = (self.arena.free(block), entries::free(a, at));
                return self.same(got.map(|()| 0).map_err(Refusal::from), expected);
            }
            _ => {
                let part = entries::lend(a, region, at);
                assert_eq!((part.refusal, part.offset), (0, at.offset));
                let bytes = &mut region[part.offset..][..part.length];
                assert_eq!(self.arena.bytes(&block), Ok(&*bytes));
                bytes.copy_from_slice(&source[r.below(STARTS)..][..at.size]);
                assert_eq!(self.arena.write(&block, bytes), Ok(()));
                return self.live.insert(i, (block, token));
            }
        };
        let got = match got {
            Ok(block) => {
                let offset = block.offset();
                self.live.push((block, None));
                Ok(offset)
            }
            Err(Refused {
                refusal,
                given_back,
            }) => {
                self.live.insert(i, (given_back, token));
                Err(refusal)
            }
        };
        self.same(got, expected);
    }

    fn bound(&mut self, r: &mut Random) {
        let (got, expected) = match r.below(4) {
            0 => {
                self.live.clear();
                (self.arena.reset(), entries::reset(&mut self.record))
            }
            1 => (self.arena.no_limit(), entries::no_limit(&mut self.record)),
            _ => {
                let limit = r.below(3000);
                (
                    self.arena.set_limit(limit),
                    entries::set_limit(&mut self.record, limit),
                )
            }
        };
        self.same(got.map(|()| 0), expected);
    }
}

#[test]
fn the_same_answers_record_and_bytes_as_the_entries_that_test_the_record() {
    let mut r = Random(1);
    let mut source = vec![0; LARGEST + 1 + STARTS];
    source[..4000].fill_with(|| r.any() as u8);
    let mut answered = [0; 9];
    for _ in 0..400 {
        let region: Vec<u8> = (0..500 + r.below(6000)).map(|_| r.any() as u8).collect();
        let (minimum, capacity) = (1 << r.below(5), if r.one_in(3) { r.below(440) } else { 0 });
        let (mut lent, mut record) = (region.clone(), Record::EMPTY);
        entries::create(&mut record, region.len(), minimum, capacity);
        let arena = Arena::with_min_align_and_capacity(&mut lent, minimum, capacity).unwrap();
        let mut beside = Beside {
            arena,
            live: Vec::new(),
            record,
            region,
            answered: &mut answered,
        };
        for _ in 0..250 {
            match r.below(20) {
                0 => beside.bound(&mut r),
                1..=9 => beside.new_block(&mut r, &source),
                _ => beside.use_block(&mut r, &source),
            }
            assert_eq!(beside.arena.record(), &beside.record);
            assert!(beside.arena.region() == beside.region);
        }
    }
    println!("served and refused 1 to 8: {answered:?}");
    // SIZE, ALIGN, DIRECTION and ROOM; a live block and its token are never refused as such.
    assert!([0, 3, 4, 6, 8].iter().all(|&i| answered[i] > 1000));
    assert_eq!([1, 2, 5, 7].map(|i| answered[i]), [0; 4]);
}
