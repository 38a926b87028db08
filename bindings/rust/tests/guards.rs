//! A guarded block is taken back with its guard, in every way that a guard can end, and stays where it is kept.
use miravoly::{Arena, Guard, Refusal, LARGEST};
use std::mem;
use std::panic::{catch_unwind, resume_unwind, AssertUnwindSafe};

/// An arena of one chunk of 448 bytes, with one block of 3 at 445.
fn one_block(region: &mut [u8]) -> Arena<'_> {
    let mut arena = Arena::new(region).unwrap();
    let block = arena.fill(3, 1, b'A').unwrap();
    assert_eq!(block.offset(), 445);
    arena
}

#[test]
fn a_dropped_guard_takes_its_block_back() -> Result<(), Refusal> {
    let mut region = [0; 1024];
    let mut arena = one_block(&mut region);
    let before = *arena.record();
    let mut guard = arena.guarded(8, 8)?;
    let block = guard.block();
    assert_eq!((block.offset(), block.size(), block.align()), (432, 8, 8));
    guard.bytes_mut()?.copy_from_slice(b"GATTACAC");
    assert_eq!(guard.bytes()?, b"GATTACAC");
    assert_eq!(guard.arena().record().pointers[0], 432);
    drop(guard);
    assert_eq!(arena.record(), &before);
    assert_eq!(arena.allocate(8, 8)?.offset(), 432);
    Ok(())
}

/// The chunk stays, with nothing given out.
#[test]
fn a_dropped_guard_whose_allocation_took_a_chunk() -> Result<(), Refusal> {
    let mut region = [0; 4096];
    let mut arena = Arena::new(&mut region)?;
    drop(arena.guarded(8, 8)?);
    assert_eq!((arena.record().count, arena.record().pointers[0]), (1, 448));
    let _older = arena.fill(3, 1, b'A')?;
    drop(arena.guarded(500, 1)?);
    let record = arena.record();
    let (start, size) = (record.starts[1], record.sizes[1]);
    assert_eq!(record.count, 2);
    assert_eq!(record.pointers[..2], [445, start + size]);
    let parts: Vec<&[u8]> = arena.walk()?.collect();
    assert_eq!(parts, [&b""[..], b"AAA"]);
    Ok(())
}

#[test]
fn a_kept_block_is_live() -> Result<(), Refusal> {
    let mut region = [0; 1024];
    let mut arena = one_block(&mut region);
    let mut guard = arena.guarded(8, 8)?;
    guard.bytes_mut()?.copy_from_slice(b"GATTACAC");
    let kept = guard.keep();
    assert_eq!(arena.record().pointers[0], 432);
    let newer = arena.fill(8, 8, b'n')?;
    assert_eq!(newer.offset(), 424);
    assert_eq!(arena.bytes(&kept)?, b"GATTACAC");
    let kept = arena.grow(kept, 20, 1)?;
    assert_eq!(&arena.bytes(&kept)?[..8], b"GATTACAC");
    arena.free(kept)?;
    Ok(())
}

#[test]
fn a_panic_drops_the_guard() {
    let mut region = [0; 1024];
    let mut arena = one_block(&mut region);
    let before = *arena.record();
    let panicked = catch_unwind(AssertUnwindSafe(|| {
        let mut guard = arena.guarded(8, 8).unwrap();
        guard.bytes_mut().unwrap().fill(b'n');
        // Without a message on the way.
        resume_unwind(Box::new(guard.block().offset()));
    }));
    assert_eq!(*panicked.unwrap_err().downcast::<usize>().unwrap(), 432);
    assert_eq!(arena.record(), &before);
}

/// The pointer before a guard of 8 bytes, with it, and when it has ended.
fn nested(arena: &mut Arena, end: impl FnOnce(Guard)) -> [usize; 3] {
    let before = arena.record().pointers[0];
    let mut outer = arena.guarded(8, 8).unwrap();
    let between = outer.arena().record().pointers[0];
    end(outer);
    [before, between, arena.record().pointers[0]]
}

#[test]
fn a_guard_inside_another() {
    let mut region = [0; 1024];
    let mut arena = one_block(&mut region);
    let ended = nested(&mut arena, |mut outer| {
        let inner = outer.arena().guarded(5, 1).unwrap();
        assert_eq!(inner.block().offset(), 427);
        drop(inner);
        assert_eq!(outer.arena().record().pointers[0], 432);
    });
    assert_eq!(ended, [445, 432, 445]);

    // The inner is newer, so the outer gives no room back.
    let mut kept = None;
    let ended = nested(&mut arena, |mut outer| {
        let mut inner = outer.arena().guarded(5, 1).unwrap();
        inner.bytes_mut().unwrap().copy_from_slice(b"ACGTA");
        kept = Some(inner.keep());
    });
    assert_eq!(ended, [445, 432, 427]);
    let kept = kept.unwrap();
    assert_eq!(arena.bytes(&kept), Ok(&b"ACGTA"[..]));
    arena.free(kept).unwrap();

    let mut kept = None;
    let ended = nested(&mut arena, |mut outer| {
        drop(outer.arena().guarded(5, 1).unwrap());
        kept = Some(outer.keep());
    });
    assert_eq!(ended, [432, 424, 424]);
    assert_eq!(kept.map(|block| block.offset()), Some(424));
}

#[test]
fn a_reset_ends_a_guarded_block() -> Result<(), Refusal> {
    let mut region = [0; 1024];
    let mut arena = Arena::new(&mut region)?;
    let mut guard = arena.guarded(8, 8)?;
    guard.arena().reset()?;
    // By its numbers it is the guarded one.
    let newer = guard.arena().fill(8, 8, b'n')?;
    assert_eq!(guard.block().offset(), newer.offset());
    assert_eq!(guard.bytes(), Err(Refusal::Block));
    assert_eq!(guard.bytes_mut(), Err(Refusal::Block));
    let after = *guard.arena().record();
    drop(guard);
    assert_eq!(arena.record(), &after);
    assert_eq!(arena.bytes(&newer)?, [b'n'; 8]);

    let mut guard = arena.guarded(8, 8)?;
    guard.arena().reset()?;
    let kept = guard.keep();
    assert_eq!(arena.bytes(&kept), Err(Refusal::Block));
    Ok(())
}

#[test]
fn another_arena_in_its_place_keeps_its_blocks() -> Result<(), Refusal> {
    let (mut region, mut other_region) = ([0; 1024], [0; 1024]);
    let mut arena = Arena::new(&mut region)?;
    let mut other = Arena::new(&mut other_region)?;
    let newest = other.fill(8, 8, b'n')?;
    let mut guard = arena.guarded(8, 8)?;
    mem::swap(guard.arena(), &mut other);
    assert_eq!(guard.block().offset(), newest.offset());
    assert_eq!(guard.bytes(), Err(Refusal::Block));
    drop(guard);
    assert_eq!(arena.bytes(&newest)?, [b'n'; 8]);
    assert_eq!([&arena, &other].map(|a| a.record().pointers[0]), [440, 440]);
    Ok(())
}

#[test]
fn a_refusal_gives_no_guard() {
    let mut region = [0; 1024];
    let mut arena = one_block(&mut region);
    let before = *arena.record();
    for (size, align, said) in [
        (LARGEST + 1, 3, Refusal::Size),
        (1, 3, Refusal::Align),
        (2000, 1, Refusal::Room),
    ] {
        assert_eq!(arena.guarded(size, align).unwrap_err(), said);
        assert_eq!(arena.record(), &before);
    }
}
