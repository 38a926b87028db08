//! Document 01's example and some of its boundaries, through the safe layer.
use miravoly::{Arena, Refusal, Refused};

#[test]
fn the_example_of_document_01() -> Result<(), Refusal> {
    let mut region = vec![0; 65_536];
    let mut arena = Arena::new(&mut region)?;
    let first = arena.allocate(10, 1)?;
    assert_eq!(first.offset(), 438);
    let second = arena.allocate(8, 8)?;
    assert_eq!(second.offset(), 424);
    arena.free(second)?;
    let third = arena.allocate(6, 1)?;
    assert_eq!(third.offset(), 426);
    arena.write(&third, b"GATTAC")?;
    let third = arena.grow(third, 20, 1)?;
    assert_eq!(third.offset(), 412);
    assert_eq!(&arena.bytes(&third)?[..6], b"GATTAC");
    assert_eq!((arena.held_bytes(), arena.record().count), (448, 1));
    Ok(())
}

#[test]
fn the_smallest_region_for_a_chunk() -> Result<(), Refusal> {
    for (length, at) in [(0, None), (495, None), (496, Some(447))] {
        let mut region = vec![0; length];
        let mut arena = Arena::new(&mut region)?;
        let got = arena.allocate(1, 1).map(|block| block.offset());
        assert_eq!(got, at.ok_or(Refusal::Room));
    }
    Ok(())
}

#[test]
fn freeing_gives_back_the_newest_blocks_size_alone() -> Result<(), Refusal> {
    let mut region = [0; 1024];
    let mut arena = Arena::new(&mut region)?;
    let block = arena.allocate(3, 8)?;
    assert_eq!(block.offset(), 440);
    arena.free(block)?;
    assert_eq!(arena.record().pointers[0], 443);
    Ok(())
}

#[test]
fn a_shrink_moves_only_where_the_bytes_do_not_overlap() -> Result<(), Refusal> {
    for (old, new, up) in [(5, 3, 0), (5, 2, 3), (1, 0, 1)] {
        let mut region = [0; 1024];
        let mut arena = Arena::new(&mut region)?;
        let block = arena.copy_in(&b"ACGTA"[..old], 1)?;
        let at = block.offset();
        let block = arena.shrink(block, new, 1)?;
        assert_eq!(block.offset(), at + up);
        assert_eq!(arena.bytes(&block)?, &b"ACGTA"[..new]);
    }
    Ok(())
}

#[test]
fn the_ladder_under_a_limit() -> Result<(), Refusal> {
    for (limit, size, at) in [
        (100, 64, None),
        (200, 64, Some(128)),
        (64, 40, Some(24)),
        (64, 64, None),
        (10, 0, Some(0)),
    ] {
        let mut region = [0; 65_536];
        let mut arena = Arena::new(&mut region)?;
        arena.set_limit(limit)?;
        assert_eq!(arena.limit(), Some(limit));
        assert_eq!(
            arena.allocate(size, 1).map(|block| block.offset()),
            at.ok_or(Refusal::Room)
        );
        arena.reset()?;
        assert_eq!(arena.limit(), Some(limit), "a reset keeps it");
        arena.no_limit()?;
        assert_eq!(arena.limit(), None);
    }
    Ok(())
}

#[test]
fn a_cancel_goes_back_to_where_the_token_was_taken() -> Result<(), Refusal> {
    let mut region = [0; 1024];
    let mut arena = Arena::with_min_align_and_capacity(&mut region, 1, 1)?;
    let _read = arena.fill(3, 1, b'A')?;
    let (hits, token) = arena.allocate_with_token(8, 8)?;
    assert_eq!(
        (hits.offset(), token.count(), token.pointer()),
        (432, 1, 445)
    );
    arena.cancel(hits, token)?;
    assert_eq!(arena.record().pointers[0], 445);
    Ok(())
}

#[test]
fn the_walk_gives_what_is_given_out_newest_chunk_first() -> Result<(), Refusal> {
    let mut region = [0; 4096];
    let mut arena = Arena::new(&mut region)?;
    assert_eq!(arena.walk()?.count(), 0);
    let _older = arena.copy_in(b"older", 1)?;
    let _newer = arena.fill(500, 1, b'n')?;
    let _newest = arena.copy_in(b"newest", 1)?;
    let parts: Vec<&[u8]> = arena.walk()?.collect();
    assert_eq!(parts.len(), 2);
    assert_eq!(parts[0], [&b"newest"[..], &[b'n'; 500]].concat());
    assert_eq!(parts[1], b"older");
    Ok(())
}

#[test]
fn a_refused_grow_gives_the_block_back_with_its_bytes() -> Result<(), Refusal> {
    let mut region = [0; 1024];
    let mut arena = Arena::new(&mut region)?;
    let hits = arena.copy_in(b"ACGT", 1)?;
    let Refused {
        refusal,
        given_back: hits,
    } = arena.grow(hits, 2000, 1).unwrap_err();
    assert_eq!(refusal, Refusal::Room);
    assert_eq!(arena.bytes(&hits)?, b"ACGT");
    let hits = arena.resize(hits, 6)?;
    assert_eq!(&arena.bytes(&hits)?[..4], b"ACGT");
    Ok(())
}
