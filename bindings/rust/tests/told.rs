//! What the crate tells: a refusal's number and words, limits, and what is printed of an arena.
use miravoly::{Arena, Refusal, Refused, LARGEST, LARGEST_ALIGN};
use std::error::Error;

/// Document 01's numbers, and the words that are displayed.
const TOLD: [(Refusal, usize, &str); 8] = [
    (Refusal::State, 1, "refused 1: the record is unsound"),
    (
        Refusal::Region,
        2,
        "refused 2: the region's length is not allowed",
    ),
    (Refusal::Size, 3, "refused 3: a size is over the maximum"),
    (Refusal::Align, 4, "refused 4: an alignment is not allowed"),
    (
        Refusal::Block,
        5,
        "refused 5: the block is not a live one of this arena",
    ),
    (
        Refusal::Direction,
        6,
        "refused 6: grow to a smaller size, or shrink to a larger",
    ),
    (Refusal::Token, 7, "refused 7: the token is not the block's"),
    (
        Refusal::Room,
        8,
        "refused 8: neither the current chunk nor a new one has room",
    ),
];

#[test]
fn each_refusal_by_its_number_and_words() {
    for (refusal, number, words) in TOLD {
        assert_eq!(refusal.number(), number);
        assert_eq!(refusal.to_string(), words);
        let as_error: Box<dyn Error> = refusal.into();
        assert_eq!(as_error.to_string(), words);
        assert!(as_error.source().is_none());
    }
}

/// With the block given back, a refusal is told in the same words.
#[test]
fn a_refusal_that_gives_something_back() {
    for (refusal, _, words) in TOLD {
        let refused = Refused {
            refusal,
            given_back: 438,
        };
        assert_eq!(refused.to_string(), words);
        assert_eq!(Refusal::from(refused), refusal);
    }
    let (mut region, mut other) = ([0; 1024], [0; 1024]);
    let mut arena = Arena::new(&mut region).unwrap();
    let mut other = Arena::new(&mut other).unwrap();
    let (block, token) = other.allocate_with_token(10, 1).unwrap();
    let refused = arena.cancel(block, token).unwrap_err();
    assert_eq!(refused.to_string(), TOLD[6].2);
    let (block, _) = refused.given_back;
    assert_eq!(arena.free(block).unwrap_err().to_string(), TOLD[4].2);
    let block = arena.allocate(10, 1).unwrap();
    let refused = arena.shrink(block, 11, 1).unwrap_err();
    assert_eq!(refused.to_string(), TOLD[5].2);
    assert_eq!(refused.given_back.offset(), 438);
}

#[test]
fn limits() {
    let mut region = [0; 1024];
    let mut arena = Arena::new(&mut region).unwrap();
    assert_eq!(arena.limit(), None);
    for limit in [0, 1, usize::MAX, 0] {
        arena.set_limit(limit).unwrap();
        assert_eq!(arena.limit(), Some(limit));
        assert_eq!((arena.record().limited, arena.record().limit), (1, limit));
    }
    arena.no_limit().unwrap();
    assert_eq!(arena.limit(), None);
    assert_eq!((arena.record().limited, arena.record().limit), (0, 0));
}

#[test]
fn the_largest_alignment_and_size() {
    let mut region = vec![0; LARGEST];
    let mut arena = Arena::new(&mut region).unwrap();
    let block = arena.allocate(1, LARGEST_ALIGN).unwrap();
    assert_eq!((block.offset(), block.size(), block.align()), (0, 1, 4096));
    assert_eq!(arena.allocate(1, 2 * LARGEST_ALIGN), Err(Refusal::Align));
    assert_eq!(arena.allocate(LARGEST, 1), Err(Refusal::Room));
    assert_eq!(arena.allocate(LARGEST + 1, 1), Err(Refusal::Size));
    assert_eq!(arena.region().len(), 1 << 30);
}

/// A moved block has the numbers that were asked for.
#[test]
fn the_numbers_of_a_block() {
    let mut region = [0; 4096];
    let mut arena = Arena::with_min_align_and_capacity(&mut region, 4, 1000).unwrap();
    assert_eq!(arena.record().minimum, 4);
    assert_eq!((arena.held_bytes(), arena.record().sizes[0]), (1984, 1984));
    let numbers = |block: &miravoly::Block| (block.offset(), block.size(), block.align());
    let block = arena.copy_in(b"ACGTA", 2).unwrap();
    assert_eq!(numbers(&block), (1976, 5, 2));
    let block = arena.grow(block, 9, 8).unwrap();
    assert_eq!(numbers(&block), (1960, 9, 8));
    let block = arena.grow_zeroed(block, 12, 4).unwrap();
    assert_eq!(numbers(&block), (1952, 12, 4));
    let block = arena.shrink(block, 4, 2).unwrap();
    assert_eq!(numbers(&block), (1960, 4, 2));
    let block = arena.resize(block, 8).unwrap();
    assert_eq!(numbers(&block), (1956, 8, 2));
    assert_eq!(
        arena.bytes(&block),
        Ok(&b"ACGTACGT"[..]),
        "the old bytes stand after it"
    );
    let block = arena.fill(3, 16, b'n').unwrap();
    assert_eq!(numbers(&block), (1936, 3, 16));
}

/// Without the region's bytes.
#[test]
fn an_arena_as_it_is_printed() {
    let mut region = [7; 1024];
    let mut arena = Arena::new(&mut region).unwrap();
    let _block = arena.allocate(10, 1).unwrap();
    let record = format!("{:?}", arena.record());
    assert!(record.starts_with(
        "Record { region: 1024, minimum: 1, limited: 0, limit: 0, count: 1, starts: [0, "
    ));
    assert_eq!(
        format!("{arena:?}"),
        format!("Arena {{ record: {record}, .. }}")
    );
}

/// A walk stays at its end, and a copy of it goes on from where it was.
#[test]
fn a_walk_and_its_copy() {
    let mut region = [0; 4096];
    let mut arena = Arena::new(&mut region).unwrap();
    let _older = arena.copy_in(b"older", 1).unwrap();
    let _newer = arena.fill(500, 1, b'n').unwrap();
    let mut walk = arena.walk().unwrap();
    assert_eq!(walk.next(), Some(&[b'n'; 500][..]));
    let mut copy = walk.clone();
    for walk in [&mut walk, &mut copy] {
        assert_eq!(walk.next(), Some(&b"older"[..]));
        assert_eq!((walk.next(), walk.next()), (None, None));
    }
}
