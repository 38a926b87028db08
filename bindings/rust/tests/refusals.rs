//! Each refusal that the safe layer can meet, the rest by the entries, and stale or foreign blocks.
use miravoly::entries::{self, Named, Record};
use miravoly::{Arena, Block, Refusal, Refused, LARGEST};

const TOO_LARGE: usize = LARGEST + 1;

/// An arena with one block, of 16 bytes at 432.
fn one_block(region: &mut [u8]) -> (Arena<'_>, Block) {
    let mut arena = Arena::new(region).unwrap();
    let block = arena.fill(16, 16, b'A').unwrap();
    assert_eq!(block.offset(), 432);
    (arena, block)
}

/// Asks, and finds record and region as they were.
fn refused<T, E: Into<Refusal>>(
    arena: &mut Arena,
    call: impl FnOnce(&mut Arena) -> Result<T, E>,
) -> Refusal {
    let (record, region) = (*arena.record(), arena.region().to_vec());
    let refusal = call(arena).err().expect("the call is refused").into();
    assert_eq!((arena.record(), arena.region()), (&record, &region[..]));
    refusal
}

#[test]
fn creations() {
    let mut long = vec![0; TOO_LARGE];
    assert_eq!(Arena::new(&mut long).unwrap_err(), Refusal::Region);
    assert!(Arena::new(&mut long[..LARGEST]).is_ok());
    let mut region = [0; 495];
    let mut made = |minimum, capacity| {
        Arena::with_min_align_and_capacity(&mut region, minimum, capacity).map(|_| ())
    };
    assert_eq!(made(3, TOO_LARGE), Err(Refusal::Size));
    assert_eq!(made(32, 1), Err(Refusal::Align));
    assert_eq!(made(16, 1), Err(Refusal::Room));
    assert_eq!(made(16, 0), Ok(()));
}

#[test]
fn calls_that_name_no_block() {
    let mut region = [0; 1024];
    let (mut arena, _) = one_block(&mut region);
    for (size, align, said) in [
        (TOO_LARGE, 3, Refusal::Size),
        (1, 3, Refusal::Align),
        (2000, 1, Refusal::Room),
    ] {
        assert_eq!(refused(&mut arena, |a| a.allocate(size, align)), said);
        assert_eq!(refused(&mut arena, |a| a.fill(size, align, 0)), said);
        assert_eq!(
            refused(&mut arena, |a| a.allocate_with_token(size, align)),
            said
        );
        let source = vec![0; size];
        assert_eq!(refused(&mut arena, |a| a.copy_in(&source, align)), said);
    }
}

#[test]
fn calls_that_name_a_block() {
    let mut region = [0; 1024];
    let (mut arena, mut block) = one_block(&mut region);
    type Call = fn(&mut Arena, Block, usize, usize) -> Result<Block, Refused<Block>>;
    let calls: [Call; 4] = [
        |a, b, size, align| a.grow(b, size, align),
        |a, b, size, align| a.grow_zeroed(b, size, align),
        |a, b, size, align| a.shrink(b, size, align),
        |a, b, size, _| a.resize(b, size),
    ];
    for (i, call) in calls.into_iter().enumerate() {
        let other_way = if i == 2 { (17, 1) } else { (15, 1) };
        let no_room = if i == 2 { (16, 4096) } else { (2000, 1) };
        for ((size, align), said) in [
            ((TOO_LARGE, 3), Refusal::Size),
            ((16, 3), Refusal::Align),
            (other_way, Refusal::Direction),
            (no_room, Refusal::Room),
        ] {
            // A resize keeps the alignment and takes the direction that suits.
            if i == 3 && matches!(said, Refusal::Align | Refusal::Direction) {
                continue;
            }
            let (record, region) = (*arena.record(), arena.region().to_vec());
            let got = call(&mut arena, block, size, align).unwrap_err();
            assert_eq!(got.refusal, said);
            assert_eq!((arena.record(), arena.region()), (&record, &region[..]));
            block = got.given_back;
            assert_eq!(arena.bytes(&block), Ok(&[b'A'; 16][..]));
        }
    }
    assert_eq!(
        refused(&mut arena, |a| a.write(&block, &[0; 17])),
        Refusal::Size
    );
    assert_eq!(arena.write(&block, b"C"), Ok(()));
    assert_eq!(arena.bytes_mut(&block).unwrap()[..2], *b"CA");
}

/// Every call on a block that isn't a live one of this arena.
fn is_refused_by_every_call(arena: &mut Arena, block: Block) {
    assert_eq!(
        refused(arena, |a| a.bytes(&block).map(|_| ())),
        Refusal::Block
    );
    assert_eq!(
        refused(arena, |a| a.bytes_mut(&block).map(|_| ())),
        Refusal::Block
    );
    assert_eq!(refused(arena, |a| a.write(&block, b"")), Refusal::Block);
    let (record, region) = (*arena.record(), arena.region().to_vec());
    let given_back = |got: Result<Block, Refused<Block>>| {
        let refused = got.unwrap_err();
        assert_eq!(refused.refusal, Refusal::Block);
        refused.given_back
    };
    let block = given_back(arena.grow(block, 20, 1));
    let block = given_back(arena.grow_zeroed(block, 20, 1));
    let block = given_back(arena.shrink(block, 1, 1));
    let block = given_back(arena.resize(block, 20));
    assert_eq!(arena.free(block).unwrap_err().refusal, Refusal::Block);
    assert_eq!((arena.record(), arena.region()), (&record, &region[..]));
}

#[test]
fn a_block_of_another_arena() {
    let (mut region, mut other_region) = ([0; 1024], [0; 1024]);
    let (mut arena, block) = one_block(&mut region);
    let (mut other, other_block) = one_block(&mut other_region);
    // By their numbers the two can't be told apart.
    assert_eq!(
        (block.offset(), block.size()),
        (other_block.offset(), other_block.size())
    );
    is_refused_by_every_call(&mut other, block);
    is_refused_by_every_call(&mut arena, other_block);
}

#[test]
fn a_block_from_before_a_reset() {
    let mut region = [0; 1024];
    let (mut arena, stale) = one_block(&mut region);
    arena.reset().unwrap();
    let block = arena.allocate(16, 16).unwrap();
    assert_eq!(block.offset(), stale.offset());
    is_refused_by_every_call(&mut arena, stale);
    assert_eq!(arena.bytes(&block), Ok(&[b'A'; 16][..]));
}

#[test]
fn tokens() {
    let (mut region, mut other_region) = ([0; 1024], [0; 1024]);
    let mut arena = Arena::new(&mut region).unwrap();
    let (first, first_token) = arena.allocate_with_token(8, 8).unwrap();
    let (second, second_token) = arena.allocate_with_token(8, 8).unwrap();
    let crossed = arena.cancel(second, first_token).unwrap_err();
    assert_eq!(crossed.refusal, Refusal::Token);
    let (second, first_token) = crossed.given_back;
    let first = arena.resize(first, 8).unwrap();
    assert_eq!(
        arena.cancel(first, first_token).unwrap_err().refusal,
        Refusal::Token
    );

    let mut other = Arena::new(&mut other_region).unwrap();
    let foreign = other.cancel(second, second_token).unwrap_err();
    assert_eq!(foreign.refusal, Refusal::Token);
    let (second, second_token) = foreign.given_back;
    assert_eq!(arena.cancel(second, second_token), Ok(()));

    let (stale, stale_token) = arena.allocate_with_token(8, 8).unwrap();
    arena.reset().unwrap();
    assert_eq!(
        arena.cancel(stale, stale_token).unwrap_err().refusal,
        Refusal::Token
    );
}

/// What an arena that keeps its record to itself never meets.
#[test]
fn the_rest_by_the_entries() {
    let mut region = [0; 1024];
    let mut record = Record::EMPTY;
    assert_eq!(entries::create(&mut record, 100, 3, 0).refusal, 4);
    assert_eq!(record, Record::EMPTY);
    let named = |offset| Named {
        offset,
        size: 16,
        align: 16,
    };
    assert_eq!(entries::create(&mut record, region.len(), 1, 0).refusal, 0);
    assert_eq!(entries::allocate(&mut record, &region, 16, 16).offset, 432);
    assert_eq!(
        entries::allocate(&mut record, &region[1..], 16, 16).refusal,
        2
    );
    assert_eq!(
        entries::grow(&mut record, &mut region[1..], named(432), 17, 1).refusal,
        2
    );
    assert_eq!(entries::lend(&record, &region[1..], named(432)).refusal, 2);
    assert_eq!(entries::walk(&record, &region[1..], 0).refusal, 2);
    assert_eq!(entries::free(&mut record, named(416)).refusal, 5);
    assert_eq!(entries::lend(&record, &region, named(448)).refusal, 5);
    assert_eq!(entries::cancel(&mut record, 432, 1, 449).refusal, 7);
    assert_eq!(entries::cancel(&mut record, 432, 2, 448).refusal, 7);
    record.count = 33;
    let unsound = record;
    assert_eq!(entries::reset(&mut record).refusal, 1);
    assert_eq!(entries::set_limit(&mut record, 1).refusal, 1);
    assert_eq!(entries::no_limit(&mut record).refusal, 1);
    assert_eq!(entries::walk(&record, &region, 0).refusal, 1);
    assert_eq!(record, unsound);
}
