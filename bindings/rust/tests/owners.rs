//! Random sequences through the safe layer: every live block is aligned, shares no byte with another and holds what its owner
//! put there, through every move.
mod common;

use common::Random;
use miravoly::{Arena, Block, Refusal, Refused, Token};

struct Owner {
    block: Block,
    token: Option<Token>,
    wrote: Vec<u8>,
}

fn check(arena: &Arena, owners: &[Owner]) {
    let mut taken = vec![false; arena.region().len()];
    for owner in owners {
        assert_eq!(owner.block.offset() % owner.block.align(), 0);
        assert_eq!(arena.bytes(&owner.block), Ok(&owner.wrote[..]));
        for byte in &mut taken[owner.block.offset()..][..owner.block.size()] {
            assert!(!*byte, "two blocks share a byte");
            *byte = true;
        }
    }
    let given_out: usize = arena.walk().unwrap().map(<[u8]>::len).sum();
    assert!(taken.iter().filter(|&&byte| byte).count() <= given_out);
}

/// The owner of a new or moved block finds its old bytes, and writes them all anew.
fn take_over(
    arena: &mut Arena,
    random: &mut Random,
    block: Block,
    token: Option<Token>,
    kept: &[u8],
) -> Owner {
    assert_eq!(&arena.bytes(&block).unwrap()[..kept.len()], kept);
    let wrote: Vec<u8> = (0..block.size()).map(|_| random.any() as u8).collect();
    arena.write(&block, &wrote).unwrap();
    Owner {
        block,
        token,
        wrote,
    }
}

fn allocate(arena: &mut Arena, random: &mut Random, owners: &mut Vec<Owner>) -> Option<Refusal> {
    let most = if random.one_in(9) { 900 } else { 60 };
    let (size, align) = (random.below(most), 1 << random.below(6));
    let got = match random.below(4) {
        0 => arena.allocate(size, align).map(|b| (b, None)),
        1 => arena.copy_in(&vec![b'c'; size], align).map(|b| (b, None)),
        2 => arena.fill(size, align, b'f').map(|b| (b, None)),
        _ => arena
            .allocate_with_token(size, align)
            .map(|(b, t)| (b, Some(t))),
    };
    match got {
        Ok((block, token)) => owners.push(take_over(arena, random, block, token, b"")),
        Err(refusal) => return Some(refusal),
    }
    None
}

fn use_up(arena: &mut Arena, random: &mut Random, owners: &mut Vec<Owner>) -> Option<Refusal> {
    if owners.is_empty() {
        return None;
    }
    // Mostly the newest, with which most happens.
    let i = if random.one_in(2) {
        owners.len() - 1
    } else {
        random.below(owners.len())
    };
    let Owner {
        block,
        token,
        wrote,
    } = owners.remove(i);
    let (larger, smaller) = (
        block.size() + random.below(40),
        random.below(block.size() + 1),
    );
    let align = 1 << random.below(6);
    let got = match random.below(6) {
        0 => arena.grow(block, larger, align),
        1 => arena.grow_zeroed(block, larger, align),
        2 => arena.shrink(block, smaller, align),
        3 => arena.resize(block, random.below(100)),
        4 => return arena.free(block).err().map(Refusal::from),
        _ => match token {
            Some(token) => return arena.cancel(block, token).err().map(Refusal::from),
            None => return arena.free(block).err().map(Refusal::from),
        },
    };
    match got {
        Ok(block) => {
            let kept = &wrote[..wrote.len().min(block.size())];
            let owner = take_over(arena, random, block, None, kept);
            owners.push(owner);
            None
        }
        Err(Refused {
            refusal,
            given_back,
        }) => {
            owners.insert(
                i,
                Owner {
                    block: given_back,
                    token,
                    wrote,
                },
            );
            Some(refusal)
        }
    }
}

#[test]
fn every_block_holds_what_its_owner_put_there() {
    let mut random = Random(1);
    let (mut calls, mut refused) = (0, 0);
    for _ in 0..400 {
        let mut region = vec![0; 500 + random.below(6000)];
        let minimum = 1 << random.below(5);
        let mut arena = Arena::with_min_align_and_capacity(&mut region, minimum, 0).unwrap();
        let mut owners = Vec::new();
        for _ in 0..250 {
            let said = match random.below(20) {
                0 if random.one_in(3) => {
                    owners.clear();
                    arena.reset().err()
                }
                0 => arena.set_limit(random.below(3000)).err(),
                1 => arena.no_limit().err(),
                2..=10 => allocate(&mut arena, &mut random, &mut owners),
                _ => use_up(&mut arena, &mut random, &mut owners),
            };
            assert!(matches!(said, None | Some(Refusal::Room)), "{said:?}");
            calls += 1;
            refused += said.is_some() as usize;
            check(&arena, &owners);
        }
    }
    println!("{calls} calls, {refused} of them refused for want of room");
    assert!(refused > 1000);
}
