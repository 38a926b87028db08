//! The stored list of the comparison, through the safe layer: 2,210 requests, and what the Rust's bumpalo answered to each.
//! `docs/TESTING.md` and `compare/request.rs` have the layout; the digest is that of `crates/compared/src/digest.rt`.
use miravoly::{Arena, Block, Refusal, Token};

const REQUESTS: &[u8] = include_bytes!("../../../crates/compared/stdin");
const DIGESTS: &[u8] = include_bytes!("../../../crates/compared/stdout");
const DONE: usize = 0xFFFF_FFFF;
const REFUSED: usize = 0x8000_0000;

struct Request {
    code: u8,
    byte: u8,
    n: [usize; 5],
}

fn read(record: &[u8]) -> Request {
    let n = |i: usize| u32::from_be_bytes(record[4 * i..4 * i + 4].try_into().unwrap()) as usize;
    Request {
        code: record[0],
        byte: record[1],
        n: [n(1), n(2), n(3), n(4), n(5)],
    }
}

fn pattern(p: u8, length: usize) -> Vec<u8> {
    (0..length)
        .map(|i| (p as usize + 167 * (i % 65_536) + i % 65_536 / 256) as u8)
        .collect()
}

fn weights() -> Vec<u64> {
    let mut w = 1;
    let mut next = || {
        w = (w * 1_103_515_245 + 12_345) % 2_147_483_648;
        w
    };
    (0..65_536)
        .map(|_| next() * 2_147_483_648 + next())
        .collect()
}

fn sum(weights: &[u64], bytes: &[u8], from: usize, to: usize) -> u64 {
    (from..to)
        .map(|i| weights[i] ^ (bytes[i] as u64 * 55_911_108_632_957_417))
        .fold(0, u64::wrapping_add)
}

fn digest(arena: &Arena, weights: &[u64], said: usize, token: (usize, usize)) -> Vec<u8> {
    let (a, bytes) = (arena.record(), arena.region());
    let (mut table, mut all) = (0, sum(weights, bytes, 0, bytes.len()));
    for i in 0..a.count {
        let end = a.starts[i] + a.sizes[i];
        all = all.wrapping_sub(sum(weights, bytes, end, end + 48));
        for x in [a.starts[i], a.sizes[i], a.pointers[i]] {
            table = (table * 1_000_003 + x) % 4_294_967_296;
        }
    }
    let pointer = a.count.checked_sub(1).map_or(0, |last| a.pointers[last]);
    let numbers = [
        said,
        a.count,
        arena.held_bytes(),
        pointer,
        token.0,
        token.1,
        table,
    ];
    let mut out: Vec<u8> = numbers
        .iter()
        .flat_map(|&x| (x as u32).to_be_bytes())
        .collect();
    out.extend(all.to_be_bytes());
    out
}

/// The live blocks, with the tokens that are live.
#[derive(Default)]
struct Ledger(Vec<(Block, Option<Token>)>);

impl Ledger {
    fn find(&self, n: &[usize; 5]) -> usize {
        let same = |b: &Block| [b.offset(), b.size(), b.align()] == n[..3];
        let without_token = self
            .0
            .iter()
            .position(|(b, token)| same(b) && token.is_none());
        without_token
            .or_else(|| self.0.iter().position(|(b, _)| same(b)))
            .expect("a live block")
    }

    /// Keeps what the call gave, or gave back.
    fn moved(
        &mut self,
        got: Result<Block, miravoly::Refused<Block>>,
        token: Option<Token>,
    ) -> usize {
        match got {
            Ok(block) => self.new_block(Ok((block, None))),
            Err(refused) => {
                self.0.push((refused.given_back, token));
                REFUSED + refused.refusal.number()
            }
        }
    }

    fn new_block(&mut self, got: Result<(Block, Option<Token>), Refusal>) -> usize {
        match got {
            Ok((block, token)) => {
                let offset = block.offset();
                self.0.push((block, token));
                offset
            }
            Err(refusal) => REFUSED + refusal.number(),
        }
    }
}

fn done<E: Into<Refusal>>(got: Result<(), E>) -> usize {
    got.map_or_else(|refused| REFUSED + refused.into().number(), |()| DONE)
}

/// The answer, and a token's numbers where one was given.
fn ask(arena: &mut Arena, live: &mut Ledger, q: &Request) -> (usize, (usize, usize)) {
    let n = &q.n;
    let said = match q.code {
        1 => live.new_block(arena.allocate(n[0], n[1]).map(|b| (b, None))),
        2 => done(arena.free(live.0.swap_remove(live.find(n)).0)),
        3 | 4 | 10 | 11 => {
            let (block, token) = live.0.swap_remove(live.find(n));
            let got = match q.code {
                3 => arena.grow(block, n[3], n[4]),
                4 => arena.shrink(block, n[3], n[4]),
                10 => arena.resize(block, n[3]),
                _ => arena.grow_zeroed(block, n[3], n[4]),
            };
            live.moved(got, token)
        }
        5 => {
            live.0.clear();
            done(arena.reset())
        }
        6 => done(arena.set_limit(n[0] << 32 | n[1])),
        7 => done(arena.no_limit()),
        8 => {
            let got = arena.allocate_with_token(n[0], n[1]);
            let token = got
                .as_ref()
                .map_or((0, 0), |(_, t)| (t.count(), t.pointer()));
            return (live.new_block(got.map(|(b, t)| (b, Some(t)))), token);
        }
        9 => {
            let at = |(b, token): &(Block, Option<Token>)| match token {
                Some(t) => [b.offset(), t.count(), t.pointer()] == n[..3],
                None => false,
            };
            let i = live.0.iter().position(at).expect("a live token");
            let (block, token) = live.0.swap_remove(i);
            done(arena.cancel(block, token.unwrap()))
        }
        12 => live.new_block(
            arena
                .copy_in(&pattern(q.byte, n[0]), n[1])
                .map(|b| (b, None)),
        ),
        13 => live.new_block(arena.fill(n[0], n[1], q.byte).map(|b| (b, None))),
        14 => done(arena.write(&live.0[live.find(n)].0, &pattern(q.byte, n[1]))),
        code => panic!("no request has the code {code}"),
    };
    (said, (0, 0))
}

#[test]
fn the_stored_list_is_answered_as_the_rust_answered_it() {
    let weights = weights();
    let mut digests = DIGESTS.chunks(36);
    let mut requests = REQUESTS.chunks(24).map(read).peekable();
    let mut answered = 0;
    while let Some(first) = requests.next() {
        assert_eq!(first.code, 0, "a sequence begins with a creation");
        let mut region = pattern(first.byte, first.n[1]);
        let made = Arena::with_min_align_and_capacity(&mut region, first.n[0], first.n[2]);
        let expected = digests.next().unwrap();
        answered += 1;
        let mut arena = match made {
            Ok(arena) => arena,
            Err(refusal) => {
                assert_eq!(
                    expected[..4],
                    ((REFUSED + refusal.number()) as u32).to_be_bytes()
                );
                assert!(requests.peek().map_or(true, |next| next.code == 0));
                continue;
            }
        };
        assert_eq!(digest(&arena, &weights, DONE, (0, 0)), expected);
        let mut live = Ledger::default();
        while let Some(q) = requests.next_if(|next| next.code != 0) {
            let (said, token) = ask(&mut arena, &mut live, &q);
            if q.code == 14 {
                assert_eq!(said, DONE);
                continue;
            }
            answered += 1;
            let expected = digests.next().unwrap();
            assert_eq!(
                digest(&arena, &weights, said, token),
                expected,
                "request {answered}"
            );
        }
    }
    assert_eq!((answered, digests.next()), (2210, None));
}
