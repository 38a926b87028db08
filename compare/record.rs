// Document 01's request file: a header of 6 bytes, then records of a 2-byte length, a code and 4-byte fields. All numbers are big-endian.
use crate::request::{Block, Request, Token};

pub const HEADER: usize = 6;
const REGION: usize = 65_536;

fn number(bytes: &[u8]) -> usize {
    bytes.iter().fold(0, |n, &b| n << 8 | b as usize)
}

// The minimum and the region's length; none of a wrong or short header.
pub fn read_header(input: &[u8]) -> Option<(usize, usize)> {
    let header = input.get(..HEADER)?;
    let (minimum, region) = (header[1] as usize, number(&header[2..]));
    let good = header[0] == 1 && [1, 2, 4, 8, 16].contains(&minimum) && region <= REGION;
    good.then_some((minimum, region))
}

// The first record without its length, and what follows it; none where the input ends inside it.
pub fn split(input: &[u8]) -> Option<(&[u8], &[u8])> {
    let (length, rest) = input.split_at_checked(2)?;
    rest.split_at_checked(number(length))
}

// None is a bad record.
pub fn read(record: &[u8]) -> Option<Request> {
    use Request::*;
    let (&code, fields) = record.split_first()?;
    let n = |i: usize| number(&fields[4 * i..4 * i + 4]);
    let block = || Block { offset: n(0), size: n(1), align: n(2) };
    Some(match (code, fields.len() / 4, fields.len() % 4) {
        (1, 2, 0) => Allocate { size: n(0), align: n(1) },
        (2, 3, 0) => Free(block()),
        (3, 5, 0) => Grow { block: block(), size: n(3), align: n(4) },
        (4, 5, 0) => Shrink { block: block(), size: n(3), align: n(4) },
        (5, 0, 0) => Reset,
        (6, 1, 0) => SetLimit(n(0) as u64),
        (7, 0, 0) => NoLimit,
        (8, 2, 0) => AllocateWithToken { size: n(0), align: n(1) },
        (9, 3, 0) => Cancel { offset: n(0), token: Token { count: n(1), pointer: n(2) } },
        (10, 4, 0) => Resize { block: block(), size: n(3) },
        _ => return None,
    })
}

pub fn write_header(minimum: usize, region: usize, out: &mut Vec<u8>) {
    out.extend_from_slice(&[1, minimum as u8]);
    out.extend_from_slice(&(region as u32).to_be_bytes());
}

pub fn write(request: &Request, out: &mut Vec<u8>) {
    use Request::*;
    let (code, fields): (u8, &[usize]) = match request {
        Allocate { size, align } => (1, &[*size, *align]),
        Free(b) => (2, &[b.offset, b.size, b.align]),
        Grow { block: b, size, align } => (3, &[b.offset, b.size, b.align, *size, *align]),
        Shrink { block: b, size, align } => (4, &[b.offset, b.size, b.align, *size, *align]),
        Reset => (5, &[]),
        _ => unreachable!("a night has no such request"),
    };
    out.extend_from_slice(&(1 + 4 * fields.len() as u16).to_be_bytes());
    out.push(code);
    for &x in fields {
        out.extend_from_slice(&(x as u32).to_be_bytes());
    }
}
