//! Records at random through all 40 entries: refused STATE exactly where they are unsound, and a refusal changes nothing. Most are sound
//! but for one number, so that each clause of "Sound" is what decides some hundred times.
mod common;
mod every_entry;

use common::Random;
use every_entry::{fast, plain, sound, Request, ENTRIES, IN_PLACE};
use miravoly::entries::{self, Named, Record};

const LENGTH: usize = 4096;
const LARGEST: usize = 1 << 30;
const TURNS: usize = 24_000;
/// Each wrong reading of "Sound" must be told apart from the entries so often.
const LEAST: usize = 200;

fn odd_number(r: &mut Random) -> usize {
    let edges = [0, 1, 16, 47, 48, 448, LENGTH, LARGEST, usize::MAX];
    match r.below(4) {
        0 => r.any() as usize,
        1 => edges[r.below(9)].wrapping_add(r.below(3)).wrapping_sub(1),
        2 => 1 << r.below(64),
        _ => r.below(LENGTH),
    }
}

// ---- document 01's "Sound", in the order of its words ----

type Clause = fn(&Record) -> bool;

/// Of each held chunk, by its place. Where the count is too large, of every place.
fn each(a: &Record, holds: impl Fn(usize) -> bool) -> bool {
    (0..a.count.min(32)).all(holds)
}

fn unused(a: &Record, column: &[usize; 32]) -> bool {
    column[a.count.min(32)..].iter().all(|&number| number == 0)
}

/// Without the 48, and in numbers that can't wrap.
fn end(a: &Record, i: usize) -> u128 {
    a.starts[i] as u128 + a.sizes[i] as u128
}

fn apart(a: &Record, i: usize, j: usize) -> bool {
    i == j || end(a, i) + 48 <= a.starts[j] as u128 || end(a, j) + 48 <= a.starts[i] as u128
}

const MINIMUM: usize = 0;
const REGION: usize = 1;
const LIMITED: usize = 2;
const LIMIT: usize = 3;
const COUNT: usize = 4;
const STARTS: usize = 5;
const SIZES: usize = 6;
const WITHIN: usize = 7;
const FROM_START: usize = 8;
const TO_END: usize = 9;
const ON_MINIMUM: usize = 10;
const APART: usize = 11;
const UNUSED: [usize; 3] = [12, 13, 14];

const CLAUSES: [Clause; 15] = [
    |a| [1, 2, 4, 8, 16].contains(&a.minimum),
    |a| a.region <= LARGEST,
    |a| a.limited <= 1,
    |a| a.limited != 0 || a.limit == 0,
    |a| a.count <= 32,
    |a| each(a, |i| a.starts[i] % 16 == 0),
    |a| each(a, |i| a.sizes[i] % 16 == 0),
    |a| each(a, |i| end(a, i) + 48 <= a.region as u128),
    |a| each(a, |i| a.starts[i] <= a.pointers[i]),
    |a| each(a, |i| a.pointers[i] as u128 <= end(a, i)),
    |a| each(a, |i| a.minimum == 0 || a.pointers[i] % a.minimum == 0),
    |a| each(a, |i| each(a, |j| apart(a, i, j))),
    |a| unused(a, &a.starts),
    |a| unused(a, &a.sizes),
    |a| unused(a, &a.pointers),
];

/// Wrong readings: one clause is another. With a clause left out, as the first fifteen have it, or too narrow, the entries must be found to
/// answer otherwise: a test that can't tell these from the right reading sees no such mistake of theirs.
#[rustfmt::skip]
const WRONG: [(&str, usize, Clause); 38] = [
    ("any minimum", MINIMUM, |_| true),
    ("any region", REGION, |_| true),
    ("any number says that there is a limit", LIMITED, |_| true),
    ("a limit's number without a limit", LIMIT, |_| true),
    ("any count", COUNT, |_| true),
    ("starts off 16", STARTS, |_| true),
    ("sizes off 16", SIZES, |_| true),
    ("chunks outside the region", WITHIN, |_| true),
    ("pointers below the start", FROM_START, |_| true),
    ("pointers above the end", TO_END, |_| true),
    ("pointers off the minimum", ON_MINIMUM, |_| true),
    ("chunks may overlap", APART, |_| true),
    ("an unused start may be any", UNUSED[0], |_| true),
    ("an unused size may be any", UNUSED[1], |_| true),
    ("an unused pointer may be any", UNUSED[2], |_| true),
    ("minimum 0 too", MINIMUM, |a| [0, 1, 2, 4, 8, 16].contains(&a.minimum)),
    ("minimum 32 too", MINIMUM, |a| [1, 2, 4, 8, 16, 32].contains(&a.minimum)),
    ("no minimum of 16", MINIMUM, |a| [1, 2, 4, 8].contains(&a.minimum)),
    ("a byte more of region", REGION, |a| a.region <= LARGEST + 1),
    ("no largest region", REGION, |a| a.region < LARGEST),
    ("33 chunks", COUNT, |a| a.count <= 33),
    ("no 32 chunks", COUNT, |a| a.count < 32),
    ("starts on 8", STARTS, |a| each(a, |i| a.starts[i] % 8 == 0)),
    ("sizes on 8", SIZES, |a| each(a, |i| a.sizes[i] % 8 == 0)),
    ("no chunk of 0 bytes", SIZES, |a| each(a, |i| a.sizes[i] % 16 == 0 && a.sizes[i] != 0)),
    ("the 48 bytes outside the region", WITHIN, |a| each(a, |i| end(a, i) <= a.region as u128)),
    ("no 48 bytes at the region's end", WITHIN, |a| each(a, |i| end(a, i) + 48 < a.region as u128)),
    ("a sum that wraps", WITHIN, |a| each(a, |i| (end(a, i) as usize).wrapping_add(48) <= a.region)),
    ("no pointer at the start", FROM_START, |a| each(a, |i| a.starts[i] < a.pointers[i])),
    ("a pointer up to the 48", TO_END, |a| each(a, |i| (a.pointers[i] as u128) < end(a, i) + 48)),
    ("no pointer at the end", TO_END, |a| each(a, |i| (a.pointers[i] as u128) < end(a, i))),
    ("the current pointer alone on the minimum", ON_MINIMUM, |a| {
        each(a, |i| i + 1 != a.count || a.minimum == 0 || a.pointers[i] % a.minimum == 0)
    }),
    ("a chunk's 48 on the next", APART, |a| {
        each(a, |i| each(a, |j| i == j || end(a, i) <= a.starts[j] as u128 || end(a, j) <= a.starts[i] as u128))
    }),
    ("each chunk held against its neighbour in the table", APART, |a| {
        each(a, |i| i == 0 || apart(a, i, i - 1))
    }),
    ("each chunk held against the current one", APART, |a| {
        each(a, |i| apart(a, i, a.count.min(32) - 1))
    }),
    ("no chunks that touch", APART, |a| {
        each(a, |i| each(a, |j| i == j || end(a, i) + 48 < a.starts[j] as u128 || end(a, j) + 48 < a.starts[i] as u128))
    }),
    ("one unused place is looked at", UNUSED[1], |a| a.count >= 32 || a.sizes[a.count] == 0),
    ("the last place is not looked at", UNUSED[1], |a| a.sizes[a.count.min(31)..31].iter().all(|&n| n == 0)),
];

// ---- records ----

/// Chunks in any order of the table, many of which touch, in a region that may end where the last one does.
fn sound_record(r: &mut Random, large: bool) -> Record {
    let mut a = Record::EMPTY;
    let wanted = [0, 1, 2, r.below(6), r.below(33), 32][r.below(6)];
    let most = if large { LARGEST } else { LENGTH };
    let widest = most / 16 / (wanted + 1);
    let gap = |r: &mut Random| if r.one_in(2) { 0 } else { 16 * r.below(4) };
    let mut at = gap(r);
    a.minimum = 1 << r.below(5);
    while a.count < wanted {
        let n = 16 * if r.one_in(4) { 0 } else { r.below(widest) };
        if at + n + 48 > most {
            break;
        }
        // A place of the table that is free yet, so that neighbours there are often none in the region.
        let place = r.below(a.count + 1);
        for column in [&mut a.starts, &mut a.sizes, &mut a.pointers] {
            column.copy_within(place..a.count, place + 1);
        }
        let taken = [0, n, r.below(n + 1) / a.minimum * a.minimum][r.below(3)];
        (a.starts[place], a.sizes[place], a.pointers[place]) = (at, n, at + n - taken);
        a.count += 1;
        at += n + 48 + gap(r);
    }
    let past = (0..a.count)
        .map(|i| a.starts[i] + a.sizes[i] + 48)
        .max()
        .unwrap_or(0);
    a.region = [past, most, past + r.below(most - past + 1)][r.below(3)];
    a.limited = r.below(2);
    a.limit = a.limited * odd_number(r);
    a
}

/// Sound but for one number, so that this clause alone fails. What chance doesn't bring about in some tries is left to the others.
fn sound_but_for(r: &mut Random, clause: usize, large: bool) -> Record {
    let mut a = Record::EMPTY;
    for _ in 0..16 {
        a = sound_record(r, large);
        change_one_number(r, &mut a, clause);
        if (0..CLAUSES.len()).all(|i| CLAUSES[i](&a) == (i != clause)) {
            break;
        }
    }
    a
}

fn change_one_number(r: &mut Random, a: &mut Record, clause: usize) {
    let i = if a.count == 0 { 0 } else { r.below(a.count) };
    let free = [(a.count + r.below(33 - a.count)).min(31), 31][r.below(2)];
    let steps = 16 * (1 + r.below(4));
    let number = odd_number(r);
    let little = [8, 1 + r.below(15)][r.below(2)];
    let down = r.one_in(2);
    let moved =
        |number: usize, by: usize| number.wrapping_add(if down { by.wrapping_neg() } else { by });
    let (start, n) = (a.starts[i], a.sizes[i]);
    match clause {
        MINIMUM => a.minimum = [0, 3, 12, 32, 32, number][r.below(6)],
        REGION => a.region = [LARGEST + 1, LARGEST + 16, number][r.below(3)],
        LIMITED => a.limited = [2, 3, number][r.below(3)],
        LIMIT => a.limit = [1, number][r.below(2)],
        COUNT => a.count = [33, 34, number][r.below(3)],
        STARTS => a.starts[i] = moved(start, little),
        SIZES => a.sizes[i] = moved(n, little),
        WITHIN => match r.below(3) {
            0 => a.region = (start + n + 48).wrapping_sub(1 + r.below(48)),
            1 => a.sizes[i] = n + steps,
            // The sum of the three is small again.
            _ => a.sizes[i] = 0usize.wrapping_sub(start + 48).wrapping_add(steps),
        },
        FROM_START => {
            a.pointers[i] = [
                start.wrapping_sub(a.minimum),
                start.saturating_sub(steps),
                0,
            ][r.below(3)]
        }
        TO_END => {
            a.pointers[i] = start + n + [a.minimum, 32, steps, 16 * r.below(1 << 20)][r.below(4)]
        }
        ON_MINIMUM => a.pointers[i] = moved(a.pointers[i], little),
        APART => match r.below(3) {
            0 => a.sizes[i] = n + steps,
            1 => a.starts[i] = moved(start, steps),
            _ => a.starts[i] = a.starts[0],
        },
        _ => {
            let column = [&mut a.starts, &mut a.sizes, &mut a.pointers];
            column[clause - UNUSED[0]][free] = [1, 16, number][r.below(3)];
        }
    }
}

/// Any numbers at all, or a sound record with some of them changed.
fn odd_record(r: &mut Random) -> Record {
    let all = r.one_in(2);
    let mut a = sound_record(r, false);
    for _ in 0..if all { 2000 } else { 1 + r.below(3) } {
        let x = if all { r.any() as usize } else { odd_number(r) };
        match r.below(8) {
            0 => a.region = x,
            1 => a.minimum = x,
            2 => a.limited = x,
            3 => a.limit = x,
            4 => a.count = x,
            5 => a.starts[r.below(32)] = x,
            6 => a.sizes[r.below(32)] = x,
            _ => a.pointers[r.below(32)] = x,
        }
    }
    a
}

/// Numbers that mostly suit the record. In a large region no more than some thousand bytes are written.
fn request<'a>(
    r: &mut Random,
    entry: usize,
    a: &Record,
    source: &'a [u8],
    large: bool,
) -> Request<'a> {
    let newest = a.pointers[a.count.wrapping_sub(1) % 32];
    let number = |r: &mut Random, often| if r.one_in(8) { odd_number(r) } else { often };
    let size = |r: &mut Random, often| {
        let size = number(r, often);
        if large && size <= LARGEST {
            size % LENGTH
        } else {
            size
        }
    };
    let often = if entry == 7 { r.below(17) } else { 20 };
    Request {
        entry,
        block: Named {
            offset: number(r, newest),
            size: size(r, 16),
            align: number(r, 1),
        },
        size: size(r, often),
        align: number(r, 8),
        count: number(r, a.count),
        pointer: number(r, newest.wrapping_add(16)),
        source: &source[..r.below(source.len())],
    }
}

fn is_sound(a: &Record) -> bool {
    CLAUSES.iter().all(|clause| clause(a))
}

/// Asks the plain entry, and holds it to document 01; then the other forms, which must do the same. The sound one is asked where it may be.
/// Of the region the first bytes are compared, which may be all. The refusal's number, and how many forms were asked.
fn ask_each_form(
    q: &Request,
    before: &Record,
    was_sound: bool,
    region: &mut [u8],
    lent: usize,
    compared: usize,
) -> (usize, usize) {
    let was = region[..compared].to_vec();
    let mut a = *before;
    let got = plain(q, &mut a, &mut region[..lent]);
    let after = region[..compared].to_vec();
    assert_eq!(got[0] != 1, was_sound, "{q:?} {before:?}");
    assert!(a == *before || is_sound(&a), "{q:?} {before:?}");
    let past = lent.min(compared);
    assert_eq!(after[past..], was[past..], "{q:?}");
    if got[0] != 0 {
        assert_eq!((&a, &after), (before, &was), "{q:?}");
    }
    let forms = match () {
        _ if q.entry >= IN_PLACE => 1,
        _ if was_sound && lent == before.region => 3,
        _ => 2,
    };
    for ask in &[fast, sound][..forms - 1] {
        let mut b = *before;
        region[..compared].copy_from_slice(&was);
        assert_eq!((ask(q, &mut b, &mut region[..lent]), b), (got, a), "{q:?}");
        assert_eq!(region[..compared], after, "{q:?}");
    }
    (got[0], forms)
}

#[test]
fn random_records_through_every_entry() {
    let mut r = Random(1);
    let source: Vec<u8> = (0..100).map(|_| r.any() as u8).collect();
    let mut bytes: Vec<u8> = (0..LENGTH + 16).map(|_| r.any() as u8).collect();
    // Of which no more than some pages are touched, and none is compared.
    let mut largest = vec![0; LARGEST];
    let (mut answered, mut asked, mut told) = ([0; 9], [0; 3], [0; WRONG.len()]);
    for turn in 0..TURNS {
        let large = r.one_in(4);
        let before = match r.below(8) {
            0 => odd_record(&mut r),
            1 | 2 => sound_record(&mut r, large),
            _ => sound_but_for(&mut r, turn % CLAUSES.len(), large),
        };
        let (region, most, compared) = if large {
            (&mut largest[..], LARGEST, 0)
        } else {
            (&mut bytes[..], LENGTH, LENGTH + 16)
        };
        let own = before.region.min(most);
        let was_sound = is_sound(&before);
        for entry in 0..ENTRIES {
            let lent = if r.one_in(16) { r.below(own + 1) } else { own };
            let q = request(&mut r, entry, &before, &source, large);
            let (refusal, forms) = ask_each_form(&q, &before, was_sound, region, lent, compared);
            answered[refusal] += 1;
            asked[..forms].iter_mut().for_each(|calls| *calls += 1);
        }
        let holds = CLAUSES.map(|clause| clause(&before));
        for (seen, (_, wrong, clause)) in told.iter_mut().zip(WRONG) {
            let others = (0..CLAUSES.len()).all(|i| i == wrong || holds[i]);
            *seen += usize::from((others && clause(&before)) != was_sound);
        }
    }
    println!("calls by a plain, a fast and a sound entry: {asked:?}");
    println!("served and refused 1 to 8: {answered:?}");
    assert!(answered.iter().all(|&n| n > 0));
    for (seen, (what, ..)) in told.iter().zip(WRONG) {
        println!("{seen} records tell: {what}");
        assert!(*seen >= LEAST, "{what}: {seen} records tell it");
    }
}

/// A creation takes nothing from what stood in the record.
#[test]
fn creations_over_random_records() {
    let mut r = Random(2);
    for _ in 0..20_000 {
        let (mut over, mut fresh) = (odd_record(&mut r), Record::EMPTY);
        let (length, minimum, capacity) = (odd_number(&mut r), 1 << r.below(6), r.below(900));
        let said = entries::create(&mut over, length, minimum, capacity);
        assert_eq!(said, entries::create(&mut fresh, length, minimum, capacity));
        assert_eq!(over, fresh);
        assert!(is_sound(&over));
    }
}
