//! Records to give to a cursor.

use crate::calls::CursorRead;
use crate::ffi::RecordNumbers;
use crate::random::Random;
use crate::rust_values::BODY_LIMIT;

/// Every kind of record.
pub const KINDS: [u8; 9] = [1, 2, 3, 4, 5, 6, 7, 8, 9];

pub fn has_number(kind: u8) -> bool {
    !matches!(kind, 1 | 7 | 8)
}

fn has_body(kind: u8) -> bool {
    matches!(kind, 1 | 3 | 4 | 7 | 8)
}

/// The number that is open or offered, which a record must have. Where no number is left, every
/// number is wrong, and the last one is given.
pub fn right_number(cursor: &CursorRead) -> u32 {
    let number = if cursor.pending.number == 1 {
        cursor.pending.b
    } else if cursor.pending_timer.number == 1 {
        cursor.pending_timer.b
    } else if cursor.next_seq.number == 1 {
        cursor.next_seq.a
    } else {
        u32::MAX.into()
    };
    number as u32
}

/// Some numbers that are not `right`: its neighbours and both ends.
pub fn wrong_numbers(right: u32) -> Vec<u32> {
    let mut wrong = vec![right.wrapping_sub(1), right.wrapping_add(1), 0, u32::MAX];
    wrong.sort_unstable();
    wrong.dedup();
    wrong.retain(|number| *number != right);
    wrong
}

/// The kinds that may follow at the cursor's position.
pub fn legal_kinds(cursor: &CursorRead) -> &'static [u8] {
    match cursor.position.number {
        0 => &[1],
        1 => &[2, 5, 7, 8, 9],
        2 => &[3, 4],
        3 => &[6],
        _ => &[],
    }
}

/// A record with plain fields.
pub fn plain(kind: u8, s: u32) -> RecordNumbers {
    let (clock, a, d, m, start) = match kind {
        1 => (0, 3, 1, 5, 16),
        2 => (0, 4, 5, 99, 0),
        3 => (0, 0, 0, 5, 16),
        4 => (0, 0, 0, 2, 30),
        5 => (1, 0, 5, 100, 0),
        7 => (0, 0, 0, 2, 8),
        8 => (0, 0, 0, 3, 9),
        9 => (0, 6, 2, 0, 0),
        _ => (0, 0, 0, 0, 0),
    };
    RecordNumbers {
        kind,
        clock,
        a,
        s,
        d,
        m,
        start,
    }
}

/// A record with fields at random, also those that its kind does not use.
pub fn at_random(random: &mut Random, kind: u8, s: u32) -> RecordNumbers {
    let mut record = RecordNumbers {
        kind,
        clock: random_clock(random),
        a: random.any() as u16,
        s,
        d: random.any(),
        m: random.any(),
        start: random.any() % (BODY_LIMIT + 1),
    };
    if has_body(kind) {
        record.m = random_length(random);
    }
    record
}

fn random_clock(random: &mut Random) -> u8 {
    if random.one_in(4) {
        random.next() as u8
    } else {
        random.pick(&[0, 1, 2, 3, 255])
    }
}

fn random_length(random: &mut Random) -> u64 {
    if random.one_in(3) {
        random.pick(&[0, 1, BODY_LIMIT])
    } else {
        random.any() % (BODY_LIMIT + 1)
    }
}
