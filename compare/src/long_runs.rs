//! Cursors: long sequences of records at random, legal for most of their length.

use crate::Settings;
use crate::both::Both;
use crate::calls::{Call, CursorRead};
use crate::ffi::RecordNumbers;
use crate::random::Random;
use crate::records::{KINDS, at_random, legal_kinds, right_number, wrong_numbers};

/// The most legal records in one sequence.
const LENGTH: u64 = 10_000;
/// How many records follow them, legal or not.
const TAIL: u64 = 40;

pub fn run(settings: &Settings, both: &mut Both) {
    let mut random = Random::new(settings.seed);
    for _ in 0..settings.long_runs {
        let length = if random.one_in(2) {
            LENGTH
        } else {
            random.below(200)
        };
        both.begin(Call::NewCursor { run: random.any() });
        one(both, &mut random, length);
    }
}

fn one(both: &mut Both, random: &mut Random, length: u64) {
    for _ in 0..length {
        let record = legal(random, &both.rust.read_cursor());
        both.call(Call::Advance(record));
    }
    for _ in 0..TAIL {
        let record = likely_legal(random, &both.rust.read_cursor());
        both.call(Call::Advance(record));
    }
}

/// A record that may follow and does not end the run.
pub fn legal(random: &mut Random, cursor: &CursorRead) -> RecordNumbers {
    let right = right_number(cursor);
    let kind = loop {
        let kind = random.pick(legal_kinds(cursor));
        if !matches!(kind, 7 | 8) {
            break kind;
        }
    };
    at_random(random, kind, right)
}

/// A record that may follow (it may end the run), or now and then any record.
pub fn likely_legal(random: &mut Random, cursor: &CursorRead) -> RecordNumbers {
    let legal = legal_kinds(cursor);
    let right = right_number(cursor);
    if legal.is_empty() || random.one_in(8) {
        return any(random, right);
    }
    let kind = random.pick(legal);
    at_random(random, kind, right)
}

/// A record of any kind whose number is right, near the right one, or any.
fn any(random: &mut Random, right: u32) -> RecordNumbers {
    let kind = random.pick(&KINDS);
    let number = match random.below(3) {
        0 => right,
        1 => random.pick(&wrong_numbers(right)),
        _ => random.any() as u32,
    };
    at_random(random, kind, number)
}
