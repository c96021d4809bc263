//! Cursors, exhaustively: every sequence of records over an alphabet, up to a length.

use crate::Settings;
use crate::both::Both;
use crate::calls::Call;
use crate::ffi::RecordNumbers;
use crate::records::{has_number, right_number, wrong_numbers};
use crate::rust_side::RustSide;
use crate::values;
use crate::walk::{walk, walk_each};

pub fn run(settings: &Settings, both: &mut Both) {
    for run in values::RUNS {
        both.begin(Call::NewCursor { run });
        walk_each(both, settings.short, alphabet);
        walk(both, settings.depth, alphabet);
    }
}

/// All nine kinds: with the right number and varied fields, then with wrong numbers.
pub fn alphabet(rust: &RustSide) -> Vec<Call> {
    let right = right_number(&rust.read_cursor());
    let wrong = wrong_numbers(right);
    let mut records = Vec::with_capacity(64);
    for shapes in SHAPES {
        records.extend(
            shapes
                .iter()
                .map(|shape| RecordNumbers { s: right, ..*shape }),
        );
        if has_number(shapes[0].kind) {
            records.extend(wrong.iter().map(|s| RecordNumbers { s: *s, ..shapes[0] }));
        }
    }
    records.into_iter().map(Call::Advance).collect()
}

/// The fields that records are tried with, for each kind from 1 to 9.
const SHAPES: [&[RecordNumbers]; 9] = [
    &[
        shape(1, 0, 3, 1, 5, 16),
        shape(1, 0, 0, 0, 0, 0),
        shape(1, 9, 65_535, u64::MAX, 65_535, 65_535),
    ],
    &[
        shape(2, 0, 4, 5, 0xDEAD_BEEF, 0),
        shape(2, 0, 0, 0, 0, 0),
        shape(2, 1, 65_535, 0x1_FFFF, u64::MAX, 65_535),
    ],
    &[shape(3, 0, 0, 0, 5, 16), shape(3, 0, 0, 0, 0, 0)],
    &[shape(4, 0, 0, 0, 65_535, 7), shape(4, 2, 9, 9, 0, 65_535)],
    &[
        shape(5, 1, 0, 5, 100, 0),
        shape(5, 2, 0, 105, 100, 0),
        shape(5, 0, 0, 0, 0, 0),
        shape(5, 3, 1, 5, 1, 1),
        shape(5, 255, 65_535, u64::MAX, u64::MAX, 65_535),
    ],
    &[shape(6, 0, 0, 0, 0, 0)],
    &[shape(7, 0, 0, 0, 2, 300), shape(7, 0, 0, 0, 0, 0)],
    &[shape(8, 0, 0, 0, 3, 0), shape(8, 0, 0, 0, 0, 1)],
    &[
        shape(9, 0, 1, 1, 0, 0),
        shape(9, 0, 0, 0, 0, 0),
        shape(9, 3, 65_535, 0xA_FFFF, u64::MAX, 65_535),
    ],
];

const fn shape(kind: u8, clock: u8, a: u16, d: u64, m: u64, start: u64) -> RecordNumbers {
    RecordNumbers {
        kind,
        clock,
        a,
        s: 0,
        d,
        m,
        start,
    }
}
