//! Cursors at the end of numbering, walked to with a marker for each of the 2^32 numbers.

use crate::Settings;
use crate::both::Both;
use crate::calls::{Answer, Call};
use crate::exhaustive;
use crate::ffi::{RecordNumbers, Told};
use crate::markers::{SLOW, Walked, marker, started, walk_to_slow};
use crate::proved_side::ProvedSide;
use crate::rust_side::RustSide;
use crate::walk::walk;
use crate::whole::Changed;

const RUN: u64 = 7;
/// The length of the sequences of records that are tried near the end and at the end.
const DEPTH: u32 = 4;

const EXHAUSTED: u64 = 21;
const HALTED: u64 = 6;

pub fn run(_settings: &Settings, both: &mut Both) {
    both.begin(Call::NewCursor { run: RUN });
    both.call(Call::Advance(started()));
    let seconds = walk_to_slow::<Cursors>(both, RUN);
    for number in SLOW..u32::MAX {
        both.call(Call::Advance(marker(number)));
    }
    walk(both, DEPTH, exhaustive::alphabet);
    both.call(Call::Advance(marker(u32::MAX)));
    at_the_end(both);
    walk(both, DEPTH, exhaustive::alphabet);
    println!("{seconds}");
}

struct Cursors;

impl Walked for Cursors {
    const NAME: &str = "cursor";

    fn rust(side: &mut RustSide, record: &RecordNumbers) -> Told {
        side.advance(record)
    }

    fn proved(side: &mut ProvedSide, record: &RecordNumbers) -> Told {
        side.advance(record)
    }

    fn compare_readers(both: &mut Both) {
        let rust = both.rust.read_cursor();
        let proved = both.proved.read_cursor();
        if rust != proved {
            both.differ(&rust, &proved);
        }
        both.compare_whole(Changed::Cursor);
    }
}

/// What the Rust source answers once every number is spent.
fn at_the_end(both: &mut Both) {
    let cursor = both.rust.read_cursor();
    assert_eq!(cursor.next_seq.number, 0, "no number is left");
    assert_eq!(cursor.next_effect_id.number, EXHAUSTED, "no id is left");
    let here = both.here();
    for kind in [2, 5, 9] {
        for s in [0, u32::MAX] {
            let (answer, position) = advance(both, kind, s);
            assert_eq!(answer, EXHAUSTED, "kind {kind} is refused");
            assert_eq!(position.number, HALTED, "kind {kind} halts");
            assert_eq!(position.a, EXHAUSTED, "kind {kind} halts as exhausted");
            both.back_to(&here);
        }
    }
    for kind in [7, 8] {
        let (answer, _) = advance(both, kind, 0);
        assert_eq!(answer, kind.into(), "kind {kind} passes");
        both.back_to(&here);
    }
}

/// The number of the answer to a record, and the position after it.
fn advance(both: &mut Both, kind: u8, s: u32) -> (u64, Told) {
    let record = RecordNumbers {
        kind,
        s,
        ..RecordNumbers::default()
    };
    match both.call(Call::Advance(record)) {
        Answer::Advanced { answer, cursor, .. } => (answer.number, cursor.position),
        _ => unreachable!("the answer to another call"),
    }
}
