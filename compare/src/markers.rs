//! The walk towards the end of numbering: a start, then a marker for each number.

use std::ops::Range;
use std::time::{Duration, Instant};

use crate::both::Both;
use crate::ffi::{RecordNumbers, Told};
use crate::proved_side::ProvedSide;
use crate::rust_side::RustSide;

/// How many markers one side is given before the other; a power of two.
const CHUNK: u32 = 4_096;
/// From this number on all readers are compared after each call.
pub const SLOW: u32 = u32::MAX - 15;

/// What is walked: the current cursor, or the current machine.
pub trait Walked {
    const NAME: &str;
    fn rust(side: &mut RustSide, record: &RecordNumbers) -> Told;
    fn proved(side: &mut ProvedSide, record: &RecordNumbers) -> Told;
    fn compare_readers(both: &mut Both);
}

pub fn started() -> RecordNumbers {
    RecordNumbers {
        kind: 1,
        a: 3,
        d: 1,
        ..RecordNumbers::default()
    }
}

/// The marker with this number; its gate and version change with the number.
pub fn marker(number: u32) -> RecordNumbers {
    RecordNumbers {
        kind: 9,
        a: number as u16,
        s: number,
        d: (number >> 16).into(),
        ..RecordNumbers::default()
    }
}

/// Compares the answers to all markers below `SLOW`, and the readers after each chunk.
/// Returns a line that tells the time that each side took.
pub fn walk_to_slow<W: Walked>(both: &mut Both, run: u64) -> String {
    let mut answers = Vec::with_capacity(CHUNK as usize);
    let (mut rust, mut proved) = (Duration::ZERO, Duration::ZERO);
    let mut first = 0;
    while first < SLOW {
        let end = first.saturating_add(CHUNK).min(SLOW);
        rust += walk_rust::<W>(both, first..end, &mut answers);
        proved += walk_proved::<W>(both, run, first..end, &answers);
        both.set_before(walked::<W>(run, end - 1));
        W::compare_readers(both);
        both.compared += u64::from(end - first);
        first = end;
    }
    let (rust, proved) = (rust.as_secs_f64(), proved.as_secs_f64());
    format!("  a marker for each of the 2^32 numbers: Rust {rust:.1} s, proved {proved:.1} s")
}

fn walk_rust<W: Walked>(both: &mut Both, numbers: Range<u32>, answers: &mut Vec<Told>) -> Duration {
    let start = Instant::now();
    answers.clear();
    answers.extend(numbers.map(|number| W::rust(&mut both.rust, &marker(number))));
    start.elapsed()
}

fn walk_proved<W: Walked>(
    both: &mut Both,
    run: u64,
    numbers: Range<u32>,
    answers: &[Told],
) -> Duration {
    let start = Instant::now();
    for (number, rust) in numbers.zip(answers) {
        let proved = W::proved(&mut both.proved, &marker(number));
        if proved != *rust {
            both.set_before(walked::<W>(run, number));
            both.differ(rust, &proved);
        }
    }
    start.elapsed()
}

/// The calls of the walk in words.
fn walked<W: Walked>(run: u64, last: u32) -> String {
    let name = W::NAME;
    format!("a {name} of run {run}, a start, and markers with the numbers to {last}")
}
