//! Machines: long scripts of calls at random, legal for most of their length.

use crate::Settings;
use crate::both::Both;
use crate::calls::{Call, NextNumbers};
use crate::ffi::{RecordNumbers, RequestNumbers, SpecNumbers};
use crate::random::Random;
use crate::records::{KINDS, at_random, wrong_numbers};
use crate::rust_side::RustSide;

/// The most calls in one script before those that may end it.
const LENGTH: u64 = 10_000;
/// How many calls follow them, legal or not.
const TAIL: u64 = 40;

pub fn run(settings: &Settings, both: &mut Both) {
    let mut random = Random::new(settings.seed ^ 0x5C);
    for _ in 0..settings.long_scripts {
        let length = if random.one_in(2) {
            LENGTH
        } else {
            random.below(200)
        };
        both.begin(Call::NewMachine { run: random.any() });
        one(both, &mut random, length);
    }
}

fn one(both: &mut Both, random: &mut Random, length: u64) {
    for _ in 0..length {
        let call = legal(random, &both.rust);
        both.call(call);
    }
    for _ in 0..TAIL {
        let call = likely_legal(random, &both.rust);
        both.call(call);
    }
}

/// A call that neither halts the machine, nor ends the run, nor makes it diverge.
pub fn legal(random: &mut Random, rust: &RustSide) -> Call {
    let right = rust.machine_number();
    match rust.read_machine().position.number {
        0 => Call::MachineAdvance(at_random(random, 1, right)),
        1 => at_replaying(random, right),
        2 => at_effect(random, right),
        3 => at_timer(random, right),
        _ => any(random, right),
    }
}

/// A legal call (it may end the run), or now and then any call.
pub fn likely_legal(random: &mut Random, rust: &RustSide) -> Call {
    let right = rust.machine_number();
    match random.below(16) {
        0 => any(random, right),
        1 => {
            let kind = random.pick(&[7, 8]);
            let record = at_random(random, kind, right);
            call_with(random, record)
        }
        _ => legal(random, rust),
    }
}

fn at_replaying(random: &mut Random, right: u32) -> Call {
    let kind = random.pick(&[2, 5, 9]);
    let record = at_random(random, kind, right);
    match random.below(8) {
        0 | 1 => Call::MachineAdvance(record),
        2 | 3 => effect(random, right),
        4 | 5 => timer(random, right),
        6 => at_end(random, record),
        _ => refused(random, record),
    }
}

/// An intent whose effect is next.
fn effect(random: &mut Random, right: u32) -> Call {
    let record = at_random(random, 2, right);
    Call::Intent {
        request: request_of(&record),
        next: NextNumbers::of(record),
    }
}

/// A timer intent whose timer is next. It is refused where the clock has no meaning or the
/// board does not have it.
fn timer(random: &mut Random, right: u32) -> Call {
    let mut record = at_random(random, 5, right);
    if !random.one_in(8) {
        record.clock = random.pick(&[1, 2]);
    }
    Call::TimerIntent {
        spec: spec_of(&record),
        capability: random.pick(&[0, 1, 1]),
        next: NextNumbers::of(record),
    }
}

/// An intent of either kind at the end of history; the record is not read.
fn at_end(random: &mut Random, record: RecordNumbers) -> Call {
    let next = ended(record);
    if random.one_in(2) {
        return Call::Intent {
            request: request_of(&record),
            next,
        };
    }
    Call::TimerIntent {
        spec: spec_of(&record),
        capability: random.next() as u8 & 1,
        next,
    }
}

fn ended(record: RecordNumbers) -> NextNumbers {
    NextNumbers { ended: 1, record }
}

/// An outcome of either kind where none is awaited.
fn refused(random: &mut Random, record: RecordNumbers) -> Call {
    if random.one_in(2) {
        Call::Outcome(NextNumbers::of(record))
    } else {
        Call::TimerOutcome(NextNumbers::of(record))
    }
}

/// A call where an effect is open. Some of these are refused; the phase decides which.
fn at_effect(random: &mut Random, right: u32) -> Call {
    let kind = random.pick(&[3, 4]);
    let record = at_random(random, kind, right);
    match random.below(5) {
        0 => Call::Outcome(ended(record)),
        1 => Call::TimerOutcome(NextNumbers::of(record)),
        2 | 3 => Call::Outcome(NextNumbers::of(record)),
        _ => Call::MachineAdvance(record),
    }
}

/// A call where a timer is open, likewise.
fn at_timer(random: &mut Random, right: u32) -> Call {
    let record = at_random(random, 6, right);
    match random.below(5) {
        0 => Call::TimerOutcome(ended(record)),
        1 => Call::Outcome(NextNumbers::of(record)),
        2 | 3 => Call::TimerOutcome(NextNumbers::of(record)),
        _ => Call::MachineAdvance(record),
    }
}

/// Any call with a record of any kind whose number is right, near the right one, or any.
fn any(random: &mut Random, right: u32) -> Call {
    let kind = random.pick(&KINDS);
    let number = match random.below(3) {
        0 => right,
        1 => random.pick(&wrong_numbers(right)),
        _ => random.any() as u32,
    };
    let record = at_random(random, kind, number);
    call_with(random, record)
}

/// Any call with this record next. The request differs from the record half of the time.
fn call_with(random: &mut Random, record: RecordNumbers) -> Call {
    let next = match random.below(4) {
        0 => ended(record),
        _ => NextNumbers::of(record),
    };
    match random.below(5) {
        0 => Call::MachineAdvance(record),
        1 => Call::Intent {
            request: request_near(random, &record),
            next,
        },
        2 => Call::TimerIntent {
            spec: spec_near(random, &record),
            capability: random.pick(&[0, 1]),
            next,
        },
        3 => Call::Outcome(next),
        _ => Call::TimerOutcome(next),
    }
}

fn request_of(record: &RecordNumbers) -> RequestNumbers {
    RequestNumbers {
        input_crc: record.m as u32,
        kind: record.a,
        input_len: record.d as u16,
    }
}

fn request_near(random: &mut Random, record: &RecordNumbers) -> RequestNumbers {
    let mut request = request_of(record);
    match random.below(6) {
        0 => request.kind = random.any() as u16,
        1 => request.input_len = random.any() as u16,
        2 => request.input_crc = random.any() as u32,
        _ => {}
    }
    request
}

/// The spec of that record, or a spec on clock 2 where the record's clock has none.
fn spec_of(record: &RecordNumbers) -> SpecNumbers {
    SpecNumbers {
        deadline: record.d,
        clock: if record.clock == 1 { 1 } else { 2 },
    }
}

fn spec_near(random: &mut Random, record: &RecordNumbers) -> SpecNumbers {
    let mut spec = spec_of(record);
    match random.below(4) {
        0 => spec.clock = random.pick(&[1, 2]),
        1 => spec.deadline = random.near(spec.deadline),
        _ => {}
    }
    spec
}
