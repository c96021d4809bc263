//! What the Rust says at the end of numbering, in the lines of the program `test_numbering`: first what can be done with the last
//! number, then what is said once every number is spent.
//!
//! A fresh cursor and a fresh machine walk there with a marker for each of the 2^32 numbers, each in a thread of its own.

use std::thread;

use waymaker_core::{EffectId, EffectSeq, GateId, KernelError, RecordRef, RunId, Step};

use crate::calls::{Call, NextNumbers};
use crate::ffi::{RecordNumbers, RequestNumbers, SpecNumbers};
use crate::numbering_lines::{after, say_allocator, say_cursor};
use crate::rust_side::{Plain, RustSide};
use crate::rust_values::record_of;

const RUN: u64 = 7;
const LAST: u32 = u32::MAX;

pub fn say() {
    let cursors = thread::spawn(|| walk(Call::NewCursor { run: RUN }, cursor_takes));
    let machines = walk(Call::NewMachine { run: RUN }, machine_takes);
    let cursors = cursors.join().expect("the cursor's walk ends");
    println!("markers accepted {}", machines.markers);
    last_of_cursor(&cursors.before);
    last_of_allocator(&cursors.before);
    last_of_effect(&machines.before);
    last_of_timer(&machines.before);
    spent_cursor(&cursors.spent);
    spent_machine(&machines.spent);
    spent_intents(&machines.spent);
    spent_timer_intents(&machines.spent);
}

/// The walked value with one number left and with none, and how many markers were accepted.
struct Walked {
    before: RustSide,
    spent: RustSide,
    markers: u64,
}

/// Walks from a fresh value: the start, then a marker for each number as long as they are accepted.
fn walk(fresh: Call, takes: impl Fn(&mut RustSide, RecordRef<'static>) -> Taken) -> Walked {
    let mut side = RustSide::new();
    side.answer(&fresh);
    let _ = takes(&mut side, record_of(&start()));
    let mut markers = 0;
    for number in 0..LAST {
        markers += u64::from(is_marker(takes(&mut side, marker_of(number)), number));
    }
    let before = side.copy();
    markers += u64::from(is_marker(takes(&mut side, marker_of(LAST)), LAST));
    Walked {
        before,
        spent: side,
        markers,
    }
}

type Taken = Result<Step<'static>, KernelError>;

fn cursor_takes(side: &mut RustSide, record: RecordRef<'static>) -> Taken {
    side.cursor.advance(record)
}

fn machine_takes(side: &mut RustSide, record: RecordRef<'static>) -> Taken {
    side.machine.advance(record)
}

/// Whether the answer is the step of the marker with this number.
fn is_marker(answer: Taken, number: u32) -> bool {
    let run = RunId(RUN);
    let seq = EffectSeq(number);
    answer
        == Ok(Step::VersionMarker {
            id: EffectId { run, seq },
            gate: GateId(1),
            version: 1,
        })
}

fn marker_of(number: u32) -> RecordRef<'static> {
    RecordRef::VersionMarker {
        seq: EffectSeq(number),
        gate: GateId(1),
        version: 1,
    }
}

// The last number.

fn last_of_cursor(cursor: &RustSide) {
    say_cursor("last number, cursor", cursor);
    let advance = |label: &str, side: &RustSide, record| after(label, side, Call::Advance(record));
    let effect = advance("last number, cursor, schedule", cursor, schedule(LAST));
    advance(
        "last number, cursor, effect completed",
        &effect,
        numbered(3, LAST),
    );
    let timer = advance("last number, cursor, timer", cursor, timer(LAST, 1));
    advance(
        "last number, cursor, timer fired",
        &timer,
        numbered(6, LAST),
    );
}

/// The Rust's cursor does not lend its allocator. So an allocator is made that resumes after the number before the last. Its
/// text must stand in the cursor's text.
fn last_of_allocator(cursor: &RustSide) {
    let mut side = RustSide::new();
    side.answer(&Call::Resume {
        run: RUN,
        committed: 1,
        last: LAST - 1,
    });
    let (whole, ids) = (format!("{:?}", cursor.cursor), format!("{:?}", side.ids));
    assert!(whole.contains(&ids), "{whole} has the allocator {ids}");
    say_allocator("last number, allocate", &mut side);
    say_allocator("after it, allocate", &mut side);
}

fn last_of_effect(machine: &RustSide) {
    let end = NextNumbers::end();
    after("last number, intent, end of history", machine, intent(end));
    let own = intent(NextNumbers::of(schedule(LAST)));
    let recorded = after("last number, intent, own schedule", machine, own);
    let open = after(
        "last number, outcome, end of history",
        &recorded,
        Call::Outcome(end),
    );
    after(
        "last number, delivered again, advance, effect completed",
        &open,
        Call::MachineAdvance(numbered(3, LAST)),
    );
    let failed = Call::Outcome(NextNumbers::of(numbered(4, LAST)));
    after("last number, outcome, effect failed", &recorded, failed);
    let completed = Call::Outcome(NextNumbers::of(numbered(3, LAST)));
    let closed = after(
        "last number, outcome, effect completed",
        &recorded,
        completed,
    );
    after("after it, intent, end of history", &closed, intent(end));
}

fn last_of_timer(machine: &RustSide) {
    let end = NextNumbers::end();
    let at_end = timer_intent(1, end);
    after("last number, timer_intent, end of history", machine, at_end);
    let own = timer_intent(1, NextNumbers::of(timer(LAST, 2)));
    let recorded = after("last number, timer_intent, own timer", machine, own);
    let open = after(
        "last number, timer_outcome, end of history",
        &recorded,
        Call::TimerOutcome(end),
    );
    after(
        "last number, armed again, advance, timer fired",
        &open,
        Call::MachineAdvance(numbered(6, LAST)),
    );
    let fired = Call::TimerOutcome(NextNumbers::of(numbered(6, LAST)));
    let closed = after("last number, timer_outcome, timer fired", &recorded, fired);
    after("after it, timer_intent, end of history", &closed, at_end);
}

// No number left.

fn spent_cursor(cursor: &RustSide) {
    say_cursor("cursor", cursor);
    for (label, record) in [
        ("marker with the last number", marker(LAST)),
        ("marker with number 0", marker(0)),
        ("schedule", schedule(0)),
        ("timer", timer(0, 1)),
        ("run completed", numbered(7, 0)),
        ("run failed", numbered(8, 0)),
    ] {
        after(&format!("cursor, {label}"), cursor, Call::Advance(record));
    }
}

fn spent_machine(machine: &RustSide) {
    for (label, record) in [
        ("marker with the last number", marker(LAST)),
        ("marker with number 0", marker(0)),
        ("schedule with the last number", schedule(LAST)),
        ("schedule", schedule(0)),
        ("timer with the last number", timer(LAST, 1)),
        ("timer", timer(0, 1)),
        ("run completed", numbered(7, 0)),
        ("run failed", numbered(8, 0)),
    ] {
        let label = format!("advance, {label}");
        after(&label, machine, Call::MachineAdvance(record));
    }
}

fn spent_intents(machine: &RustSide) {
    for (label, next) in [
        ("end of history", NextNumbers::end()),
        ("own schedule", NextNumbers::of(schedule(0))),
        (
            "own schedule with the last number",
            NextNumbers::of(schedule(LAST)),
        ),
        ("timer", NextNumbers::of(timer(0, 1))),
        ("marker", NextNumbers::of(marker(0))),
        ("run completed", NextNumbers::of(numbered(7, 0))),
        ("run failed", NextNumbers::of(numbered(8, 0))),
        ("second start", NextNumbers::of(start())),
    ] {
        after(&format!("intent, {label}"), machine, intent(next));
    }
}

fn spent_timer_intents(machine: &RustSide) {
    for (label, capability, next) in [
        ("end of history, no such clock", 0, NextNumbers::end()),
        ("end of history, admitted", 1, NextNumbers::end()),
        ("own timer", 1, NextNumbers::of(timer(0, 2))),
        (
            "own timer with the last number",
            1,
            NextNumbers::of(timer(LAST, 2)),
        ),
        ("own timer, unknown clock", 1, NextNumbers::of(timer(0, 0))),
        ("schedule", 1, NextNumbers::of(schedule(0))),
        ("marker", 1, NextNumbers::of(marker(0))),
        ("run completed", 1, NextNumbers::of(numbered(7, 0))),
        ("run failed", 1, NextNumbers::of(numbered(8, 0))),
    ] {
        let label = format!("timer_intent, {label}");
        after(&label, machine, timer_intent(capability, next));
    }
}

// Calls and records.

fn intent(next: NextNumbers) -> Call {
    let request = RequestNumbers {
        kind: 1,
        ..RequestNumbers::default()
    };
    Call::Intent { request, next }
}

/// The timer that is asked for is persistent.
fn timer_intent(capability: u8, next: NextNumbers) -> Call {
    Call::TimerIntent {
        spec: SpecNumbers {
            clock: 2,
            deadline: 5,
        },
        capability,
        next,
    }
}

fn numbered(kind: u8, s: u32) -> RecordNumbers {
    RecordNumbers {
        kind,
        s,
        ..RecordNumbers::default()
    }
}

fn start() -> RecordNumbers {
    RecordNumbers {
        a: 1,
        d: 1,
        ..numbered(1, 0)
    }
}

fn marker(s: u32) -> RecordNumbers {
    RecordNumbers {
        a: 1,
        d: 1,
        ..numbered(9, s)
    }
}

fn schedule(s: u32) -> RecordNumbers {
    RecordNumbers {
        a: 1,
        ..numbered(2, s)
    }
}

fn timer(s: u32, clock: u8) -> RecordNumbers {
    RecordNumbers {
        clock,
        d: 5,
        m: 3,
        ..numbered(5, s)
    }
}
