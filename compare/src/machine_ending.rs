//! Machines at the end of numbering, walked to with a marker for each of the 2^32 numbers.

use crate::Settings;
use crate::both::Both;
use crate::calls::{Answer, Call, MachineRead, NextNumbers};
use crate::ffi::{RecordNumbers, RequestNumbers, SpecNumbers, Told};
use crate::markers::{SLOW, Walked, marker, started, walk_to_slow};
use crate::proved_side::ProvedSide;
use crate::records::plain;
use crate::rust_side::RustSide;
use crate::scripts;
use crate::walk::walk;
use crate::whole::Changed;

const RUN: u64 = 9;
/// The length of the scripts that are tried near the end and at the end.
const DEPTH: u32 = 4;

const EXHAUSTED: u64 = 21;
const NONDETERMINISTIC: u64 = 22;
const MALFORMED: u64 = 24;
const NO_CLOCK: u64 = 25;
const REPLAYING: u64 = 1;
const HALTED: u64 = 6;
const BOUNDARY_KIND: u8 = 4;
/// The answers' numbers for a recorded boundary, and for one that is delivered or armed again.
const RECORDED: u64 = 1;
const AGAIN: u64 = 1;

/// Makes the call that closes a boundary, from what is next.
type Close = fn(NextNumbers) -> Call;

pub fn run(_settings: &Settings, both: &mut Both) {
    both.begin(Call::NewMachine { run: RUN });
    both.call(Call::MachineAdvance(started()));
    let seconds = walk_to_slow::<Machines>(both, RUN);
    for number in SLOW..u32::MAX {
        both.call(Call::MachineAdvance(marker(number)));
    }
    walk(both, DEPTH, scripts::alphabet);
    with_the_last(both);
    both.call(Call::MachineAdvance(marker(u32::MAX)));
    at_the_end(both);
    walk(both, DEPTH, scripts::alphabet);
    println!("{seconds}");
}

struct Machines;

impl Walked for Machines {
    const NAME: &str = "machine";

    fn rust(side: &mut RustSide, record: &RecordNumbers) -> Told {
        side.machine_advance(record)
    }

    fn proved(side: &mut ProvedSide, record: &RecordNumbers) -> Told {
        side.machine_advance(record)
    }

    fn compare_readers(both: &mut Both) {
        let rust = both.rust.read_machine();
        let proved = both.proved.read_machine();
        if rust != proved {
            both.differ(&rust, &proved);
        }
        both.compare_whole(Changed::Machine);
    }
}

/// A schedule and a timer with the last number: recorded, delivered or armed again where history ends, and closed, with no number left.
fn with_the_last(both: &mut Both) {
    let (here, end) = (both.here(), NextNumbers::end());
    let effect = (intent(next(2, u32::MAX)), Call::Outcome as Close, 3);
    let timer = (
        timer_intent(1, 0, next(5, u32::MAX)),
        Call::TimerOutcome as Close,
        6,
    );
    for (opener, close, kind) in [effect, timer] {
        assert_eq!(answered(both, opener).0, RECORDED, "{opener:?}");
        assert_eq!(once(both, close(end)).0, AGAIN, "{opener:?} is open");
        let outcome = close(next(kind, u32::MAX));
        assert_eq!(answered(both, outcome).0, kind.into(), "{outcome:?}");
        unchanged(both, intent(end), EXHAUSTED);
        both.back_to(&here);
    }
}

/// What the Rust source answers once every number is spent.
fn at_the_end(both: &mut Both) {
    history_ended(both);
    own_opener(both);
    other_boundary(both);
    terminal(both);
    impossible(both);
    by_advance(both);
}

fn history_ended(both: &mut Both) {
    let end = NextNumbers::end();
    unchanged(both, intent(end), EXHAUSTED);
    unchanged(both, timer_intent(2, 0, end), NO_CLOCK);
    for (clock, capability) in [(1, 0), (1, 1), (2, 1)] {
        unchanged(both, timer_intent(clock, capability, end), EXHAUSTED);
    }
}

/// The own opener comes next: it is refused since no number is left, whatever else the record has.
fn own_opener(both: &mut Both) {
    for s in [0, u32::MAX] {
        unchanged(both, intent(next(2, s)), EXHAUSTED);
        for clock in [0, 1, 2, 3, 255] {
            let record = RecordNumbers {
                clock,
                ..plain(5, s)
            };
            for capability in [0, 1] {
                let call = timer_intent(1, capability, NextNumbers::of(record));
                unchanged(both, call, EXHAUSTED);
            }
        }
    }
}

fn other_boundary(both: &mut Both) {
    for s in [0, u32::MAX] {
        for kind in [5, 9] {
            diverges(both, intent(next(kind, s)));
        }
        for kind in [2, 9] {
            diverges(both, timer_intent(2, 0, next(kind, s)));
        }
    }
}

fn terminal(both: &mut Both) {
    for kind in [7, 8] {
        for call in intents(kind) {
            let (answer, machine) = once(both, call);
            assert_eq!(answer, kind.into(), "{call:?} ends the run");
            assert_eq!(machine.position.number, u64::from(kind) - 3, "{call:?}");
            assert_eq!(machine.diverged, 0, "{call:?}");
        }
    }
}

/// Records that cannot follow here.
fn impossible(both: &mut Both) {
    for kind in [1, 3, 4, 6] {
        for call in intents(kind) {
            halts(both, call, MALFORMED);
        }
    }
}

/// The machine's own `advance`.
fn by_advance(both: &mut Both) {
    for kind in [7, 8] {
        let (answer, machine) = once(both, Call::MachineAdvance(plain(kind, 0)));
        assert_eq!(answer, kind.into(), "kind {kind} ends the run");
        assert_eq!(machine.position.number, u64::from(kind) - 3, "kind {kind}");
    }
    for kind in [2, 5, 9] {
        for s in [0, u32::MAX] {
            halts(both, Call::MachineAdvance(plain(kind, s)), EXHAUSTED);
        }
    }
}

fn next(kind: u8, s: u32) -> NextNumbers {
    NextNumbers::of(plain(kind, s))
}

/// The request that `plain` effects match.
fn intent(next: NextNumbers) -> Call {
    let request = RequestNumbers {
        kind: 4,
        input_len: 5,
        input_crc: 99,
    };
    Call::Intent { request, next }
}

/// The spec has the deadline of `plain` timers.
fn timer_intent(clock: u8, capability: u8, next: NextNumbers) -> Call {
    Call::TimerIntent {
        spec: SpecNumbers { deadline: 5, clock },
        capability,
        next,
    }
}

/// An intent of either kind with a record of that kind next.
fn intents(kind: u8) -> [Call; 2] {
    [
        intent(next(kind, u32::MAX)),
        timer_intent(1, 0, next(kind, u32::MAX)),
    ]
}

fn unchanged(both: &mut Both, call: Call, number: u64) {
    let here = both.here();
    let (answer, _) = answered(both, call);
    assert_eq!(answer, number, "{call:?}");
    assert!(!both.moved_from(&here), "{call:?} changes nothing");
    both.back_to(&here);
}

fn diverges(both: &mut Both, call: Call) {
    let (answer, machine) = once(both, call);
    assert_eq!(answer, NONDETERMINISTIC, "{call:?}");
    assert_eq!(machine.diverged, BOUNDARY_KIND, "{call:?}");
    assert_eq!(machine.position.number, REPLAYING, "{call:?}");
}

fn halts(both: &mut Both, call: Call, number: u64) {
    let (answer, machine) = once(both, call);
    assert_eq!(answer, number, "{call:?}");
    assert_eq!(machine.position.number, HALTED, "{call:?}");
    assert_eq!(machine.position.a, number, "{call:?}");
    assert_eq!(machine.diverged, 0, "{call:?}");
}

/// Makes the call on copies of both machines.
fn once(both: &mut Both, call: Call) -> (u64, MachineRead) {
    let here = both.here();
    let told = answered(both, call);
    both.back_to(&here);
    told
}

/// The number of the answer to a call, and the readers after it.
fn answered(both: &mut Both, call: Call) -> (u64, MachineRead) {
    match both.call(call) {
        Answer::Answered { answer, machine } => (answer.number, machine),
        _ => unreachable!("the answer to another call"),
    }
}
