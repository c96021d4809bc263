//! The machine's share of the fixed sample of calls.

use crate::after::After;
use crate::calls::{Call, NextNumbers};
use crate::divergence;
use crate::ffi::{RecordNumbers, RequestNumbers, SpecNumbers};
use crate::long_scripts::{legal, likely_legal};
use crate::random::Random;
use crate::records::{KINDS, plain};
use crate::rust_side::RustSide;

/// Not 0, so that a new machine of this run differs from the machine at the start.
const RUN: u64 = 7;

pub fn push(calls: &mut Vec<Call>, random: &mut Random) {
    divergences(calls);
    for run in [0, 1, 0xFFFF_FFFF, 0x1_0000_0000, u64::MAX] {
        calls.push(Call::NewMachine { run });
    }
    for history in histories() {
        each_after(calls, history, &every_call());
    }
    effects(calls);
    timers(calls);
    for script in scripts() {
        calls.push(Call::NewMachine { run: u64::MAX });
        calls.extend(script);
    }
    long_script(calls, random);
}

/// Makes each call after the history.
fn each_after(calls: &mut Vec<Call>, history: Vec<Call>, each: &[Call]) {
    let mut after = After::new(Call::NewMachine { run: RUN }, history);
    for call in each {
        after.make(calls, *call);
    }
}

/// A record with the number 0 and short fields, so that the list stays short.
fn short(kind: u8) -> RecordNumbers {
    RecordNumbers {
        kind,
        clock: u8::from(kind == 5),
        ..RecordNumbers::default()
    }
}

fn advance(kind: u8) -> Call {
    Call::MachineAdvance(short(kind))
}

/// The request that short effects match.
fn intent(next: NextNumbers) -> Call {
    let request = RequestNumbers::default();
    Call::Intent { request, next }
}

/// The request that short timers match.
fn timer_intent(next: NextNumbers) -> Call {
    let spec = SpecNumbers {
        deadline: 0,
        clock: 1,
    };
    asked(spec, 0, next)
}

fn asked(spec: SpecNumbers, capability: u8, next: NextNumbers) -> Call {
    Call::TimerIntent {
        spec,
        capability,
        next,
    }
}

/// Each of the five calls with the end of history and each kind of record next.
fn every_call() -> Vec<Call> {
    let mut nexts = vec![NextNumbers::end()];
    nexts.extend(KINDS.map(|kind| NextNumbers::of(short(kind))));
    let mut calls = KINDS.map(advance).to_vec();
    calls.extend(nexts.iter().map(|next| intent(*next)));
    calls.extend(nexts.iter().map(|next| Call::Outcome(*next)));
    calls.extend(nexts.iter().map(|next| timer_intent(*next)));
    calls.extend(nexts.iter().map(|next| Call::TimerOutcome(*next)));
    calls
}

/// Short histories that lead to every position, in every phase that it can have.
fn histories() -> Vec<Vec<Call>> {
    let end = NextNumbers::end();
    let recorded = intent(NextNumbers::of(short(2)));
    let timer_recorded = timer_intent(NextNumbers::of(short(5)));
    let bad = NextNumbers::of(short(1));
    let settled: [&[Call]; 6] = [
        &[],
        &[advance(1)],
        &[advance(1), advance(2)],
        &[advance(1), advance(5)],
        &[advance(1), advance(7)],
        &[advance(1), advance(8)],
    ];
    let mut histories = settled.map(<[Call]>::to_vec).to_vec();
    histories.push(vec![advance(1), recorded]);
    histories.push(vec![advance(1), timer_recorded]);
    histories.push(vec![advance(9)]);
    histories.push(vec![advance(1), recorded, Call::Outcome(bad)]);
    histories.push(vec![advance(1), timer_recorded, Call::TimerOutcome(bad)]);
    for history in settled {
        let ahead = match history {
            [_] => intent(NextNumbers::of(short(9))),
            _ => timer_intent(end),
        };
        histories.push([history, &[ahead]].concat());
    }
    histories
}

/// The request that plain effects match.
const REQUEST: RequestNumbers = RequestNumbers {
    kind: 4,
    input_len: 5,
    input_crc: 99,
};

/// Schedules that `REQUEST` matches under number 1, and that differ in number, activity, length
/// and CRC, alone and by twos.
fn schedules() -> [RecordNumbers; 10] {
    let same = plain(2, 1);
    let kind = RecordNumbers { a: 5, ..same };
    let length = RecordNumbers { d: 4, ..same };
    [
        same,
        plain(2, 0),
        plain(2, 2),
        kind,
        length,
        RecordNumbers { m: 98, ..same },
        RecordNumbers { m: 98, ..length },
        RecordNumbers { s: 2, ..kind },
        RecordNumbers { d: 6, ..kind },
        RecordNumbers { m: 98, ..kind },
    ]
}

/// After a marker: effects that match and that differ.
fn effects(calls: &mut Vec<Call>) {
    let others = [
        RecordNumbers {
            d: 0x1_0005,
            m: 0x1_0000_0063,
            ..plain(2, 1)
        },
        RecordNumbers {
            s: 0,
            ..plain(9, 1)
        },
        RecordNumbers {
            s: 2,
            ..plain(5, 1)
        },
        plain(7, 1),
        plain(8, 1),
    ];
    let each: Vec<Call> = schedules()
        .into_iter()
        .chain(others)
        .map(|record| Call::Intent {
            request: REQUEST,
            next: NextNumbers::of(record),
        })
        .collect();
    each_after(calls, after_marker(), &each);
}

fn after_marker() -> Vec<Call> {
    vec![
        Call::MachineAdvance(plain(1, 0)),
        Call::MachineAdvance(plain(9, 0)),
    ]
}

/// After a marker: both clocks and both capabilities, with timers that match and that differ.
fn timers(calls: &mut Vec<Call>) {
    for (clock, capability) in [(1, 0), (1, 1), (2, 0), (2, 1)] {
        let spec = SpecNumbers { deadline: 5, clock };
        let mut each = vec![asked(spec, capability, NextNumbers::end())];
        for (clock, s, d) in [
            (0, 1, 5),
            (3, 1, 5),
            (255, 1, 5),
            (3, 2, 5),
            (1, 1, 5),
            (2, 1, 5),
            (1, 1, 6),
            (2, 1, 6),
            (1, 2, 5),
            (2, 0, 6),
        ] {
            let record = RecordNumbers {
                clock,
                d,
                ..plain(5, s)
            };
            each.push(asked(spec, capability, NextNumbers::of(record)));
        }
        each_after(calls, after_marker(), &each);
    }
}

fn scripts() -> Vec<Vec<Call>> {
    let mut scripts = vec![delivered_again(), armed_again()];
    scripts.extend(OTHERS.map(kept_divergence));
    scripts.push(whole_run());
    scripts
}

/// An effect that is recorded with no outcome: it is delivered again, then fails. The next one fails too.
fn delivered_again() -> Vec<Call> {
    let end = NextNumbers::end();
    let intent = |next| Call::Intent {
        request: REQUEST,
        next,
    };
    vec![
        Call::MachineAdvance(plain(1, 0)),
        intent(NextNumbers::of(plain(2, 0))),
        Call::MachineAdvance(plain(3, 0)),
        Call::TimerOutcome(end),
        Call::Outcome(end),
        Call::Outcome(end),
        Call::MachineAdvance(plain(4, 0)),
        intent(end),
        intent(end),
        Call::MachineAdvance(plain(2, 1)),
        Call::MachineAdvance(plain(4, 1)),
        intent(NextNumbers::of(plain(8, 0))),
        intent(end),
    ]
}

/// A timer that is recorded with no firing: it is armed again, then fires.
fn armed_again() -> Vec<Call> {
    let end = NextNumbers::end();
    let deadline = u64::MAX;
    let spec = SpecNumbers { deadline, clock: 2 };
    let record = RecordNumbers {
        clock: 2,
        d: deadline,
        m: 1 << 63,
        ..plain(5, 0)
    };
    vec![
        Call::MachineAdvance(plain(1, 0)),
        asked(spec, 0, end),
        asked(spec, 1, end),
        asked(spec, 0, NextNumbers::of(record)),
        asked(spec, 1, NextNumbers::of(record)),
        Call::MachineAdvance(plain(6, 0)),
        Call::Outcome(end),
        Call::TimerOutcome(end),
        Call::TimerOutcome(end),
        Call::MachineAdvance(plain(6, 0)),
        asked(spec, 1, end),
        asked(spec, 1, NextNumbers::of(plain(5, 1))),
    ]
}

/// Requests that differ from `REQUEST` in activity, in length and in CRC.
const OTHERS: [RequestNumbers; 3] = [
    RequestNumbers { kind: 5, ..REQUEST },
    RequestNumbers {
        input_len: 6,
        ..REQUEST
    },
    RequestNumbers {
        input_crc: 98,
        ..REQUEST
    },
];

/// The first divergence stays, whatever is asked for later.
fn kept_divergence(first: RequestNumbers) -> Vec<Call> {
    let next = NextNumbers::of(plain(2, 0));
    let asked = |request| Call::Intent { request, next };
    let mut calls = vec![Call::MachineAdvance(plain(1, 0)), asked(first)];
    calls.extend(OTHERS.map(asked));
    calls.extend([
        asked(REQUEST),
        timer_intent(NextNumbers::of(plain(9, 0))),
        intent(NextNumbers::of(plain(5, 0))),
        Call::MachineAdvance(plain(2, 0)),
        Call::Outcome(NextNumbers::of(plain(3, 0))),
    ]);
    calls
}

/// Effects and a timer with large fields, replayed to the end of the run; then a failed outcome, which halts.
fn whole_run() -> Vec<Call> {
    let request = RequestNumbers {
        kind: u16::MAX,
        input_len: u16::MAX,
        input_crc: u32::MAX,
    };
    let large = |kind, s| {
        NextNumbers::of(RecordNumbers {
            kind,
            clock: 1,
            a: u16::MAX,
            s,
            d: 65_535,
            m: if kind == 2 { 0xFFFF_FFFF } else { 65_535 },
            start: 65_535,
        })
    };
    let spec = SpecNumbers {
        deadline: 65_535,
        clock: 1,
    };
    let mut calls = vec![Call::MachineAdvance(large(1, 0).record)];
    for (s, outcome) in [(0, 3), (1, 4)] {
        let next = large(2, s);
        calls.push(Call::Intent { request, next });
        calls.push(Call::Outcome(large(outcome, s)));
    }
    calls.push(asked(spec, 0, large(5, 2)));
    calls.push(Call::TimerOutcome(large(6, 2)));
    calls.push(asked(spec, 0, large(7, 3)));
    calls.push(advance(4));
    calls
}

/// Equal fields, each field changed at either end, and pairs.
fn divergences(calls: &mut Vec<Call>) {
    let fields = [RUN, 3, 4, 5, 99];
    let tops = [63, 31, 15, 15, 31];
    calls.push(divergence::call(fields, fields));
    for first in 0..5 {
        for top in [0, tops[first]] {
            let mut other = fields;
            other[first] ^= 1 << top;
            calls.push(divergence::call(fields, other));
            calls.push(divergence::call(other, fields));
        }
        for second in first + 1..5 {
            let mut other = fields;
            other[first] += 1;
            other[second] += 1;
            calls.push(divergence::call(fields, other));
        }
    }
}

fn long_script(calls: &mut Vec<Call>, random: &mut Random) {
    let mut rust = RustSide::new();
    let mut push = |rust: &mut RustSide, call| {
        rust.answer(&call);
        calls.push(call);
    };
    push(&mut rust, Call::NewMachine { run: random.any() });
    for _ in 0..12 {
        let call = legal(random, &rust);
        push(&mut rust, call);
    }
    for _ in 0..6 {
        let call = likely_legal(random, &rust);
        push(&mut rust, call);
    }
}
