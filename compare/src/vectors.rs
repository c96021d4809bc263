//! A fixed sample of calls, compared like the others, and written as text with the
//! answers of the Rust source.

use std::fmt::Write;
use std::fs;
use std::io;
use std::path::Path;

use crate::Settings;
use crate::after::After;
use crate::both::Both;
use crate::calls::Call;
use crate::ffi::{RecordNumbers, SpecNumbers};
use crate::long_runs::{legal, likely_legal};
use crate::machine_vectors;
use crate::random::Random;
use crate::records::{KINDS, has_number, plain, right_number, wrong_numbers};
use crate::rust_side::RustSide;
use crate::unread::Unread;
use crate::values;
use crate::whole::Changed;

/// The most bytes of the file of calls.
const LIMIT: usize = 64_000;
const SEED: u64 = 2_026;
/// Not 0, so that a new cursor or machine of this run differs from the one at the start.
const RUN: u64 = 7;
/// The number of the position that a cursor does not leave.
const HALTED: u64 = 6;

pub fn run(_settings: &Settings, both: &mut Both) {
    both.begin(Call::ForRun { run: 0 });
    both.call(Call::NewCursor { run: 0 });
    both.call(Call::NewMachine { run: 0 });
    for call in sample() {
        match call {
            Call::ForRun { .. }
            | Call::Resume { .. }
            | Call::NewCursor { .. }
            | Call::NewMachine { .. } => both.begin(call),
            _ => both.call(call),
        };
    }
}

/// Writes the calls to `stdin` and the answers to `stdout` in the folder.
pub fn write(folder: &str) -> io::Result<()> {
    let (mut calls, mut answers) = (String::new(), String::new());
    let mut rust = RustSide::new();
    for call in sample() {
        line(&mut calls, &call);
        let answer = rust.answer(&call).to_string();
        match Changed::by(&call) {
            Changed::Machine => {
                let Unread { next_seq, phase } = Unread::of(&rust.machine);
                let (offers, next) = (next_seq.number, next_seq.a);
                line(&mut answers, &format!("{answer} {offers} {next} {phase}"));
            }
            _ => line(&mut answers, &answer),
        }
        if let Call::Advance(_) = call {
            // The proved cursor is advanced by value, and a second one over a lent cursor.
            line(&mut answers, &answer);
        }
    }
    assert!(calls.len() <= LIMIT, "{} bytes of calls", calls.len());
    fs::create_dir_all(folder)?;
    fs::write(Path::new(folder).join("stdin"), calls)?;
    fs::write(Path::new(folder).join("stdout"), answers)
}

fn line(text: &mut String, line: &impl std::fmt::Display) {
    writeln!(text, "{line}").expect("a string takes all text");
}

/// The calls. The first ones use the allocator, the cursor and the machine that every list
/// begins with.
fn sample() -> Vec<Call> {
    let start = plain(1, 0);
    let mut calls = vec![
        Call::Allocate,
        Call::Advance(start),
        Call::MachineAdvance(start),
    ];
    let mut random = Random::new(SEED);
    ids(&mut calls);
    timers(&mut calls);
    positions(&mut calls);
    shapes(&mut calls);
    long_run(&mut calls, &mut random);
    machine_vectors::push(&mut calls, &mut random);
    calls
}

fn ids(calls: &mut Vec<Call>) {
    calls.extend(values::U64.map(|run| Call::RunSuccessor { run }));
    calls.extend(values::U32.map(|seq| Call::SeqSuccessor { seq }));
    for run in [0, 1, 0x1_0000_0000, u64::MAX] {
        calls.push(Call::ForRun { run });
        calls.extend([Call::Allocate; 4]);
    }
    for (committed, last) in [(0, 0), (0, 9)] {
        resume(calls, committed, last);
    }
    for last in values::U32 {
        resume(calls, 1, last);
    }
}

fn resume(calls: &mut Vec<Call>, committed: u8, last: u32) {
    calls.push(Call::Resume {
        run: RUN,
        committed,
        last,
    });
    calls.extend([Call::Allocate; 4]);
}

fn timers(calls: &mut Vec<Call>) {
    for clock in [0, 1, 2, 3, 4, 127, 128, 254, 255] {
        for deadline in [0, 5, u64::MAX] {
            calls.push(Call::Recorded { clock, deadline });
        }
    }
    for clock in [1, 2] {
        bench(calls, clock);
        for deadline in [0, 1, 100, 0x1_0000_0000, u64::MAX] {
            of_spec(calls, SpecNumbers { deadline, clock });
        }
    }
}

/// Five ticks armed at 100 and read about 105, and a timer set again at 40.
fn bench(calls: &mut Vec<Call>, clock: u8) {
    let armed = 100;
    for (deadline, readings) in [(5, [105, 104, 99]), (105, [105, 104, 99])] {
        let spec = SpecNumbers { deadline, clock };
        calls.extend(readings.map(|reading| Call::Evaluate {
            spec,
            armed,
            reading,
        }));
        calls.push(Call::RearmedAt {
            spec,
            recorded: 100,
            now: 40,
        });
    }
}

fn of_spec(calls: &mut Vec<Call>, spec: SpecNumbers) {
    calls.push(Call::Spec(spec));
    for capability in [0, 1] {
        calls.push(Call::Admits { capability, spec });
        calls.extend([0, 99, u64::MAX].map(|now| Call::Arm {
            spec,
            capability,
            now,
        }));
    }
    for (recorded, now) in [(0, 0), (0, 1), (1, 0), (u64::MAX, 5), (5, u64::MAX)] {
        calls.push(Call::RearmedAt {
            spec,
            recorded,
            now,
        });
    }
    for armed in [0, 100, 1 << 63, u64::MAX] {
        evaluations(calls, spec, armed);
    }
}

fn evaluations(calls: &mut Vec<Call>, spec: SpecNumbers, armed: u64) {
    let sum = armed.saturating_add(spec.deadline);
    let mut readings = vec![
        0,
        armed.saturating_sub(1),
        armed,
        sum.saturating_sub(1),
        sum,
        sum.saturating_add(1),
        spec.deadline.saturating_sub(1),
        spec.deadline,
    ];
    readings.sort_unstable();
    readings.dedup();
    calls.extend(readings.into_iter().map(|reading| Call::Evaluate {
        spec,
        armed,
        reading,
    }));
}

/// Short histories (kinds and numbers) that lead to every position.
const HISTORIES: [&[(u8, u32)]; 12] = [
    &[],
    &[(1, 0)],
    &[(1, 0), (2, 0), (4, 0)],
    &[(1, 0), (9, 0), (5, 1), (6, 1)],
    &[(1, 0), (2, 0)],
    &[(1, 0), (9, 0), (2, 1)],
    &[(1, 0), (5, 0)],
    &[(1, 0), (9, 0), (5, 1)],
    &[(1, 0), (7, 0)],
    &[(1, 0), (8, 0)],
    &[(9, 0)],
    &[(1, 0), (2, 1)],
];

/// From every history, every kind with right and wrong numbers, and the end of the run
/// after each record that passes.
fn positions(calls: &mut Vec<Call>) {
    for history in HISTORIES {
        let history: Vec<Call> = history
            .iter()
            .map(|(kind, s)| Call::Advance(plain(*kind, *s)))
            .collect();
        let mut after = After::new(Call::NewCursor { run: RUN }, history);
        let right = right_number(&after.there.read_cursor());
        for kind in KINDS {
            after.make(calls, Call::Advance(plain(kind, right)));
            if after.now.read_cursor().position.number != HALTED {
                after.make_on(calls, Call::Advance(plain(7, 0)));
            }
            if has_number(kind) {
                for s in wrong_numbers(right) {
                    after.make(calls, Call::Advance(plain(kind, s)));
                }
            }
        }
    }
}

/// Fields at their ends, each on a cursor that takes the record.
fn shapes(calls: &mut Vec<Call>) {
    for run in values::U64 {
        calls.push(Call::NewCursor { run });
    }
    for (a, d, m, start) in [(0, 0, 0, 0), (65_535, 65_535, 0, 65_535)] {
        calls.push(Call::NewCursor { run: u64::MAX });
        for (kind, s) in [(1, 0), (2, 0), (3, 0), (2, 1), (4, 1), (9, 2), (7, 0)] {
            calls.push(Call::Advance(RecordNumbers {
                a,
                d,
                m,
                start,
                ..plain(kind, s)
            }));
        }
    }
    for clock in [0, 1, 2, 3, 255] {
        for (d, m) in [(0, u64::MAX), (u64::MAX, 0)] {
            calls.push(Call::NewCursor { run: 0 });
            calls.push(Call::Advance(plain(1, 0)));
            calls.push(Call::Advance(RecordNumbers {
                clock,
                d,
                m,
                ..plain(5, 0)
            }));
        }
    }
}

fn long_run(calls: &mut Vec<Call>, random: &mut Random) {
    let mut rust = RustSide::new();
    let mut push = |rust: &mut RustSide, call| {
        rust.answer(&call);
        calls.push(call);
    };
    push(&mut rust, Call::NewCursor { run: random.any() });
    for _ in 0..10 {
        let record = legal(random, &rust.read_cursor());
        push(&mut rust, Call::Advance(record));
    }
    for _ in 0..5 {
        let record = likely_legal(random, &rust.read_cursor());
        push(&mut rust, Call::Advance(record));
    }
}
