//! The count of failed outcomes in cursors and machines made by hand, up to the greatest count. The Rust has no count and cannot be set
//! to these states, so the rule stands here, written from document 02 (request 10).

use crate::Settings;
use crate::both::Both;
use crate::calls::{Answer, Call, CursorRead, MachineRead, NextNumbers};
use crate::ffi::{CursorNumbers, IdsNumbers, MachineNumbers, RecordNumbers, SpecNumbers};
use crate::proved_side::ProvedSide;
use crate::records::{KINDS, plain};
use crate::rust_side::Failed;
use crate::rust_values::FAILED;
use crate::scripts::REQUEST;
use crate::values;

/// The number of what is open, the number that is offered, and whether it is.
const NUMBERS: [(u32, u32, u8); 4] = [(0, 1, 1), (5, 6, 1), (3, 0, 1), (u32::MAX, 0, 0)];
/// Each phase, with a divergence where it has one.
const PHASES: [(u8, u8); 5] = [(0, 0), (1, 0), (2, 0), (3, 1), (3, 9)];

pub fn run(_settings: &Settings, both: &mut Both) {
    let fresh = ProvedSide::new();
    for cursor in cursors() {
        for record in records(&cursor) {
            let side = ProvedSide { cursor, ..fresh };
            both.compared += with_each_count(side, &Call::Advance(record));
            for (phase, divergence) in PHASES {
                let machine = MachineNumbers {
                    cursor,
                    phase,
                    divergence,
                };
                let side = ProvedSide { machine, ..fresh };
                for call in machine_calls(record) {
                    both.compared += with_each_count(side, &call);
                }
            }
        }
    }
    both.compared += in_a_row();
}

/// Cursors in every position, with every error where they have halted.
fn cursors() -> Vec<CursorNumbers> {
    let mut cursors = Vec::new();
    for position in 0..=6 {
        for (seq, next, offers) in NUMBERS {
            let errors = if position == 6 { 21..=26 } else { 0..=0 };
            cursors.extend(errors.map(|error| CursorNumbers {
                ids: IdsNumbers {
                    run: 7,
                    next,
                    offers,
                },
                failed: 0,
                deadline: 5,
                armed_at: 100,
                seq,
                input_crc: 99,
                kind: 4,
                input_len: 5,
                position,
                clock_kind: 1,
                error,
            }));
        }
    }
    cursors
}

/// Each kind with the number that is open or offered, and with its neighbours.
fn records(cursor: &CursorNumbers) -> Vec<RecordNumbers> {
    let right = match cursor.position {
        2 | 3 => cursor.seq,
        _ => cursor.ids.next,
    };
    [right, right.wrapping_sub(1), right.wrapping_add(1)]
        .into_iter()
        .flat_map(|number| KINDS.map(|kind| plain(kind, number)))
        .collect()
}

/// The five calls with this record, and four of them at the end of history, where it is not read.
fn machine_calls(record: RecordNumbers) -> Vec<Call> {
    let spec = SpecNumbers {
        deadline: 5,
        clock: 1,
    };
    let mut calls = vec![Call::MachineAdvance(record)];
    for ended in [0, 1] {
        let next = NextNumbers { ended, record };
        calls.extend([
            Call::Intent {
                request: REQUEST,
                next,
            },
            Call::Outcome(next),
            Call::TimerIntent {
                spec,
                capability: 0,
                next,
            },
            Call::TimerOutcome(next),
        ]);
    }
    calls
}

/// Makes the call from the state with each count, and says how often.
fn with_each_count(side: ProvedSide, call: &Call) -> u64 {
    for count in values::U64 {
        let mut side = side.with_failed(Failed {
            cursor: count,
            machine: count,
        });
        check(&mut side, call);
    }
    values::U64.len() as u64
}

/// Failures in a row from just below the greatest count, then one that is refused: the count goes up to the greatest, and stays.
fn in_a_row() -> u64 {
    let both = |count| Failed {
        cursor: count,
        machine: count,
    };
    let mut side = ProvedSide::new().with_failed(both(u64::MAX - 2));
    let mut calls = vec![
        Call::Advance(plain(1, 0)),
        Call::MachineAdvance(plain(1, 0)),
    ];
    for number in 0..4 {
        let (effect, failure) = (plain(2, number), plain(4, number));
        let next = NextNumbers::of(effect);
        calls.extend([
            Call::Advance(effect),
            Call::Advance(failure),
            Call::Intent {
                request: REQUEST,
                next,
            },
            Call::Outcome(NextNumbers::of(failure)),
        ]);
    }
    let refused = plain(4, 4);
    calls.extend([Call::Advance(refused), Call::MachineAdvance(refused)]);
    calls.iter().for_each(|call| check(&mut side, call));
    assert_eq!(side.failed(), both(u64::MAX), "the greatest count");
    calls.len() as u64
}

/// Makes the call. The counts must change by the rule, and all else must be as it is without counts.
fn check(side: &mut ProvedSide, call: &Call) {
    let before = *side;
    let owed = owed(side, call);
    let mut bare = side.with_failed(Failed::default());
    let (said, without) = (side.answer(call), bare.answer(call));
    let right = said == with_counts(without, owed) && *side == bare.with_failed(owed);
    assert!(
        right && says_failed(&said) == accepts(&before, call),
        "{call:?}\nof {before:?}\nis answered {said:?}\nnext {side:?}\nowed {owed:?}"
    );
}

/// The rule: an accepted `EffectFailed` is counted, unless the count is the greatest.
fn owed(side: &ProvedSide, call: &Call) -> Failed {
    let mut failed = side.failed();
    let count = match call {
        Call::Advance(_) => &mut failed.cursor,
        _ => &mut failed.machine,
    };
    if accepts(side, call) && *count < u64::MAX {
        *count += 1;
    }
    failed
}

/// Whether the call accepts an `EffectFailed`. A machine accepts one in `advance` where it is settled, and in `outcome` where it awaits
/// the outcome.
fn accepts(side: &ProvedSide, call: &Call) -> bool {
    let machine = &side.machine;
    match call {
        Call::Advance(record) => closes(&side.cursor, record),
        Call::MachineAdvance(record) => machine.phase == 0 && closes(&machine.cursor, record),
        Call::Outcome(next) => {
            machine.phase == 1 && next.ended == 0 && closes(&machine.cursor, &next.record)
        }
        _ => false,
    }
}

/// Whether an effect is open and the record is an `EffectFailed` with its number.
fn closes(cursor: &CursorNumbers, record: &RecordNumbers) -> bool {
    cursor.position == 2 && record.kind == 4 && record.s == cursor.seq
}

fn says_failed(answer: &Answer) -> bool {
    match answer {
        Answer::Advanced { answer, .. } | Answer::Answered { answer, .. } => {
            answer.number == FAILED
        }
        _ => unreachable!("the answer to another call"),
    }
}

/// The same answer, with these counts read.
fn with_counts(answer: Answer, failed: Failed) -> Answer {
    match answer {
        Answer::Advanced {
            answer,
            kind,
            cursor,
        } => Answer::Advanced {
            answer,
            kind,
            cursor: CursorRead {
                failed: failed.cursor,
                ..cursor
            },
        },
        Answer::Answered { answer, machine } => Answer::Answered {
            answer,
            machine: MachineRead {
                failed: failed.machine,
                ..machine
            },
        },
        _ => unreachable!("the answer to another call"),
    }
}
