//! Machines, exhaustively: every script of calls over an alphabet, up to a length.

use crate::Settings;
use crate::both::Both;
use crate::calls::{Call, NextNumbers};
use crate::ffi::{RecordNumbers, RequestNumbers, SpecNumbers};
use crate::records::{KINDS, has_number, plain};
use crate::rust_side::RustSide;
use crate::values;
use crate::walk::{walk, walk_each};

pub fn run(settings: &Settings, both: &mut Both) {
    for run in values::RUNS {
        both.begin(Call::NewMachine { run });
        walk_each(both, settings.script_short, alphabet);
        walk(both, settings.script_depth, alphabet);
    }
}

/// All five calls, with numbers around the one that is open or offered.
pub fn alphabet(rust: &RustSide) -> Vec<Call> {
    let right = rust.machine_number();
    let mut calls = Vec::with_capacity(256);
    calls.extend(advances(right).into_iter().map(Call::MachineAdvance));
    intents(&mut calls, right);
    for capability in [0, 1] {
        for (clock, deadline) in [(1, 5), (2, 105)] {
            timer_intents(
                &mut calls,
                right,
                SpecNumbers { deadline, clock },
                capability,
            );
        }
    }
    let nexts = with_ends(outcomes(right));
    calls.extend(nexts.iter().map(|next| Call::Outcome(*next)));
    calls.extend(nexts.iter().map(|next| Call::TimerOutcome(*next)));
    calls
}

fn neighbours(right: u32) -> [u32; 2] {
    [right.wrapping_sub(1), right.wrapping_add(1)]
}

/// All nine kinds with the right number.
fn all_kinds(right: u32) -> Vec<RecordNumbers> {
    KINDS.map(|kind| plain(kind, right)).to_vec()
}

/// The kinds with wrong numbers.
fn wrong(right: u32, kinds: &[u8]) -> Vec<RecordNumbers> {
    let of = |kind: &u8| neighbours(right).map(|number| plain(*kind, number));
    kinds.iter().flat_map(of).collect()
}

/// The records, and the end of history with two records that must not be read.
fn with_ends(records: Vec<RecordNumbers>) -> Vec<NextNumbers> {
    let mut nexts = vec![NextNumbers::end()];
    nexts.push(NextNumbers {
        ended: 1,
        record: records[0],
    });
    nexts.extend(records.into_iter().map(NextNumbers::of));
    nexts
}

fn advances(right: u32) -> Vec<RecordNumbers> {
    let numbered: Vec<u8> = KINDS.into_iter().filter(|kind| has_number(*kind)).collect();
    let timer = plain(5, right);
    let mut records = all_kinds(right);
    records.extend(wrong(right, &numbered));
    records.push(large_effect(right));
    records.extend([0, 2, 3, 255].map(|clock| RecordNumbers { clock, ..timer }));
    records
}

/// Records that may resolve an open effect or timer, and records that may not.
fn outcomes(right: u32) -> Vec<RecordNumbers> {
    [all_kinds(right), wrong(right, &[3, 4, 6])].concat()
}

/// The request that `plain` effects match.
pub const REQUEST: RequestNumbers = RequestNumbers {
    kind: 4,
    input_len: 5,
    input_crc: 99,
};

/// The request that `large_effect` matches.
const LARGE: RequestNumbers = RequestNumbers {
    kind: u16::MAX,
    input_len: u16::MAX,
    input_crc: u32::MAX,
};

fn large_effect(s: u32) -> RecordNumbers {
    RecordNumbers {
        kind: 2,
        clock: 9,
        a: u16::MAX,
        s,
        d: 0x1_FFFF,
        m: u64::MAX,
        start: 65_535,
    }
}

fn intents(calls: &mut Vec<Call>, right: u32) {
    let records = [all_kinds(right), wrong(right, &[5, 9]), effects(right)].concat();
    calls.extend(with_ends(records).into_iter().map(|next| Call::Intent {
        request: REQUEST,
        next,
    }));
    let records = vec![large_effect(right), plain(2, right), plain(7, right)];
    calls.extend(with_ends(records).into_iter().map(|next| Call::Intent {
        request: LARGE,
        next,
    }));
}

/// Effects that differ from `REQUEST` in one way and in two ways, and one that differs only
/// in bits that are not read.
fn effects(right: u32) -> Vec<RecordNumbers> {
    let same = plain(2, right);
    let kind = RecordNumbers { a: 5, ..same };
    let other = right.wrapping_add(1);
    let mut records = wrong(right, &[2]);
    records.extend([
        kind,
        RecordNumbers { d: 6, ..same },
        RecordNumbers { m: 98, ..same },
        RecordNumbers {
            d: 6,
            m: 98,
            ..same
        },
        RecordNumbers { s: other, ..kind },
        RecordNumbers { d: 6, ..kind },
        RecordNumbers { m: 98, ..kind },
        RecordNumbers {
            d: 0x7_0000 + same.d,
            m: 0x7_0000_0000 + same.m,
            clock: 3,
            start: 8,
            ..same
        },
    ]);
    records
}

fn timer_intents(calls: &mut Vec<Call>, right: u32, spec: SpecNumbers, capability: u8) {
    let mut records = all_kinds(right);
    records.retain(|record| record.kind != 5);
    let records = [timers(right, spec), records, wrong(right, &[2, 9])].concat();
    let of = |next| Call::TimerIntent {
        spec,
        capability,
        next,
    };
    calls.extend(with_ends(records).into_iter().map(of));
}

/// Timers that match the spec, and timers that differ in one way and in two ways.
fn timers(right: u32, spec: SpecNumbers) -> Vec<RecordNumbers> {
    let same = RecordNumbers {
        clock: spec.clock,
        d: spec.deadline,
        ..plain(5, right)
    };
    let clock = RecordNumbers {
        clock: 3 - spec.clock,
        ..same
    };
    let deadline = RecordNumbers {
        d: spec.deadline + 1,
        ..same
    };
    let unknown = [0, 3, 255].map(|clock| RecordNumbers { clock, ..same });
    let mut records = vec![
        same,
        RecordNumbers {
            m: u64::MAX,
            a: 7,
            start: 8,
            ..same
        },
        clock,
        deadline,
    ];
    records.extend(unknown);
    records.extend(neighbours(right).map(|s| RecordNumbers { s, ..same }));
    let other = right.wrapping_add(1);
    records
        .extend([clock, deadline, unknown[1]].map(|record| RecordNumbers { s: other, ..record }));
    records
}
