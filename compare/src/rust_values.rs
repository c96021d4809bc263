//! The Rust source's values: made of numbers, and told in numbers.

use waymaker_core::{
    ActivityKind, ClockCapability, ClockKind, Deadline, EffectId, EffectSeq, GateId, KernelError,
    PendingEffect, PendingTimer, Position, RecordRef, Step, Timer, TimerSpec,
};

use crate::ffi::{RecordNumbers, SpecNumbers, Told};

/// The largest start and the largest length of a body.
pub const BODY_LIMIT: u64 = 65_535;

/// Every body is a slice of this buffer.
static BUFFER: [u8; 2 * BODY_LIMIT as usize] = [0; 2 * BODY_LIMIT as usize];

pub fn spec_of(spec: SpecNumbers) -> TimerSpec {
    match spec.clock {
        1 => TimerSpec::AfterBoot {
            ticks: spec.deadline,
        },
        2 => TimerSpec::AtPersistentTime {
            instant: spec.deadline,
        },
        clock => unreachable!("no spec has the clock {clock}"),
    }
}

pub fn capability_of(capability: u8) -> ClockCapability {
    match capability {
        0 => ClockCapability::BootOnly,
        1 => ClockCapability::Persistent,
        _ => unreachable!("no capability is {capability}"),
    }
}

pub fn record_of(record: &RecordNumbers) -> RecordRef<'static> {
    let seq = EffectSeq(record.s);
    match record.kind {
        1 => RecordRef::RunStarted {
            workflow_kind: record.a,
            workflow_version: record.d as u16,
            input: body_of(record),
        },
        2 => RecordRef::EffectScheduled {
            seq,
            kind: ActivityKind(record.a),
            input_len: record.d as u16,
            input_crc: record.m as u32,
        },
        3 => RecordRef::EffectCompleted {
            seq,
            result: body_of(record),
        },
        4 => RecordRef::EffectFailed {
            seq,
            error: body_of(record),
        },
        5 => RecordRef::TimerScheduled {
            seq,
            clock_kind: ClockKind(record.clock),
            deadline: record.d,
            armed_at: record.m,
        },
        6 => RecordRef::TimerFired { seq },
        7 => RecordRef::RunCompleted {
            result: body_of(record),
        },
        8 => RecordRef::RunFailed {
            error: body_of(record),
        },
        9 => RecordRef::VersionMarker {
            seq,
            gate: GateId(record.a),
            version: record.d as u16,
        },
        kind => unreachable!("no record has the kind {kind}"),
    }
}

/// The body. An empty one still points to where it starts.
fn body_of(record: &RecordNumbers) -> &'static [u8] {
    let start = record.start as usize;
    &BUFFER[start..start + record.m as usize]
}

/// Where a body starts in the buffer, and its length.
pub fn place_of(body: &[u8]) -> [u64; 2] {
    let start = body.as_ptr().addr() - BUFFER.as_ptr().addr();
    [start as u64, body.len() as u64]
}

pub fn told(number: u64, values: &[u64]) -> Told {
    let value = |place: usize| values.get(place).copied().unwrap_or(0);
    Told {
        number,
        a: value(0),
        b: value(1),
        c: value(2),
        d: value(3),
        e: value(4),
    }
}

pub fn told_option(value: Option<u64>) -> Told {
    match value {
        Some(value) => told(1, &[value]),
        None => told(0, &[]),
    }
}

pub fn told_seq(seq: Option<EffectSeq>) -> Told {
    told_option(seq.map(|seq| seq.0.into()))
}

fn error_number(error: KernelError) -> u64 {
    match error {
        KernelError::IdExhausted => 21,
        KernelError::NondeterministicWorkflow => 22,
        KernelError::IncompatibleWorkflow => 23,
        KernelError::MalformedHistory => 24,
        KernelError::NoPersistentClock => 25,
        KernelError::ClockWentBackwards => 26,
        // The proved code has no such error, so an answer with one always differs.
        KernelError::HistoryNearCapacity | KernelError::Decode(_) => u64::MAX,
    }
}

pub fn told_error(error: KernelError) -> Told {
    told(error_number(error), &[])
}

pub fn id_values(id: EffectId) -> [u64; 2] {
    [id.run.0, id.seq.0.into()]
}

pub fn told_id(id: Result<EffectId, KernelError>) -> Told {
    match id {
        Ok(id) => told(0, &id_values(id)),
        Err(error) => told_error(error),
    }
}

pub fn told_spec(spec: Option<TimerSpec>) -> Told {
    match spec {
        Some(spec) => told(1, &[spec.clock_kind().0.into(), spec.deadline()]),
        None => told(0, &[]),
    }
}

pub fn told_admits(answer: Result<(), KernelError>) -> Told {
    match answer {
        Ok(()) => told(0, &[]),
        Err(error) => told_error(error),
    }
}

pub fn told_timer(timer: Result<Timer, KernelError>) -> Told {
    match timer {
        Ok(timer) => {
            let spec = timer.spec();
            let clock = spec.clock_kind().0.into();
            told(0, &[clock, spec.deadline(), timer.armed_at()])
        }
        Err(error) => told_error(error),
    }
}

pub fn told_deadline(deadline: Result<Deadline, KernelError>) -> Told {
    match deadline {
        Ok(Deadline::Elapsed) => told(0, &[]),
        Ok(Deadline::Remaining { ticks }) => told(1, &[ticks]),
        Err(error) => told_error(error),
    }
}

pub fn told_position(position: Position) -> Told {
    match position {
        Position::BeforeRun => told(0, &[]),
        Position::Replaying => told(1, &[]),
        Position::AwaitingOutcome => told(2, &[]),
        Position::AwaitingTimer => told(3, &[]),
        Position::RunCompleted => told(4, &[]),
        Position::RunFailed => told(5, &[]),
        Position::Halted(error) => told(6, &[error_number(error)]),
    }
}

fn effect_values(effect: &PendingEffect) -> [u64; 5] {
    let [run, seq] = id_values(effect.id);
    [
        run,
        seq,
        effect.kind.0.into(),
        effect.input_len.into(),
        effect.input_crc.into(),
    ]
}

fn timer_values(timer: &PendingTimer) -> [u64; 5] {
    let [run, seq] = id_values(timer.id);
    [
        run,
        seq,
        timer.clock_kind.0.into(),
        timer.deadline,
        timer.armed_at,
    ]
}

pub fn told_pending(effect: Option<PendingEffect>) -> Told {
    match effect {
        Some(effect) => told(1, &effect_values(&effect)),
        None => told(0, &[]),
    }
}

pub fn told_pending_timer(timer: Option<PendingTimer>) -> Told {
    match timer {
        Some(timer) => told(1, &timer_values(&timer)),
        None => told(0, &[]),
    }
}

/// The number of an accepted `EffectFailed`, as a step and as a replayed outcome. No other answer to a call of a cursor or a machine
/// has it.
pub const FAILED: u64 = 4;

/// How many `EffectFailed` records such an answer says were accepted: 1 or 0.
pub fn failed_in(answer: &Told) -> u64 {
    u64::from(answer.number == FAILED)
}

pub fn told_outcome(number: u64, id: EffectId, body: &[u8]) -> Told {
    let [run, seq] = id_values(id);
    let [start, length] = place_of(body);
    told(number, &[run, seq, start, length])
}

pub fn told_step(step: &Step<'_>) -> Told {
    match *step {
        Step::RunStarted {
            workflow_kind,
            workflow_version,
            input,
        } => {
            let [start, length] = place_of(input);
            let (kind, version) = (workflow_kind.into(), workflow_version.into());
            told(1, &[kind, version, start, length])
        }
        Step::EffectScheduled(effect) => told(2, &effect_values(&effect)),
        Step::EffectCompleted { id, result } => told_outcome(3, id, result),
        Step::EffectFailed { id, error } => told_outcome(FAILED, id, error),
        Step::TimerScheduled(timer) => told(5, &timer_values(&timer)),
        Step::TimerFired { id } => told(6, &id_values(id)),
        Step::RunCompleted { result } => told(7, &place_of(result)),
        Step::RunFailed { error } => told(8, &place_of(error)),
        Step::VersionMarker { id, gate, version } => {
            let [run, seq] = id_values(id);
            told(9, &[run, seq, gate.0.into(), version.into()])
        }
    }
}
