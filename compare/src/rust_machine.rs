//! The Rust source's machine: its calls, and its answers told in numbers.

use waymaker_core::{
    ActivityKind, Divergence, EffectId, EffectRequest, EffectSeq, Intent, KernelError, Next,
    Outcome, PendingEffect, RecordRef, ReplayMachine, Resolve, RunId, TimerIntent, TimerRequest,
    TimerResolve,
};

use crate::calls::{Call, MachineRead, NextNumbers};
use crate::ffi::{PendingNumbers, RecordNumbers, RequestNumbers, Told};
use crate::rust_values::{
    FAILED, capability_of, id_values, place_of, record_of, spec_of, told, told_error, told_outcome,
    told_pending, told_pending_timer, told_position, told_step,
};

/// What the Rust's Digest stands for, by document 02: "8 where the input lengths differ, else 9".
/// The Rust has one case for both and does not say which, so the driver looks at the request and
/// the record itself.
#[derive(Clone, Copy, PartialEq, Eq, Debug)]
pub enum Digest {
    Length = 8,
    Crc = 9,
}

impl Digest {
    fn between(asked_len: u16, recorded_len: u16) -> Digest {
        match asked_len == recorded_len {
            false => Digest::Length,
            true => Digest::Crc,
        }
    }
}

/// Makes the call. `digest` is what the machine's Digest stands for, if it has one.
pub fn call(machine: &mut ReplayMachine, digest: &mut Option<Digest>, call: &Call) -> Told {
    match *call {
        Call::MachineAdvance(record) => advance(machine, &record),
        Call::Intent { request, next } => {
            let before = machine.diverged();
            let next = next_of(&next);
            let answer = told_result(machine.intent(request_of(request), next), told_intent);
            if before.is_none() && machine.diverged() == Some(Divergence::Digest) {
                *digest = digest_of(request, next);
            }
            answer
        }
        Call::Outcome(next) => told_result(machine.outcome(next_of(&next)), told_resolve),
        Call::TimerIntent {
            spec,
            capability,
            next,
        } => {
            let request = TimerRequest {
                spec: spec_of(spec),
                capability: capability_of(capability),
            };
            told_result(
                machine.timer_intent(request, next_of(&next)),
                told_timer_intent,
            )
        }
        Call::TimerOutcome(next) => {
            told_result(machine.timer_outcome(next_of(&next)), told_timer_resolve)
        }
        _ => unreachable!("not a machine's call"),
    }
}

pub fn advance(machine: &mut ReplayMachine, record: &RecordNumbers) -> Told {
    told_result(machine.advance(record_of(record)), |step| told_step(&step))
}

/// None where no schedule is next: then a Digest has no number, and is a difference.
fn digest_of(request: RequestNumbers, next: Next<'_>) -> Option<Digest> {
    match next {
        Next::Record(RecordRef::EffectScheduled { input_len, .. }) => {
            Some(Digest::between(request.input_len, input_len))
        }
        _ => None,
    }
}

pub fn read(machine: &ReplayMachine, digest: Option<Digest>, failed: u64) -> MachineRead {
    MachineRead {
        run: machine.run().0,
        position: told_position(machine.position()),
        pending: told_pending(machine.pending()),
        pending_timer: told_pending_timer(machine.pending_timer()),
        diverged: divergence_number(machine.diverged(), digest),
        failed,
    }
}

/// The number that is open, or that an effect at the end of history would have, or the last
/// number where there is none. The machine may change, so a copy is passed.
pub fn number(machine: &mut ReplayMachine) -> u32 {
    if let Some(effect) = machine.pending() {
        return effect.id.seq.0;
    }
    if let Some(timer) = machine.pending_timer() {
        return timer.id.seq.0;
    }
    match machine.intent(request_of(RequestNumbers::default()), Next::EndOfHistory) {
        Ok(Intent::Schedule { id }) => id.seq.0,
        _ => u32::MAX,
    }
}

pub fn divergence(request: RequestNumbers, recorded: PendingNumbers, run: u64, seq: u32) -> u8 {
    let digest = Digest::between(request.input_len, recorded.input_len);
    let recorded = PendingEffect {
        id: id_of(recorded.run, recorded.seq),
        kind: ActivityKind(recorded.kind),
        input_len: recorded.input_len,
        input_crc: recorded.input_crc,
    };
    let divergence = request_of(request).divergence_from(&recorded, id_of(run, seq));
    divergence_number(divergence, Some(digest))
}

/// The number of the divergence; 3, which nothing has, for a Digest that stands for neither.
fn divergence_number(divergence: Option<Divergence>, digest: Option<Digest>) -> u8 {
    match divergence {
        None => 0,
        Some(Divergence::Sequence) => 1,
        Some(Divergence::Kind) => 2,
        Some(Divergence::Digest) => digest.map_or(3, |digest| digest as u8),
        Some(Divergence::BoundaryKind) => 4,
        Some(Divergence::Gate) => 5,
        Some(Divergence::Deadline) => 6,
        Some(Divergence::Boundary) => 7,
    }
}

fn id_of(run: u64, seq: u32) -> EffectId {
    EffectId {
        run: RunId(run),
        seq: EffectSeq(seq),
    }
}

fn request_of(request: RequestNumbers) -> EffectRequest {
    EffectRequest {
        kind: ActivityKind(request.kind),
        input_len: request.input_len,
        input_crc: request.input_crc,
    }
}

fn next_of(next: &NextNumbers) -> Next<'static> {
    match next.ended {
        0 => Next::Record(record_of(&next.record)),
        1 => Next::EndOfHistory,
        ended => unreachable!("no flag is {ended}"),
    }
}

fn told_result<T>(result: Result<T, KernelError>, told: impl FnOnce(T) -> Told) -> Told {
    match result {
        Ok(answer) => told(answer),
        Err(error) => told_error(error),
    }
}

fn told_intent(intent: Intent<'_>) -> Told {
    match intent {
        Intent::Recorded { id } => told(1, &id_values(id)),
        Intent::Schedule { id } => told(2, &id_values(id)),
        Intent::Finished { outcome } => told_finished(outcome),
    }
}

fn told_timer_intent(intent: TimerIntent<'_>) -> Told {
    match intent {
        TimerIntent::Recorded { id } => told(1, &id_values(id)),
        TimerIntent::Schedule { id } => told(2, &id_values(id)),
        TimerIntent::Finished { outcome } => told_finished(outcome),
    }
}

fn told_finished(outcome: Outcome<'_>) -> Told {
    match outcome {
        Outcome::Completed(body) => told(7, &place_of(body)),
        Outcome::Failed(body) => told(8, &place_of(body)),
    }
}

fn told_resolve(resolve: Resolve<'_>) -> Told {
    match resolve {
        Resolve::Replayed { id, outcome } => match outcome {
            Outcome::Completed(body) => told_outcome(3, id, body),
            Outcome::Failed(body) => told_outcome(FAILED, id, body),
        },
        Resolve::Redeliver { id } => told(1, &id_values(id)),
    }
}

fn told_timer_resolve(resolve: TimerResolve) -> Told {
    match resolve {
        TimerResolve::Fired { id } => told(6, &id_values(id)),
        TimerResolve::Rearm { id, spec, armed_at } => {
            let [run, seq] = id_values(id);
            let clock = spec.clock_kind().0.into();
            told(1, &[run, seq, clock, spec.deadline(), armed_at])
        }
    }
}
