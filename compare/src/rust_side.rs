//! The Rust source's side: every call on its own types, every answer told in numbers.

use waymaker_core::{
    ClockCapability, ClockKind, EffectIdAllocator, EffectSeq, ReplayCursor, ReplayMachine, RunId,
    Timer, TimerSpec,
};

use crate::calls::{Answer, Call, CursorRead, IdsRead, MachineRead};
use crate::ffi::{RecordNumbers, Told};
use crate::rust_machine::{self, Digest};
use crate::rust_values::{
    capability_of, failed_in, record_of, spec_of, told_admits, told_deadline, told_error, told_id,
    told_option, told_pending, told_pending_timer, told_position, told_seq, told_spec, told_step,
    told_timer,
};

/// Types that have no `Clone` on purpose, but are plain numbers: they borrow nothing and have nothing to drop.
pub trait Plain: Sized {
    /// A second value, equal to this one.
    fn copy(&self) -> Self {
        const { assert!(!std::mem::needs_drop::<Self>()) };
        // SAFETY: the value is plain numbers, so a copy of its bytes is a valid value too.
        unsafe { std::ptr::read(self) }
    }
}

impl Plain for EffectIdAllocator {}
impl Plain for ReplayCursor {}
impl Plain for ReplayMachine {}
impl Plain for RustSide {}

/// How many `EffectFailed` records a side's cursor and its machine accepted.
#[derive(Clone, Copy, PartialEq, Eq, Debug, Default)]
pub struct Failed {
    pub cursor: u64,
    pub machine: u64,
}

#[derive(PartialEq)]
pub struct RustSide {
    pub ids: EffectIdAllocator,
    pub cursor: ReplayCursor,
    pub machine: ReplayMachine,
    /// What the machine's Digest stands for, if it has one.
    digest: Option<Digest>,
    /// The driver's own counts, by the Rust's answers: the Rust has none (document 02, request 10).
    pub failed: Failed,
}

impl RustSide {
    pub fn new() -> RustSide {
        RustSide {
            ids: EffectIdAllocator::for_run(RunId(0)),
            cursor: ReplayCursor::new(RunId(0)),
            machine: ReplayMachine::new(RunId(0)),
            digest: None,
            failed: Failed::default(),
        }
    }

    pub fn answer(&mut self, call: &Call) -> Answer {
        match *call {
            Call::RunSuccessor { run } => {
                Answer::Told(told_option(RunId(run).successor().map(|run| run.0)))
            }
            Call::SeqSuccessor { seq } => Answer::Told(told_seq(EffectSeq(seq).successor())),
            Call::ForRun { run } => {
                self.ids = EffectIdAllocator::for_run(RunId(run));
                Answer::Ids(self.read_ids())
            }
            Call::Resume {
                run,
                committed,
                last,
            } => {
                let last = (committed != 0).then_some(EffectSeq(last));
                self.ids = EffectIdAllocator::resume(RunId(run), last);
                Answer::Ids(self.read_ids())
            }
            Call::Allocate => Answer::Allocated {
                answer: told_id(self.ids.allocate()),
                ids: self.read_ids(),
            },
            Call::NewCursor { run } => Answer::Cursor(self.new_cursor(run)),
            Call::Advance(record) => Answer::Advanced {
                answer: self.advance(&record),
                kind: record_of(&record).kind().0,
                cursor: self.read_cursor(),
            },
            Call::NewMachine { run } => Answer::Machine(self.new_machine(run)),
            Call::MachineAdvance(_)
            | Call::Intent { .. }
            | Call::Outcome(_)
            | Call::TimerIntent { .. }
            | Call::TimerOutcome(_) => Answer::Answered {
                answer: self.machine_call(call),
                machine: self.read_machine(),
            },
            Call::Divergence {
                request,
                recorded,
                run,
                seq,
            } => Answer::Number(rust_machine::divergence(request, recorded, run, seq).into()),
            _ => timer_answer(call),
        }
    }

    fn new_cursor(&mut self, run: u64) -> CursorRead {
        self.cursor = ReplayCursor::new(RunId(run));
        self.failed.cursor = 0;
        self.read_cursor()
    }

    fn new_machine(&mut self, run: u64) -> MachineRead {
        self.machine = ReplayMachine::new(RunId(run));
        self.digest = None;
        self.failed.machine = 0;
        self.read_machine()
    }

    pub fn advance(&mut self, record: &RecordNumbers) -> Told {
        let answer = match self.cursor.advance(record_of(record)) {
            Ok(step) => told_step(&step),
            Err(error) => told_error(error),
        };
        self.failed.cursor += failed_in(&answer);
        answer
    }

    pub fn read_cursor(&self) -> CursorRead {
        CursorRead {
            run: self.cursor.run().0,
            position: told_position(self.cursor.position()),
            is_terminal: self.cursor.position().is_terminal().into(),
            pending: told_pending(self.cursor.pending()),
            pending_timer: told_pending_timer(self.cursor.pending_timer()),
            next_seq: told_seq(self.cursor.next_seq()),
            next_effect_id: told_id(self.cursor.next_effect_id()),
            failed: self.failed.cursor,
        }
    }

    fn read_ids(&self) -> IdsRead {
        IdsRead {
            run: self.ids.run().0,
            peek: told_seq(self.ids.peek()),
        }
    }

    fn machine_call(&mut self, call: &Call) -> Told {
        let answer = rust_machine::call(&mut self.machine, &mut self.digest, call);
        self.failed.machine += failed_in(&answer);
        answer
    }

    pub fn machine_advance(&mut self, record: &RecordNumbers) -> Told {
        let answer = rust_machine::advance(&mut self.machine, record);
        self.failed.machine += failed_in(&answer);
        answer
    }

    pub fn read_machine(&self) -> MachineRead {
        rust_machine::read(&self.machine, self.digest, self.failed.machine)
    }

    /// The same states with both counts 0.
    pub fn uncounted(&self) -> RustSide {
        RustSide {
            failed: Failed::default(),
            ..self.copy()
        }
    }

    /// The number that a record for the machine must have; the last number where there is none.
    pub fn machine_number(&self) -> u32 {
        let mut probe = self.machine.copy();
        rust_machine::number(&mut probe)
    }
}

fn timer_answer(call: &Call) -> Answer {
    match *call {
        Call::Spec(spec) => Answer::Spec {
            clock: spec_of(spec).clock_kind().0,
            deadline: spec_of(spec).deadline(),
        },
        Call::RearmedAt {
            spec,
            recorded,
            now,
        } => Answer::Number(spec_of(spec).rearmed_at(recorded, now)),
        Call::Recorded { clock, deadline } => {
            Answer::Told(told_spec(TimerSpec::recorded(ClockKind(clock), deadline)))
        }
        Call::Admits { capability, spec } => {
            Answer::Told(told_admits(capability_of(capability).admits(spec_of(spec))))
        }
        Call::Arm {
            spec,
            capability,
            now,
        } => Answer::Told(told_timer(Timer::arm(
            spec_of(spec),
            capability_of(capability),
            now,
        ))),
        Call::Evaluate {
            spec,
            armed,
            reading,
        } => Answer::Told(evaluate(spec_of(spec), armed, reading)),
        _ => unreachable!("not a timer's call"),
    }
}

fn evaluate(spec: TimerSpec, armed: u64, reading: u64) -> Told {
    match Timer::arm(spec, ClockCapability::Persistent, armed) {
        Ok(timer) => told_deadline(timer.evaluate(reading)),
        Err(error) => told_error(error),
    }
}
