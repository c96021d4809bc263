//! The proved side: every call on the static library.

use crate::calls::{Answer, Call, CursorRead, IdsRead, MachineRead};
use crate::ffi::*;
use crate::rust_side::Failed;

#[derive(Clone, Copy, PartialEq, Eq, Hash, Debug)]
pub struct ProvedSide {
    pub ids: IdsNumbers,
    pub cursor: CursorNumbers,
    pub machine: MachineNumbers,
}

impl ProvedSide {
    pub fn new() -> ProvedSide {
        ProvedSide {
            ids: hiskurdo_ids_for_run(0),
            cursor: hiskurdo_cursor_new(0),
            machine: hiskurdo_machine_new(0),
        }
    }

    pub fn answer(&mut self, call: &Call) -> Answer {
        match *call {
            Call::RunSuccessor { run } => Answer::Told(hiskurdo_run_successor(run)),
            Call::SeqSuccessor { seq } => Answer::Told(hiskurdo_seq_successor(seq)),
            Call::ForRun { run } => {
                self.ids = hiskurdo_ids_for_run(run);
                Answer::Ids(self.read_ids())
            }
            Call::Resume {
                run,
                committed,
                last,
            } => {
                self.ids = hiskurdo_ids_resume(run, committed, last).ids;
                Answer::Ids(self.read_ids())
            }
            Call::Allocate => {
                let allocated = hiskurdo_ids_allocate(self.ids);
                self.ids = allocated.ids;
                Answer::Allocated {
                    answer: allocated.answer,
                    ids: self.read_ids(),
                }
            }
            Call::NewCursor { run } => {
                self.cursor = hiskurdo_cursor_new(run);
                Answer::Cursor(self.read_cursor())
            }
            Call::Advance(record) => Answer::Advanced {
                answer: self.advance(&record),
                kind: value(hiskurdo_record_kind(record)) as u8,
                cursor: self.read_cursor(),
            },
            Call::NewMachine { run } => {
                self.machine = hiskurdo_machine_new(run);
                Answer::Machine(self.read_machine())
            }
            Call::MachineAdvance(_)
            | Call::Intent { .. }
            | Call::Outcome(_)
            | Call::TimerIntent { .. }
            | Call::TimerOutcome(_) => Answer::Answered {
                answer: self.machine_call(call),
                machine: self.read_machine(),
            },
            Call::Divergence {
                request,
                recorded,
                run,
                seq,
            } => Answer::Number(hiskurdo_divergence_from(request, recorded, run, seq).into()),
            _ => timer_answer(call),
        }
    }

    fn machine_call(&mut self, call: &Call) -> Told {
        let machine = self.machine;
        let answered = match *call {
            Call::MachineAdvance(record) => hiskurdo_machine_advance(machine, record),
            Call::Intent { request, next } => {
                hiskurdo_machine_intent(machine, request, next.ended, next.record)
            }
            Call::Outcome(next) => hiskurdo_machine_outcome(machine, next.ended, next.record),
            Call::TimerIntent {
                spec,
                capability,
                next,
            } => hiskurdo_machine_timer_intent(machine, spec, capability, next.ended, next.record),
            Call::TimerOutcome(next) => {
                hiskurdo_machine_timer_outcome(machine, next.ended, next.record)
            }
            _ => unreachable!("not a machine's call"),
        };
        self.machine = answered.machine;
        answered.answer
    }

    pub fn machine_advance(&mut self, record: &RecordNumbers) -> Told {
        let answered = hiskurdo_machine_advance(self.machine, *record);
        self.machine = answered.machine;
        answered.answer
    }

    pub fn advance(&mut self, record: &RecordNumbers) -> Told {
        let advanced = hiskurdo_cursor_advance(self.cursor, *record);
        self.cursor = advanced.cursor;
        advanced.answer
    }

    pub fn read_cursor(&self) -> CursorRead {
        CursorRead {
            run: value(hiskurdo_cursor_run(self.cursor)),
            position: hiskurdo_cursor_position(self.cursor),
            is_terminal: value(hiskurdo_cursor_is_terminal(self.cursor)) as u8,
            pending: hiskurdo_cursor_pending(self.cursor),
            pending_timer: hiskurdo_cursor_pending_timer(self.cursor),
            next_seq: hiskurdo_cursor_next_seq(self.cursor),
            next_effect_id: hiskurdo_cursor_next_effect_id(self.cursor),
            failed: value(hiskurdo_cursor_failed(self.cursor)),
        }
    }

    fn read_ids(&self) -> IdsRead {
        IdsRead {
            run: value(hiskurdo_ids_run(self.ids)),
            peek: hiskurdo_ids_peek(self.ids),
        }
    }

    pub fn read_machine(&self) -> MachineRead {
        MachineRead {
            run: value(hiskurdo_machine_run(self.machine)),
            position: hiskurdo_machine_position(self.machine),
            pending: hiskurdo_machine_pending(self.machine),
            pending_timer: hiskurdo_machine_pending_timer(self.machine),
            diverged: value(hiskurdo_machine_diverged(self.machine)) as u8,
            failed: value(hiskurdo_machine_failed(self.machine)),
        }
    }

    /// The counts that the numbers hold.
    pub fn failed(&self) -> Failed {
        Failed {
            cursor: self.cursor.failed,
            machine: self.machine.cursor.failed,
        }
    }

    /// The same states with other counts.
    pub fn with_failed(mut self, failed: Failed) -> ProvedSide {
        self.cursor.failed = failed.cursor;
        self.machine.cursor.failed = failed.machine;
        self
    }
}

/// An answer that is one value. No part that compares with the Rust passes a number that names nothing.
fn value(told: Told) -> u64 {
    assert_eq!(told.number, 0, "a listed number was refused");
    told.a
}

fn timer_answer(call: &Call) -> Answer {
    match *call {
        Call::Spec(spec) => Answer::Spec {
            clock: value(hiskurdo_spec_clock_kind(spec)) as u8,
            deadline: value(hiskurdo_spec_deadline(spec)),
        },
        Call::RearmedAt {
            spec,
            recorded,
            now,
        } => Answer::Number(value(hiskurdo_spec_rearmed_at(spec, recorded, now))),
        Call::Recorded { clock, deadline } => Answer::Told(hiskurdo_spec_recorded(clock, deadline)),
        Call::Admits { capability, spec } => Answer::Told(hiskurdo_admits(capability, spec)),
        Call::Arm {
            spec,
            capability,
            now,
        } => Answer::Told(hiskurdo_timer_arm(spec, capability, now)),
        Call::Evaluate {
            spec,
            armed,
            reading,
        } => Answer::Told(hiskurdo_timer_evaluate(spec, armed, reading)),
        _ => unreachable!("not a timer's call"),
    }
}
