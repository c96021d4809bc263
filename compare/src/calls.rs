//! The calls that are compared, and their answers.
//!
//! Both print as one line of decimal numbers, the form of the files of `--vectors`.

use std::fmt;

use crate::ffi::{PendingNumbers, RecordNumbers, RequestNumbers, SpecNumbers, Told};

/// What is next in history: the record, or the end where `ended` is 1.
#[derive(Clone, Copy, Debug)]
pub struct NextNumbers {
    pub ended: u8,
    pub record: RecordNumbers,
}

impl NextNumbers {
    pub fn end() -> NextNumbers {
        NextNumbers {
            ended: 1,
            record: RecordNumbers::default(),
        }
    }

    pub fn of(record: RecordNumbers) -> NextNumbers {
        NextNumbers { ended: 0, record }
    }
}

/// One call. A side keeps a current allocator, cursor and machine between calls.
#[derive(Clone, Copy, Debug)]
pub enum Call {
    RunSuccessor {
        run: u64,
    },
    SeqSuccessor {
        seq: u32,
    },
    ForRun {
        run: u64,
    },
    Resume {
        run: u64,
        committed: u8,
        last: u32,
    },
    Allocate,
    Spec(SpecNumbers),
    RearmedAt {
        spec: SpecNumbers,
        recorded: u64,
        now: u64,
    },
    Recorded {
        clock: u8,
        deadline: u64,
    },
    Admits {
        capability: u8,
        spec: SpecNumbers,
    },
    Arm {
        spec: SpecNumbers,
        capability: u8,
        now: u64,
    },
    Evaluate {
        spec: SpecNumbers,
        armed: u64,
        reading: u64,
    },
    NewCursor {
        run: u64,
    },
    Advance(RecordNumbers),
    NewMachine {
        run: u64,
    },
    MachineAdvance(RecordNumbers),
    Intent {
        request: RequestNumbers,
        next: NextNumbers,
    },
    Outcome(NextNumbers),
    TimerIntent {
        spec: SpecNumbers,
        capability: u8,
        next: NextNumbers,
    },
    TimerOutcome(NextNumbers),
    Divergence {
        request: RequestNumbers,
        recorded: PendingNumbers,
        run: u64,
        seq: u32,
    },
}

impl Call {
    /// The number of the operation, then its arguments.
    fn numbers(&self) -> Vec<u64> {
        match *self {
            Call::RunSuccessor { run } => vec![1, run],
            Call::SeqSuccessor { seq } => vec![2, seq.into()],
            Call::ForRun { run } => vec![3, run],
            Call::Resume {
                run,
                committed,
                last,
            } => vec![4, run, committed.into(), last.into()],
            Call::Allocate => vec![5],
            Call::Spec(spec) => vec![6, spec.clock.into(), spec.deadline],
            Call::RearmedAt {
                spec,
                recorded,
                now,
            } => vec![7, spec.clock.into(), spec.deadline, recorded, now],
            Call::Recorded { clock, deadline } => vec![8, clock.into(), deadline],
            Call::Admits { capability, spec } => {
                vec![9, capability.into(), spec.clock.into(), spec.deadline]
            }
            Call::Arm {
                spec,
                capability,
                now,
            } => vec![10, spec.clock.into(), spec.deadline, capability.into(), now],
            Call::Evaluate {
                spec,
                armed,
                reading,
            } => vec![11, spec.clock.into(), spec.deadline, armed, reading],
            Call::NewCursor { run } => vec![12, run],
            Call::Advance(record) => [vec![13], record_numbers(&record)].concat(),
            _ => self.machine_numbers(),
        }
    }

    fn machine_numbers(&self) -> Vec<u64> {
        match *self {
            Call::NewMachine { run } => vec![14, run],
            Call::MachineAdvance(record) => [vec![15], record_numbers(&record)].concat(),
            Call::Intent { request, next } => {
                [vec![16], request_numbers(&request), next_numbers(&next)].concat()
            }
            Call::Outcome(next) => [vec![17], next_numbers(&next)].concat(),
            Call::TimerIntent {
                spec,
                capability,
                next,
            } => {
                let start = vec![18, spec.clock.into(), spec.deadline, capability.into()];
                [start, next_numbers(&next)].concat()
            }
            Call::TimerOutcome(next) => [vec![19], next_numbers(&next)].concat(),
            Call::Divergence {
                request,
                recorded,
                run,
                seq,
            } => [
                vec![20],
                request_numbers(&request),
                pending_numbers(&recorded),
                vec![run, seq.into()],
            ]
            .concat(),
            _ => unreachable!("not a machine's call"),
        }
    }
}

fn request_numbers(request: &RequestNumbers) -> Vec<u64> {
    vec![
        request.kind.into(),
        request.input_len.into(),
        request.input_crc.into(),
    ]
}

fn pending_numbers(pending: &PendingNumbers) -> Vec<u64> {
    vec![
        pending.run,
        pending.seq.into(),
        pending.kind.into(),
        pending.input_len.into(),
        pending.input_crc.into(),
    ]
}

fn next_numbers(next: &NextNumbers) -> Vec<u64> {
    [vec![next.ended.into()], record_numbers(&next.record)].concat()
}

fn record_numbers(record: &RecordNumbers) -> Vec<u64> {
    vec![
        record.kind.into(),
        record.clock.into(),
        record.a.into(),
        record.s.into(),
        record.d,
        record.m,
        record.start,
    ]
}

impl fmt::Display for Call {
    fn fmt(&self, out: &mut fmt::Formatter<'_>) -> fmt::Result {
        write_line(out, &self.numbers())
    }
}

/// What the readers of an allocator tell.
#[derive(Clone, Copy, PartialEq, Eq, Debug)]
pub struct IdsRead {
    pub run: u64,
    pub peek: Told,
}

impl IdsRead {
    fn numbers(&self) -> Vec<u64> {
        [vec![self.run], told_numbers(&self.peek)].concat()
    }
}

/// What the readers of a cursor tell.
#[derive(Clone, Copy, PartialEq, Eq, Debug)]
pub struct CursorRead {
    pub run: u64,
    pub position: Told,
    pub is_terminal: u8,
    pub pending: Told,
    pub pending_timer: Told,
    pub next_seq: Told,
    pub next_effect_id: Told,
    pub failed: u64,
}

impl CursorRead {
    fn numbers(&self) -> Vec<u64> {
        [
            vec![self.run, self.position.number, self.position.a],
            vec![self.is_terminal.into()],
            told_numbers(&self.pending),
            told_numbers(&self.pending_timer),
            told_numbers(&self.next_seq),
            told_numbers(&self.next_effect_id),
            vec![self.failed],
        ]
        .concat()
    }
}

/// What the readers of a machine tell.
#[derive(Clone, Copy, PartialEq, Eq, Debug)]
pub struct MachineRead {
    pub run: u64,
    pub position: Told,
    pub pending: Told,
    pub pending_timer: Told,
    pub diverged: u8,
    pub failed: u64,
}

impl MachineRead {
    fn numbers(&self) -> Vec<u64> {
        [
            vec![self.run, self.position.number, self.position.a],
            told_numbers(&self.pending),
            told_numbers(&self.pending_timer),
            vec![self.diverged.into(), self.failed],
        ]
        .concat()
    }
}

/// The answer to a call, with every reader's value after it.
#[derive(Clone, Copy, PartialEq, Eq, Debug)]
pub enum Answer {
    Told(Told),
    Number(u64),
    Spec {
        clock: u8,
        deadline: u64,
    },
    Ids(IdsRead),
    Allocated {
        answer: Told,
        ids: IdsRead,
    },
    Cursor(CursorRead),
    Advanced {
        answer: Told,
        kind: u8,
        cursor: CursorRead,
    },
    Machine(MachineRead),
    Answered {
        answer: Told,
        machine: MachineRead,
    },
}

impl Answer {
    fn numbers(&self) -> Vec<u64> {
        match self {
            Answer::Told(told) => told_numbers(told),
            Answer::Number(number) => vec![*number],
            Answer::Spec { clock, deadline } => vec![(*clock).into(), *deadline],
            Answer::Ids(ids) => ids.numbers(),
            Answer::Allocated { answer, ids } => [told_numbers(answer), ids.numbers()].concat(),
            Answer::Cursor(cursor) => cursor.numbers(),
            Answer::Advanced {
                answer,
                kind,
                cursor,
            } => [told_numbers(answer), vec![(*kind).into()], cursor.numbers()].concat(),
            Answer::Machine(machine) => machine.numbers(),
            Answer::Answered { answer, machine } => {
                [told_numbers(answer), machine.numbers()].concat()
            }
        }
    }
}

impl fmt::Display for Answer {
    fn fmt(&self, out: &mut fmt::Formatter<'_>) -> fmt::Result {
        write_line(out, &self.numbers())
    }
}

fn told_numbers(told: &Told) -> Vec<u64> {
    vec![told.number, told.a, told.b, told.c, told.d, told.e]
}

fn write_line(out: &mut fmt::Formatter<'_>, numbers: &[u64]) -> fmt::Result {
    for (place, number) in numbers.iter().enumerate() {
        if place > 0 {
            write!(out, " ")?;
        }
        write!(out, "{number}")?;
    }
    Ok(())
}
