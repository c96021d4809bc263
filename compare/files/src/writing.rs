//! Makes journal and plan bytes, good ones and damaged ones.

use waymaker_core::{ClockCapability, RecordRef, RunId};

use crate::reader::{Entry, Format, Step};

/// A file before it is written. The count and the body bytes in all follow from the entries
/// and the bodies.
#[derive(Clone, Debug)]
pub struct File {
    pub code: u16,
    pub head: u64,
    pub entries: Vec<Entry>,
    pub bodies: Vec<u8>,
}

impl File {
    pub fn new(format: Format, head: u64) -> File {
        File {
            code: format.code(),
            head,
            entries: Vec::new(),
            bodies: Vec::new(),
        }
    }

    pub fn push(&mut self, entry: Entry, body: Option<&[u8]>) {
        self.entries.push(entry);
        self.bodies.extend(body.unwrap_or_default());
    }

    pub fn bytes(&self) -> Vec<u8> {
        let mut bytes = Vec::with_capacity(16 + 24 * self.entries.len() + self.bodies.len());
        bytes.extend(self.code.to_le_bytes());
        bytes.extend((self.entries.len() as u16).to_le_bytes());
        bytes.extend(self.head.to_le_bytes());
        bytes.extend((self.bodies.len() as u32).to_le_bytes());
        for entry in &self.entries {
            bytes.extend(entry_bytes(entry));
        }
        bytes.extend(&self.bodies);
        bytes
    }
}

fn entry_bytes(entry: &Entry) -> [u8; 24] {
    let mut bytes = [0; 24];
    bytes[0] = entry.kind;
    bytes[1] = entry.clock;
    bytes[2..4].copy_from_slice(&entry.a.to_le_bytes());
    bytes[4..8].copy_from_slice(&entry.s.to_le_bytes());
    bytes[8..16].copy_from_slice(&entry.d.to_le_bytes());
    bytes[16..24].copy_from_slice(&entry.m.to_le_bytes());
    bytes
}

/// A journal with these records.
pub fn journal(run: RunId, records: &[RecordRef<'_>]) -> File {
    let mut file = File::new(Format::Journal, run.0);
    for record in records {
        let (entry, body) = record_entry(record);
        file.push(entry, body);
    }
    file
}

/// A plan with these steps.
pub fn plan(capability: ClockCapability, steps: &[Step<'_>]) -> File {
    let mut file = File::new(Format::Plan, capability as u64);
    for step in steps {
        let (entry, body) = step_entry(step);
        file.push(entry, body);
    }
    file
}

/// A record's row of the table, and its body if its kind has one.
pub fn record_entry<'a>(record: &RecordRef<'a>) -> (Entry, Option<&'a [u8]>) {
    let mut entry = Entry {
        kind: record.kind().0,
        ..Entry::default()
    };
    let body = match *record {
        RecordRef::RunStarted {
            workflow_kind,
            workflow_version,
            input,
        } => {
            entry.a = workflow_kind;
            entry.d = workflow_version.into();
            Some(input)
        }
        RecordRef::EffectCompleted { result: body, .. }
        | RecordRef::EffectFailed { error: body, .. }
        | RecordRef::RunCompleted { result: body }
        | RecordRef::RunFailed { error: body } => Some(body),
        _ => None,
    };
    if let Some(body) = body {
        entry.m = body.len() as u64;
    }
    add_number(&mut entry, record);
    add_opener(&mut entry, record);
    (entry, body)
}

fn add_number(entry: &mut Entry, record: &RecordRef<'_>) {
    match record {
        RecordRef::EffectScheduled { seq, .. }
        | RecordRef::EffectCompleted { seq, .. }
        | RecordRef::EffectFailed { seq, .. }
        | RecordRef::TimerScheduled { seq, .. }
        | RecordRef::TimerFired { seq }
        | RecordRef::VersionMarker { seq, .. } => entry.s = seq.0,
        _ => {}
    }
}

fn add_opener(entry: &mut Entry, record: &RecordRef<'_>) {
    match *record {
        RecordRef::EffectScheduled {
            kind,
            input_len,
            input_crc,
            ..
        } => {
            entry.a = kind.0;
            entry.d = input_len.into();
            entry.m = input_crc.into();
        }
        RecordRef::TimerScheduled {
            clock_kind,
            deadline,
            armed_at,
            ..
        } => {
            entry.clock = clock_kind.0;
            entry.d = deadline;
            entry.m = armed_at;
        }
        RecordRef::VersionMarker { gate, version, .. } => {
            entry.a = gate.0;
            entry.d = version.into();
        }
        _ => {}
    }
}

/// A step's row of the table, and its input if it is an effect.
pub fn step_entry<'a>(step: &Step<'a>) -> (Entry, Option<&'a [u8]>) {
    match *step {
        Step::Effect { request, input } => {
            let entry = Entry {
                kind: 2,
                a: request.kind.0,
                d: request.input_len.into(),
                m: request.input_crc.into(),
                ..Entry::default()
            };
            (entry, Some(input))
        }
        Step::Timer(spec) => {
            let entry = Entry {
                kind: 5,
                clock: spec.clock_kind().0,
                d: spec.deadline(),
                ..Entry::default()
            };
            (entry, None)
        }
        Step::Gate { gate, version } => {
            let entry = Entry {
                kind: 9,
                a: gate.0,
                d: version.into(),
                ..Entry::default()
            };
            (entry, None)
        }
    }
}
