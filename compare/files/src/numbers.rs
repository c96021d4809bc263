//! Answers as plain numbers, the form in which the proved code gives them.

use crate::reader::{self, Entry, Format, Refused};
use crate::resume::{Ending, Handover, Verdict};
use crate::writing::{record_entry, step_entry};

/// What reading a file says. `number` 0: it is readable, and `head` is the run number or the
/// capability.
#[repr(C)]
#[derive(Clone, Copy, PartialEq, Eq, Debug, Default)]
pub struct ReadNumbers {
    pub number: u64,
    pub place: u64,
    pub head: u64,
    pub count: u64,
}

/// A record or a step, its body's start and length (0 where it has none), and where the next
/// entry and the next body stand. `kind` 0: nothing stands there.
#[repr(C)]
#[derive(Clone, Copy, PartialEq, Eq, Debug, Default)]
pub struct EntryNumbers {
    pub kind: u64,
    pub clock: u64,
    pub a: u64,
    pub s: u64,
    pub d: u64,
    pub m: u64,
    pub start: u64,
    pub len: u64,
    pub next_entry: u64,
    pub next_body: u64,
}

/// A verdict. `refused` 0: ending, stop, records, calls, failed outcomes; 1: number, place,
/// divergence, calls. What does not apply is 0.
#[repr(C)]
#[derive(Clone, Copy, PartialEq, Eq, Debug, Default)]
pub struct VerdictNumbers {
    pub refused: u64,
    pub ending: u64,
    pub stop: u64,
    pub records: u64,
    pub number: u64,
    pub place: u64,
    pub divergence: u64,
    pub calls: u64,
    pub failed: u64,
}

/// A handover. `number` 0: `what` is 1 completed, 2 failed (parts of the journal) or 3 input
/// (a part of the plan), with its start and length; else the refusal's number.
#[repr(C)]
#[derive(Clone, Copy, PartialEq, Eq, Debug, Default)]
pub struct HandoverNumbers {
    pub number: u64,
    pub what: u64,
    pub start: u64,
    pub len: u64,
}

/// What the plain reader says of a file.
pub fn read(format: Format, file: &[u8]) -> ReadNumbers {
    let read = match format {
        Format::Journal => {
            reader::read_journal(file).map(|journal| (journal.run().0, journal.count()))
        }
        Format::Plan => {
            reader::read_plan(file).map(|plan| (plan.capability() as u64, plan.count()))
        }
    };
    match read {
        Ok((head, count)) => ReadNumbers {
            head,
            count,
            ..ReadNumbers::default()
        },
        Err(Refused { number, place }) => ReadNumbers {
            number,
            place,
            ..ReadNumbers::default()
        },
    }
}

/// The entries of a file, nothing where it is refused.
pub fn entries(format: Format, file: &[u8]) -> Vec<EntryNumbers> {
    let mut walked = Walked {
        file,
        body: (reader::HEADER + reader::ENTRY * read(format, file).count as usize) as u64,
        entries: Vec::new(),
    };
    match format {
        Format::Journal => {
            let records = reader::read_journal(file).map(|journal| journal.records());
            for record in records.into_iter().flatten() {
                let (entry, body) = record_entry(&record);
                walked.push(entry, body);
            }
        }
        Format::Plan => {
            let steps = reader::read_plan(file).map(|plan| plan.steps());
            for step in steps.into_iter().flatten() {
                let (entry, body) = step_entry(&step);
                walked.push(entry, body);
            }
        }
    }
    walked.entries
}

/// The entries so far, and where the next body starts.
struct Walked<'a> {
    file: &'a [u8],
    body: u64,
    entries: Vec<EntryNumbers>,
}

impl Walked<'_> {
    fn push(&mut self, entry: Entry, body: Option<&[u8]>) {
        let [start, len] = body.map_or([0, 0], |body| part(self.file, body));
        self.body += len;
        self.entries.push(EntryNumbers {
            kind: entry.kind.into(),
            clock: entry.clock.into(),
            a: entry.a.into(),
            s: entry.s.into(),
            d: entry.d,
            m: entry.m,
            start,
            len,
            next_entry: self.entries.len() as u64 + 1,
            next_body: self.body,
        });
    }
}

/// The entry at which a walk stands, from any place over any bytes.
pub fn next(format: Format, file: &[u8], entry: u64, body: u64) -> EntryNumbers {
    found(format, file, entry, body).unwrap_or(EntryNumbers {
        next_entry: entry,
        next_body: body,
        ..EntryNumbers::default()
    })
}

fn found(format: Format, file: &[u8], entry: u64, body: u64) -> Option<EntryNumbers> {
    let count = u16::from_le_bytes(*file.get(2..)?.first_chunk()?);
    if entry >= count.into() {
        return None;
    }
    let at = reader::HEADER + reader::ENTRY * entry as usize;
    let read = Entry::read(file.get(at..)?.first_chunk()?);
    let (bodied, length) = body_length(format, &read)?;
    let end = body
        .checked_add(length)
        .filter(|end| *end <= file.len() as u64)?;
    let [clock, a, s, d, m] = kept(format, &read);
    let (start, len) = if bodied { (body, length) } else { (0, 0) };
    Some(EntryNumbers {
        kind: read.kind.into(),
        clock,
        a,
        s,
        d,
        m,
        start,
        len,
        next_entry: entry + 1,
        next_body: end,
    })
}

/// Clock, A, S, D and M as a record or a step says them: cut to their widths, and 0 where the
/// kind has none.
fn kept(format: Format, entry: &Entry) -> [u64; 5] {
    let (clock, a, s) = (entry.clock.into(), entry.a.into(), entry.s.into());
    let (low16, low32) = (entry.d as u16 as u64, entry.m as u32 as u64);
    match (format, entry.kind) {
        (Format::Journal, 1) => [0, a, 0, low16, entry.m],
        (Format::Journal, 2) => [0, a, s, low16, low32],
        (Format::Journal, 3 | 4) => [0, 0, s, 0, entry.m],
        (Format::Journal, 5) => [clock, 0, s, entry.d, entry.m],
        (Format::Journal, 6) => [0, 0, s, 0, 0],
        (Format::Journal, 7 | 8) => [0, 0, 0, 0, entry.m],
        (Format::Journal, _) => [0, a, s, low16, 0],
        (Format::Plan, 2) => [0, a, 0, low16, low32],
        (Format::Plan, 9) => [0, a, 0, low16, 0],
        (Format::Plan, _) => [clock, 0, 0, entry.d, 0],
    }
}

/// Whether an entry has a body, and its length; nothing for a kind that the format has not, and
/// for a plan's timer whose clock has no spec.
fn body_length(format: Format, entry: &Entry) -> Option<(bool, u64)> {
    match (format, entry.kind) {
        (Format::Journal, 1 | 3 | 4 | 7 | 8) => Some((true, entry.m)),
        (Format::Journal, 2 | 5 | 6 | 9) => Some((false, 0)),
        (Format::Plan, 5) if matches!(entry.clock, 1 | 2) => Some((false, 0)),
        (Format::Plan, 2) => Some((true, entry.d)),
        (Format::Plan, 9) => Some((false, 0)),
        _ => None,
    }
}

/// Where a part starts in its file, and its length.
fn part(file: &[u8], part: &[u8]) -> [u64; 2] {
    let start = part.as_ptr().addr() - file.as_ptr().addr();
    [start as u64, part.len() as u64]
}

pub fn verdict(verdict: &Verdict) -> VerdictNumbers {
    match *verdict {
        Verdict::Ok {
            ending,
            stop,
            records,
            calls,
            failed,
        } => VerdictNumbers {
            ending: ending_number(ending),
            stop,
            records,
            calls,
            failed,
            ..VerdictNumbers::default()
        },
        Verdict::No {
            number,
            place,
            divergence,
            calls,
        } => VerdictNumbers {
            refused: 1,
            number,
            place,
            divergence,
            calls,
            ..VerdictNumbers::default()
        },
    }
}

fn ending_number(ending: Ending) -> u64 {
    match ending {
        Ending::Unstarted => 0,
        Ending::Due => 1,
        Ending::Done => 2,
        Ending::Open => 3,
        Ending::Finished => 4,
    }
}

/// A refusal's part is the empty part of the journal, at its start.
pub fn handover(journal: &[u8], plan: &[u8], handover: &Handover<'_>) -> HandoverNumbers {
    let (number, what, [start, len]) = match *handover {
        Handover::Completed(body) => (0, 1, part(journal, body)),
        Handover::Failed(body) => (0, 2, part(journal, body)),
        Handover::Input(body) => (0, 3, part(plan, body)),
        Handover::Refused(number) => (number, 0, [0, 0]),
    };
    HandoverNumbers {
        number,
        what,
        start,
        len,
    }
}
