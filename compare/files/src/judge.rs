//! Checks a verdict and its handovers against the definition of histories (documents 01 and 02), which
//! does not use the machine.

use waymaker_core::{ClockCapability, RecordRef, TimerSpec};

use crate::failures::failed_outcomes;
use crate::histories::{Form, forms, place_of};
use crate::reader::Step;
use crate::resume::{Ending, Handover, Verdict, handover};

/// A plan, and every form that its histories have.
pub struct Judge<'a> {
    pub capability: ClockCapability,
    pub steps: Vec<Step<'a>>,
    forms: Vec<Form<'a>>,
}

impl<'a> Judge<'a> {
    pub fn new(capability: ClockCapability, steps: Vec<Step<'a>>) -> Judge<'a> {
        Judge {
            capability,
            forms: forms(capability, &steps),
            steps,
        }
    }

    /// Why the verdict on these records is wrong by the definition, if it is. No two answers'
    /// conditions hold together, so a verdict whose own condition holds is the only right one.
    pub fn contradiction(
        &self,
        records: &[RecordRef<'_>],
        verdict: &Verdict,
    ) -> Option<&'static str> {
        match *verdict {
            Verdict::Ok {
                ending,
                stop,
                records: count,
                calls,
                failed,
            } => self
                .not_accepted(records, ending, stop)
                .or_else(|| self.wrong_counts(records, ending, stop, [count, calls, failed])),
            Verdict::No {
                number,
                place,
                divergence,
                calls,
            } => match place < records.len() as u64 {
                true => self.not_refused_at(records, place as usize, [number, divergence, calls]),
                false => self.not_refused_at_the_end(records, place, [number, divergence, calls]),
            },
        }
    }

    /// Accepted: the whole list is a history, with this stop and ending and no other.
    fn not_accepted(
        &self,
        records: &[RecordRef<'_>],
        ending: Ending,
        stop: u64,
    ) -> Option<&'static str> {
        let mut fitting = self.forms.iter().filter(|form| form.is(records));
        let Some(form) = fitting.next() else {
            return Some("accepted, and no history");
        };
        if (form.ending, form.stop) != (ending, stop) {
            return Some("accepted with another ending or stop");
        }
        fitting.next().map(|_| "two endings or stops fit")
    }

    /// Accepted, the calls are the records, plus one when *open*, or when *due* at an effect or a timer, and
    /// every failed outcome counts.
    fn wrong_counts(
        &self,
        records: &[RecordRef<'_>],
        ending: Ending,
        stop: u64,
        counts: [u64; 3],
    ) -> Option<&'static str> {
        let more = match ending {
            Ending::Open => 1,
            Ending::Due => u64::from(!self.is_gate(stop)),
            Ending::Unstarted | Ending::Done | Ending::Finished => 0,
        };
        let right = records.len() as u64;
        let right = [right, right + more, failed_outcomes(records)];
        (counts != right).then_some("accepted with another count")
    }

    fn is_gate(&self, step: u64) -> bool {
        matches!(self.steps.get(step as usize), Some(Step::Gate { .. }))
    }

    /// Refused at record p: the first p records begin a history, the first p + 1 none. It is 45 exactly
    /// where record p completes the run too soon. A divergence goes with 22 alone.
    fn not_refused_at(
        &self,
        records: &[RecordRef<'_>],
        p: usize,
        [number, divergence, calls]: [u64; 3],
    ) -> Option<&'static str> {
        if !self.begins(&records[..p]) {
            return Some("refused too late");
        }
        if self.begins(&records[..p + 1]) {
            return Some("refused too early");
        }
        if self.completed_too_soon(&records[..=p]) != (number == 45) {
            return Some("completed too soon with another number, or 45 for something else");
        }
        if (divergence != 0) != (number == 22) {
            return Some("a divergence without 22, or 22 without one");
        }
        self.wrong_calls(&records[..=p], [number, divergence, calls])
    }

    /// Refused at the last of these records. Where no call is made on it, number and divergence are fixed, and
    /// neither 31 nor divergence 5 is given elsewhere. A call that is refused at a gate is 24 or 45.
    fn wrong_calls(
        &self,
        records: &[RecordRef<'_>],
        [number, divergence, calls]: [u64; 3],
    ) -> Option<&'static str> {
        let before = &records[..records.len() - 1];
        let p = before.len() as u64;
        let at_gate = matches!(self.next_step(before), Some(Step::Gate { .. }));
        match self.without_a_call(records) {
            Some(owed) if owed != (number, divergence) => {
                Some("refused without a call, with another number or divergence")
            }
            None if number == 31 || divergence == 5 => {
                Some("31 before the last step is whole, or divergence 5 not at a gate")
            }
            None if at_gate && !matches!(number, 24 | 45) => {
                Some("refused by a call at a gate, with another number than 24 and 45")
            }
            owed => (calls != p + u64::from(owed.is_none()))
                .then_some("refused with another count of calls"),
        }
    }

    /// The number and the divergence, where the last of these records is refused and no call is made on it:
    /// an opener or a marker after the last step, or at a gate.
    fn without_a_call(&self, records: &[RecordRef<'_>]) -> Option<(u64, u64)> {
        let (last, before) = records.split_last()?;
        let marked = match last {
            RecordRef::VersionMarker { seq, .. } => Some(seq.0),
            RecordRef::EffectScheduled { .. } | RecordRef::TimerScheduled { .. } => None,
            _ => return None,
        };
        let k = self.whole_boundaries(before)?;
        match (self.steps.get(k as usize), marked) {
            (None, _) => Some((31, 0)),
            (Some(Step::Gate { .. }), None) => Some((22, 4)),
            (Some(Step::Gate { .. }), Some(number)) if u64::from(number) != k => Some((22, 1)),
            (Some(Step::Gate { .. }), Some(_)) => Some((22, 5)),
            (Some(_), _) => None,
        }
    }

    /// Whether the last of these records completes the run while a step is left.
    fn completed_too_soon(&self, records: &[RecordRef<'_>]) -> bool {
        match records {
            [before @ .., RecordRef::RunCompleted { .. }] => self.next_step(before).is_some(),
            _ => false,
        }
    }

    /// Step k, where these records are `RunStarted` and the boundaries of steps 0 to k - 1, k < m.
    fn next_step(&self, records: &[RecordRef<'_>]) -> Option<&Step<'a>> {
        let k = self.whole_boundaries(records)?;
        self.steps.get(k as usize)
    }

    /// The k up to m for which these records are `RunStarted` and the boundaries of steps 0 to k - 1.
    fn whole_boundaries(&self, records: &[RecordRef<'_>]) -> Option<u64> {
        let form = self.forms.iter().find(|form| form.ends_after(records))?;
        Some(form.stop)
    }

    fn begins(&self, records: &[RecordRef<'_>]) -> bool {
        self.forms.iter().any(|form| form.begun_by(records))
    }

    /// Refused after the last record: they are `RunStarted` and the boundaries before step k,
    /// and step k is a timer that is not admitted.
    fn not_refused_at_the_end(
        &self,
        records: &[RecordRef<'_>],
        place: u64,
        numbers: [u64; 3],
    ) -> Option<&'static str> {
        let count = records.len() as u64;
        if (place, numbers) != (count, [25, 0, count + 1]) {
            return Some("refused after the last record with another number, place or count");
        }
        if self.forms.iter().any(|form| form.is(records)) {
            return Some("a history is refused after its last record");
        }
        let persistent = matches!(
            self.next_step(records),
            Some(Step::Timer(TimerSpec::AtPersistentTime { .. }))
        );
        let barred = persistent && self.capability == ClockCapability::BootOnly;
        (!barred).then_some("refused after the last record, and not barred")
    }

    /// The first of these boundaries at which an accepted pair hands over something else than
    /// the definition names.
    pub fn wrong_handover(
        &self,
        (journal, plan): (&[u8], &[u8]),
        records: &[RecordRef<'_>],
        (ending, stop): (Ending, u64),
        mut boundaries: impl Iterator<Item = u64>,
    ) -> Option<u64> {
        boundaries.find(|boundary| {
            let named = self.named(records, ending, stop, *boundary);
            named != Some(handover(journal, plan, *boundary))
        })
    }

    /// The bytes that document 01 names for a boundary. An effect's second record is its outcome.
    fn named<'r>(
        &'r self,
        records: &[RecordRef<'r>],
        ending: Ending,
        stop: u64,
        boundary: u64,
    ) -> Option<Handover<'r>> {
        let at = boundary.min(stop) as usize;
        match self.steps.get(at) {
            Some(Step::Effect { .. }) if boundary < stop => {
                match records[place_of(&self.steps, at) + 1] {
                    RecordRef::EffectCompleted { result, .. } => Some(Handover::Completed(result)),
                    RecordRef::EffectFailed { error, .. } => Some(Handover::Failed(error)),
                    _ => None,
                }
            }
            Some(Step::Effect { input, .. })
                if boundary == stop && matches!(ending, Ending::Due | Ending::Open) =>
            {
                Some(Handover::Input(input))
            }
            _ => Some(Handover::Refused(32)),
        }
    }
}
