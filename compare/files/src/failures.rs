//! Failed outcomes: counted in a list of records, and how many compared cases have them, so that no kind is left out.

use waymaker_core::RecordRef;

use crate::reader::read_journal;
use crate::resume::{Ending, Verdict};

/// The endings that can follow a failed outcome.
const ENDINGS: [Ending; 4] = [Ending::Due, Ending::Done, Ending::Open, Ending::Finished];
/// The number of a record that cannot follow.
const MALFORMED: u64 = 24;

#[derive(Default)]
pub struct Failures {
    /// Accepted with one failed outcome, and with more, by ending.
    accepted: [[u64; 2]; 5],
    /// Refused at a failed outcome with another number than the open effect's, after an accepted one.
    refused: u64,
}

impl Failures {
    pub fn add(&mut self, records: &[RecordRef<'_>], verdict: &Verdict) {
        match *verdict {
            Verdict::Ok { ending, failed, .. } if failed > 0 => {
                self.accepted[ending as usize][usize::from(failed > 1)] += 1;
            }
            Verdict::No { number, place, .. } if number == MALFORMED => {
                self.refused += u64::from(is_later_failure(records, place as usize));
            }
            _ => {}
        }
    }

    /// The same with the records of a file, if it is readable.
    pub fn add_journal(&mut self, journal: &[u8], verdict: &Verdict) {
        self.add(&records_of(journal), verdict);
    }

    pub fn join(&mut self, other: &Failures) {
        let sums = self.accepted.iter_mut().flatten();
        for (sum, more) in sums.zip(other.accepted.iter().flatten()) {
            *sum += more;
        }
        self.refused += other.refused;
    }

    pub fn told(&self) -> String {
        let mut told = String::from("with one failed outcome and with more:");
        for ending in ENDINGS {
            let [one, more] = self.accepted[ending as usize];
            told += &format!(" {} {one} and {more},", ending.word());
        }
        told + &format!(" a later one refused {}", self.refused)
    }

    /// Stops where a kind is left out.
    pub fn must_be_all(&self) {
        let accepted = ENDINGS.map(|ending| self.accepted[ending as usize]);
        let mut counts = accepted.iter().flatten().chain([&self.refused]);
        assert!(counts.all(|count| *count > 0), "left out: {}", self.told());
    }
}

/// The records of a file, none where it is refused.
pub fn records_of(journal: &[u8]) -> Vec<RecordRef<'_>> {
    let records = read_journal(journal).map(|journal| journal.records());
    records.into_iter().flatten().collect()
}

pub fn failed_outcomes(records: &[RecordRef<'_>]) -> u64 {
    records.iter().filter(|record| is_failed(record)).count() as u64
}

fn is_failed(record: &RecordRef<'_>) -> bool {
    matches!(record, RecordRef::EffectFailed { .. })
}

/// Whether the record at this place is a failed outcome where an effect is open, after another failed outcome.
fn is_later_failure(records: &[RecordRef<'_>], place: usize) -> bool {
    let Some((before, [record, ..])) = records.split_at_checked(place) else {
        return false;
    };
    let open = matches!(before.last(), Some(RecordRef::EffectScheduled { .. }));
    open && is_failed(record) && before.iter().any(is_failed)
}
