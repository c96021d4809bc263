//! Terminal records: at which steps the compared cases have one, and what follows it, so that no kind is
//! left out.

use std::ops::Range;

use waymaker_core::{ClockCapability, RecordRef, TimerSpec};

use crate::failures::records_of;
use crate::histories::boundaries_before;
use crate::reader::{Step, read_plan};
use crate::resume::Verdict;

/// How many cases have a terminal record that an intent or an advance met. The last index: the run
/// completed, or it failed.
#[derive(Default)]
pub struct Terminals {
    /// By board, and by where the record stands: at an effect, a boot timer, a persistent timer, a gate; the
    /// same as the plan's last step; after the last step; in an empty plan.
    stands: [[[u64; 2]; 10]; 2],
    /// At an effect, at a timer, at a gate, after the last step, and by what follows: nothing, a completion, a
    /// failure of the run, an opener, another record.
    followed: [[[u64; 2]; 5]; 4],
}

impl Terminals {
    pub fn add(
        &mut self,
        capability: ClockCapability,
        steps: &[Step<'_>],
        records: &[RecordRef<'_>],
        verdict: &Verdict,
    ) {
        let Some(at) = met(records, verdict) else {
            return;
        };
        let failed = usize::from(matches!(records[at], RecordRef::RunFailed { .. }));
        let (k, m) = (boundaries_before(steps, at), steps.len());
        let (stands, group) = match steps.get(k) {
            Some(Step::Effect { .. }) => (0, 0),
            Some(Step::Timer(TimerSpec::AfterBoot { .. })) => (1, 1),
            Some(Step::Timer(TimerSpec::AtPersistentTime { .. })) => (2, 1),
            Some(Step::Gate { .. }) => (3, 2),
            None => (8 + usize::from(m == 0), 3),
        };
        let last = 4 * usize::from(k + 1 == m);
        self.stands[capability as usize][stands + last][failed] += 1;
        self.followed[group][follower(records.get(at + 1))][failed] += 1;
    }

    /// The same with the files of a pair, if both are readable.
    pub fn add_pair(&mut self, journal: &[u8], plan: &[u8], verdict: &Verdict) {
        if let Ok(plan) = read_plan(plan) {
            let steps: Vec<Step> = plan.steps().collect();
            self.add(plan.capability(), &steps, &records_of(journal), verdict);
        }
    }

    pub fn join(&mut self, other: &Terminals) {
        let stands = self.stands.as_flattened_mut().as_flattened_mut();
        let followed = self.followed.as_flattened_mut().as_flattened_mut();
        for (sum, more) in stands.iter_mut().chain(followed).zip(other.counts()) {
            *sum += more;
        }
    }

    fn counts(&self) -> impl Iterator<Item = &u64> {
        let stands = self.stands.as_flattened().as_flattened();
        stands
            .iter()
            .chain(self.followed.as_flattened().as_flattened())
    }

    pub fn told(&self) -> String {
        format!(
            "run completed at a step {}, failed at a step {}, completed at a gate {}, failed at a gate {}, \
             completed after the last step {}, failed after it {}",
            self.count(0..3, 0),
            self.count(0..3, 1),
            self.count(2..3, 0),
            self.count(2..3, 1),
            self.count(3..4, 0),
            self.count(3..4, 1)
        )
    }

    /// How many there are in these groups, and how many of them with a record after.
    fn count(&self, groups: Range<usize>, run: usize) -> String {
        let (mut all, mut alone) = (0, 0);
        for by_next in &self.followed[groups] {
            all += by_next.iter().map(|ended| ended[run]).sum::<u64>();
            alone += by_next[0][run];
        }
        format!("{all} (with a record after it {})", all - alone)
    }

    /// Stops where a kind is left out.
    pub fn must_be_all(&self) {
        assert!(
            self.counts().all(|count| *count > 0),
            "left out: {:?} {:?}",
            self.stands,
            self.followed
        );
    }
}

/// The place of the terminal record that a call met: all before it was accepted, and it itself was
/// accepted or came too soon.
fn met(records: &[RecordRef<'_>], verdict: &Verdict) -> Option<usize> {
    let at = records.iter().position(is_terminal)?;
    let met = match *verdict {
        Verdict::Ok { .. } => true,
        Verdict::No { number, place, .. } => {
            (number, place) == (45, at as u64) || (number, place) == (24, at as u64 + 1)
        }
    };
    met.then_some(at)
}

fn is_terminal(record: &RecordRef<'_>) -> bool {
    matches!(
        record,
        RecordRef::RunCompleted { .. } | RecordRef::RunFailed { .. }
    )
}

fn follower(record: Option<&RecordRef<'_>>) -> usize {
    match record {
        None => 0,
        Some(RecordRef::RunCompleted { .. }) => 1,
        Some(RecordRef::RunFailed { .. }) => 2,
        Some(RecordRef::EffectScheduled { .. } | RecordRef::TimerScheduled { .. }) => 3,
        Some(_) => 4,
    }
}
