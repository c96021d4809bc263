//! Every list of records over a small alphabet, with every small plan. The plain verdict is
//! checked against the definition of histories, and the proved verdict against the plain one.

use std::ops::RangeInclusive;

use waymaker_core::{
    ActivityKind, ClockCapability, ClockKind, EffectRequest, EffectSeq, GateId, RecordRef, RunId,
    TimerSpec,
};

use crate::Settings;
use crate::failures::Failures;
use crate::judge::Judge;
use crate::reader::Step;
use crate::report::{differ_on_pair, same_pair, same_verdict};
use crate::resume::{Ending, Verdict, procedure};
use crate::terminals::Terminals;
use crate::writing;

const RUN: RunId = RunId(7);

pub fn run(settings: &Settings) -> String {
    let whole = every_list(settings.list_depth);
    let steps = [
        effect(1, 0, 5),
        boot(5),
        persistent(5),
        effect(2, 1, 6),
        gate(1, 3),
        gate(2, 4),
    ];
    let alphabet = letters(&[0, 1, 2, 3, u32::MAX], true);
    let (mut followed, mut failures) = (0, Failures::default());
    let mut terminals = Terminals::default();
    for_each_plan(&steps, |scope| {
        scope.follow(&alphabet);
        followed += scope.lists;
        failures.join(&scope.failures);
        terminals.join(&scope.terminals);
    });
    failures.must_be_all();
    terminals.must_be_all();
    format!(
        "{whole} lists, every one of up to {} records; {followed} lists, longer where they begin a history, {}; {}",
        settings.list_depth,
        failures.told(),
        terminals.told()
    )
}

/// Every list up to this many records, over the smaller alphabet.
fn every_list(depth: u32) -> u64 {
    let steps = [effect(1, 0, 5), boot(5), persistent(5), gate(1, 3)];
    let alphabet = letters(&[0, 1, 2], false);
    let mut lists = 0;
    for_each_plan(&steps, |scope| {
        scope.all(&alphabet, depth);
        lists += scope.lists;
    });
    lists
}

/// Every plan of 0 to 3 of these steps, with both capabilities.
fn for_each_plan(steps: &[Step<'static>], mut with: impl FnMut(&mut Scope)) {
    let mut plans = vec![Vec::new()];
    for _ in 0..=3 {
        let mut longer = Vec::new();
        for plan in &plans {
            for capability in [ClockCapability::BootOnly, ClockCapability::Persistent] {
                with(&mut Scope::new(capability, plan.clone()));
            }
            longer.extend(steps.iter().map(|step| [&plan[..], &[*step]].concat()));
        }
        plans = longer;
    }
}

fn effect(kind: u16, input_len: u16, input_crc: u32) -> Step<'static> {
    Step::Effect {
        request: EffectRequest {
            kind: ActivityKind(kind),
            input_len,
            input_crc,
        },
        input: &[9; 8][..input_len.into()],
    }
}

fn boot(ticks: u64) -> Step<'static> {
    Step::Timer(TimerSpec::AfterBoot { ticks })
}

fn persistent(instant: u64) -> Step<'static> {
    Step::Timer(TimerSpec::AtPersistentTime { instant })
}

fn gate(gate: u16, version: u16) -> Step<'static> {
    Step::Gate {
        gate: GateId(gate),
        version,
    }
}

/// All nine kinds with these numbers: right and wrong activities, lengths, CRCs, clocks, deadlines, gates
/// and versions. With `free` more of these, and other values of what a history leaves free.
fn letters(numbers: &[u32], free: bool) -> Vec<RecordRef<'static>> {
    let mut letters = vec![
        started(3, &[]),
        RecordRef::RunCompleted { result: &[] },
        RecordRef::RunFailed { error: &[1] },
    ];
    if free {
        letters.push(started(4, &[1, 2]));
    }
    for seq in numbers.iter().map(|number| EffectSeq(*number)) {
        effects(&mut letters, seq, free);
        timers(&mut letters, seq, free);
        letters.push(RecordRef::EffectCompleted { seq, result: &[] });
        letters.push(RecordRef::EffectFailed { seq, error: &[2] });
        if free {
            let result = &[1, 2, 3];
            letters.push(RecordRef::EffectCompleted { seq, result });
        }
        letters.push(RecordRef::TimerFired { seq });
        markers(&mut letters, seq, free);
    }
    letters
}

fn started(workflow_kind: u16, input: &'static [u8]) -> RecordRef<'static> {
    RecordRef::RunStarted {
        workflow_kind,
        workflow_version: 1,
        input,
    }
}

fn effects(letters: &mut Vec<RecordRef<'static>>, seq: EffectSeq, free: bool) {
    let wanted = [(1, 0, 5), (2, 0, 5), (1, 1, 5), (1, 0, 6), (2, 1, 6)];
    for (kind, input_len, input_crc) in &wanted[..if free { 5 } else { 4 }] {
        letters.push(RecordRef::EffectScheduled {
            seq,
            kind: ActivityKind(*kind),
            input_len: *input_len,
            input_crc: *input_crc,
        });
    }
}

/// The last seven stand there with `free` alone.
fn timers(letters: &mut Vec<RecordRef<'static>>, seq: EffectSeq, free: bool) {
    let wanted = [
        (1, 5, 100),
        (2, 5, 100),
        (3, 5, 100),
        (1, 6, 100),
        (2, 6, 100),
        (0, 5, 100),
        (3, 6, 100),
        (255, 5, 100),
        (1, 5, u64::MAX),
        (2, 5, u64::MAX),
        (2, 6, u64::MAX),
    ];
    for (clock, deadline, armed_at) in &wanted[..if free { 11 } else { 4 }] {
        letters.push(RecordRef::TimerScheduled {
            seq,
            clock_kind: ClockKind(*clock),
            deadline: *deadline,
            armed_at: *armed_at,
        });
    }
}

/// The first is the marker of the one gate, the fourth that of the other; the last has gate and version
/// exchanged.
fn markers(letters: &mut Vec<RecordRef<'static>>, seq: EffectSeq, free: bool) {
    let wanted = [(1, 3), (2, 3), (1, 4), (2, 4), (3, 1)];
    for (gate, version) in &wanted[..if free { 5 } else { 3 }] {
        letters.push(RecordRef::VersionMarker {
            seq,
            gate: GateId(*gate),
            version: *version,
        });
    }
}

/// One plan, and the present list of records.
struct Scope {
    judge: Judge<'static>,
    plan: Vec<u8>,
    records: Vec<RecordRef<'static>>,
    lists: u64,
    failures: Failures,
    terminals: Terminals,
}

impl Scope {
    fn new(capability: ClockCapability, steps: Vec<Step<'static>>) -> Scope {
        Scope {
            plan: writing::plan(capability, &steps).bytes(),
            judge: Judge::new(capability, steps),
            records: Vec::new(),
            lists: 0,
            failures: Failures::default(),
            terminals: Terminals::default(),
        }
    }

    /// This list, and every longer one up to so many more records.
    fn all(&mut self, alphabet: &[RecordRef<'static>], depth: u32) {
        self.check();
        if depth > 0 {
            for letter in alphabet {
                self.records.push(*letter);
                self.all(alphabet, depth - 1);
                self.records.pop();
            }
        }
    }

    /// This list, and every longer one as long as it begins a history. Past the first record
    /// that does not fit, a few more records are tried, and each where the run was completed too
    /// soon: they must change nothing.
    fn follow(&mut self, alphabet: &[RecordRef<'static>]) {
        let verdict = self.check();
        if let Verdict::No { number, place, .. } = verdict
            && place < self.records.len() as u64
        {
            let tried = if number == 45 { alphabet.len() } else { 4 };
            for letter in &alphabet[..tried] {
                self.records.push(*letter);
                if self.check() != verdict {
                    self.wrong("a record after the refused one changes the verdict");
                }
                self.records.pop();
            }
            return;
        }
        for letter in alphabet {
            self.records.push(*letter);
            self.follow(alphabet);
            self.records.pop();
        }
    }

    /// Checks the verdict on this list against the definition.
    fn check(&mut self) -> Verdict {
        self.lists += 1;
        let verdict = procedure(
            RUN,
            self.judge.capability,
            self.judge.steps.iter().copied(),
            self.records.iter().copied(),
        );
        if let Some(contradiction) = self.judge.contradiction(&self.records, &verdict) {
            self.wrong(contradiction);
        }
        self.failures.add(&self.records, &verdict);
        let judge = &self.judge;
        self.terminals
            .add(judge.capability, &judge.steps, &self.records, &verdict);
        match verdict {
            Verdict::Ok { ending, stop, .. } => self.check_handovers(&verdict, ending, stop),
            Verdict::No { place, .. }
                if has_words(&verdict) && place + 1 == self.records.len() as u64 =>
            {
                drop(self.check_bytes(&verdict));
            }
            Verdict::No { .. } => same_verdict(&verdict, || self.journal(), &self.plan),
        }
        verdict
    }

    fn boundaries(&self) -> RangeInclusive<u64> {
        0..=self.judge.steps.len() as u64 + 1
    }

    /// Writes the list as bytes, and compares the verdict and the handovers of these.
    fn check_bytes(&self, verdict: &Verdict) -> Vec<u8> {
        let journal = self.journal();
        if same_pair(&journal, &self.plan, self.boundaries()) != *verdict {
            self.wrong("its bytes have another verdict");
        }
        journal
    }

    /// The same of an accepted list, and its handovers against the definition.
    fn check_handovers(&self, verdict: &Verdict, ending: Ending, stop: u64) {
        let journal = self.check_bytes(verdict);
        let pair = (&journal[..], &self.plan[..]);
        let wrong =
            self.judge
                .wrong_handover(pair, &self.records, (ending, stop), self.boundaries());
        if let Some(boundary) = wrong {
            self.wrong(&format!("handover of {boundary}"));
        }
    }

    fn journal(&self) -> Vec<u8> {
        writing::journal(RUN, &self.records).bytes()
    }

    fn wrong(&self, what: &str) -> ! {
        differ_on_pair(what, &self.journal(), &self.plan);
    }
}

/// Whether the words of this refusal are owed: completed too soon, the marker of another gate or version.
fn has_words(verdict: &Verdict) -> bool {
    matches!(
        verdict,
        Verdict::No { number: 45, .. } | Verdict::No { divergence: 5, .. }
    )
}
