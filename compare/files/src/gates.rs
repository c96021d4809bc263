//! Runs that stand at a gate or meet a marker elsewhere, each with its line, words and handovers. These are
//! written out from document 02 ("Gates in the plan") while the pair is made: neither the procedure nor the
//! definition of histories has a part in it.

use waymaker_core::{ClockCapability, GateId, TimerSpec};

use crate::cases::Case;
use crate::pairs::{BODIES, Item, journal_of};
use crate::pairs_list::{RUN, bare, effect, entry, opener};
use crate::reader::{Entry, Step};
use crate::resume::Handover;
use crate::samples::WORKED_PLAN;
use crate::text::bytes;
use crate::too_soon::{BOARDS, barred};
use crate::words::{another_marker, completed_at, marker_due};
use crate::writing;

const COMPLETED: u8 = 7;
const FAILED: u8 = 8;
const NOTHING: Handover<'static> = Handover::Refused(32);

/// The record after the start, the plan and the line, in document 01's notation. Gate 3, version 2: its
/// marker; another number, another number and gate; another gate; another version; a schedule, a timer;
/// an outcome, a firing, a start; the run completed, it failed. Then a marker at an effect and after the
/// last step.
const PRINTED: [(&str, &str, &str); 14] = [
    ("09 00 03 00*5 02 00*15", GATE, "ok done 1 2 2 0"),
    ("09 00 03 00 01 00*3 02 00*15", GATE, "no 22 1 1 1"),
    ("09 00 04 00 01 00*3 02 00*15", GATE, "no 22 1 1 1"),
    ("09 00 04 00*5 02 00*15", GATE, "no 22 1 5 1"),
    ("09 00 03 00*5 03 00*15", GATE, "no 22 1 5 1"),
    ("02 00*23", GATE, "no 22 1 4 1"),
    ("05 01 00*6 05 00*15", GATE, "no 22 1 4 1"),
    ("03 00*23", GATE, "no 24 1 0 2"),
    ("06 00*23", GATE, "no 24 1 0 2"),
    ("01 00*23", GATE, "no 24 1 0 2"),
    ("07 00*23", GATE, "no 45 1 0 2"),
    ("08 00*23", GATE, "ok finished 0 2 2 0"),
    ("09 00 03 00*5 02 00*15", WORKED_PLAN, "no 22 1 4 2"),
    ("09 00 03 00*5 02 00*15", "02 00*15", "no 31 1 0 1"),
];
const GATE: &str = "02 00 01 00*13 09 00 03 00*5 02 00*15";

/// Those that are printed, and the gate that is due after the start alone.
fn printed() -> Vec<Case> {
    let case = |journal: String, plan, line: &str| Case {
        journal: bytes(&journal),
        plan: bytes(plan),
        line: line.to_string(),
        words: None,
        handed: Vec::new(),
    };
    let start = "01 00 01 00 07 00*11 01 00*23".to_string();
    let two = |record| format!("01 00 02 00 07 00*11 01 00*23 {record}");
    let more = PRINTED.map(|(record, plan, line)| case(two(record), plan, line));
    let mut cases = vec![case(start, GATE, "ok due 0 1 1 0")];
    cases[0].words = Some(marker_due(3, 0));
    cases[0].handed = vec![NOTHING; 2];
    cases.extend(more);
    cases
}

/// Every case: those that are printed, all of plans of up to three steps that have a gate, and some of
/// long plans.
pub fn cases() -> Vec<Case> {
    let mut cases = printed();
    let mut plans = vec![Vec::new()];
    for place in 0..3 {
        let longer =
            |plan: &Vec<Step<'static>>| kinds(place).map(|step| [&plan[..], &[step]].concat());
        plans = plans.iter().flat_map(longer).collect();
        for steps in plans.iter().filter(|steps| steps.iter().any(is_gate)) {
            for capability in BOARDS {
                every_stop(&mut cases, capability, steps);
            }
        }
    }
    long_plans(&mut cases);
    cases
}

/// An effect, a boot timer, a persistent timer, a gate: the steps that a plan may have at this place. No
/// two gates of a plan are alike.
fn kinds(place: u16) -> [Step<'static>; 4] {
    [
        effect(5, &BODIES[100..103], 0),
        Step::Timer(TimerSpec::AfterBoot { ticks: 5 }),
        Step::Timer(TimerSpec::AtPersistentTime { instant: 105 }),
        gate(place),
    ]
}

fn gate(place: u16) -> Step<'static> {
    Step::Gate {
        gate: GateId(259 + place),
        version: 1_030 - place,
    }
}

fn is_gate(step: &Step<'_>) -> bool {
    matches!(step, Step::Gate { .. })
}

/// Each stop that the board lets the run reach.
fn every_stop(cases: &mut Vec<Case>, capability: ClockCapability, steps: &[Step<'static>]) {
    for stop in 0..=steps.len() {
        if steps[..stop].iter().any(|step| barred(capability, step)) {
            return;
        }
        let run = Run::before(capability, steps, stop);
        run.standing(cases);
        match steps.get(stop) {
            Some(Step::Gate { .. }) => run.at_gate(cases, true),
            _ => run.marker_elsewhere(cases),
        }
    }
}

/// 1,023 gates, whose markers are all that a journal can hold; gates by turns with effects, the last record
/// a gate's marker, or a gate due after 1,024 records.
fn long_plans(cases: &mut Vec<Case>) {
    let capability = ClockCapability::BootOnly;
    let gates: Vec<Step> = (0..1_023).map(gate).collect();
    let effect = kinds(0)[0];
    let by_turns = |at: u16| [gate(at), effect];
    let mixed: Vec<Step> = (0..342).flat_map(by_turns).collect();
    for (steps, due, refused) in [
        (&gates[..], &[0, 511, 512, 1_023][..], &[256, 1_022][..]),
        (&mixed[1..683], &[341, 682], &[681]),
        (&mixed[..683], &[256, 682], &[340]),
    ] {
        for stop in due {
            Run::before(capability, steps, *stop).standing(cases);
        }
        for stop in refused {
            let run = Run::before(capability, steps, *stop);
            run.standing(cases);
            run.at_gate(cases, false);
        }
    }
}

/// The cases that are stored; too_soon.rs has those in which a run ends at a gate.
pub fn stored() -> Vec<Case> {
    let mut cases = Vec::new();
    let [effect, boot, persistent, _] = kinds(0);
    let board = ClockCapability::BootOnly;
    Run::bare(board, &[gate(0), gate(1)], 1).at_gate(&mut cases, false);
    for (steps, stops) in [
        (&[gate(0)][..], 0..=1),
        (&[gate(0), effect], 1..=2),
        (&[effect, gate(1), effect], 1..=3),
        (&[gate(0), gate(1), boot], 1..=3),
        (&[gate(0), persistent], 1..=1),
    ] {
        for stop in stops {
            Run::before(board, steps, stop).standing(&mut cases);
        }
    }
    for (steps, stop) in [
        (&[effect][..], 0),
        (&[boot], 0),
        (&[gate(0), effect], 1),
        (&[gate(0)], 1),
        (&[persistent, gate(1)], 0),
    ] {
        Run::bare(board, steps, stop).marker_elsewhere(&mut cases);
    }
    Run::before(board, &[gate(0); 1_024], 2).standing(&mut cases);
    cases
}

/// A run that stands at a step, or after the last one: its records, and what the boundaries behind it hand
/// over.
struct Run<'s> {
    capability: ClockCapability,
    steps: &'s [Step<'static>],
    stop: usize,
    items: Vec<Item>,
    handed: Vec<Handover<'static>>,
    failed: u64,
}

impl Run<'_> {
    /// The effects with even numbers failed; each outcome has bytes of its own.
    fn before<'s>(capability: ClockCapability, steps: &'s [Step<'static>], stop: usize) -> Run<'s> {
        let mut run = Run {
            capability,
            steps,
            stop,
            items: vec![entry(1, 0, &[8])],
            handed: Vec::new(),
            failed: 0,
        };
        for (number, step) in steps[..stop].iter().enumerate() {
            run.items.push(opener(step, number as u32));
            let handed = match step {
                Step::Effect { .. } => run.outcome(number),
                Step::Timer(_) => run.fired(number),
                Step::Gate { .. } => NOTHING,
            };
            run.handed.push(handed);
        }
        run
    }

    /// The same without bodies, which takes less text.
    fn bare<'s>(capability: ClockCapability, steps: &'s [Step<'static>], stop: usize) -> Run<'s> {
        let run = Run::before(capability, steps, stop);
        Run {
            items: bare(run.items),
            ..run
        }
    }

    fn outcome(&mut self, number: usize) -> Handover<'static> {
        let body = &BODIES[number..number + 1 + number % 3];
        if number % 2 == 0 {
            self.items.push(entry(4, number as u32, body));
            self.failed += 1;
            return Handover::Failed(body);
        }
        self.items.push(entry(3, number as u32, body));
        Handover::Completed(body)
    }

    fn fired(&mut self, number: usize) -> Handover<'static> {
        self.items.push(entry(6, number as u32, &[]));
        NOTHING
    }

    /// The run with these records after it, and what is owed; `at_stop` is what its stop hands over.
    fn case(
        &self,
        more: &[Item],
        line: String,
        words: Option<String>,
        at_stop: Handover<'static>,
    ) -> Case {
        let items = [&self.items[..], more].concat();
        let refused = line.starts_with("no");
        let handed = match refused {
            true => Vec::new(),
            false => [&self.handed[..], &[at_stop, NOTHING]].concat(),
        };
        Case {
            journal: journal_of(RUN, &items).bytes(),
            plan: writing::plan(self.capability, self.steps).bytes(),
            line,
            words,
            handed,
        }
    }

    /// Nothing is left, or the step's opener alone. At a gate no call is made for it.
    fn standing(&self, cases: &mut Vec<Case>) {
        let (k, p, failed) = (self.stop, self.items.len(), self.failed);
        let due = |calls: usize| format!("ok due {k} {p} {calls} {failed}");
        let Some(step) = self.steps.get(k) else {
            let done = format!("ok done {k} {p} {p} {failed}");
            return cases.push(self.case(&[], done, None, NOTHING));
        };
        let at_stop = match *step {
            Step::Gate { gate, .. } => {
                let words = Some(marker_due(gate.0, failed));
                return cases.push(self.case(&[], due(p), words, NOTHING));
            }
            Step::Timer(_) if barred(self.capability, step) => {
                let barred = format!("no 25 {p} 0 {}", p + 1);
                return cases.push(self.case(&[], barred, None, NOTHING));
            }
            Step::Timer(_) => NOTHING,
            Step::Effect { input, .. } => Handover::Input(input),
        };
        cases.push(self.case(&[], due(p + 1), None, at_stop));
        let open = format!("ok open {k} {} {} {failed}", p + 1, p + 2);
        cases.push(self.case(&[opener(step, k as u32)], open, None, at_stop));
    }

    /// A marker at an effect or a timer is a call and divergence 4; after the last step it is 31 and no
    /// call.
    fn marker_elsewhere(&self, cases: &mut Vec<Case>) {
        let (k, p) = (self.stop as u32, self.items.len());
        let line = match self.steps.get(self.stop) {
            Some(_) => format!("no 22 {p} 4 {}", p + 1),
            None => format!("no 31 {p} 0 {p}"),
        };
        for number in [k, k + 1] {
            let marker = opener(&gate(2), number);
            cases.push(self.case(&[marker], line.clone(), None, NOTHING));
        }
    }

    /// Every record that is not the gate's marker in its place. With `every` each refused one also has the
    /// right marker after it, and there are more of them.
    fn at_gate(&self, cases: &mut Vec<Case>, every: bool) {
        let right = opener(&self.steps[self.stop], self.stop as u32);
        let p = self.items.len();
        let mut refused = |record: Item, line: String, words: Option<&String>| {
            cases.push(self.case(&[record], line.clone(), words.cloned(), NOTHING));
            if every {
                cases.push(self.case(&[record, right], line, words.cloned(), NOTHING));
            }
        };
        for marker in other_numbers(right.0, every) {
            refused((marker, &[]), format!("no 22 {p} 1 {p}"), None);
        }
        let another = another_marker(p as u64);
        for marker in other_gates(right.0, every) {
            refused((marker, &[]), format!("no 22 {p} 5 {p}"), Some(&another));
        }
        for record in openers(right.0.s, every) {
            refused(record, format!("no 22 {p} 4 {p}"), None);
        }
        for record in out_of_order(right.0.s, every) {
            refused(record, format!("no 24 {p} 0 {}", p + 1), None);
        }
        self.ended(cases, every);
    }

    /// The run failed or was completed at the gate, with nothing after it, and with `every` with a record of
    /// each kind.
    fn ended(&self, cases: &mut Vec<Case>, every: bool) {
        let (k, p, failed) = (self.stop, self.items.len(), self.failed);
        let after: Vec<Item> = (1..=9)
            .filter(|_| every)
            .map(|kind| match kind {
                9 => opener(&self.steps[k], k as u32),
                1 | COMPLETED | FAILED => entry(kind, 0, &[]),
                _ => entry(kind, k as u32, &[]),
            })
            .collect();
        let completed = entry(COMPLETED, 0, &[6; 3]);
        let (line, words) = (format!("no 45 {p} 0 {}", p + 1), completed_at(k as u64));
        let run_failed = entry(FAILED, 0, &[6; 3]);
        let finished = format!("ok finished {k} {0} {0} {failed}", p + 1);
        cases.push(self.case(&[completed], line.clone(), Some(words.clone()), NOTHING));
        cases.push(self.case(&[run_failed], finished, None, NOTHING));
        for next in after {
            let (line, words) = (line.clone(), Some(words.clone()));
            cases.push(self.case(&[completed, next], line, words, NOTHING));
            let line = format!("no 24 {} 0 {}", p + 1, p + 2);
            cases.push(self.case(&[run_failed, next], line, None, NOTHING));
        }
    }
}

/// Markers with another number, and with another gate or version beside it.
fn other_numbers(right: Entry, every: bool) -> Vec<Entry> {
    let Entry { a, s, d, .. } = right;
    let mut numbers = vec![s + 1];
    if every {
        numbers.extend([s.wrapping_sub(1), s + 256, s + 65_536, u32::MAX]);
    }
    let fields = [(a, d), (a + 1, d), (a, d + 1), (a + 1, d + 1)];
    let markers = numbers.iter().flat_map(|s| {
        fields.map(|(a, d)| Entry {
            a,
            s: *s,
            d,
            ..right
        })
    });
    markers.collect()
}

/// Markers with the right number and another gate or version: near, far, that of the gate before, both
/// exchanged.
fn other_gates(right: Entry, every: bool) -> Vec<Entry> {
    let Entry { a, d, .. } = right;
    let mut fields = vec![(a + 1, d), (a - 1, d), (a, d + 1), (a, d - 1)];
    if every {
        fields.extend([(a - 1, d + 1), (a ^ 0x8000, d), (a ^ 0x100, d)]);
        fields.extend([(a, d ^ 0x8000), (a, d ^ 0x100), (a, 0), (0, 0)]);
        fields.push((d as u16, a.into()));
    }
    let markers = fields.into_iter().map(|(a, d)| Entry { a, d, ..right });
    markers.collect()
}

/// Schedules and timers with this number and with others.
fn openers(number: u32, every: bool) -> Vec<Item> {
    let [effect, boot, persistent, _] = kinds(0);
    let (numbers, steps): (&[u32], &[Step]) = match every {
        true => (&[0, 1, 2, 3, u32::MAX], &[effect, boot, persistent]),
        false => (&[number, number + 1], &[effect, boot]),
    };
    let mut openers = Vec::new();
    for number in numbers {
        openers.extend(steps.iter().map(|step| opener(step, *number)));
    }
    if every {
        let unknown = Entry {
            kind: 5,
            clock: 77,
            s: number,
            ..Entry::default()
        };
        openers.push((unknown, &[]));
    }
    openers
}

/// Starts, outcomes and firings: what cannot follow a whole boundary.
fn out_of_order(number: u32, every: bool) -> Vec<Item> {
    let mut records = vec![entry(1, 0, &[])];
    records.extend([3, 4, 6].map(|kind| entry(kind, number, &[])));
    if every {
        let before = number.wrapping_sub(1);
        records.extend([3, 4, 6].map(|kind| entry(kind, before, &[])));
        records.extend([3, 4].map(|kind| entry(kind, number, &[1, 2])));
    }
    records
}
