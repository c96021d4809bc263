//! Runs that were completed or failed at a step or after the last one, each with the line that is owed.
//! It is written out from document 02 ("Completed too soon"), by counting records: neither the
//! procedure nor the definition of histories has a part in it.

use waymaker_core::{ClockCapability, GateId, TimerSpec};

use crate::cases::Case;
use crate::failures::{failed_outcomes, records_of};
use crate::pairs::{Item, journal_of};
use crate::pairs_list::{RUN, bare, before, effect, entry, opener};
use crate::reader::Step;
use crate::samples::WORKED_PLAN;
use crate::text::bytes;
use crate::words::completed_at;
use crate::writing;

pub const BOARDS: [ClockCapability; 2] = [ClockCapability::BootOnly, ClockCapability::Persistent];
const COMPLETED: u8 = 7;
const FAILED: u8 = 8;

/// A journal, a plan and its line in document 01's notation. One step: completed twice, completed once,
/// failed, failed and completed; a persistent timer on a board that has a boot clock only: completed,
/// failed; no step: failed, completed, completed twice.
const PRINTED: [(&str, &str, &str); 9] = [
    (
        "01 00 03 00 07 00*11 01 00*23 07 00*23 07 00*23",
        WORKED_PLAN,
        "no 45 1 0 2",
    ),
    (
        "01 00 02 00 07 00*11 01 00*23 07 00*23",
        WORKED_PLAN,
        "no 45 1 0 2",
    ),
    (
        "01 00 02 00 07 00*11 01 00*23 08 00*23",
        WORKED_PLAN,
        "ok finished 0 2 2 0",
    ),
    (
        "01 00 03 00 07 00*11 01 00*23 08 00*23 07 00*23",
        WORKED_PLAN,
        "no 24 2 0 3",
    ),
    (
        "01 00 02 00 07 00*11 01 00*23 07 00*23",
        "02 00 01 00*13 05 02 00*6 05 00*15",
        "no 45 1 0 2",
    ),
    (
        "01 00 02 00 07 00*11 01 00*23 08 00*23",
        "02 00 01 00*13 05 02 00*6 05 00*15",
        "ok finished 0 2 2 0",
    ),
    (
        "01 00 02 00 07 00*11 01 00*23 08 00*23",
        "02 00*15",
        "ok finished 0 2 2 0",
    ),
    (
        "01 00 02 00 07 00*11 01 00*23 07 00*23",
        "02 00*15",
        "ok finished 0 2 2 0",
    ),
    (
        "01 00 03 00 07 00*11 01 00*23 07 00*23 07 00*23",
        "02 00*15",
        "no 24 2 0 3",
    ),
];

/// Every case: those that are printed, all of plans of up to three steps, and some of long plans.
pub fn cases() -> Vec<Case> {
    let mut made = Made::new(true);
    let mut plans = vec![Vec::new()];
    for _ in 0..=3 {
        for steps in &plans {
            for capability in BOARDS {
                made.every_stop(capability, steps, &[1, 2, 3, 4, 5, 6, 7, 8, 9]);
            }
        }
        plans = plans.iter().flat_map(|plan| longer(plan)).collect();
    }
    let [effect, boot, _, gate] = steps();
    let longest: Vec<Step> = [effect, boot].into_iter().cycle().take(512).collect();
    for stop in [40, 149, 150] {
        made.ended(
            ClockCapability::BootOnly,
            &longest[..150],
            stop,
            &[COMPLETED],
        );
    }
    // At stop 511 the terminal record is the last that a journal may have; with gates at 1,022.
    for stop in [127, 128, 255, 256, 511] {
        made.ended(ClockCapability::BootOnly, &longest, stop, &[]);
    }
    for stop in [255, 256, 511, 512, 1_022] {
        made.ended(ClockCapability::BootOnly, &[gate; 1_023], stop, &[]);
    }
    made.cases
}

/// The cases that are stored. They are few and short, since the list has little room. Those that are
/// printed have a board with a boot clock only.
pub fn stored() -> Vec<Case> {
    let mut made = Made::new(false);
    let [_, boot, persistent, gate] = steps();
    let effect = effect(0, &[], 0);
    let next = &[COMPLETED, FAILED, 2, 9];
    for capability in BOARDS {
        for steps in [
            &[boot][..],
            &[effect, boot],
            &[boot, effect],
            &[persistent, effect],
            &[gate, effect],
            &[gate],
        ] {
            made.ended(capability, steps, 0, &[]);
        }
    }
    made.ended(ClockCapability::Persistent, &[], 0, &[]);
    made.ended(ClockCapability::Persistent, &[persistent], 0, &[]);
    made.ended(ClockCapability::BootOnly, &[persistent], 0, next);
    made.ended(ClockCapability::Persistent, &[effect], 0, next);
    made.ended(ClockCapability::BootOnly, &[effect], 1, next);
    made.ended(ClockCapability::Persistent, &[gate, gate], 1, next);
    made.cases
}

/// An effect, a boot timer, a persistent timer, a gate.
fn steps() -> [Step<'static>; 4] {
    [
        effect(5, &[1, 2, 3], 0),
        Step::Timer(TimerSpec::AfterBoot { ticks: 5 }),
        Step::Timer(TimerSpec::AtPersistentTime { instant: 105 }),
        Step::Gate {
            gate: GateId(3),
            version: 2,
        },
    ]
}

/// This plan with each step added.
fn longer(plan: &[Step<'static>]) -> [Vec<Step<'static>>; 4] {
    steps().map(|step| [plan, &[step]].concat())
}

/// The cases so far.
struct Made {
    cases: Vec<Case>,
    /// Whether the records have bodies.
    bodies: bool,
}

impl Made {
    /// The cases that are printed.
    fn new(bodies: bool) -> Made {
        let case = |(journal, plan, line): &(&str, &str, &str)| Case {
            journal: bytes(journal),
            plan: bytes(plan),
            line: line.to_string(),
            words: line.starts_with("no 45").then(|| completed_at(0)),
            handed: Vec::new(),
        };
        Made {
            cases: PRINTED.iter().map(case).collect(),
            bodies,
        }
    }

    /// The run ends at each stop that the board lets it reach.
    fn every_stop(&mut self, capability: ClockCapability, steps: &[Step<'static>], next: &[u8]) {
        for stop in 0..=steps.len() {
            if steps[..stop].iter().any(|step| barred(capability, step)) {
                return;
            }
            self.ended(capability, steps, stop, next);
        }
    }

    /// The run completed or failed at this stop, with nothing after it and with a record of each of these
    /// kinds.
    fn ended(
        &mut self,
        capability: ClockCapability,
        steps: &[Step<'static>],
        stop: usize,
        next: &[u8],
    ) {
        for terminal in [COMPLETED, FAILED] {
            let mut items = before(steps, stop);
            let place = items.len();
            items.push(entry(terminal, 0, &[6; 3]));
            let too_soon = terminal == COMPLETED && stop < steps.len();
            for next in [None].into_iter().chain(next.iter().map(Some)) {
                let next = next.map(|kind| record(*kind, steps.get(stop), stop as u32));
                let items = [&items[..], next.as_slice()].concat();
                let items = if self.bodies { items } else { bare(items) };
                let journal = journal_of(RUN, &items).bytes();
                self.cases.push(Case {
                    line: owed(&journal, (place, stop), too_soon, next.is_some()),
                    words: too_soon.then(|| completed_at(stop as u64)),
                    handed: Vec::new(),
                    journal,
                    plan: writing::plan(capability, steps).bytes(),
                });
            }
        }
    }
}

/// A record of this kind with the next number; the step's own opener or marker if it is of that kind.
fn record(kind: u8, step: Option<&Step<'_>>, number: u32) -> Item {
    let opener = step.map(|step| opener(step, number));
    match (opener, kind) {
        (Some(opener), _) if opener.0.kind == kind => opener,
        (_, 1 | COMPLETED | FAILED) => entry(kind, 0, &[]),
        _ => entry(kind, number, &[]),
    }
}

/// The line of a journal with a terminal record at this place and stop.
fn owed(journal: &[u8], (place, stop): (usize, usize), too_soon: bool, followed: bool) -> String {
    match (too_soon, followed) {
        (true, _) => format!("no 45 {place} 0 {}", place + 1),
        (false, true) => format!("no 24 {} 0 {}", place + 1, place + 2),
        (false, false) => {
            let failed = failed_outcomes(&records_of(journal));
            format!("ok finished {stop} {0} {0} {failed}", place + 1)
        }
    }
}

/// A persistent timer on a board that has a boot clock only.
pub fn barred(capability: ClockCapability, step: &Step<'_>) -> bool {
    let persistent = matches!(step, Step::Timer(TimerSpec::AtPersistentTime { .. }));
    persistent && capability == ClockCapability::BootOnly
}
