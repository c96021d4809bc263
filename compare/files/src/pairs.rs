//! Pairs of a journal and a plan: histories, runs that were completed too soon, both with damage, and damaged files.

use waymaker_core::{ActivityKind, ClockCapability, EffectRequest, GateId, TimerSpec};

use crate::random::Random;
use crate::reader::{Entry, Format, MOST_BYTES, Step};
use crate::samples::{body_field, kinds, random_entry};
use crate::writing::{File, step_entry};

/// Every body is a part of these bytes.
pub static BODIES: [u8; MOST_BYTES] = {
    let mut bytes = [0; MOST_BYTES];
    let mut at = 0;
    while at < MOST_BYTES {
        bytes[at] = (at as u32).wrapping_mul(0x9E37_79B9).wrapping_shr(19) as u8;
        at += 1;
    }
    bytes
};

/// What no plan may have: a timer of 0, on either clock.
const ZERO_TIMERS: [TimerSpec; 2] = [
    TimerSpec::AfterBoot { ticks: 0 },
    TimerSpec::AtPersistentTime { instant: 0 },
];

/// An entry and its body.
pub type Item = (Entry, &'static [u8]);

/// A body of at most this length.
pub fn body(random: &mut Random, most: usize) -> &'static [u8] {
    let start = random.below((MOST_BYTES - most) as u64) as usize;
    let length = random.below(most as u64 + 1) as usize;
    &BODIES[start..start + length]
}

pub fn random_step(random: &mut Random, most_body: usize) -> Step<'static> {
    let deadline = random.any().max(1);
    match random.below(8) {
        0 => Step::Timer(TimerSpec::AfterBoot { ticks: deadline }),
        1 => Step::Timer(TimerSpec::AtPersistentTime { instant: deadline }),
        2 | 3 => Step::Gate {
            gate: GateId(random.any() as u16),
            version: random.any() as u16,
        },
        _ => {
            let input = body(random, most_body);
            let request = EffectRequest {
                kind: ActivityKind(random.any() as u16),
                input_len: input.len() as u16,
                input_crc: random.any() as u32,
            };
            Step::Effect { request, input }
        }
    }
}

/// A step's opener with this number; a gate's marker.
pub fn opener(random: &mut Random, step: &Step<'_>, number: u32) -> Item {
    let (mut entry, _) = step_entry(step);
    entry.s = number;
    if entry.kind == 5 {
        entry.m = random.any();
    }
    (entry, &[])
}

/// A step's outcome or firing with this number; a gate has none.
pub fn closer(random: &mut Random, step: &Step<'_>, number: u32, most_body: usize) -> Option<Item> {
    let kind = match step {
        Step::Effect { .. } => random.pick(&[3, 3, 4]),
        Step::Timer(_) => 6,
        Step::Gate { .. } => return None,
    };
    let mut item = with_body(random, kind, most_body);
    item.0.s = number;
    Some(item)
}

/// An entry of this kind with nothing but a body, if its kind has one.
pub fn with_body(random: &mut Random, kind: u8, most_body: usize) -> Item {
    let mut entry = Entry {
        kind,
        ..Entry::default()
    };
    match body_field(Format::Journal, &mut entry) {
        Some(length) => {
            let body = body(random, most_body);
            *length = body.len() as u64;
            (entry, body)
        }
        None => (entry, &[]),
    }
}

/// `RunStarted`, the boundaries of the first `stop` steps, then an ending: nothing, the next
/// step's opener or a terminal record, now and then with a record after it. Where a step is left, a run
/// that completes does so too soon.
pub fn history(
    random: &mut Random,
    steps: &[Step<'_>],
    stop: usize,
    most_body: usize,
) -> Vec<Item> {
    let mut started = with_body(random, 1, most_body);
    started.0.a = random.any() as u16;
    started.0.d = random.any() & 0xFFFF;
    let mut items = vec![started];
    for (number, step) in steps[..stop].iter().enumerate() {
        items.push(opener(random, step, number as u32));
        items.extend(closer(random, step, number as u32, most_body));
    }
    match random.below(4) {
        0 | 1 if stop < steps.len() => items.push(opener(random, &steps[stop], stop as u32)),
        2 => {
            let kind = random.pick(&[7, 8]);
            items.push(with_body(random, kind, most_body));
            if random.one_in(3) {
                let item = after_the_end(random, &items, steps.get(stop));
                items.push(item);
            }
        }
        _ => {}
    }
    items
}

/// A terminal record, the opener of the step that is left, or any record.
fn after_the_end(random: &mut Random, items: &[Item], step: Option<&Step<'_>>) -> Item {
    match (random.below(4), step) {
        (0, _) => with_body(random, 7, 5),
        (1, _) => with_body(random, 8, 5),
        (2, Some(step)) => opener(random, step, number_after(items, 2)),
        _ => any_item(random, items),
    }
}

/// The number that a record of this kind has after these: the next one, or that of the last boundary.
pub fn number_after(items: &[Item], kind: u8) -> u32 {
    let numbered = items.iter().map(|(entry, _)| entry.kind);
    let taken = numbered.filter(|kind| matches!(kind, 2 | 5 | 9)).count() as u32;
    match kind {
        1 | 7 | 8 => 0,
        3 | 4 | 6 => taken.saturating_sub(1),
        _ => taken,
    }
}

/// One change to the list of records; most leave the file readable.
pub fn damage(random: &mut Random, items: &mut Vec<Item>) {
    let at = damaged_place(random, items);
    if at == items.len() {
        let item = any_item(random, items);
        return items.push(item);
    }
    match random.below(12) {
        0 => drop(items.remove(at)),
        1 => items.insert(at, items[at]),
        2 => items.insert(at, any_item(random, &items[..at])),
        3 => items[at] = any_item(random, &items[..at]),
        4 => items.truncate(at),
        5 if at > 0 => items.swap(at, at - 1),
        6 => items[at].0.s = random.near(items[at].0.s.into()) as u32,
        _ => one_field(random, &mut items[at].0),
    }
}

/// Any place, or now and then the last marker's.
fn damaged_place(random: &mut Random, items: &[Item]) -> usize {
    let marker = items.iter().rposition(|(entry, _)| entry.kind == 9);
    match marker {
        Some(at) if random.one_in(4) => at,
        _ => random.below(items.len() as u64 + 1) as usize,
    }
}

/// A record of any kind, often with the number that is right after these.
fn any_item(random: &mut Random, before: &[Item]) -> Item {
    let kind = random.pick(kinds(Format::Journal));
    let (with_body, body) = with_body(random, kind, 5);
    let mut entry = random_entry(random, Format::Journal, kind);
    if let Some(length) = body_field(Format::Journal, &mut entry) {
        *length = with_body.m;
    }
    if entry.s != 0 && !random.one_in(4) {
        entry.s = number_after(before, kind);
    }
    (entry, body)
}

/// Changes a field that the kind has, or now and then one that it does not have.
fn one_field(random: &mut Random, entry: &mut Entry) {
    let fields: &[u64] = match entry.kind {
        2 => &[1, 3, 4],
        5 => &[0, 3, 4],
        1 => &[1, 3],
        9 => &[1, 2, 3],
        _ => &[2],
    };
    let field = if random.one_in(8) {
        random.below(5)
    } else {
        random.pick(fields)
    };
    match field {
        0 => entry.clock = random.pick(&[0, 1, 2, 3, 255]),
        1 => entry.a = random.near(entry.a.into()) as u16,
        2 => entry.s = random.near(entry.s.into()) as u32,
        3 => entry.d = random.near(entry.d),
        _ => entry.m = random.near(entry.m),
    }
}

pub fn journal_of(run: u64, items: &[Item]) -> File {
    let mut file = File::new(Format::Journal, run);
    for (entry, body) in items {
        file.push(*entry, Some(body));
    }
    file
}

/// A plan of so many steps, now and then with a timer of 0, and one of its histories or a run that was
/// completed too soon, with some damage or none.
pub struct Pair {
    pub capability: ClockCapability,
    pub steps: Vec<Step<'static>>,
    pub items: Vec<Item>,
}

impl Pair {
    pub fn at_random(random: &mut Random, steps: usize, most_body: usize) -> Pair {
        let capability = match random.below(3) {
            0 => ClockCapability::BootOnly,
            _ => ClockCapability::Persistent,
        };
        let mut pair = Pair {
            capability,
            steps: (0..steps).map(|_| random_step(random, most_body)).collect(),
            items: Vec::new(),
        };
        if steps > 0 && random.one_in(50) {
            let at = random.below(steps as u64) as usize;
            pair.steps[at] = Step::Timer(random.pick(&ZERO_TIMERS));
        }
        if !random.one_in(50) {
            let stop = random.below(steps as u64 + 1) as usize;
            pair.items = history(random, &pair.steps, stop, most_body);
        }
        for _ in 0..random.pick(&[0, 0, 1, 1, 1, 2]) {
            damage(random, &mut pair.items);
        }
        pair
    }
}
