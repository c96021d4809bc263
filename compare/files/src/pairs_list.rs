//! The fixed list of pairs that is stored with the answers of the plain Rust.

use waymaker_core::{ActivityKind, ClockCapability, EffectRequest, GateId, TimerSpec};

use crate::damaged_list;
use crate::gates;
use crate::pairs::{BODIES, Item, Pair, journal_of, number_after};
use crate::random::Random;
use crate::reader::{Entry, Format, Refused, Step, read_journal, read_plan};
use crate::samples;
use crate::text::items;
use crate::too_soon;
use crate::writing;

const SEED: u64 = 2_026;
pub const RUN: u64 = 7;
/// Pairs at random are added until the list has so many bytes.
const FILLED: usize = 59_500;

type Bytes = (Vec<u8>, Vec<u8>);

/// A pair as two lines.
pub fn lines(journal: &[u8], plan: &[u8]) -> String {
    let line = |letter, file| format!("{letter} {}", items(file)).trim_end().to_string() + "\n";
    line("j", journal) + &line("p", plan)
}

pub fn list() -> Vec<Bytes> {
    let mut pairs = Vec::new();
    bench(&mut pairs);
    missing(&mut pairs);
    unreadable(&mut pairs);
    endings(&mut pairs);
    for cases in [too_soon::stored(), gates::stored()] {
        pairs.extend(cases.into_iter().map(|case| (case.journal, case.plan)));
    }
    beyond(&mut pairs);
    barred(&mut pairs);
    one_wrong_record(&mut pairs);
    let [effect, boot, _, persistent, _] = steps();
    wrong_fields(&mut pairs, ClockCapability::BootOnly, &[effect], 0);
    wrong_fields(&mut pairs, ClockCapability::BootOnly, &[boot, effect], 1);
    wrong_fields(&mut pairs, ClockCapability::BootOnly, &[boot], 0);
    wrong_fields(&mut pairs, ClockCapability::BootOnly, &[persistent], 0);
    wrong_fields(&mut pairs, ClockCapability::Persistent, &[boot], 0);
    wrong_fields(&mut pairs, ClockCapability::Persistent, &[persistent], 0);
    bodies(&mut pairs);
    failures(&mut pairs);
    longest(&mut pairs);
    at_random(&mut pairs);
    pairs
}

pub fn effect(kind: u16, input: &'static [u8], input_crc: u32) -> Step<'static> {
    let request = EffectRequest {
        kind: ActivityKind(kind),
        input_len: input.len() as u16,
        input_crc,
    };
    Step::Effect { request, input }
}

/// An effect, a boot timer, an effect with an empty input, a persistent timer, an effect.
fn steps() -> [Step<'static>; 5] {
    [
        effect(5, &[1, 2, 3], 0),
        Step::Timer(TimerSpec::AfterBoot { ticks: 5 }),
        effect(6, &[], 0),
        Step::Timer(TimerSpec::AtPersistentTime { instant: 105 }),
        effect(5, &[0xFF], u32::MAX),
    ]
}

pub fn entry(kind: u8, s: u32, body: &'static [u8]) -> Item {
    let entry = Entry {
        kind,
        s,
        m: body.len() as u64,
        ..Entry::default()
    };
    (entry, body)
}

/// A step's opener, or a gate's marker.
pub fn opener(step: &Step<'_>, number: u32) -> Item {
    let (mut entry, _) = writing::step_entry(step);
    entry.s = number;
    if entry.kind == 5 {
        entry.m = 100;
    }
    (entry, &[])
}

/// The outcome or the firing; the effect with number 2 failed. A gate has none.
fn closer(step: &Step<'_>, number: u32) -> Option<Item> {
    match step {
        Step::Effect { .. } if number == 2 => Some(entry(4, number, &[4, 5])),
        Step::Effect { .. } => Some(entry(3, number, &[9])),
        Step::Timer(_) => Some(entry(6, number, &[])),
        Step::Gate { .. } => None,
    }
}

/// `RunStarted` and the boundaries before this step.
pub fn before(steps: &[Step<'_>], stop: usize) -> Vec<Item> {
    let mut items = vec![entry(1, 0, &[8])];
    for (step, number) in steps[..stop].iter().zip(0..) {
        items.push(opener(step, number));
        items.extend(closer(step, number));
    }
    items
}

/// The same records without bodies, which take less text.
pub fn bare(mut items: Vec<Item>) -> Vec<Item> {
    for (entry, body) in &mut items {
        entry.m -= body.len() as u64;
        *body = &[];
    }
    items
}

fn push(pairs: &mut Vec<Bytes>, capability: ClockCapability, steps: &[Step<'_>], items: &[Item]) {
    let journal = journal_of(RUN, items).bytes();
    pairs.push((journal, writing::plan(capability, steps).bytes()));
}

/// Document 01's worked pair; a journal of count 0; `RunStarted` and an empty plan.
fn bench(pairs: &mut Vec<Bytes>) {
    let worked = (
        samples::worked(Format::Journal),
        samples::worked(Format::Plan),
    );
    pairs.push(worked);
    for capability in [ClockCapability::BootOnly, ClockCapability::Persistent] {
        push(pairs, capability, &[], &[]);
        push(pairs, capability, &steps(), &[]);
        push(pairs, capability, &[], &[entry(1, 0, &[])]);
    }
}

/// Files that cannot be read count as 0 bytes.
fn missing(pairs: &mut Vec<Bytes>) {
    let (journal, plan) = (
        samples::worked(Format::Journal),
        samples::worked(Format::Plan),
    );
    pairs.push((Vec::new(), Vec::new()));
    pairs.push((Vec::new(), plan.clone()));
    pairs.push((journal.clone(), Vec::new()));
    pairs.push((plan, journal));
}

/// From the stored list of files one for each number and place, up to three places, paired
/// with the other file of 01's worked pair. The second and third journals have an unreadable
/// plan too.
fn unreadable(pairs: &mut Vec<Bytes>) {
    let mut seen: Vec<Refused> = Vec::new();
    for (format, file) in damaged_list::list() {
        let refused = match format {
            Format::Journal => read_journal(&file).err(),
            Format::Plan => read_plan(&file).err(),
        };
        let Some(refused) = refused else { continue };
        let same = |one: &&Refused| one.number == refused.number;
        let times = seen.iter().filter(same).count();
        if times < 3 && !seen.contains(&refused) {
            seen.push(refused);
            let (journal, plan) = (
                samples::worked(Format::Journal),
                samples::worked(Format::Plan),
            );
            pairs.push(match (format, times) {
                (Format::Journal, 0) => (file, plan),
                (Format::Journal, _) => (file, plan[1..].to_vec()),
                (Format::Plan, _) => (journal, file),
            });
        }
    }
}

/// Due or done, open and a terminal record at each stop. At an even stop the run failed; at 1 and 3, before a
/// timer, it completed too soon; at 5 it completed after the last step.
fn endings(pairs: &mut Vec<Bytes>) {
    let (capability, steps) = (ClockCapability::Persistent, steps());
    for stop in 0..=steps.len() {
        let before = before(&steps, stop);
        let mut last = vec![entry(8 - (stop % 2) as u8, 0, &[6; 3])];
        last.extend(steps.get(stop).map(|step| opener(step, stop as u32)));
        push(pairs, capability, &steps, &before);
        for last in last {
            push(pairs, capability, &steps, &[&before[..], &[last]].concat());
        }
    }
}

/// Openers and markers after the last step.
fn beyond(pairs: &mut Vec<Bytes>) {
    let [effect, boot, ..] = steps();
    for (steps, last) in [
        (&[][..], opener(&effect, 0)),
        (&[], opener(&boot, 9)),
        (&[], entry(9, 0, &[])),
        (&[effect], opener(&effect, 1)),
        (&[effect, boot, boot], entry(9, 3, &[])),
    ] {
        let items = [&bare(before(steps, steps.len()))[..], &[last]].concat();
        push(pairs, ClockCapability::BootOnly, steps, &items);
    }
}

/// A timer that the board does not admit and that has no record: as the first step, the
/// second, the last of three.
fn barred(pairs: &mut Vec<Bytes>) {
    let [effect, boot, _, persistent, _] = steps();
    for steps in [
        &[persistent][..],
        &[effect, persistent, boot],
        &[boot, boot, persistent],
    ] {
        let stop = steps
            .iter()
            .position(|step| *step == persistent)
            .unwrap_or(0);
        push(
            pairs,
            ClockCapability::BootOnly,
            steps,
            &bare(before(steps, stop)),
        );
    }
}

/// Every kind of record in the place of each record and after the last one.
fn one_wrong_record(pairs: &mut Vec<Bytes>) {
    let [_, boot, effect, ..] = steps();
    let steps = &[effect, boot];
    let whole = bare(before(steps, 2));
    for place in 0..=whole.len() {
        for kind in 1..=9 {
            let before = &whole[..place];
            let record = entry(kind, number_after(before, kind), &[]);
            push(
                pairs,
                ClockCapability::Persistent,
                steps,
                &[before, &[record]].concat(),
            );
        }
    }
    let after = [&whole[..1], &[entry(9, 0, &[])], &whole[1..]].concat();
    push(pairs, ClockCapability::Persistent, steps, &after);
}

/// In the place of a step's opener, openers that differ from it in each way; and the right
/// opener with an outcome that has another number.
fn wrong_fields(
    pairs: &mut Vec<Bytes>,
    capability: ClockCapability,
    steps: &[Step<'static>],
    stop: usize,
) {
    let number = stop as u32;
    let before = bare(before(steps, stop));
    let (right, _) = opener(&steps[stop], number);
    for entry in other_openers(right) {
        let items: &[Item] = &[(entry, &[])];
        push(pairs, capability, steps, &[&before[..], items].concat());
    }
    let late = closer(&steps[stop], number + 1);
    push(
        pairs,
        capability,
        steps,
        &[&before[..], &[(right, &[])], late.as_slice()].concat(),
    );
}

fn other_openers(right: Entry) -> Vec<Entry> {
    let (s, a, d) = (right.s + 1, right.a + 1, right.d + 1);
    let m = right.m ^ 1;
    let mut others = vec![
        Entry { s, ..right },
        Entry { d, ..right },
        Entry { m, ..right },
    ];
    if right.kind == 2 {
        let kind = Entry { a, ..right };
        let both = Entry { d, m, ..right };
        others.extend([both, kind, Entry { s, ..kind }, Entry { d, ..kind }]);
    } else {
        others.extend([0, 1, 2, 3].map(|clock| Entry { clock, ..right }));
        others.push(Entry { d: 0, ..right });
        others.extend([2, 255].map(|clock| Entry { clock, s, ..right }));
    }
    others
}

/// Empty and large outcomes and inputs.
fn bodies(pairs: &mut Vec<Bytes>) {
    static LARGE: [u8; 30_000] = [0xEE; 30_000];
    let capability = ClockCapability::Persistent;
    for (body, input) in [(&LARGE[..0], &LARGE[..]), (&LARGE[..], &LARGE[..0])] {
        let steps = [effect(1, input, 1), effect(2, input, 2)];
        for steps in [&steps[..1], &[steps[0], effect(3, &BODIES[..9], 3)]] {
            let mut items = vec![entry(1, 0, &[])];
            push(pairs, capability, steps, &items);
            items.push(opener(&steps[0], 0));
            push(pairs, capability, steps, &items);
            items.push(entry(3, 0, body));
            push(pairs, capability, steps, &items);
            items[2].0.kind = 4;
            push(pairs, capability, steps, &items);
        }
    }
}

/// After a failed effect two more that fail: each is open, has an outcome with another number, and fails. Then the run is due or
/// done, it is finished, and the failure comes again.
fn failures(pairs: &mut Vec<Bytes>) {
    let [first, _, second, _, third] = steps();
    let steps = [first, second, third];
    let failed = |number| entry(4, number, &[4, 5]);
    let mut items = vec![entry(1, 0, &[]), opener(&first, 0), failed(0)];
    for (step, number) in steps[1..].iter().zip(1..) {
        let open = [&items[..], &[opener(step, number)]].concat();
        let other = [&open[..], &[failed(number - 1)]].concat();
        items = [&open[..], &[failed(number)]].concat();
        let ended = [&items[..], &[entry(8, 0, &[6])]].concat();
        let again = [&items[..], &[failed(number)]].concat();
        for items in [&open, &other, &items, &ended, &again] {
            push(pairs, ClockCapability::BootOnly, &steps, items);
        }
    }
}

/// 1,024 records in 32,768 bytes: two gates, then effects and gates by turns, the last effect open; numbers
/// that are right in 8 or 16 bits alone; and a plan of 1,024 steps.
fn longest(pairs: &mut Vec<Bytes>) {
    let gate = Step::Gate {
        gate: GateId(0),
        version: 0,
    };
    let step = effect(0, &[], 0);
    let mut steps = vec![gate; 2];
    steps.extend([step, gate].repeat(341));
    let mut items = vec![entry(1, 0, &[0x77; 8_176])];
    for (number, step) in (0..682).zip(&steps) {
        items.push(opener(step, number));
        items.extend(closer(step, number));
    }
    let mut items = [&items[..1], &bare(items[1..].to_vec())].concat();
    items.push(opener(&step, 682));
    push(pairs, ClockCapability::BootOnly, &steps, &items);
    for number in [256, 65_536] {
        for step in [gate, step] {
            let items = [entry(1, 0, &[]), opener(&step, number)];
            push(pairs, ClockCapability::BootOnly, &[step], &items);
        }
    }
    let mut steps = vec![effect(1, &[0x33; 8], 1); 1_022];
    steps.extend([step; 2]);
    push(
        pairs,
        ClockCapability::Persistent,
        &steps,
        &before(&steps, 2),
    );
}

/// Generated pairs, some damaged, as many as there is room for.
fn at_random(pairs: &mut Vec<Bytes>) {
    let mut random = Random::new(SEED);
    let mut text: usize = pairs
        .iter()
        .map(|(journal, plan)| lines(journal, plan).len())
        .sum();
    loop {
        let steps = random.below(5) as usize;
        let pair = Pair::at_random(&mut random, steps, 3);
        let journal = journal_of(random.below(1 << 16), &pair.items).bytes();
        let plan = writing::plan(pair.capability, &pair.steps).bytes();
        text += lines(&journal, &plan).len();
        if text > FILLED {
            return;
        }
        pairs.push((journal, plan));
    }
}
