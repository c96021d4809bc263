//! How long the proved code and the plain Rust take, side by side in one run.
//!
//! Both sides are called with the same arguments, by a call that is not inlined where it is
//! timed, and give the same numbers. Each answer is used, so that no call is optimised away.

use std::fs;
use std::hint::black_box;
use std::thread;
use std::time::Instant;

use waymaker_core::{ActivityKind, ClockCapability, EffectRequest, GateId, TimerSpec};

use crate::numbers::{self, EntryNumbers};
use crate::pairs::{BODIES, Item, journal_of};
use crate::proved;
use crate::reader::{ENTRY, Entry, Format, HEADER, Step, read_journal};
use crate::resume::{handover, verdict};
use crate::writing;

/// How often the two sides are timed, by turns; the results are medians.
const ROUNDS: usize = 501;
/// In each round a side is called for about so many nanoseconds.
const NANOSECONDS: f64 = 200_000.0;
/// The goal: the proved code takes at most so many times as long as the Rust.
const MOST_RATIO: f64 = 1.0;
/// The goal: a verdict on eight times the records takes at most so many times as long.
const MOST_GROWTH: f64 = 8.8;

/// One thing that is timed: what it is called, and how each side does it.
struct Case<'a> {
    what: String,
    /// Whether the ratio has a goal.
    owed: bool,
    rust: Box<dyn Fn() + 'a>,
    rattle: Box<dyn Fn() + 'a>,
}

impl<'a> Case<'a> {
    /// The two sides must give the same answer.
    fn new<T: PartialEq + std::fmt::Debug>(
        what: String,
        rust: impl Fn() -> T + 'a,
        rattle: impl Fn() -> T + 'a,
    ) -> Case<'a> {
        if proved::HAS_VERDICT {
            assert_eq!(rust(), rattle(), "{what}");
        }
        Case {
            what,
            owed: true,
            rust: Box::new(move || drop(black_box(rust()))),
            rattle: Box::new(move || drop(black_box(rattle()))),
        }
    }
}

/// Times every case and prints the table, with the goals and whether they are met.
pub fn run() {
    println!("{}; medians of {ROUNDS} rounds, nanoseconds", machine());
    if !proved::HAS_VERDICT {
        println!("the proved verdict is not there: nothing is timed");
        return;
    }
    let all = AllFiles::new();
    println!("| What | Rust | Rattle | Ratio | Goal |");
    println!("|---|---|---|---|---|");
    let mut unmet = 0;
    for case in cases(&all) {
        let (rust, rattle, ratio) = by_turns(&case.rust, &case.rattle);
        let goal = match case.owed {
            true => told(ratio, MOST_RATIO, &mut unmet),
            false => "none".to_string(),
        };
        println!(
            "| {} | {rust:.0} | {rattle:.0} | {ratio:.2} | {goal} |",
            case.what
        );
    }
    println!();
    println!("| Verdict, growth from 128 to 1,024 records | 128 | 1,024 | Times | Goal |");
    println!("|---|---|---|---|---|");
    growth("", [&all.small, &all.large], &mut unmet);
    growth(", gates", [&all.few_gates, &all.gates], &mut unmet);
    println!();
    println!("goals not met: {unmet}");
}

/// Times each side's verdict on two pairs, and prints how many times as long the second takes.
fn growth(of: &str, pairs: [&Files; 2], unmet: &mut u64) {
    let [small, large] = pairs.map(verdict_case);
    let (few, many, times) = by_turns(&small.rust, &large.rust);
    println!("| Rust{of} | {few:.0} | {many:.0} | {times:.2} | |");
    let (few, many, times) = by_turns(&small.rattle, &large.rattle);
    let goal = told(times, MOST_GROWTH, unmet);
    println!("| Rattle{of} | {few:.0} | {many:.0} | {times:.2} | {goal} |");
}

/// Makes so many calls of one side of the case whose name begins so, for a counter of instructions.
pub fn calls(side: &str, part: &str, calls: u64) -> Result<(), String> {
    let all = AllFiles::new();
    let case = cases(&all)
        .into_iter()
        .find(|case| case.what.starts_with(part))
        .ok_or_else(|| format!("no case begins with {part}"))?;
    let call = match side {
        "rust" => case.rust,
        "rattle" => case.rattle,
        _ => return Err("the sides are rust and rattle".to_string()),
    };
    (0..calls).for_each(|_| call());
    Ok(())
}

fn told(found: f64, most: f64, unmet: &mut u64) -> String {
    if found <= most {
        format!("at most {most}: met")
    } else {
        *unmet += 1;
        format!("at most {most}: NOT MET")
    }
}

/// The processor and how many cores there are, where the system says it.
fn machine() -> String {
    let model = fs::read_to_string("/proc/cpuinfo")
        .ok()
        .and_then(|text| {
            let line = text.lines().find(|line| line.starts_with("model name"))?;
            Some(line.split(':').nth(1)?.trim().to_string())
        })
        .unwrap_or_else(|| "unknown processor".to_string());
    let cores = thread::available_parallelism().map_or(0, |cores| cores.get());
    format!("{model}, {cores} cores")
}

/// All files that are timed.
struct AllFiles {
    /// 32,768 bytes each, all effects.
    full: Files,
    /// 1,024 records, all timers.
    timers: Files,
    /// A journal of 1,024 version markers.
    markers: Vec<u8>,
    /// A run's start and 1,023 markers, and as many gates; an eighth of it.
    gates: Files,
    few_gates: Files,
    small: Files,
    large: Files,
}

impl AllFiles {
    fn new() -> AllFiles {
        let full = Files::new(
            1_024,
            |number| effect(number, if number < 1_022 { 8 } else { 0 }),
            16,
        );
        assert_eq!([full.journal.len(), full.plan.len()], [32_768; 2]);
        AllFiles {
            full,
            timers: Files::new(1_024, timer, 0),
            markers: markers(1_024),
            gates: Files::gates(1_024),
            few_gates: Files::gates(128),
            small: Files::new(128, |number| effect(number, 0), 0),
            large: Files::new(1_024, |number| effect(number, 0), 0),
        }
    }
}

/// A journal of so many version markers.
fn markers(count: u32) -> Vec<u8> {
    let mut file = writing::File::new(Format::Journal, 1);
    for s in 0..count {
        let marker = Entry {
            kind: 9,
            a: 7,
            s,
            d: 3,
            ..Entry::default()
        };
        file.push(marker, None);
    }
    file.bytes()
}

/// A journal of so many records, and its plan.
struct Files {
    what: &'static str,
    records: usize,
    journal: Vec<u8>,
    plan: Vec<u8>,
    /// The stop.
    stop: u64,
}

impl Files {
    /// The last step is open, and the plan has as many steps as the journal has records; with the length of
    /// each outcome.
    fn new(records: usize, step: fn(usize) -> Step<'static>, outcome: usize) -> Files {
        let steps: Vec<Step> = (0..records).map(step).collect();
        let (mut items, mut stop) = (vec![started()], 0);
        while items.len() + 1 < records {
            items.push(opener(&steps[stop], stop));
            items.extend(closer(&steps[stop], stop, outcome));
            stop += 1;
        }
        items.push(opener(&steps[stop], stop));
        Files {
            what: match steps[0] {
                Step::Effect { .. } => "effects",
                Step::Timer(_) => "timers",
                Step::Gate { .. } => "gates",
            },
            records,
            journal: journal_of(7, &items).bytes(),
            plan: writing::plan(ClockCapability::Persistent, &steps).bytes(),
            stop: stop as u64,
        }
    }

    /// Every record but the first is the marker of a gate, and every gate has its own.
    fn gates(records: usize) -> Files {
        let steps: Vec<Step> = (0..records - 1).map(gate).collect();
        let mut items = vec![started()];
        for (number, step) in steps.iter().enumerate() {
            items.push(opener(step, number));
        }
        Files {
            what: "gates",
            records,
            journal: journal_of(7, &items).bytes(),
            plan: writing::plan(ClockCapability::Persistent, &steps).bytes(),
            stop: steps.len() as u64,
        }
    }
}

fn effect(number: usize, input: usize) -> Step<'static> {
    Step::Effect {
        request: EffectRequest {
            kind: ActivityKind(number as u16),
            input_len: input as u16,
            input_crc: number as u32 * 77,
        },
        input: &BODIES[number..number + input],
    }
}

fn timer(number: usize) -> Step<'static> {
    Step::Timer(match number % 2 {
        0 => TimerSpec::AfterBoot { ticks: 1_000 },
        _ => TimerSpec::AtPersistentTime {
            instant: number as u64,
        },
    })
}

fn gate(number: usize) -> Step<'static> {
    Step::Gate {
        gate: GateId(number as u16),
        version: 3,
    }
}

fn started() -> Item {
    let entry = Entry {
        kind: 1,
        a: 3,
        ..Entry::default()
    };
    (entry, &[])
}

fn opener(step: &Step<'_>, number: usize) -> Item {
    let (mut entry, _) = writing::step_entry(step);
    entry.s = number as u32;
    (entry, &[])
}

fn closer(step: &Step<'_>, number: usize, outcome: usize) -> Option<Item> {
    let entry = Entry {
        kind: match step {
            Step::Effect { .. } => 3,
            Step::Timer(_) => 6,
            Step::Gate { .. } => return None,
        },
        s: number as u32,
        m: outcome as u64,
        ..Entry::default()
    };
    Some((entry, &BODIES[number..number + outcome]))
}

fn cases(all: &AllFiles) -> Vec<Case<'_>> {
    let full = &all.full;
    let mut cases = vec![
        reading_case(Format::Journal, full),
        reading_case(Format::Plan, full),
        reading_case(Format::Journal, &all.timers),
        reading_case(Format::Plan, &all.timers),
        walking_case(Format::Journal, full),
        walking_case(Format::Plan, full),
        verdict_case(full),
        verdict_case(&all.timers),
        verdict_case(&all.gates),
    ];
    for boundary in [0, full.stop - 1, full.stop, full.stop + 1] {
        cases.push(handover_case(full, boundary));
    }
    for case in [iterating_case(full), markers_case(&all.markers)] {
        cases.push(Case {
            owed: false,
            ..case
        });
    }
    cases
}

fn reading_case(format: Format, files: &Files) -> Case<'_> {
    let (name, file) = named(format, files);
    Case::new(
        format!("read a {name}, 1,024 entries, {}", files.what),
        move || Some(numbers::read(format, black_box(file))),
        move || proved::read(format, black_box(file)),
    )
}

fn markers_case(journal: &[u8]) -> Case<'_> {
    Case::new(
        "read a journal, 1,024 entries, markers".to_string(),
        move || Some(numbers::read(Format::Journal, black_box(journal))),
        move || proved::read(Format::Journal, black_box(journal)),
    )
}

fn walking_case(format: Format, files: &Files) -> Case<'_> {
    let (name, file) = named(format, files);
    let rust: fn(&[u8], u64, u64) -> EntryNumbers = match format {
        Format::Journal => rust_next_record,
        Format::Plan => rust_next_step,
    };
    Case::new(
        format!("walk a {name}, a call for each of its 1,024 entries"),
        move || walk(black_box(file), |entry, body| Some(rust(file, entry, body))),
        move || {
            walk(black_box(file), |entry, body| {
                proved::next(format, file, entry, body)
            })
        },
    )
}

// The plain Rust of the library's two exports, called through a symbol as these are.

#[inline(never)]
fn rust_next_record(file: &[u8], entry: u64, body: u64) -> EntryNumbers {
    numbers::next(Format::Journal, file, entry, body)
}

#[inline(never)]
fn rust_next_step(file: &[u8], entry: u64, body: u64) -> EntryNumbers {
    numbers::next(Format::Plan, file, entry, body)
}

fn named(format: Format, files: &Files) -> (&'static str, &[u8]) {
    match format {
        Format::Journal => ("journal", &files.journal[..]),
        Format::Plan => ("plan", &files.plan[..]),
    }
}

/// Walks from the first entry to the last, each by a call of its own, and sums the kinds.
fn walk(file: &[u8], next: impl Fn(u64, u64) -> Option<EntryNumbers>) -> u64 {
    let count = u64::from(u16::from_le_bytes([file[2], file[3]]));
    let (mut entry, mut body) = (0, HEADER as u64 + ENTRY as u64 * count);
    let mut kinds = 0;
    while entry < count {
        let Some(found) = next(entry, body) else {
            break;
        };
        kinds += black_box(found).kind;
        (entry, body) = (found.next_entry, found.next_body);
    }
    kinds
}

/// The Rust walks by its own iterator, which is inlined; a call of a library is not.
fn iterating_case(files: &Files) -> Case<'_> {
    let journal = &files.journal[..];
    Case::new(
        "read the journal and walk it, the Rust by its iterator".to_string(),
        || iterate(black_box(journal)),
        || {
            black_box(proved::read(Format::Journal, black_box(journal)));
            walk(journal, |entry, body| {
                proved::next(Format::Journal, journal, entry, body)
            })
        },
    )
}

fn iterate(journal: &[u8]) -> u64 {
    let records = read_journal(journal).map(|journal| journal.records());
    let mut kinds = 0;
    for record in records.into_iter().flatten() {
        kinds += u64::from(black_box(record).kind().0);
    }
    kinds
}

fn verdict_case(files: &Files) -> Case<'_> {
    let (journal, plan) = (&files.journal[..], &files.plan[..]);
    Case::new(
        format!("verdict, {} records, {}", files.records, files.what),
        || {
            Some(numbers::verdict(&verdict(
                black_box(journal),
                black_box(plan),
            )))
        },
        || proved::verdict(black_box(journal), black_box(plan)),
    )
}

fn handover_case(files: &Files, boundary: u64) -> Case<'_> {
    let (journal, plan) = (&files.journal[..], &files.plan[..]);
    Case::new(
        format!(
            "handover of boundary {boundary}, the stop is {}",
            files.stop
        ),
        move || {
            let handed = handover(black_box(journal), black_box(plan), black_box(boundary));
            Some(numbers::handover(journal, plan, &handed))
        },
        move || proved::handover(black_box(journal), black_box(plan), black_box(boundary)),
    )
}

/// Times two calls by turns. Returns the median of each, and the median of the ratios of the
/// second to the first.
fn by_turns(first: &dyn Fn(), second: &dyn Fn()) -> (f64, f64, f64) {
    let (first_calls, second_calls) = (calls_for(first), calls_for(second));
    let (mut firsts, mut seconds, mut ratios) = (Vec::new(), Vec::new(), Vec::new());
    for _ in 0..ROUNDS {
        let (one, other) = (time(first, first_calls), time(second, second_calls));
        firsts.push(one);
        seconds.push(other);
        ratios.push(other / one);
    }
    (median(firsts), median(seconds), median(ratios))
}

/// How many calls fill one round.
fn calls_for(call: &dyn Fn()) -> u64 {
    time(call, 10);
    (NANOSECONDS / time(call, 10).max(1.0)) as u64 + 1
}

/// Nanoseconds a call.
fn time(call: &dyn Fn(), calls: u64) -> f64 {
    let start = Instant::now();
    (0..calls).for_each(|_| call());
    start.elapsed().as_nanos() as f64 / calls as f64
}

fn median(mut times: Vec<f64>) -> f64 {
    times.sort_by(f64::total_cmp);
    times[times.len() / 2]
}
