//! Comparing one file or one pair, and reporting a difference.

use std::fmt::Debug;
use std::process;

use crate::histories::boundaries_before;
use crate::numbers;
use crate::proved;
use crate::reader::{Format, Step, read_plan};
use crate::resume::{Ending, Verdict, handover, verdict};
use crate::text::items;
use crate::words::{another_marker, completed_at, marker_due};

/// Compares the proved verdict, where the library has it, with this one.
pub fn same_verdict(verdict: &Verdict, journal: impl FnOnce() -> Vec<u8>, plan: &[u8]) {
    if !proved::HAS_VERDICT {
        return;
    }
    let journal = journal();
    if let Some(proved) = proved::verdict(&journal, plan)
        && proved != numbers::verdict(verdict)
    {
        let what = format!("Rust:   {verdict}\nProved: {proved:?}");
        differ_on_pair(&what, &journal, plan);
    }
}

/// Compares the verdict and the handover of these boundaries, and returns the verdict.
pub fn same_pair(journal: &[u8], plan: &[u8], boundaries: impl Iterator<Item = u64>) -> Verdict {
    let verdict = verdict(journal, plan);
    same_verdict(&verdict, || journal.to_vec(), plan);
    same_texts(&verdict, journal, plan);
    for boundary in boundaries {
        let rust = handover(journal, plan, boundary);
        let rust = numbers::handover(journal, plan, &rust);
        if let Some(proved) = proved::handover(journal, plan, boundary)
            && proved != rust
        {
            let what = format!("handover of {boundary}\nRust:   {rust:?}\nProved: {proved:?}");
            differ_on_pair(&what, journal, plan);
        }
    }
    verdict
}

/// Compares the proved line with this one, the words with those that are owed where they are known, and of
/// line and words that they come whole or not at all.
fn same_texts(verdict: &Verdict, journal: &[u8], plan: &[u8]) {
    let line = whole(|text| proved::line(journal, plan, text));
    let words = whole(|text| proved::words(journal, plan, text));
    let rust = format!("{verdict}\n");
    match (line, words) {
        (None, None) => {}
        (Some(Ok(line)), Some(Ok(words)))
            if line == rust.as_bytes()
                && owed_words(verdict, plan).is_none_or(|owed| words == owed.as_bytes()) => {}
        (line, words) => {
            let what = format!("Rust:   {rust:?}\nProved: {line:?}, {words:?}");
            differ_on_pair(&what, journal, plan);
        }
    }
}

/// The words for a gate that is due, for 45 and for the marker of another gate or version. Those for 45 name
/// the step: as many boundaries are whole before the record.
fn owed_words(verdict: &Verdict, plan: &[u8]) -> Option<String> {
    let steps = || read_plan(plan).ok().map(|plan| plan.steps());
    match *verdict {
        Verdict::Ok {
            ending: Ending::Due,
            stop,
            failed,
            ..
        } => match steps()?.nth(stop as usize)? {
            Step::Gate { gate, .. } => Some(marker_due(gate.0, failed)),
            Step::Effect { .. } | Step::Timer(_) => None,
        },
        Verdict::No {
            number: 45, place, ..
        } => {
            let steps: Vec<Step> = steps()?.collect();
            Some(completed_at(
                boundaries_before(&steps, place as usize) as u64
            ))
        }
        Verdict::No {
            number: 22,
            divergence: 5,
            place,
            ..
        } => Some(another_marker(place)),
        _ => None,
    }
}

/// Compares the proved words with these.
pub fn same_words(owed: &str, journal: &[u8], plan: &[u8]) {
    let words = whole(|text| proved::words(journal, plan, text));
    if words.is_some_and(|words| words.as_deref() != Ok(owed.as_bytes())) {
        differ_on_pair(&format!("Owed: {owed}"), journal, plan);
    }
}

/// The text that a call writes into a buffer that is always long enough, or what is wrong: it writes
/// beyond its text, or another one where it just fits, or anything where it does not.
fn whole(mut call: impl FnMut(&mut [u8]) -> Option<u64>) -> Option<Result<Vec<u8>, &'static str>> {
    let mut write = |room: usize| {
        let mut text = vec![0xaa; room];
        call(&mut text).map(|len| (len as usize, text))
    };
    let (len, text) = write(128)?;
    let (least, exact) = write(len)?;
    let (none, short) = write(len.saturating_sub(1))?;
    if len == 0 || text[len..].iter().any(|byte| *byte != 0xaa) {
        return Some(Err("no text, or bytes beyond it"));
    }
    if least != len || exact != text[..len] {
        return Some(Err("another text where it just fits"));
    }
    if none != 0 || short.iter().any(|byte| *byte != 0xaa) {
        return Some(Err("bytes where it does not fit"));
    }
    Some(Ok(text[..len].to_vec()))
}

pub fn differ_on_pair(what: &str, journal: &[u8], plan: &[u8]) -> ! {
    println!("DIFFERENCE: {what}");
    println!("j {}\np {}", items(journal), items(plan));
    process::exit(1);
}

pub fn differ_on_file(
    format: Format,
    file: &[u8],
    what: &str,
    rust: &impl Debug,
    proved: &impl Debug,
) -> ! {
    println!("DIFFERENCE: {what}");
    println!("Rust:   {rust:?}\nProved: {proved:?}");
    println!("{format:?} {}", items(file));
    process::exit(1);
}
