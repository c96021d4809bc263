//! Writes the stored lists: files and pairs, and the answers of the plain Rust to them.

use std::collections::BTreeSet;
use std::fs;
use std::io;
use std::path::Path;

use crate::damaged_list;
use crate::failures::Failures;
use crate::pairs_list;
use crate::resume::{Handover, Verdict, handover, verdict};
use crate::terminals::Terminals;

/// The most bytes of a list.
const LIMIT: usize = 60_000;

/// The numbers that a file can be refused with.
const READING: [u64; 18] = [
    1, 2, 3, 4, 6, 7, 8, 9, 11, 12, 13, 14, 15, 16, 17, 18, 44, 19,
];
/// The numbers, each with its divergence, that a readable pair can be refused with.
const REFUSALS: [(u64, u64); 12] = [
    (22, 1),
    (22, 2),
    (22, 4),
    (22, 5),
    (22, 6),
    (22, 8),
    (22, 9),
    (23, 0),
    (24, 0),
    (25, 0),
    (31, 0),
    (45, 0),
];

/// The lines of the first pairs, as document 01 prints them and 02 (request 10) ends them.
const PRINTED: [&str; 4] = [
    "ok open 0 2 3 0",
    "ok unstarted 0 0 0 0",
    "ok unstarted 0 0 0 0",
    "ok done 0 1 1 0",
];
/// Each pair has the handover of so many boundaries, from 0 on.
const BOUNDARIES: u64 = 4;

/// Writes `test_files` and `test_pairs` in the folder, each with `stdin` and `stdout`.
pub fn write(folder: &str) -> io::Result<()> {
    let (files, answers) = damaged();
    write_list(&Path::new(folder).join("test_files"), &files, &answers)?;
    let (pairs, answers) = verdicts();
    write_list(&Path::new(folder).join("test_pairs"), &pairs, &answers)
}

fn write_list(folder: &Path, list: &str, answers: &str) -> io::Result<()> {
    let name = folder.display();
    assert!(list.len() <= LIMIT, "{name}: {} bytes", list.len());
    fs::create_dir_all(folder)?;
    fs::write(folder.join("stdin"), list)?;
    fs::write(folder.join("stdout"), answers)?;
    println!(
        "{name}: {} lines, {} bytes",
        list.lines().count(),
        list.len()
    );
    Ok(())
}

fn damaged() -> (String, String) {
    let (mut files, mut answers) = (String::new(), String::new());
    let mut numbers = BTreeSet::new();
    for (format, file) in damaged_list::list() {
        let answer = damaged_list::answer(format, &file);
        numbers.insert(answer.split(' ').next().map(str::to_string));
        files += &damaged_list::line(format, &file);
        files += "\n";
        answers += &answer;
        answers += "\n";
    }
    for number in READING {
        assert!(numbers.contains(&Some(number.to_string())), "no {number}");
    }
    (files, answers)
}

fn verdicts() -> (String, String) {
    let (mut pairs, mut answers) = (String::new(), String::new());
    let (mut refusals, mut failures) = (BTreeSet::new(), Failures::default());
    let mut terminals = Terminals::default();
    for (journal, plan) in pairs_list::list() {
        pairs += &pairs_list::lines(&journal, &plan);
        let verdict = verdict(&journal, &plan);
        failures.add_journal(&journal, &verdict);
        terminals.add_pair(&journal, &plan, &verdict);
        if let Verdict::No {
            number, divergence, ..
        } = verdict
        {
            refusals.insert((number, divergence));
        }
        answers += &format!("{verdict}\n");
        for boundary in 0..BOUNDARIES {
            answers += &handover_line(boundary, &handover(&journal, &plan, boundary));
        }
    }
    for refusal in READING.map(|number| (number, 0)).iter().chain(&REFUSALS) {
        assert!(refusals.contains(refusal), "no {refusal:?}");
    }
    failures.must_be_all();
    terminals.must_be_all();
    let lines = answers.lines().step_by(1 + BOUNDARIES as usize);
    assert!(lines.take(PRINTED.len()).eq(PRINTED), "01's lines");
    (pairs, answers)
}

/// The boundary, what is handed over with its length and the sum of its bytes, or the number.
fn handover_line(boundary: u64, handover: &Handover<'_>) -> String {
    let (what, part) = match *handover {
        Handover::Completed(part) => ("completed", part),
        Handover::Failed(part) => ("failed", part),
        Handover::Input(part) => ("input", part),
        Handover::Refused(number) => return format!("handover {boundary} refused {number} 0\n"),
    };
    let sum: u64 = part.iter().map(|byte| u64::from(*byte)).sum();
    format!("handover {boundary} {what} {} {sum}\n", part.len())
}
