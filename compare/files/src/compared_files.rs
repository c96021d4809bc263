//! One file on both sides: what reading says of it, of each entry, and whether it can be written again.

use std::collections::BTreeMap;
use std::fmt::Write;

use crate::numbers::{self, EntryNumbers};
use crate::proved;
use crate::reader::{ENTRY, Entry, FORMATS, Format, HEADER};
use crate::report::differ_on_file;
use crate::writing::File;

/// How much was compared, and how often each number was the answer.
#[derive(Default)]
pub struct Compared {
    files: u64,
    entries: u64,
    pub walks: u64,
    numbers: BTreeMap<u64, u64>,
    readable: u64,
}

impl Compared {
    /// Compares the answers about one file, and about each of its entries if it is readable.
    pub fn file(&mut self, format: Format, file: &[u8]) {
        let rust = numbers::read(format, file);
        self.files += 1;
        if let Some(proved) = proved::read(format, file)
            && proved != rust
        {
            differ_on_file(format, file, "reading", &rust, &proved);
        }
        if rust.number == 0 {
            self.readable += 1;
            self.readable_file(format, file, rust.head);
        } else {
            *self.numbers.entry(rust.number).or_default() += 1;
        }
    }

    pub fn both(&mut self, file: &[u8]) {
        for format in FORMATS {
            self.file(format, file);
        }
    }

    fn readable_file(&mut self, format: Format, file: &[u8], head: u64) {
        let entries = numbers::entries(format, file);
        let (mut entry, mut body) = (0, (HEADER + ENTRY * entries.len()) as u64);
        for rust in &entries {
            self.entries += 1;
            if let Some(proved) = proved::next(format, file, entry, body)
                && proved != *rust
            {
                differ_on_file(format, file, "an entry", rust, &proved);
            }
            (entry, body) = (rust.next_entry, rust.next_body);
        }
        if body != file.len() as u64 || rewritten(format, file, head, &entries) != file {
            differ_on_file(format, file, "writing it again", &entries, &"other bytes");
        }
    }

    pub fn told(&self) -> String {
        let mut told = format!(
            "{} files ({} readable), {} entries, {} walks; refused by number:",
            self.files, self.readable, self.entries, self.walks
        );
        for (number, files) in &self.numbers {
            write!(told, " {number}: {files}").expect("a string takes all text");
        }
        told
    }
}

/// Writes what was read as bytes again.
fn rewritten(format: Format, file: &[u8], head: u64, entries: &[EntryNumbers]) -> Vec<u8> {
    let mut again = File::new(format, head);
    for numbers in entries {
        let entry = Entry {
            kind: numbers.kind as u8,
            clock: numbers.clock as u8,
            a: numbers.a as u16,
            s: numbers.s as u32,
            d: numbers.d,
            m: numbers.m,
        };
        let start = numbers.start as usize;
        again.push(entry, Some(&file[start..start + numbers.len as usize]));
    }
    again.bytes()
}
