//! Good files to start from.

use crate::random::Random;
use crate::reader::{ENTRY, Entry, Format, HEADER, MOST_BYTES, MOST_ENTRIES};
use crate::text;
use crate::writing::File;

/// Document 01's worked journal and plan.
pub const WORKED_JOURNAL: &str = "01 00 02 00 07 00*11 01 00 03 00*5 01 00*15 02 00 05 00*21";
pub const WORKED_PLAN: &str = "02 00 01 00*13 02 00 05 00*21";

pub fn worked(format: Format) -> Vec<u8> {
    match format {
        Format::Journal => text::bytes(WORKED_JOURNAL),
        Format::Plan => text::bytes(WORKED_PLAN),
    }
}

/// The kinds of a format's entries.
pub fn kinds(format: Format) -> &'static [u8] {
    match format {
        Format::Journal => &[1, 2, 3, 4, 5, 6, 7, 8, 9],
        Format::Plan => &[2, 5, 9],
    }
}

/// An entry of this kind with empty fields, but for the clock and the deadline of a plan's timer,
/// which are 1; it is right if the format has the kind.
pub fn empty_entry(format: Format, kind: u8) -> Entry {
    let timer = u8::from(format == Format::Plan && kind == 5);
    Entry {
        kind,
        clock: timer,
        d: timer.into(),
        ..Entry::default()
    }
}

/// The field that holds the body's length, if the entry has a body.
pub fn body_field(format: Format, entry: &mut Entry) -> Option<&mut u64> {
    match (format, entry.kind) {
        (Format::Journal, 1 | 3 | 4 | 7 | 8) => Some(&mut entry.m),
        (Format::Plan, 2) => Some(&mut entry.d),
        _ => None,
    }
}

/// Gives the entry a body of this length if its kind has one, and returns the body's length.
pub fn set_body(format: Format, entry: &mut Entry, length: u64) -> u64 {
    let field = body_field(format, entry);
    field.map_or(0, |field| {
        *field = length;
        length
    })
}

/// A right entry of this kind with other fields at random, and no body yet.
pub fn random_entry(random: &mut Random, format: Format, kind: u8) -> Entry {
    let mut entry = empty_entry(format, kind);
    let any16 = |random: &mut Random| random.any() & 0xFFFF;
    match kind {
        1 | 9 => (entry.a, entry.d) = (random.any() as u16, any16(random)),
        2 => {
            entry.a = random.any() as u16;
            entry.d = any16(random);
            entry.m = random.any() & 0xFFFF_FFFF;
        }
        5 => {
            entry.clock = random.pick(&[1, 2]);
            entry.d = random.any().max(entry.d);
        }
        _ => {}
    }
    if format == Format::Journal {
        if !matches!(kind, 1 | 7 | 8) {
            entry.s = random.any() as u32;
        }
        if kind == 5 {
            entry.clock = random.any() as u8;
            entry.m = random.any();
        }
    }
    entry
}

/// A readable file with so many entries, and bodies of at most this length each.
pub fn random_file(random: &mut Random, format: Format, count: usize, most: u64) -> File {
    let head = match format {
        Format::Journal => random.any(),
        Format::Plan => random.below(2),
    };
    let mut file = File::new(format, head);
    for _ in 0..count {
        let kind = random.pick(kinds(format));
        let mut entry = random_entry(random, format, kind);
        let length = random.below(most + 1);
        let length = set_body(format, &mut entry, length);
        let body: Vec<u8> = (0..length).map(|_| random.next() as u8).collect();
        file.push(entry, Some(&body));
    }
    file
}

/// A readable file of 1,024 entries and 32,768 bytes: a body of 8 bytes for all but the last
/// two of the entries that have one, and what is left for those.
pub fn full_file(random: &mut Random, format: Format) -> File {
    let mut file = File::new(format, 1);
    let room = MOST_BYTES - HEADER - ENTRY * MOST_ENTRIES;
    for place in 0..MOST_ENTRIES {
        let kind = match place {
            0 | 1023 => kinds(format)[0],
            _ => random.pick(kinds(format)),
        };
        let mut entry = random_entry(random, format, kind);
        let left = (room - file.bodies.len()) as u64;
        let length = if place == 1023 { left } else { left.min(8) };
        let length = set_body(format, &mut entry, length);
        let body: Vec<u8> = (0..length).map(|_| random.next() as u8).collect();
        file.push(entry, Some(&body));
    }
    file
}
