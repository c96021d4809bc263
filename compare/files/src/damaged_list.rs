//! The fixed list of files that is stored with the answers of the plain reader.

use std::collections::BTreeSet;
use std::fmt::Write;

use crate::made_files::set_field;
use crate::numbers;
use crate::random::Random;
use crate::reader::{ENTRY, Entry, FORMATS, Format, GREATEST, HEADER, MOST_BYTES};
use crate::samples::{self, empty_entry, kinds, random_file, set_body};
use crate::text::items;
use crate::writing::File;

const SEED: u64 = 2_026;

/// A line of the list: the format's letter and the file's items.
pub fn line(format: Format, file: &[u8]) -> String {
    let letter = match format {
        Format::Journal => "j",
        Format::Plan => "p",
    };
    format!("{letter} {}", items(file)).trim_end().to_string()
}

/// The answer: number and place; or 0, head, count, where the last body ends, and the first
/// four entries.
pub fn answer(format: Format, file: &[u8]) -> String {
    let read = numbers::read(format, file);
    if read.number != 0 {
        return format!("{} {}", read.number, read.place);
    }
    let mut text = format!("0 {} {} {}", read.head, read.count, file.len());
    for entry in numbers::entries(format, file).iter().take(4) {
        let fields = [entry.kind, entry.clock, entry.a, entry.s, entry.d, entry.m];
        for number in fields.into_iter().chain([entry.start, entry.len]) {
            write!(text, " {number}").expect("a string takes all text");
        }
    }
    text
}

pub fn list() -> Vec<(Format, Vec<u8>)> {
    let mut list = Vec::new();
    let mut random = Random::new(SEED);
    for format in FORMATS {
        let mut files = vec![
            samples::worked(Format::Journal),
            samples::worked(Format::Plan),
        ];
        lengths(&mut files, format);
        codes_and_counts(&mut files, format);
        heads(&mut files, format);
        body_bytes(&mut files, format);
        limits(&mut files, format);
        plan_fields(&mut files, format);
        places(&mut files, format);
        orders(&mut files, format);
        sums(&mut files, format);
        full(&mut files, format);
        damage(&mut files, format, &mut random);
        let mut seen = BTreeSet::new();
        files.retain(|file| seen.insert(file.clone()));
        list.extend(files.into_iter().map(|file| (format, file)));
    }
    list
}

/// A file with these entries and no bodies.
fn table(format: Format, entries: Vec<Entry>) -> File {
    File {
        entries,
        ..File::new(format, 1)
    }
}

/// An entry that is right and has no body.
fn right(format: Format) -> Entry {
    empty_entry(format, 5)
}

/// Lengths about 16 and 32,768: with the right header as far as it goes, and with zeros.
fn lengths(files: &mut Vec<Vec<u8>>, format: Format) {
    let header = table(format, Vec::new()).bytes();
    for length in [0, 1, 2, 14, 15, 16, 17, 40, 32_767, 32_768, 32_769] {
        files.push(vec![0; length]);
        let mut file = header.clone();
        file.resize(length, 0);
        files.push(file);
    }
    let mut entry = empty_entry(format, kinds(format)[0]);
    let length = (MOST_BYTES - HEADER - ENTRY) as u64;
    for more in [0, 1] {
        let mut file = table(format, Vec::new());
        set_body(format, &mut entry, length + more);
        file.push(entry, Some(&vec![0xAB; (length + more) as usize]));
        files.push(file.bytes());
    }
}

fn codes_and_counts(files: &mut Vec<Vec<u8>>, format: Format) {
    let good = table(format, vec![right(format)]);
    for code in [0, 1, 2, 3, 256, 257, 258, 513, u16::MAX] {
        files.push(
            File {
                code,
                ..good.clone()
            }
            .bytes(),
        );
    }
    for count in [0, 1, 2, 1_023, 1_024] {
        files.push(table(format, vec![right(format); count]).bytes());
    }
    // 1,025 entries with the right count; then counts that do not fit the file.
    files.push(table(format, vec![right(format); 1_025]).bytes());
    for count in [0, 2, 1_023, 1_024, 1_025, 1_280, 32_768, u16::MAX] {
        let mut file = good.bytes();
        file[2..4].copy_from_slice(&u16::to_le_bytes(count));
        files.push(file);
    }
    // Code, count and head wrong; then count and head alone.
    let mut file = good.bytes();
    (file[0], file[3], file[5]) = (7, 8, 1);
    files.push(file.clone());
    file[0] = format.code() as u8;
    files.push(file);
}

/// Wrong bytes 4 to 11, also in a file that fails 16: 15 comes first.
fn heads(files: &mut Vec<Vec<u8>>, format: Format) {
    let good = table(format, vec![right(format)]);
    for head in [0, 1, 2, 3, 255, u64::MAX] {
        files.push(
            File {
                head,
                ..good.clone()
            }
            .bytes(),
        );
    }
    for byte in 5..12 {
        for value in [1, 255] {
            let mut file = good.bytes();
            file[byte] = value;
            files.push(file);
        }
    }
    let mut file = File { head: 2, ..good }.bytes();
    file.push(0);
    files.push(file);
}

/// The header's body bytes: near the right ones, 65,535 and 65,536, and those that would be
/// right in a sum of 32 or 16 bits.
fn body_bytes(files: &mut Vec<Vec<u8>>, format: Format) {
    let mut entry = empty_entry(format, kinds(format)[0]);
    set_body(format, &mut entry, 4);
    let mut file = table(format, vec![right(format)]);
    file.push(entry, Some(&[1, 2, 3, 4]));
    let good = file.bytes();
    let right = [4, 3, 5, 0, 65_535, 65_536, 65_540, 0x8000_0004, u32::MAX];
    for body in right {
        files.push(with_body_bytes(&good, body));
    }
    for count in [3, 100, 1_024] {
        let mut file = good.clone();
        file[2..4].copy_from_slice(&u16::to_le_bytes(count));
        let wrapped = 68_u32.wrapping_sub(16 + 24 * u32::from(count));
        files.push(with_body_bytes(&file, wrapped));
    }
}

fn with_body_bytes(file: &[u8], body: u32) -> Vec<u8> {
    let mut file = file.to_vec();
    file[12..16].copy_from_slice(&body.to_le_bytes());
    file
}

/// Each field of each kind at its greatest value and one above. Where that is a body's
/// length, no file can hold the greatest one.
fn limits(files: &mut Vec<Vec<u8>>, format: Format) {
    for (row, kind) in GREATEST.iter().zip(1..) {
        for (field, greatest) in row.iter().enumerate() {
            for value in [Some(*greatest), greatest.checked_add(1)] {
                let mut entry = empty_entry(format, kind);
                let Some(value) = value else { continue };
                set_field(&mut entry, field, value);
                files.push(table(format, vec![entry]).bytes());
            }
        }
    }
    for kind in [0, 10, 11, 127, 128, 255] {
        files.push(table(format, vec![empty_entry(format, kind)]).bytes());
    }
}

/// What only a plan refuses: S, clocks, M of a timer, a timer of 0, clock and M of a gate.
fn plan_fields(files: &mut Vec<Vec<u8>>, format: Format) {
    let mut entries = Vec::new();
    for clock in [0, 1, 2, 3, 4, 255] {
        entries.push(Entry {
            clock,
            ..right(format)
        });
    }
    for kind in [2, 5, 9] {
        let plain = empty_entry(format, kind);
        for s in [1, u32::MAX] {
            entries.push(Entry { s, ..plain });
        }
        entries.extend([1, u64::MAX].map(|m| Entry { m, ..plain }));
        entries.extend([0, 1, u64::MAX].map(|d| Entry { d, ..plain }));
        entries.extend([1, u16::MAX].map(|a| Entry { a, ..plain }));
    }
    for clock in [0, 2, 3] {
        entries.push(Entry {
            clock,
            d: 0,
            ..right(format)
        });
    }
    let gate = Entry {
        a: u16::MAX,
        d: 65_535,
        ..empty_entry(format, 9)
    };
    let clocks = [1, 255].map(|clock| Entry { clock, ..gate });
    let above = Entry { d: 65_536, ..gate };
    entries.extend([gate, clocks[0], clocks[1], above]);
    for entry in entries {
        files.push(table(format, vec![entry]).bytes());
        files.push(table(format, vec![right(format), entry]).bytes());
    }
}

/// A wrong kind, a wrong field and a timer of 0 at the first, a middle and the last place.
fn places(files: &mut Vec<Vec<u8>>, format: Format) {
    let right = right(format);
    let wrong = [
        Entry { kind: 0, ..right },
        Entry { a: 1, ..right },
        Entry { d: 0, ..right },
    ];
    for count in [1, 3, 1_024] {
        for place in [0, count / 2, count - 1] {
            for entry in wrong {
                let mut entries = vec![right; count];
                entries[place] = entry;
                files.push(table(format, entries).bytes());
            }
        }
    }
}

/// 7 comes before 8 in an entry and 8 before a timer of 0, an earlier entry before a later one, and
/// 9 last.
fn orders(files: &mut Vec<Vec<u8>>, format: Format) {
    let right = right(format);
    let kind = Entry { kind: 10, ..right };
    let field = Entry { a: 1, ..right };
    let both = Entry { kind: 10, ..field };
    let zero = Entry { d: 0, ..right };
    let zero_and_field = Entry { d: 0, ..field };
    for entries in [
        vec![both],
        vec![right, both, right],
        vec![field, kind],
        vec![kind, field],
        vec![right, field, kind],
        vec![right, kind, field],
        vec![field, both],
        vec![zero],
        vec![zero_and_field],
        vec![zero, kind],
        vec![kind, zero],
        vec![zero, field],
        vec![field, zero],
        vec![right, zero, zero],
    ] {
        let mut file = table(format, entries);
        files.push(file.bytes());
        file.bodies.push(0);
        files.push(file.bytes());
        let mut file = file.bytes();
        file.push(0);
        files.push(file);
    }
}

/// Sums of body lengths that are not the header's, among them some that differ by 2^16.
fn sums(files: &mut Vec<Vec<u8>>, format: Format) {
    let kind = kinds(format)[0];
    for lengths in [
        vec![65_535],
        vec![65_536],
        vec![65_535, 1],
        vec![1, 2, 3],
        vec![0, 0, 7],
        vec![65_535; 1_024],
    ] {
        let sum: u64 = lengths.iter().sum();
        for body in [0, 1, sum % 65_536] {
            let mut file = table(format, Vec::new());
            for length in &lengths {
                let mut entry = empty_entry(format, kind);
                set_body(format, &mut entry, *length);
                file.push(entry, None);
            }
            file.bodies = vec![0xCD; body as usize];
            if file.bytes().len() <= MOST_BYTES {
                files.push(file.bytes());
            }
        }
    }
}

/// 1,024 entries and 32,768 bytes, and the same with one byte more, less or changed.
fn full(files: &mut Vec<Vec<u8>>, format: Format) {
    let mut file = table(format, Vec::new());
    for place in 0..1_024 {
        let mut entry = empty_entry(format, kinds(format)[0]);
        let length = if place < 1_022 { 8 } else { 0 };
        set_body(format, &mut entry, length);
        file.push(entry, Some(&[0x5A; 8][..length as usize]));
    }
    let good = file.bytes();
    let mut longer = good.clone();
    longer.push(0x5A);
    let mut other = good.clone();
    other[HEADER + ENTRY * 1_023 + 16] ^= 1;
    let mut body = good.clone();
    body[MOST_BYTES - 1] = 0xA5;
    files.extend([good[..MOST_BYTES - 1].to_vec(), good, longer, other, body]);
}

/// A few good files, cut off, made longer and with flipped bits.
fn damage(files: &mut Vec<Vec<u8>>, format: Format, random: &mut Random) {
    for count in [1, 2, 3, 5] {
        let good = random_file(random, format, count, 9).bytes();
        files.push(good.clone());
        for _ in 0..4 {
            let at = random.below(good.len() as u64) as usize;
            files.push(good[..at].to_vec());
        }
        for more in [1, 24] {
            let mut file = good.clone();
            file.extend(vec![0; more]);
            files.push(file);
        }
        for _ in 0..24 {
            let mut file = good.clone();
            let at = random.below(good.len() as u64) as usize;
            file[at] ^= 1 << random.below(8);
            files.push(file);
        }
    }
}
