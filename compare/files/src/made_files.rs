//! Files made to fail each check, at every place.

use crate::compared_files::Compared;
use crate::reader::{ENTRY, Entry, FORMATS, Format, GREATEST, HEADER};
use crate::samples::{self, body_field, empty_entry, set_body};
use crate::writing::File;

pub fn run(compared: &mut Compared) {
    headers(compared);
    fields(compared);
    orders(compared);
    places(compared);
    sums(compared);
}

/// An entry that is right in both formats.
const TIMER: [u8; ENTRY] = {
    let mut bytes = [0; ENTRY];
    (bytes[0], bytes[1], bytes[8]) = (5, 1, 1);
    bytes
};

/// Files of this length with these header fields, and entries that are right.
fn headers(compared: &mut Compared) {
    let lengths = [
        0, 1, 2, 14, 15, 16, 17, 39, 40, 41, 64, 1_040, 32_767, 32_768, 32_769, 65_552,
    ];
    for length in lengths {
        let table = TIMER
            .iter()
            .cycle()
            .take(usize::max(length, HEADER) - HEADER);
        let mut file = [0; HEADER]
            .iter()
            .chain(table)
            .copied()
            .collect::<Vec<u8>>();
        file.truncate(length);
        for code in [0, 1, 2, 3, 256, 257, 258, 513, u16::MAX] {
            set(&mut file, 0, &code.to_le_bytes());
            counts(compared, &mut file);
        }
    }
}

fn counts(compared: &mut Compared, file: &mut [u8]) {
    let fitting = (file.len().saturating_sub(HEADER) / ENTRY) as u16;
    let counts = [
        0,
        1,
        2,
        1_023,
        1_024,
        1_025,
        1_026,
        32_768,
        u16::MAX,
        fitting,
    ];
    for count in counts {
        set(file, 2, &count.to_le_bytes());
        for head in [0, 1, 2, 255, 256, 1 << 32, 1 << 56, u64::MAX] {
            set(file, 4, &u64::to_le_bytes(head));
            body_bytes(compared, file, count);
        }
    }
}

/// The body bytes of the header: right, near, and right only in a sum that wraps.
fn body_bytes(compared: &mut Compared, file: &mut [u8], count: u16) {
    let right = (file.len() as u32).wrapping_sub((HEADER + ENTRY * usize::from(count)) as u32);
    let near = [right.wrapping_sub(1), right.wrapping_add(1)];
    let wrapped = [right.wrapping_add(1 << 16), right.wrapping_add(1 << 31)];
    for body in [
        right, near[0], near[1], wrapped[0], wrapped[1], 0, 65_535, 65_536,
    ] {
        set(file, 12, &body.to_le_bytes());
        compared.both(file);
    }
}

/// Writes these bytes at that place, as far as the file goes.
pub fn set(file: &mut [u8], at: usize, bytes: &[u8]) {
    for (place, byte) in bytes.iter().enumerate() {
        if let Some(target) = file.get_mut(at + place) {
            *target = *byte;
        }
    }
}

/// Every kind, and in it every field at its ends and with every single bit.
fn fields(compared: &mut Compared) {
    for format in FORMATS {
        for kind in 0..=u8::MAX {
            let plain = empty_entry(format, kind);
            for field in 0..5 {
                for value in field_values(kind, field) {
                    let mut entry = plain;
                    set_field(&mut entry, field, value);
                    one_entry(compared, format, entry);
                }
            }
        }
    }
}

/// A field by its column: clock, A, S, D, M. The value is cut to the field's width.
pub fn set_field(entry: &mut Entry, field: usize, value: u64) {
    match field {
        0 => entry.clock = value as u8,
        1 => entry.a = value as u16,
        2 => entry.s = value as u32,
        3 => entry.d = value,
        _ => entry.m = value,
    }
}

/// Values about the field's greatest one, and every single bit.
fn field_values(kind: u8, field: usize) -> Vec<u64> {
    let greatest = GREATEST.get(usize::from(kind).wrapping_sub(1));
    let greatest = greatest.map_or(0, |row| row[field]);
    let bits = [8, 16, 32, 64, 64][field];
    let mut values: Vec<u64> = (0..bits).map(|bit| 1 << bit).collect();
    values.extend([0, 2, 3, 65_535, 65_536, u64::MAX]);
    values.extend([greatest, greatest.wrapping_sub(1), greatest.wrapping_add(1)]);
    values
}

/// The entry alone and among right ones, with its body (if that is short) and without.
fn one_entry(compared: &mut Compared, format: Format, mut entry: Entry) {
    let right = empty_entry(format, 2);
    for before in [0, 1, 2] {
        let mut file = File::new(format, 1);
        file.entries = vec![right; 3];
        file.entries[before] = entry;
        compared.file(format, &file.bytes());
    }
    let mut file = File::new(format, 0);
    file.push(entry, None);
    compared.file(format, &file.bytes());
    let length = body_field(format, &mut entry).map_or(0, |length| *length);
    for length in [length, length.wrapping_sub(1), length.wrapping_add(1)] {
        if length <= 32_728 {
            file.bodies.resize(length as usize, 7);
            compared.file(format, &file.bytes());
        }
    }
}

/// Three entries, each right, of a wrong kind, with a wrong field or both, a timer of 0, a timer of 0 with
/// a wrong field, a gate or a gate with a wrong field, and body bytes right or wrong: these show which check
/// comes first.
fn orders(compared: &mut Compared) {
    for format in FORMATS {
        let right = empty_entry(format, 2);
        let kind = Entry { kind: 10, ..right };
        let field = Entry { clock: 1, ..right };
        let both = Entry { kind: 0, ..field };
        let zero = Entry {
            d: 0,
            ..empty_entry(format, 5)
        };
        let zero_and_field = Entry { a: 1, ..zero };
        let gate = Entry {
            a: 3,
            d: 1,
            ..empty_entry(format, 9)
        };
        let gate_and_field = Entry { m: 1, ..gate };
        let choices = [
            right,
            kind,
            field,
            both,
            zero,
            zero_and_field,
            gate,
            gate_and_field,
        ];
        for number in 0..512 {
            let mut file = File::new(format, 0);
            file.entries = [number % 8, number / 8 % 8, number / 64]
                .map(|choice: usize| choices[choice])
                .to_vec();
            for bodies in [0, 1, 5] {
                file.bodies = vec![0; bodies];
                compared.both(&file.bytes());
            }
        }
    }
}

/// Tables of several lengths with one wrong entry, at every place.
fn places(compared: &mut Compared) {
    for format in FORMATS {
        for count in [1, 2, 7, 1_023, 1_024] {
            let mut file = File::new(format, 0);
            file.entries = vec![empty_entry(format, 5); count];
            let good = file.bytes();
            compared.file(format, &good);
            for place in 0..count {
                let wrong = [
                    (0, 0),
                    (0, 1),
                    (0, 9),
                    (0, 10),
                    (1, 3),
                    (2, 1),
                    (4, 1),
                    (8, 0),
                    (16, 1),
                ];
                for (at, byte) in wrong {
                    let mut file = good.clone();
                    file[HEADER + ENTRY * place + at] = byte;
                    compared.file(format, &file);
                }
            }
        }
    }
}

/// Body lengths whose sum is the header's body bytes, or would be only in 15, 16 or 8 bits.
fn sums(compared: &mut Compared) {
    let lengths: [&[u64]; 9] = [
        &[65_535, 1],
        &[1, 65_535],
        &[65_535, 0, 2],
        &[32_768, 32_768],
        &[32_767, 1, 100],
        &[65_535, 65_535, 65_535, 20],
        &[200, 56],
        &[0, 0, 10_000, 0],
        &[65_535; 1_024],
    ];
    for format in FORMATS {
        for lengths in lengths {
            let mut file = File::new(format, 0);
            for length in lengths {
                let mut entry = empty_entry(format, samples::kinds(format)[0]);
                set_body(format, &mut entry, *length);
                file.push(entry, None);
            }
            let sum: u64 = lengths.iter().sum();
            for body in [0, sum, sum % 256, sum % 32_768, sum % 65_536, sum + 1] {
                file.bodies = vec![0; body as usize];
                compared.file(format, &file.bytes());
            }
        }
    }
}
