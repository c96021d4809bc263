//! The edges of the fields' bounds, a plan's timers of 0 and its gates. All parts but the last (`together`) have
//! the number that is owed written out: the rules of the plain reader have no part in those.

use crate::compared_files::Compared;
use crate::made_files::set_field;
use crate::numbers;
use crate::reader::{Entry, FORMATS, Format, GREATEST};
use crate::samples::empty_entry;
use crate::writing::File;

pub fn run(compared: &mut Compared) {
    timers(compared);
    zero_timers(compared);
    not_filled_in(compared);
    gates(compared);
    gates_among_others(compared);
    bodies(compared);
    unknown_kinds(compared);
    one_bit_more(compared);
    together(compared);
}

/// A file of this one entry, without a body, has this number on both sides.
fn owed(compared: &mut Compared, format: Format, entry: Entry, number: u64) {
    owed_by(compared, format, &[entry], 0, (number, 0));
}

/// A file of these entries and so many bytes of bodies has this number and place on both sides.
fn owed_by(
    compared: &mut Compared,
    format: Format,
    entries: &[Entry],
    bodies: usize,
    refusal: (u64, u64),
) {
    let mut file = File::new(format, 0);
    for entry in entries {
        file.push(*entry, None);
    }
    file.bodies = vec![0; bodies];
    let file = file.bytes();
    let said = numbers::read(format, &file);
    assert_eq!(
        (said.number, said.place),
        refusal,
        "an edge, the plain reader beside what is owed: {format:?} {entries:?}"
    );
    compared.file(format, &file);
}

/// A timer of 0 on either clock is 44 in a plan and is read in a journal. A wrong field is 18 first.
/// Nothing else that has D 0 is touched.
fn zero_timers(compared: &mut Compared) {
    for clock in [1, 2] {
        let zero = Entry {
            kind: 5,
            clock,
            ..Entry::default()
        };
        owed(compared, Format::Plan, zero, 44);
        owed(compared, Format::Plan, Entry { d: 1, ..zero }, 0);
        owed(compared, Format::Plan, Entry { d: 1 << 32, ..zero }, 0);
        owed(compared, Format::Journal, zero, 0);
        owed(compared, Format::Plan, Entry { s: 1, ..zero }, 18);
        owed(compared, Format::Plan, Entry { m: 1, ..zero }, 18);
        owed(compared, Format::Plan, Entry { a: 1, ..zero }, 18);
        owed(compared, Format::Plan, Entry { kind: 6, ..zero }, 17);
    }
    for clock in [0, 3, 255] {
        let zero = Entry {
            kind: 5,
            clock,
            ..Entry::default()
        };
        owed(compared, Format::Plan, zero, 18);
        owed(compared, Format::Journal, zero, 0);
    }
    owed(compared, Format::Plan, empty_entry(Format::Plan, 2), 0);
    for kind in [1, 2, 5, 9] {
        let zero = empty_entry(Format::Journal, kind);
        owed(compared, Format::Journal, zero, 0);
    }
}

/// 44 has its entry as its place. It comes before the next entry and before the sum of the bodies.
fn not_filled_in(compared: &mut Compared) {
    let plan = Format::Plan;
    let (effect, timer) = (empty_entry(plan, 2), empty_entry(plan, 5));
    let zero = Entry { d: 0, ..timer };
    let bad_kind = empty_entry(plan, 3);
    let bad_field = Entry { s: 1, ..effect };
    for (entries, bodies, refusal) in [
        (vec![zero, bad_kind], 0, (44, 0)),
        (vec![zero, bad_field], 0, (44, 0)),
        (vec![bad_kind, zero], 0, (17, 0)),
        (vec![bad_field, zero], 0, (18, 0)),
        (vec![zero], 1, (44, 0)),
        (vec![timer], 1, (19, 0)),
        (vec![effect, timer, zero, timer], 0, (44, 2)),
        (vec![effect, zero, zero], 3, (44, 1)),
        (vec![timer; 4], 0, (0, 0)),
    ] {
        owed_by(compared, plan, &entries, bodies, refusal);
    }
    for place in 0..1_024 {
        let mut entries = vec![timer; 1_024];
        entries[place] = zero;
        owed_by(compared, plan, &entries, 0, (44, place as u64));
    }
}

/// A plan's gate: each field at its greatest value is read, one above is 18; clock, S and M are 0 or 18.
/// Version 0 loads. In a journal S may be any.
fn gates(compared: &mut Compared) {
    let plan = Format::Plan;
    let zero = empty_entry(plan, 9);
    let full = Entry {
        a: 65_535,
        d: 65_535,
        ..zero
    };
    for gate in [zero, full, Entry { d: 0, ..full }, Entry { a: 0, ..full }] {
        owed(compared, plan, gate, 0);
        for d in [65_536, 1 << 32, 1 << 63, u64::MAX] {
            owed(compared, plan, Entry { d, ..gate }, 18);
        }
        for clock in [1, 2, 255] {
            owed(compared, plan, Entry { clock, ..gate }, 18);
        }
        for s in [1, 1 << 31, u32::MAX] {
            owed(compared, plan, Entry { s, ..gate }, 18);
            owed(compared, Format::Journal, Entry { s, ..gate }, 0);
        }
        for m in [1, 65_535, 1 << 32, u64::MAX] {
            owed(compared, plan, Entry { m, ..gate }, 18);
            owed(compared, Format::Journal, Entry { m, ..gate }, 8);
        }
        for kind in [0, 1, 3, 4, 6, 7, 8, 10, 255] {
            owed(compared, plan, Entry { kind, ..gate }, 17);
        }
    }
}

/// A gate has no body, whatever its version; its 18 has its entry as its place and comes before the next
/// entry and before the sum of the bodies.
fn gates_among_others(compared: &mut Compared) {
    let plan = Format::Plan;
    let gate = Entry {
        d: 3,
        ..empty_entry(plan, 9)
    };
    let effect = Entry {
        d: 3,
        ..empty_entry(plan, 2)
    };
    let timer = empty_entry(plan, 5);
    let zero = Entry { d: 0, ..timer };
    let bad = Entry { m: 1, ..gate };
    let bad_kind = Entry { kind: 8, ..gate };
    for (entries, bodies, refusal) in [
        (vec![gate], 3, (19, 0)),
        (vec![gate; 2], 0, (0, 0)),
        (vec![gate, effect], 3, (0, 0)),
        (vec![effect, gate, effect], 6, (0, 0)),
        (vec![effect, gate], 6, (19, 0)),
        (vec![gate, zero], 0, (44, 1)),
        (vec![zero, bad], 0, (44, 0)),
        (vec![bad, zero], 0, (18, 0)),
        (vec![bad, bad_kind], 0, (18, 0)),
        (vec![bad_kind, bad], 0, (17, 0)),
        (vec![gate, timer, bad], 5, (18, 2)),
        (vec![gate; 1_024], 0, (0, 0)),
    ] {
        owed_by(compared, plan, &entries, bodies, refusal);
    }
    for place in 0..1_024 {
        let mut entries = vec![gate; 1_024];
        entries[place] = bad;
        owed_by(compared, plan, &entries, 0, (18, place as u64));
    }
}

/// A timer's clock 255, its S 2^32 - 1, its D and M 2^64 - 1 are read.
fn timers(compared: &mut Compared) {
    let timer = Entry {
        kind: 5,
        ..Entry::default()
    };
    let full = Entry {
        clock: 255,
        s: u32::MAX,
        d: u64::MAX,
        m: u64::MAX,
        ..timer
    };
    for entry in [timer, full] {
        owed(compared, Format::Journal, entry, 0);
        owed(compared, Format::Journal, Entry { a: 1, ..entry }, 8);
    }
    let step = Entry {
        clock: 2,
        d: u64::MAX,
        ..timer
    };
    owed(compared, Format::Plan, step, 0);
    owed(compared, Format::Plan, Entry { m: 1, ..step }, 18);
}

/// M 65,535 is the length of a body, which this file does not have; 65,536 is no body's length.
fn bodies(compared: &mut Compared) {
    for kind in [1, 3, 4, 7, 8] {
        for (m, number) in [
            (0, 0),
            (65_535, 9),
            (65_536, 8),
            (1 << 32, 8),
            (u64::MAX, 8),
        ] {
            let entry = Entry {
                kind,
                m,
                ..Entry::default()
            };
            owed(compared, Format::Journal, entry, number);
        }
    }
}

/// Kind 0 and kinds 10 to 255 are 7 whatever their fields.
fn unknown_kinds(compared: &mut Compared) {
    for kind in [0].into_iter().chain(10..=u8::MAX) {
        let full = Entry {
            kind,
            clock: u8::MAX,
            a: u16::MAX,
            s: u32::MAX,
            d: u64::MAX,
            m: u64::MAX,
        };
        for (format, number) in [(Format::Journal, 7), (Format::Plan, 17)] {
            owed(compared, format, empty_entry(format, kind), number);
            owed(compared, format, full, number);
        }
    }
}

/// Entries with every field at its greatest value, but for bodies' lengths, which are 0.
fn full_entries() -> [Entry; 5] {
    let schedule = Entry {
        kind: 2,
        clock: 0,
        a: u16::MAX,
        s: u32::MAX,
        d: 65_535,
        m: u64::from(u32::MAX),
    };
    let start = Entry {
        kind: 1,
        s: 0,
        m: 0,
        ..schedule
    };
    let marker = Entry {
        kind: 9,
        m: 0,
        ..schedule
    };
    let fired = Entry {
        kind: 6,
        s: u32::MAX,
        ..Entry::default()
    };
    let ended = Entry {
        kind: 7,
        ..Entry::default()
    };
    [schedule, start, marker, fired, ended]
}

/// Those are read; with one bit more in a field that is narrower than its place they are 8.
fn one_bit_more(compared: &mut Compared) {
    for entry in full_entries() {
        owed(compared, Format::Journal, entry, 0);
        let values = [
            entry.clock.into(),
            entry.a.into(),
            entry.s.into(),
            entry.d,
            entry.m,
        ];
        for (field, value) in values.into_iter().enumerate() {
            let full = (field == 1 && entry.a == u16::MAX) || (field == 2 && entry.s == u32::MAX);
            let body = field == 4 && matches!(entry.kind, 1 | 7);
            if !full && !body {
                let mut wider = entry;
                set_field(&mut wider, field, value + 1);
                owed(compared, Format::Journal, wider, 8);
            }
        }
    }
}

/// In kinds 0 to 10 all fields at once, each as it is in an empty entry, at its greatest value and one
/// above, which is 0 where the field is no wider.
fn together(compared: &mut Compared) {
    for format in FORMATS {
        for kind in 0..=10 {
            for choice in 0..243_u32 {
                let mut entry = empty_entry(format, kind);
                for field in 0..5 {
                    let row = GREATEST.get(usize::from(kind).wrapping_sub(1));
                    let greatest = row.map_or(u64::MAX, |row| row[field]);
                    let value = match choice / 3_u32.pow(field as u32) % 3 {
                        0 => continue,
                        1 => greatest,
                        _ => greatest.wrapping_add(1),
                    };
                    set_field(&mut entry, field, value);
                }
                let mut file = File::new(format, 0);
                file.push(entry, None);
                compared.file(format, &file.bytes());
            }
        }
    }
}
