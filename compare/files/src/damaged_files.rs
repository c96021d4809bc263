//! Good files with damage, random bytes, and walks from any place.

use crate::Settings;
use crate::compared_files::Compared;
use crate::made_files::set;
use crate::numbers;
use crate::proved;
use crate::random::Random;
use crate::reader::{ENTRY, FORMATS, Format, HEADER, MOST_BYTES};
use crate::report::differ_on_file;
use crate::samples::{self, full_file, random_file};

pub fn run(settings: &Settings, compared: &mut Compared) {
    let mut random = Random::new(settings.seed);
    small_damage(compared, &mut random, settings.damaged_files);
    full_damage(compared, &mut random, settings.damaged_files);
    random_bytes(compared, &mut random, settings.random_files);
    walks(compared, &mut random, settings.random_files);
}

/// Small good files, and every bit flip, byte change, truncation and extension of them.
fn small_damage(compared: &mut Compared, random: &mut Random, files: u64) {
    for format in FORMATS {
        compared.both(&samples::worked(format));
        every_damage(compared, random, format, &samples::worked(format));
        for _ in 0..files {
            let count = random.below(9) as usize;
            let most = random.pick(&[0, 3, 30]);
            let file = random_file(random, format, count, most).bytes();
            every_damage(compared, random, format, &file);
        }
    }
}

fn every_damage(compared: &mut Compared, random: &mut Random, format: Format, good: &[u8]) {
    compared.both(good);
    let mut file = good.to_vec();
    for at in 0..good.len() {
        for bit in 0..8 {
            file[at] = good[at] ^ (1 << bit);
            compared.file(format, &file);
        }
        let byte = good[at];
        let others = [
            0,
            255,
            byte.wrapping_add(1),
            byte.wrapping_sub(1),
            random.next() as u8,
        ];
        for other in others {
            file[at] = other;
            compared.file(format, &file);
        }
        file[at] = byte;
        compared.file(format, &good[..at]);
    }
    for more in 1..=30 {
        file.push(if more % 2 == 0 {
            0
        } else {
            random.next() as u8
        });
        compared.file(format, &file);
    }
}

/// Full good files, and bit flips, truncations and extensions of them at random places.
fn full_damage(compared: &mut Compared, random: &mut Random, files: u64) {
    for format in FORMATS {
        for _ in 0..files / 10 {
            let good = full_file(random, format).bytes();
            debug_assert_eq!(good.len(), MOST_BYTES);
            compared.both(&good);
            let mut file = good.clone();
            for _ in 0..300 {
                let at = random.below(good.len() as u64) as usize;
                file[at] ^= 1 << random.below(8);
                compared.file(format, &file);
                file[at] = good[at];
                compared.file(format, &good[..at]);
            }
            file.push(0);
            compared.file(format, &file);
        }
    }
}

/// Random bytes, then more and more of what a file must have.
fn random_bytes(compared: &mut Compared, random: &mut Random, files: u64) {
    for number in 0..files {
        let length = random.below(200) as usize;
        let mut file: Vec<u8> = (0..length).map(|_| random.next() as u8).collect();
        let format = random.pick(&FORMATS);
        let count = length.saturating_sub(HEADER) / ENTRY;
        if number % 4 > 0 {
            set(&mut file, 0, &format.code().to_le_bytes());
            set(&mut file, 2, &(count as u16).to_le_bytes());
            if format == Format::Plan {
                set(&mut file, 4, &random.below(3).to_le_bytes());
            }
            let body = length.saturating_sub(HEADER + ENTRY * count) as u32;
            set(&mut file, 12, &body.to_le_bytes());
        }
        for place in 0..if number % 4 > 1 { count } else { 0 } {
            let at = HEADER + ENTRY * place;
            let from = at + random.below(ENTRY as u64) as usize;
            file[from..at + ENTRY].fill(0);
            file[at] = random.below(10) as u8;
        }
        compared.file(format, &file);
    }
}

/// One step of a walk from any place over any bytes.
fn walks(compared: &mut Compared, random: &mut Random, walks: u64) {
    for _ in 0..walks {
        let format = random.pick(&FORMATS);
        let count = random.below(6) as usize;
        let mut file = random_file(random, format, count, 30).bytes();
        let at = random.below(file.len() as u64) as usize;
        file[at] = random.next() as u8;
        let length = file.len() as u64;
        let (entry, body) = (walk_value(random, 7), walk_value(random, length + 2));
        compared.walks += 1;
        let rust = numbers::next(format, &file, entry, body);
        if let Some(proved) = proved::next(format, &file, entry, body)
            && proved != rust
        {
            let what = format!("a walk from entry {entry}, body {body}");
            differ_on_file(format, &file, &what, &rust, &proved);
        }
    }
}

fn walk_value(random: &mut Random, near: u64) -> u64 {
    if random.one_in(4) {
        random.any()
    } else {
        random.below(near)
    }
}
