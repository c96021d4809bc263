//! How a request differs from a recorded effect.

use crate::Settings;
use crate::both::Both;
use crate::calls::Call;
use crate::ffi::{PendingNumbers, RequestNumbers};
use crate::values;

const RUNS: [u64; 5] = [0, 7, 0xFFFF_FFFF, 0x1_0000_0000, u64::MAX];
const NUMBERS: [u32; 5] = [0, 1, 65_536, 0x8000_0000, u32::MAX];
const SHORT: [u16; 4] = [0, 4, 255, u16::MAX];

/// A run, a number, a kind, a length and a CRC, as asked for or as recorded.
type Fields = [u64; 5];

/// How many bits each field has.
const BITS: [u32; 5] = [64, 32, 16, 16, 32];

pub fn run(_settings: &Settings, both: &mut Both) {
    for run in RUNS {
        for seq in NUMBERS {
            for kind in SHORT {
                for length in SHORT {
                    for crc in NUMBERS {
                        let fields = [run, seq.into(), kind.into(), length.into(), crc.into()];
                        from(both, fields);
                    }
                }
            }
        }
    }
}

/// The same fields; the fields of every subset changed in one bit; each field changed in each
/// bit and set to each boundary value.
fn from(both: &mut Both, fields: Fields) {
    for set in 0..32 {
        both_ways(both, fields, changed(fields, set));
    }
    for field in 0..5 {
        let mut other = fields;
        for bit in 0..BITS[field] {
            other[field] = fields[field] ^ (1 << bit);
            both_ways(both, fields, other);
        }
        for value in values::U64 {
            if value >> (BITS[field] - 1) <= 1 {
                other[field] = value;
                both_ways(both, fields, other);
            }
        }
    }
}

/// Changes one bit, low or high, in each field of the set.
fn changed(fields: Fields, set: u32) -> Fields {
    let mut other = fields;
    for field in 0..5 {
        if set >> field & 1 == 1 {
            let bit = if set.count_ones().is_multiple_of(2) {
                0
            } else {
                BITS[field] - 1
            };
            other[field] ^= 1 << bit;
        }
    }
    other
}

fn both_ways(both: &mut Both, asked: Fields, recorded: Fields) {
    both.begin(call(asked, recorded));
    both.begin(call(recorded, asked));
}

pub fn call(asked: Fields, recorded: Fields) -> Call {
    let [run, seq, kind, length, crc] = asked;
    let request = RequestNumbers {
        input_crc: crc as u32,
        kind: kind as u16,
        input_len: length as u16,
    };
    Call::Divergence {
        request,
        recorded: pending(recorded),
        run,
        seq: seq as u32,
    }
}

fn pending([run, seq, kind, length, crc]: Fields) -> PendingNumbers {
    PendingNumbers {
        run,
        seq: seq as u32,
        input_crc: crc as u32,
        kind: kind as u16,
        input_len: length as u16,
    }
}
