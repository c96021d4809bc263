//! Rearming after several reboots: two and three readings, in every order.

use crate::both::Both;
use crate::calls::{Answer, Call};
use crate::ffi::SpecNumbers;
use crate::values;

const TWO: [[usize; 2]; 2] = [[0, 1], [1, 0]];
const THREE: [[usize; 3]; 6] = [
    [0, 1, 2],
    [0, 2, 1],
    [1, 0, 2],
    [1, 2, 0],
    [2, 0, 1],
    [2, 1, 0],
];

/// For this spec, at every recorded reading and all readings of the boundary values: each rearm is
/// compared, and every order leads to where one rearm at the smallest reading does.
pub fn of_spec(both: &mut Both, spec: SpecNumbers) {
    for recorded in values::U64 {
        for a in values::U64 {
            for b in values::U64 {
                same_end(both, spec, recorded, [a, b], &TWO);
                for c in values::U64 {
                    same_end(both, spec, recorded, [a, b, c], &THREE);
                }
            }
        }
    }
}

fn same_end<const N: usize>(
    both: &mut Both,
    spec: SpecNumbers,
    recorded: u64,
    readings: [u64; N],
    orders: &[[usize; N]],
) {
    let smallest = readings.iter().copied().min().expect("some reading");
    let once = rearmed(both, spec, recorded, &[smallest]);
    for order in orders {
        let end = rearmed(both, spec, recorded, &order.map(|i| readings[i]));
        if end != once {
            both.differ(&end, &once);
        }
    }
}

/// Rearms at each reading in turn, on both sides.
fn rearmed(both: &mut Both, spec: SpecNumbers, recorded: u64, readings: &[u64]) -> u64 {
    both.set_before(String::new());
    readings.iter().fold(recorded, |recorded, &now| {
        let call = Call::RearmedAt {
            spec,
            recorded,
            now,
        };
        match both.call(call) {
            Answer::Number(next) => next,
            other => unreachable!("a rearm answers a number, not {other:?}"),
        }
    })
}
