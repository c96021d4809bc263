//! Timers.

use crate::Settings;
use crate::both::Both;
use crate::calls::Call;
use crate::ffi::SpecNumbers;
use crate::random::Random;
use crate::rearming;
use crate::values;

const CLOCKS: [u8; 2] = [1, 2];
const CAPABILITIES: [u8; 2] = [0, 1];

pub fn run(settings: &Settings, both: &mut Both) {
    recorded(both);
    for clock in CLOCKS {
        for deadline in values::U64 {
            of_spec(both, SpecNumbers { deadline, clock });
        }
        rearming::of_spec(both, SpecNumbers { deadline: 5, clock });
    }
    at_random(both, settings);
}

fn recorded(both: &mut Both) {
    for clock in 0..=u8::MAX {
        for deadline in values::U64 {
            both.begin(Call::Recorded { clock, deadline });
        }
    }
}

fn of_spec(both: &mut Both, spec: SpecNumbers) {
    both.begin(Call::Spec(spec));
    for capability in CAPABILITIES {
        both.begin(Call::Admits { capability, spec });
        for now in values::U64 {
            both.begin(Call::Arm {
                spec,
                capability,
                now,
            });
        }
    }
    for armed in values::U64 {
        for now in values::U64 {
            both.begin(Call::RearmedAt {
                spec,
                recorded: armed,
                now,
            });
        }
        for reading in readings(spec.deadline, armed) {
            both.begin(Call::Evaluate {
                spec,
                armed,
                reading,
            });
        }
    }
}

/// The boundary values, and values around the armed time, the deadline and their sum.
fn readings(deadline: u64, armed: u64) -> Vec<u64> {
    let mut readings = values::U64.to_vec();
    readings.extend(around(deadline));
    readings.extend(around(armed));
    if let Some(sum) = armed.checked_add(deadline) {
        readings.extend(around(sum));
    }
    readings
}

fn around(value: u64) -> impl Iterator<Item = u64> {
    let first = value.saturating_sub(2);
    first..=value.saturating_add(2)
}

fn at_random(both: &mut Both, settings: &Settings) {
    let mut random = Random::new(settings.seed);
    for _ in 0..settings.random_timers {
        let spec = SpecNumbers {
            deadline: random.any(),
            clock: random.pick(&CLOCKS),
        };
        one_at_random(both, &mut random, spec);
    }
}

fn one_at_random(both: &mut Both, random: &mut Random, spec: SpecNumbers) {
    let armed = random.any();
    let now = random_reading(random, spec.deadline, armed);
    let call = match random.below(8) {
        0 => Call::Spec(spec),
        1 => Call::Recorded {
            clock: random.next() as u8,
            deadline: spec.deadline,
        },
        2 => Call::Admits {
            capability: random.pick(&CAPABILITIES),
            spec,
        },
        3 => Call::Arm {
            spec,
            capability: random.pick(&CAPABILITIES),
            now,
        },
        4 => Call::RearmedAt {
            spec,
            recorded: armed,
            now,
        },
        _ => Call::Evaluate {
            spec,
            armed,
            reading: now,
        },
    };
    both.begin(call);
}

fn random_reading(random: &mut Random, deadline: u64, armed: u64) -> u64 {
    match random.below(5) {
        0 => random.near(armed.wrapping_add(deadline)),
        1 => random.near(armed),
        2 => random.near(deadline),
        3 => armed.saturating_add(random.any()),
        _ => random.any(),
    }
}
