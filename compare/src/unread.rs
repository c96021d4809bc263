//! What the Rust's machine holds and none of its readers shows, taken from its text.

use waymaker_core::ReplayMachine;

use crate::ffi::Told;
use crate::rust_values::told;

/// The number that the machine offers, and its phase.
pub struct Unread {
    pub next_seq: Told,
    pub phase: u64,
}

impl Unread {
    pub fn of(machine: &ReplayMachine) -> Unread {
        let text = format!("{machine:?}");
        Unread {
            next_seq: offer(field(&text, "next: ")),
            phase: phase_number(field(&text, "phase: ")),
        }
    }
}

/// The text after the name, to the end of its struct.
fn field<'a>(text: &'a str, name: &str) -> &'a str {
    let (_, rest) = text.split_once(name).expect("the value has that field");
    let (field, _) = rest.split_once(" }").expect("and its struct ends");
    field
}

fn offer(next: &str) -> Told {
    let number = next
        .strip_prefix("Some(EffectSeq(")
        .and_then(|rest| rest.strip_suffix("))"));
    match number {
        Some(number) => told(1, &[number.parse().expect("a number is offered")]),
        None => told(0, &[]),
    }
}

fn phase_number(phase: &str) -> u64 {
    match phase {
        "Settled" => 0,
        "AwaitingOutcome" => 1,
        "AwaitingFiring" => 2,
        _ => 3,
    }
}
