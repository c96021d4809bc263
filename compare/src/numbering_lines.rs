//! The lines of the program `test_numbering`: a label, an answer in numbers, then the whole cursor or machine.

use waymaker_core::ReplayMachine;

use crate::calls::{Answer, Call, CursorRead, MachineRead};
use crate::ffi::Told;
use crate::rust_side::{Plain, RustSide};
use crate::unread::Unread;

/// Makes the call on a copy, prints its line, and returns the copy.
pub fn after(label: &str, side: &RustSide, call: Call) -> RustSide {
    let mut side = side.copy();
    match side.answer(&call) {
        Answer::Advanced { answer, cursor, .. } => {
            println!("{label}: {}, {}", answer_in(&answer), cursor_in(&cursor));
        }
        Answer::Answered { answer, machine } => {
            let whole = machine_in(&machine, &side.machine);
            println!("{label}: {}, {whole}", answer_in(&answer));
        }
        _ => unreachable!("the answer to another call"),
    }
    side
}

pub fn say_cursor(label: &str, side: &RustSide) {
    println!("{label}: {}", cursor_in(&side.read_cursor()));
}

pub fn say_allocator(label: &str, side: &mut RustSide) {
    match side.answer(&Call::Allocate) {
        Answer::Allocated { answer, ids } => {
            println!("{label}: {}, peek {}", answer_in(&answer), six(&ids.peek));
        }
        _ => unreachable!("the answer to another call"),
    }
}

fn answer_in(answer: &Told) -> String {
    format!("answer {}", six(answer))
}

fn cursor_in(read: &CursorRead) -> String {
    format!(
        "{}, next_effect_id {}",
        place_in(
            &read.position,
            &read.pending,
            &read.pending_timer,
            &read.next_seq
        ),
        six(&read.next_effect_id)
    )
}

fn machine_in(read: &MachineRead, machine: &ReplayMachine) -> String {
    let Unread { next_seq, phase } = Unread::of(machine);
    format!(
        "{}, phase {phase}, diverged {}",
        place_in(
            &read.position,
            &read.pending,
            &read.pending_timer,
            &next_seq
        ),
        read.diverged
    )
}

fn place_in(position: &Told, pending: &Told, pending_timer: &Told, next_seq: &Told) -> String {
    format!(
        "position {} {}, pending {}, pending_timer {}, next_seq {}",
        position.number,
        position.a,
        six(pending),
        six(pending_timer),
        six(next_seq)
    )
}

fn six(told: &Told) -> String {
    let Told {
        number,
        a,
        b,
        c,
        d,
        e,
    } = told;
    format!("{number} {a} {b} {c} {d} {e}")
}
