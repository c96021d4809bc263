//! Numbers that name nothing. Every export that is given one refuses with 60 and gives back
//! the state that it was given. Where every number is listed, no export answers 60. The Rust
//! has no such numbers, so the lists stand here a second time, apart from the proved code.

use crate::Settings;
use crate::both::Both;
use crate::ffi::*;
use crate::random::Random;

/// The numbers that calls are given. Those that must be listed are one byte each.
#[derive(Clone, Copy, PartialEq, Eq, Debug, Default)]
struct Given {
    ids: IdsNumbers,
    committed: u8,
    spec: SpecNumbers,
    capability: u8,
    ended: u8,
    record: RecordNumbers,
    cursor: CursorNumbers,
    machine: MachineNumbers,
    request: RequestNumbers,
}

const FLAG: &[u8] = &[0, 1];
const POSITIONS: &[u8] = &[0, 1, 2, 3, 4, 5, 6];
const ERRORS: &[u8] = &[21, 22, 23, 24, 25, 26];
const DIVERGENCES: &[u8] = &[1, 2, 4, 5, 6, 7, 8, 9];

/// Each listed number of `Given`, with the values that name something.
type Listed = (fn(&mut Given) -> &mut u8, &'static [u8]);

const LISTED: [Listed; 14] = [
    (|given| &mut given.ids.offers, FLAG),
    (|given| &mut given.committed, FLAG),
    (|given| &mut given.spec.clock, &[1, 2]),
    (|given| &mut given.capability, FLAG),
    (|given| &mut given.ended, FLAG),
    (|given| &mut given.record.kind, &[1, 2, 3, 4, 5, 6, 7, 8, 9]),
    (|given| &mut given.cursor.ids.offers, FLAG),
    (|given| &mut given.cursor.position, POSITIONS),
    (|given| &mut given.cursor.error, ERRORS),
    (|given| &mut given.machine.cursor.ids.offers, FLAG),
    (|given| &mut given.machine.cursor.position, POSITIONS),
    (|given| &mut given.machine.cursor.error, ERRORS),
    (|given| &mut given.machine.phase, &[0, 1, 2, 3]),
    (|given| &mut given.machine.divergence, DIVERGENCES),
];

pub fn run(settings: &Settings, both: &mut Both) {
    let mut random = Random::new(settings.seed);
    for position in 0..=6 {
        for phase in 0..=3 {
            for &ended in FLAG {
                let mut given = listed(&mut random);
                given.cursor.position = position;
                given.machine.cursor.position = position;
                given.machine.phase = phase;
                given.ended = ended;
                each_in_turn(given, both);
            }
        }
    }
    for _ in 0..settings.mixed_numbers {
        let mut given = listed(&mut random);
        for (field, _) in LISTED {
            if random.one_in(8) {
                *field(&mut given) = random.next() as u8;
            }
        }
        both.compared += every_export(&given);
    }
}

/// Every value of each such number in turn, while all others are listed.
fn each_in_turn(given: Given, both: &mut Both) {
    for (field, _) in LISTED {
        for value in 0..=255 {
            let mut tried = given;
            *field(&mut tried) = value;
            both.compared += every_export(&tried);
        }
    }
}

/// Numbers that all name something; numbers without a list have any value.
fn listed(random: &mut Random) -> Given {
    let mut given = Given {
        ids: ids(random),
        record: RecordNumbers {
            clock: random.next() as u8,
            a: random.next() as u16,
            s: random.below(4) as u32,
            d: random.next(),
            m: random.next(),
            start: random.next(),
            ..RecordNumbers::default()
        },
        cursor: cursor(random),
        ..Given::default()
    };
    given.spec.deadline = random.next();
    given.machine.cursor = cursor(random);
    given.request.kind = random.next() as u16;
    for (field, values) in LISTED {
        *field(&mut given) = random.pick(values);
    }
    given
}

fn ids(random: &mut Random) -> IdsNumbers {
    IdsNumbers {
        run: random.next(),
        next: random.below(4) as u32,
        offers: 0,
    }
}

fn cursor(random: &mut Random) -> CursorNumbers {
    CursorNumbers {
        ids: ids(random),
        failed: random.any(),
        deadline: random.next(),
        armed_at: random.next(),
        seq: random.below(4) as u32,
        input_crc: random.next() as u32,
        kind: random.next() as u16,
        input_len: random.next() as u16,
        clock_kind: random.next() as u8,
        ..CursorNumbers::default()
    }
}

/// What names something. The error of a position that is not halted, the divergence of a phase
/// that has not diverged and the record at the end of history are not read.
impl Given {
    fn names_board(&self) -> bool {
        self.capability <= 1
    }

    fn names_spec(&self) -> bool {
        matches!(self.spec.clock, 1 | 2)
    }

    fn names_record(&self) -> bool {
        (1..=9).contains(&self.record.kind)
    }

    fn names_next(&self) -> bool {
        self.ended == 1 || self.ended == 0 && self.names_record()
    }

    fn names_machine(&self) -> bool {
        let phase = match self.machine.phase {
            0..=2 => true,
            3 => DIVERGENCES.contains(&self.machine.divergence),
            _ => false,
        };
        names_cursor(&self.machine.cursor) && phase
    }
}

fn names_cursor(cursor: &CursorNumbers) -> bool {
    let position = match cursor.position {
        0..=5 => true,
        6 => ERRORS.contains(&cursor.error),
        _ => false,
    };
    cursor.ids.offers <= 1 && position
}

/// Checks every export that takes such a number, and returns how many there were.
fn every_export(given: &Given) -> u64 {
    readers(given) + counts(given) + timers(given) + calls(given)
}

const REFUSED: Told = Told {
    number: NAMES_NOTHING,
    a: 0,
    b: 0,
    c: 0,
    d: 0,
    e: 0,
};

/// The answer must be 60 with no values exactly where a number names nothing.
fn held(given: &Given, names: bool, answers: &[Told]) -> u64 {
    for answer in answers {
        let right = if names {
            answer.number != NAMES_NOTHING
        } else {
            *answer == REFUSED
        };
        assert!(right, "named: {names}, answered {answer:?}\nto {given:#?}");
    }
    answers.len() as u64
}

/// An answer that is one value has the number 0 or 60.
fn held_values(given: &Given, names: bool, answers: &[Told]) -> u64 {
    for answer in answers {
        assert!(
            !names || answer.number == 0,
            "a value of {answer:?}\nto {given:#?}"
        );
    }
    held(given, names, answers)
}

fn readers(given: &Given) -> u64 {
    let Given {
        ids,
        record,
        cursor,
        machine,
        ..
    } = *given;
    let names_ids = ids.offers <= 1;
    let names_cursor = names_cursor(&cursor);
    let names_machine = given.names_machine();
    let of_cursor = [
        hiskurdo_cursor_position(cursor),
        hiskurdo_cursor_pending(cursor),
        hiskurdo_cursor_pending_timer(cursor),
        hiskurdo_cursor_next_seq(cursor),
        hiskurdo_cursor_next_effect_id(cursor),
    ];
    let values_of_cursor = [
        hiskurdo_cursor_run(cursor),
        hiskurdo_cursor_is_terminal(cursor),
    ];
    let of_machine = [
        hiskurdo_machine_position(machine),
        hiskurdo_machine_pending(machine),
        hiskurdo_machine_pending_timer(machine),
    ];
    let values_of_machine = [
        hiskurdo_machine_run(machine),
        hiskurdo_machine_diverged(machine),
    ];
    held_values(given, names_ids, &[hiskurdo_ids_run(ids)])
        + held(given, names_ids, &[hiskurdo_ids_peek(ids)])
        + held_values(given, given.names_record(), &[hiskurdo_record_kind(record)])
        + held(given, names_cursor, &of_cursor)
        + held_values(given, names_cursor, &values_of_cursor)
        + held(given, names_machine, &of_machine)
        + held_values(given, names_machine, &values_of_machine)
}

/// The readers of the count, which is read as it was given.
fn counts(given: &Given) -> u64 {
    let Given {
        cursor, machine, ..
    } = *given;
    let of_cursor = hiskurdo_cursor_failed(cursor);
    let of_machine = hiskurdo_machine_failed(machine);
    for (names, answer, failed) in [
        (names_cursor(&cursor), of_cursor, cursor.failed),
        (given.names_machine(), of_machine, machine.cursor.failed),
    ] {
        let owed = Told {
            a: failed,
            ..Told::default()
        };
        held(given, names, &[answer]);
        assert!(
            !names || answer == owed,
            "a count of {answer:?}\nto {given:#?}"
        );
    }
    2
}

fn timers(given: &Given) -> u64 {
    let Given {
        spec, capability, ..
    } = *given;
    let values = [
        hiskurdo_spec_clock_kind(spec),
        hiskurdo_spec_deadline(spec),
        hiskurdo_spec_rearmed_at(spec, 2, 1),
    ];
    let on_board = [
        hiskurdo_admits(capability, spec),
        hiskurdo_timer_arm(spec, capability, 1),
    ];
    let evaluated = [hiskurdo_timer_evaluate(spec, 1, 2)];
    held_values(given, given.names_spec(), &values)
        + held(given, given.names_spec(), &evaluated)
        + held(given, given.names_spec() && given.names_board(), &on_board)
}

/// The calls with a next state: a refusal gives back the state that it was given.
fn calls(given: &Given) -> u64 {
    let Given {
        ids,
        committed,
        record,
        cursor,
        ..
    } = *given;
    let allocated = hiskurdo_ids_allocate(ids);
    kept(given, ids.offers <= 1, allocated.ids == ids);
    let resumed = hiskurdo_ids_resume(ids.run, committed, ids.next);
    let asked = IdsNumbers {
        offers: committed,
        ..ids
    };
    kept(given, committed <= 1, resumed.ids == asked);
    let advanced = hiskurdo_cursor_advance(cursor, record);
    let names_both = names_cursor(&cursor) && given.names_record();
    kept(given, names_both, advanced.cursor == cursor);
    held(given, ids.offers <= 1, &[allocated.answer])
        + held_values(given, committed <= 1, &[resumed.answer])
        + held(given, names_both, &[advanced.answer])
        + machine_calls(given)
}

fn machine_calls(given: &Given) -> u64 {
    let Given {
        spec,
        capability,
        ended,
        record,
        machine,
        request,
        ..
    } = *given;
    let names = given.names_machine();
    let names_turn = names && given.names_next();
    let names_request = names_turn && given.names_spec() && given.names_board();
    let answers = [
        (
            names && given.names_record(),
            hiskurdo_machine_advance(machine, record),
        ),
        (
            names_turn,
            hiskurdo_machine_intent(machine, request, ended, record),
        ),
        (names_turn, hiskurdo_machine_outcome(machine, ended, record)),
        (
            names_request,
            hiskurdo_machine_timer_intent(machine, spec, capability, ended, record),
        ),
        (
            names_turn,
            hiskurdo_machine_timer_outcome(machine, ended, record),
        ),
    ];
    for (names, answered) in answers {
        kept(given, names, answered.machine == machine);
        held(given, names, &[answered.answer]);
    }
    answers.len() as u64
}

fn kept(given: &Given, names: bool, same: bool) {
    assert!(names || same, "a refusal changed the state\nof {given:#?}");
}
