//! Whole values, compared after each call.
//!
//! The readers do not show all that a value holds: not the phase of a halted machine, nor the number that a machine offers. The Rust's
//! fields are private, but its values derive `Debug`, whose text has every field, and `PartialEq`. So the text of the Rust's value must be
//! the text that the proved side's numbers give. Text is slow, so it is compared once for each set of numbers. Where the same numbers
//! come again, the Rust's value must equal the value that had this text.
//!
//! The Rust's values have no count of failed outcomes. So the counts are compared with the driver's own, and then left out.

use std::fmt::{self, Debug, Write};
use std::hash::{DefaultHasher, Hash, Hasher};

use waymaker_core::{EffectIdAllocator, ReplayCursor, ReplayMachine};

use crate::calls::Call;
use crate::ffi::{CursorNumbers, IdsNumbers, MachineNumbers};
use crate::proved_side::ProvedSide;
use crate::rust_side::{Failed, Plain, RustSide};

/// How many values of a kind are remembered; a power of two.
const REMEMBERED: usize = 1 << 14;

/// Which value a call may change.
#[derive(Clone, Copy)]
pub enum Changed {
    Nothing,
    Ids,
    Cursor,
    Machine,
}

impl Changed {
    pub fn by(call: &Call) -> Changed {
        match call {
            Call::ForRun { .. } | Call::Resume { .. } | Call::Allocate => Changed::Ids,
            Call::NewCursor { .. } | Call::Advance(_) => Changed::Cursor,
            Call::NewMachine { .. }
            | Call::MachineAdvance(_)
            | Call::Intent { .. }
            | Call::Outcome(_)
            | Call::TimerIntent { .. }
            | Call::TimerOutcome(_) => Changed::Machine,
            _ => Changed::Nothing,
        }
    }
}

/// What was compared so far.
pub struct Whole {
    ids: Pairs<IdsNumbers, EffectIdAllocator>,
    cursors: Pairs<CursorNumbers, ReplayCursor>,
    machines: Pairs<MachineNumbers, ReplayMachine>,
}

impl Whole {
    pub fn new() -> Whole {
        Whole {
            ids: Pairs::new(),
            cursors: Pairs::new(),
            machines: Pairs::new(),
        }
    }

    /// Ok where both sides hold the same value; else what each holds.
    pub fn same(
        &mut self,
        changed: Changed,
        rust: &RustSide,
        proved: &ProvedSide,
    ) -> Result<(), (String, String)> {
        let (own, held) = (rust.failed, proved.failed());
        if own != held {
            return Err((format!("{own:?}"), format!("{held:?}")));
        }
        let proved = proved.with_failed(Failed::default());
        match changed {
            Changed::Nothing => Ok(()),
            Changed::Ids => self.ids.same(&proved.ids, &rust.ids),
            Changed::Cursor => self.cursors.same(&proved.cursor, &rust.cursor),
            Changed::Machine => self.machines.same(&proved.machine, &rust.machine),
        }
    }
}

/// Numbers of the proved side, each set with the value of the Rust that had the same text.
struct Pairs<N, V> {
    found: Vec<Option<(N, V)>>,
    text: String,
}

impl<N: Numbers + Copy + Eq + Debug, V: Plain + PartialEq + Debug> Pairs<N, V> {
    fn new() -> Pairs<N, V> {
        Pairs {
            found: (0..REMEMBERED).map(|_| None).collect(),
            text: String::new(),
        }
    }

    fn same(&mut self, numbers: &N, value: &V) -> Result<(), (String, String)> {
        let place = numbers.spread() as usize % REMEMBERED;
        let equal = match &self.found[place] {
            Some((before, found)) if before == numbers => found == value,
            _ => self.is_text_of(numbers, value),
        };
        if !equal {
            self.is_text_of(numbers, value);
            let proved = format!("{numbers:?}, which is {}", self.text);
            return Err((format!("{value:?}"), proved));
        }
        self.found[place] = Some((*numbers, value.copy()));
        Ok(())
    }

    /// Whether the numbers give the value's text.
    fn is_text_of(&mut self, numbers: &N, value: &V) -> bool {
        self.text.clear();
        numbers
            .write(&mut self.text)
            .expect("a string takes every text");
        let mut left = Left(&self.text);
        write!(left, "{value:?}").is_ok() && left.0.is_empty()
    }
}

/// The rest of an expected text. Writing anything else to it fails.
struct Left<'a>(&'a str);

impl Write for Left<'_> {
    fn write_str(&mut self, part: &str) -> fmt::Result {
        self.0 = self.0.strip_prefix(part).ok_or(fmt::Error)?;
        Ok(())
    }
}

/// A state of the proved side in numbers.
trait Numbers: Hash {
    /// Writes the text of the Rust's value with these numbers. For numbers that name no value, or that the value does not hold, it
    /// writes words that no value's text has.
    fn write(&self, out: &mut String) -> fmt::Result;

    fn spread(&self) -> u64 {
        let mut hasher = DefaultHasher::new();
        self.hash(&mut hasher);
        hasher.finish()
    }
}

impl Numbers for IdsNumbers {
    fn write(&self, out: &mut String) -> fmt::Result {
        let run = self.run;
        write!(out, "EffectIdAllocator {{ run: RunId({run}), next: ")?;
        match (self.offers, self.next) {
            (1, next) => write!(out, "Some(EffectSeq({next}))")?,
            (0, 0) => write!(out, "None")?,
            _ => write!(out, "no such offer")?,
        }
        write!(out, " }}")
    }
}

impl Numbers for CursorNumbers {
    fn write(&self, out: &mut String) -> fmt::Result {
        write!(out, "ReplayCursor {{ ids: ")?;
        self.ids.write(out)?;
        write!(out, ", state: ")?;
        let bare = CursorNumbers {
            ids: self.ids,
            position: self.position,
            ..CursorNumbers::default()
        };
        let held = match self.position {
            2 => write_effect(self, bare, out)?,
            3 => write_timer(self, bare, out)?,
            6 => write_halted(self, bare, out)?,
            position => write_position(position, bare, out)?,
        };
        if held != *self {
            write!(out, " and numbers that it does not hold")?;
        }
        write!(out, " }}")
    }
}

// Each of these writes the state, and returns the numbers that the state holds.

fn write_position(
    position: u8,
    bare: CursorNumbers,
    out: &mut String,
) -> Result<CursorNumbers, fmt::Error> {
    out.push_str(match position {
        0 => "BeforeRun",
        1 => "Replaying",
        4 => "RunCompleted",
        5 => "RunFailed",
        _ => "no such position",
    });
    Ok(bare)
}

fn write_effect(
    cursor: &CursorNumbers,
    bare: CursorNumbers,
    out: &mut String,
) -> Result<CursorNumbers, fmt::Error> {
    let CursorNumbers {
        seq,
        kind,
        input_len,
        input_crc,
        ..
    } = *cursor;
    write!(
        out,
        "AwaitingOutcome(Scheduled {{ seq: EffectSeq({seq}), kind: ActivityKind({kind}), \
         input_len: {input_len}, input_crc: {input_crc} }})"
    )?;
    Ok(CursorNumbers {
        seq,
        kind,
        input_len,
        input_crc,
        ..bare
    })
}

fn write_timer(
    cursor: &CursorNumbers,
    bare: CursorNumbers,
    out: &mut String,
) -> Result<CursorNumbers, fmt::Error> {
    let CursorNumbers {
        seq,
        clock_kind,
        deadline,
        armed_at,
        ..
    } = *cursor;
    write!(
        out,
        "AwaitingTimer(OpenTimer {{ seq: EffectSeq({seq}), clock_kind: ClockKind({clock_kind}), \
         deadline: {deadline}, armed_at: {armed_at} }})"
    )?;
    Ok(CursorNumbers {
        seq,
        clock_kind,
        deadline,
        armed_at,
        ..bare
    })
}

fn write_halted(
    cursor: &CursorNumbers,
    bare: CursorNumbers,
    out: &mut String,
) -> Result<CursorNumbers, fmt::Error> {
    let error = cursor.error;
    let name = match error {
        21 => "IdExhausted",
        22 => "NondeterministicWorkflow",
        23 => "IncompatibleWorkflow",
        24 => "MalformedHistory",
        25 => "NoPersistentClock",
        26 => "ClockWentBackwards",
        _ => "no such error",
    };
    write!(out, "Halted({name})")?;
    Ok(CursorNumbers { error, ..bare })
}

impl Numbers for MachineNumbers {
    fn write(&self, out: &mut String) -> fmt::Result {
        write!(out, "ReplayMachine {{ cursor: ")?;
        self.cursor.write(out)?;
        let phase = match (self.phase, self.divergence) {
            (0, 0) => "Settled",
            (1, 0) => "AwaitingOutcome",
            (2, 0) => "AwaitingFiring",
            (3, 1) => "Diverged(Sequence)",
            (3, 2) => "Diverged(Kind)",
            // The readers say which of the two; the Rust's value does not.
            (3, 8 | 9) => "Diverged(Digest)",
            (3, 4) => "Diverged(BoundaryKind)",
            (3, 5) => "Diverged(Gate)",
            (3, 6) => "Diverged(Deadline)",
            (3, 7) => "Diverged(Boundary)",
            _ => "no such phase",
        };
        write!(out, ", phase: {phase} }}")
    }
}
