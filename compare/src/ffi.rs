//! The proved code, linked as a static library: the exports of crates/core_exports_c.
//!
//! Every type here is plain numbers. Nothing checks these declarations against
//! crates/core_exports/src and crates/core_exports_c/src, so whoever changes one must change the other.

/// An answer in numbers: its own number, then its values, 0 where it has fewer than five.
#[repr(C)]
#[derive(Clone, Copy, PartialEq, Eq, Debug, Default)]
pub struct Told {
    pub number: u64,
    pub a: u64,
    pub b: u64,
    pub c: u64,
    pub d: u64,
    pub e: u64,
}

/// An allocator: `offers` is 1 where `next` is offered, else 0.
#[repr(C)]
#[derive(Clone, Copy, PartialEq, Eq, Hash, Debug, Default)]
pub struct IdsNumbers {
    pub run: u64,
    pub next: u32,
    pub offers: u8,
}

#[repr(C)]
#[derive(Clone, Copy, PartialEq, Eq, Debug, Default)]
pub struct AllocatedNumbers {
    pub ids: IdsNumbers,
    pub answer: Told,
}

/// A timer's spec: clock 1 is `AfterBoot`, 2 `AtPersistentTime`.
#[repr(C)]
#[derive(Clone, Copy, PartialEq, Eq, Debug, Default)]
pub struct SpecNumbers {
    pub deadline: u64,
    pub clock: u8,
}

/// A record with the fields of a journal entry, and where its body starts.
/// `m` is a body's length, a CRC (its low 32 bits) or an armed time; `d` a version or a length (their low 16 bits) or a deadline.
#[repr(C)]
#[derive(Clone, Copy, PartialEq, Eq, Debug, Default)]
pub struct RecordNumbers {
    pub kind: u8,
    pub clock: u8,
    pub a: u16,
    pub s: u32,
    pub d: u64,
    pub m: u64,
    pub start: u64,
}

/// A cursor. `failed` counts the `EffectFailed` records that it accepted; any count names something. `position` counts the cases of
/// `Position` from 0. The fields that a position does not hold are 0, and are not read.
#[repr(C)]
#[derive(Clone, Copy, PartialEq, Eq, Hash, Debug, Default)]
pub struct CursorNumbers {
    pub ids: IdsNumbers,
    pub failed: u64,
    pub deadline: u64,
    pub armed_at: u64,
    pub seq: u32,
    pub input_crc: u32,
    pub kind: u16,
    pub input_len: u16,
    pub position: u8,
    pub clock_kind: u8,
    pub error: u8,
}

#[repr(C)]
#[derive(Clone, Copy, PartialEq, Eq, Debug, Default)]
pub struct AdvancedNumbers {
    pub cursor: CursorNumbers,
    pub answer: Told,
}

/// An effect as it is asked for.
#[repr(C)]
#[derive(Clone, Copy, PartialEq, Eq, Debug, Default)]
pub struct RequestNumbers {
    pub input_crc: u32,
    pub kind: u16,
    pub input_len: u16,
}

/// An effect as it is recorded.
#[repr(C)]
#[derive(Clone, Copy, PartialEq, Eq, Debug, Default)]
pub struct PendingNumbers {
    pub run: u64,
    pub seq: u32,
    pub input_crc: u32,
    pub kind: u16,
    pub input_len: u16,
}

/// A machine: `phase` is 0 settled, 1 awaiting outcome, 2 awaiting firing, 3 diverged; `divergence` is 0 unless it has diverged.
#[repr(C)]
#[derive(Clone, Copy, PartialEq, Eq, Hash, Debug, Default)]
pub struct MachineNumbers {
    pub cursor: CursorNumbers,
    pub phase: u8,
    pub divergence: u8,
}

#[repr(C)]
#[derive(Clone, Copy, PartialEq, Eq, Debug, Default)]
pub struct MachineAnswered {
    pub machine: MachineNumbers,
    pub answer: Told,
}

/// The number of an answer where a given number names nothing: a kind of record that is none of 1 to 9, a clock of a spec that
/// is not 1 or 2, a capability or a flag (`offers`, `committed`, `ended`) that is not 0 or 1, a position above 6, a halted
/// position's error that is none of 21 to 26, a phase above 3, a diverged phase's divergence that is none of 1, 2 and
/// 4 to 9. The state in the answer is then the one that was given, number by number. An answer that is one value has the number 0,
/// or this one.
pub const NAMES_NOTHING: u64 = 60;

unsafe extern "C" {
    pub safe fn hiskurdo_run_successor(run: u64) -> Told;
    pub safe fn hiskurdo_seq_successor(seq: u32) -> Told;
    pub safe fn hiskurdo_ids_for_run(run: u64) -> IdsNumbers;
    /// `committed` 0: nothing was committed, and `last` is not read; 1: `last` was.
    pub safe fn hiskurdo_ids_resume(run: u64, committed: u8, last: u32) -> AllocatedNumbers;
    pub safe fn hiskurdo_ids_run(ids: IdsNumbers) -> Told;
    pub safe fn hiskurdo_ids_peek(ids: IdsNumbers) -> Told;
    pub safe fn hiskurdo_ids_allocate(ids: IdsNumbers) -> AllocatedNumbers;

    pub safe fn hiskurdo_spec_clock_kind(spec: SpecNumbers) -> Told;
    pub safe fn hiskurdo_spec_deadline(spec: SpecNumbers) -> Told;
    pub safe fn hiskurdo_spec_rearmed_at(spec: SpecNumbers, recorded: u64, now: u64) -> Told;
    /// Any clock may be recorded; one that is not 1 or 2 has no spec, which is an answer and no refusal.
    pub safe fn hiskurdo_spec_recorded(clock: u8, deadline: u64) -> Told;
    /// `capability` 0 is `BootOnly`, 1 `Persistent`.
    pub safe fn hiskurdo_admits(capability: u8, spec: SpecNumbers) -> Told;
    pub safe fn hiskurdo_timer_arm(spec: SpecNumbers, capability: u8, now: u64) -> Told;
    pub safe fn hiskurdo_timer_evaluate(spec: SpecNumbers, armed_at: u64, reading: u64) -> Told;

    pub safe fn hiskurdo_record_kind(record: RecordNumbers) -> Told;

    pub safe fn hiskurdo_cursor_new(run: u64) -> CursorNumbers;
    pub safe fn hiskurdo_cursor_run(cursor: CursorNumbers) -> Told;
    pub safe fn hiskurdo_cursor_position(cursor: CursorNumbers) -> Told;
    /// The value is 1 where the position is terminal, else 0.
    pub safe fn hiskurdo_cursor_is_terminal(cursor: CursorNumbers) -> Told;
    pub safe fn hiskurdo_cursor_pending(cursor: CursorNumbers) -> Told;
    pub safe fn hiskurdo_cursor_pending_timer(cursor: CursorNumbers) -> Told;
    pub safe fn hiskurdo_cursor_next_seq(cursor: CursorNumbers) -> Told;
    pub safe fn hiskurdo_cursor_next_effect_id(cursor: CursorNumbers) -> Told;
    pub safe fn hiskurdo_cursor_failed(cursor: CursorNumbers) -> Told;
    pub safe fn hiskurdo_cursor_advance(cursor: CursorNumbers, record: RecordNumbers) -> AdvancedNumbers;

    /// The number of the divergence, 0 where there is none.
    pub safe fn hiskurdo_divergence_from(request: RequestNumbers, recorded: PendingNumbers, run: u64, seq: u32) -> u8;
    pub safe fn hiskurdo_machine_new(run: u64) -> MachineNumbers;
    pub safe fn hiskurdo_machine_run(machine: MachineNumbers) -> Told;
    pub safe fn hiskurdo_machine_position(machine: MachineNumbers) -> Told;
    pub safe fn hiskurdo_machine_pending(machine: MachineNumbers) -> Told;
    pub safe fn hiskurdo_machine_pending_timer(machine: MachineNumbers) -> Told;
    /// The value is the number of the divergence, 0 where there is none.
    pub safe fn hiskurdo_machine_diverged(machine: MachineNumbers) -> Told;
    pub safe fn hiskurdo_machine_failed(machine: MachineNumbers) -> Told;
    pub safe fn hiskurdo_machine_advance(machine: MachineNumbers, record: RecordNumbers) -> MachineAnswered;
    /// `ended` 0: `record` is next; 1: history ends here, and `record` is not read. The same holds in the calls below.
    pub safe fn hiskurdo_machine_intent(machine: MachineNumbers, request: RequestNumbers, ended: u8, record: RecordNumbers) -> MachineAnswered;
    pub safe fn hiskurdo_machine_outcome(machine: MachineNumbers, ended: u8, record: RecordNumbers) -> MachineAnswered;
    pub safe fn hiskurdo_machine_timer_intent(machine: MachineNumbers, spec: SpecNumbers, capability: u8, ended: u8, record: RecordNumbers) -> MachineAnswered;
    pub safe fn hiskurdo_machine_timer_outcome(machine: MachineNumbers, ended: u8, record: RecordNumbers) -> MachineAnswered;
}
