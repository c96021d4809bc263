//! The proved code, linked as a static library: the exports of crates/hiskurdo_c.
//!
//! Nothing checks these declarations against its source, so the two are kept side by side.
//! Where the library has no such export yet (see the features), the answer is nothing.

use crate::numbers::{EntryNumbers, HandoverNumbers, ReadNumbers, VerdictNumbers};
use crate::reader::Format;

/// Whether the proved readers, and the proved verdict and handover, are there.
pub const HAS_READERS: bool = cfg!(feature = "files");
pub const HAS_VERDICT: bool = cfg!(feature = "verdict");

#[cfg(feature = "files")]
#[rustfmt::skip]
unsafe extern "C" {
    fn hiskurdo_read_journal(file: *const u8, len: usize) -> ReadNumbers;
    fn hiskurdo_read_plan(file: *const u8, len: usize) -> ReadNumbers;
    fn hiskurdo_next_record(file: *const u8, len: usize, entry: u64, body: u64) -> EntryNumbers;
    fn hiskurdo_next_step(file: *const u8, len: usize, entry: u64, body: u64) -> EntryNumbers;
}

#[cfg(feature = "verdict")]
#[rustfmt::skip]
unsafe extern "C" {
    fn hiskurdo_verdict(journal: *const u8, jlen: usize, plan: *const u8, plen: usize) -> VerdictNumbers;
    fn hiskurdo_verdict_line(journal: *const u8, jlen: usize, plan: *const u8, plen: usize, text: *mut u8, tlen: usize) -> u64;
    fn hiskurdo_verdict_words(journal: *const u8, jlen: usize, plan: *const u8, plen: usize, text: *mut u8, tlen: usize) -> u64;
    fn hiskurdo_handover(journal: *const u8, jlen: usize, plan: *const u8, plen: usize, boundary: u64) -> HandoverNumbers;
}

#[cfg(feature = "files")]
pub fn read(format: Format, file: &[u8]) -> Option<ReadNumbers> {
    let (at, len) = (file.as_ptr(), file.len());
    // SAFETY: the pointer and the length are those of a live slice, which is only read.
    Some(unsafe {
        match format {
            Format::Journal => hiskurdo_read_journal(at, len),
            Format::Plan => hiskurdo_read_plan(at, len),
        }
    })
}

#[cfg(feature = "files")]
pub fn next(format: Format, file: &[u8], entry: u64, body: u64) -> Option<EntryNumbers> {
    let (at, len) = (file.as_ptr(), file.len());
    // SAFETY: as in `read`; any entry and any body may be asked for.
    Some(unsafe {
        match format {
            Format::Journal => hiskurdo_next_record(at, len, entry, body),
            Format::Plan => hiskurdo_next_step(at, len, entry, body),
        }
    })
}

#[cfg(feature = "verdict")]
pub fn verdict(journal: &[u8], plan: &[u8]) -> Option<VerdictNumbers> {
    // SAFETY: the pointers and the lengths are those of live slices, which are only read.
    Some(unsafe { hiskurdo_verdict(journal.as_ptr(), journal.len(), plan.as_ptr(), plan.len()) })
}

/// The verdict's line in a lent buffer: how long it is, or 0 where it does not fit.
#[cfg(feature = "verdict")]
pub fn line(journal: &[u8], plan: &[u8], text: &mut [u8]) -> Option<u64> {
    let (at, len) = (journal.as_ptr(), journal.len());
    let (lent, room) = (text.as_mut_ptr(), text.len());
    // SAFETY: as in `verdict`; the buffer is a live slice that no other can reach.
    Some(unsafe { hiskurdo_verdict_line(at, len, plan.as_ptr(), plan.len(), lent, room) })
}

/// Its plain words, likewise.
#[cfg(feature = "verdict")]
pub fn words(journal: &[u8], plan: &[u8], text: &mut [u8]) -> Option<u64> {
    let (at, len) = (journal.as_ptr(), journal.len());
    let (lent, room) = (text.as_mut_ptr(), text.len());
    // SAFETY: as in `line`.
    Some(unsafe { hiskurdo_verdict_words(at, len, plan.as_ptr(), plan.len(), lent, room) })
}

#[cfg(feature = "verdict")]
pub fn handover(journal: &[u8], plan: &[u8], boundary: u64) -> Option<HandoverNumbers> {
    let (at, len) = (journal.as_ptr(), journal.len());
    // SAFETY: as in `verdict`; any boundary may be asked for.
    Some(unsafe { hiskurdo_handover(at, len, plan.as_ptr(), plan.len(), boundary) })
}

#[cfg(not(feature = "files"))]
pub fn read(_format: Format, _file: &[u8]) -> Option<ReadNumbers> {
    None
}

#[cfg(not(feature = "files"))]
pub fn next(_format: Format, _file: &[u8], _entry: u64, _body: u64) -> Option<EntryNumbers> {
    None
}

#[cfg(not(feature = "verdict"))]
pub fn verdict(_journal: &[u8], _plan: &[u8]) -> Option<VerdictNumbers> {
    None
}

#[cfg(not(feature = "verdict"))]
pub fn line(_journal: &[u8], _plan: &[u8], _text: &mut [u8]) -> Option<u64> {
    None
}

#[cfg(not(feature = "verdict"))]
pub fn words(_journal: &[u8], _plan: &[u8], _text: &mut [u8]) -> Option<u64> {
    None
}

#[cfg(not(feature = "verdict"))]
pub fn handover(_journal: &[u8], _plan: &[u8], _boundary: u64) -> Option<HandoverNumbers> {
    None
}
