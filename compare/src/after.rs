//! Calls for the stored list, each after the same history.

use crate::calls::Call;
use crate::rust_side::{Plain, RustSide};

/// Calls that are each made after the same history. The history is made again only where
/// the call before changed something.
pub struct After {
    new: Call,
    history: Vec<Call>,
    /// The Rust's side after the history.
    pub there: RustSide,
    /// The Rust's side after the last call.
    pub now: RustSide,
}

impl After {
    pub fn new(new: Call, history: Vec<Call>) -> After {
        let mut there = RustSide::new();
        there.answer(&new);
        for call in &history {
            there.answer(call);
        }
        After {
            new,
            history,
            there,
            now: RustSide::new(),
        }
    }

    /// Makes the call after the history.
    pub fn make(&mut self, calls: &mut Vec<Call>, call: Call) {
        if self.now != self.there {
            calls.push(self.new);
            calls.extend(&self.history);
            self.now = self.there.copy();
        }
        self.make_on(calls, call);
    }

    /// Makes the call after the last one.
    pub fn make_on(&mut self, calls: &mut Vec<Call>, call: Call) {
        calls.push(call);
        self.now.answer(&call);
    }
}
