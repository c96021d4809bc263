//! Both sides. They are given the same calls.

use std::fmt::Debug;
use std::process;

use crate::calls::{Answer, Call};
use crate::proved_side::ProvedSide;
use crate::rust_side::{Plain, RustSide};
use crate::whole::{Changed, Whole};

pub struct Both {
    pub rust: RustSide,
    pub proved: ProvedSide,
    /// How many calls were compared so far.
    pub compared: u64,
    whole: Whole,
    /// The calls since the last `begin`, for the report of a difference.
    calls: Vec<Call>,
    /// The calls before these, in words, where they are too many to list.
    before: String,
}

/// The states of both sides, to come back to.
pub struct Place {
    rust: RustSide,
    proved: ProvedSide,
    calls: usize,
}

impl Both {
    pub fn new() -> Both {
        Both {
            rust: RustSide::new(),
            proved: ProvedSide::new(),
            compared: 0,
            whole: Whole::new(),
            calls: Vec::new(),
            before: String::new(),
        }
    }

    /// Begins a new sequence with a call that does not depend on the calls before it.
    pub fn begin(&mut self, call: Call) -> Answer {
        self.calls.clear();
        self.before.clear();
        self.call(call)
    }

    /// Makes a call on both sides, and compares the answers, every reader and the whole value that the call may have changed.
    pub fn call(&mut self, call: Call) -> Answer {
        self.calls.push(call);
        let rust = self.rust.answer(&call);
        let proved = self.proved.answer(&call);
        self.compare(&rust, &proved);
        self.compare_whole(Changed::by(&call));
        rust
    }

    /// Compares two answers to the last call, and counts the call.
    fn compare(&mut self, rust: &Answer, proved: &Answer) {
        if rust != proved {
            self.differ(rust, proved);
        }
        self.compared += 1;
    }

    /// Compares the whole values of both sides.
    pub fn compare_whole(&mut self, changed: Changed) {
        if let Err((rust, proved)) = self.whole.same(changed, &self.rust, &self.proved) {
            self.differ(&format_args!("{rust}"), &format_args!("{proved}"));
        }
    }

    /// Keeps words for the calls that were made without being listed, and empties the list.
    pub fn set_before(&mut self, before: String) {
        self.calls.clear();
        self.before = before;
    }

    /// Reports a difference and ends the program.
    pub fn differ(&self, rust: &impl Debug, proved: &impl Debug) -> ! {
        println!("DIFFERENCE after {} equal calls.", self.compared);
        if !self.before.is_empty() {
            println!("First: {}", self.before);
        }
        println!("The calls:");
        for call in &self.calls {
            println!("{call}    {call:?}");
        }
        println!("Rust:   {rust:?}");
        println!("Proved: {proved:?}");
        process::exit(1);
    }

    pub fn here(&self) -> Place {
        Place {
            rust: self.rust.copy(),
            proved: self.proved,
            calls: self.calls.len(),
        }
    }

    pub fn back_to(&mut self, place: &Place) {
        self.rust = place.rust.copy();
        self.proved = place.proved;
        self.calls.truncate(place.calls);
    }

    /// Whether either side has another state than at that place.
    pub fn moved_from(&self, place: &Place) -> bool {
        self.rust != place.rust || self.proved != place.proved
    }
}
