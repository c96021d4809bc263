//! Every sequence of calls over an alphabet, up to a length, from the present states of both sides.

use std::collections::HashMap;

use crate::both::Both;
use crate::calls::Call;
use crate::proved_side::ProvedSide;
use crate::rust_side::{Failed, RustSide};

/// The calls that are made in this state of the Rust.
type Alphabet = fn(&RustSide) -> Vec<Call>;

/// Every sequence of up to `depth` calls, with nothing left out: from each state, however often it is reached.
pub fn walk_each(both: &mut Both, depth: u32, alphabet: Alphabet) {
    if depth == 0 {
        return;
    }
    let here = both.here();
    for call in alphabet(&both.rust) {
        both.call(call);
        walk_each(both, depth - 1, alphabet);
        both.back_to(&here);
    }
}

/// Every sequence of up to `depth` calls, but nothing twice from the same two states: the answers depend on the states alone.
/// Where both sides are in states that came before, with as many calls still to come, these calls are compared already.
/// The counts of failed outcomes are no part of these states, or all would be made again for each count. A count changes no answer
/// but itself (the part `failed` tries it), and each call compares it.
pub fn walk(both: &mut Both, depth: u32, alphabet: Alphabet) {
    let followed = HashMap::new();
    Walk { alphabet, followed }.go(both, depth);
}

struct Walk {
    alphabet: Alphabet,
    /// The states of both sides without their counts, and how many calls in a row were made from them.
    followed: HashMap<ProvedSide, (RustSide, u32)>,
}

impl Walk {
    fn go(&mut self, both: &mut Both, depth: u32) {
        if depth == 0 || !self.is_new(both, depth) {
            return;
        }
        let here = both.here();
        for call in (self.alphabet)(&both.rust) {
            both.call(call);
            self.go(both, depth - 1);
            both.back_to(&here);
        }
    }

    /// Whether this many calls still have to be made from here. If so, remembers that they are made.
    fn is_new(&mut self, both: &Both, depth: u32) -> bool {
        let rust = both.rust.uncounted();
        let proved = both.proved.with_failed(Failed::default());
        let before = self.followed.get(&proved);
        if before.is_some_and(|(before, calls)| *before == rust && *calls >= depth) {
            return false;
        }
        self.followed.insert(proved, (rust, depth));
        true
    }
}
