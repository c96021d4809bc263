//! A pair with what is owed for it, written out beside both sides.

use crate::resume::Handover;

pub struct Case {
    pub journal: Vec<u8>,
    pub plan: Vec<u8>,
    /// The verdict's line.
    pub line: String,
    /// Its words, where they are written out.
    pub words: Option<String>,
    /// What the boundaries from 0 on hand over, where it is written out.
    pub handed: Vec<Handover<'static>>,
}

impl Case {
    /// The number, where the line refuses the pair.
    pub fn refused(&self) -> Option<u64> {
        let mut words = self.line.strip_prefix("no ")?.split(' ');
        words.next()?.parse().ok()
    }
}
