//! The successors of ids, and the allocator.

use crate::Settings;
use crate::both::Both;
use crate::calls::Call;
use crate::values;

/// How many ids are allocated from each start, past the end of numbering too.
const ALLOCATIONS: u32 = 1_100;

pub fn run(_settings: &Settings, both: &mut Both) {
    successors(both);
    for run in values::U64 {
        allocate_from(both, Call::ForRun { run });
        for last in values::U32 {
            for committed in [0, 1] {
                allocate_from(
                    both,
                    Call::Resume {
                        run,
                        committed,
                        last,
                    },
                );
            }
        }
    }
}

fn successors(both: &mut Both) {
    for run in values::U64 {
        both.begin(Call::RunSuccessor { run });
    }
    for seq in values::U32 {
        both.begin(Call::SeqSuccessor { seq });
    }
}

fn allocate_from(both: &mut Both, start: Call) {
    both.begin(start);
    for _ in 0..ALLOCATIONS {
        both.call(Call::Allocate);
    }
}
