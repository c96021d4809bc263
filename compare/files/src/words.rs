//! The plain words that are owed where the driver knows them.

/// The run was completed at this step, which is not after the last one.
pub fn completed_at(step: u64) -> String {
    format!(
        "Each step matches the plan: the run was completed at step {step} of the plan, before its last"
    )
}

/// A gate is due, with so many failed steps behind it.
pub fn marker_due(gate: u16, failed: u64) -> String {
    let words = format!("Write the marker of gate {gate}, with the version in the plan");
    match failed {
        0 => words,
        _ => format!("{words}; failed steps: {failed}"),
    }
}

/// A marker with the right number stands at a gate, and is not its marker.
pub fn another_marker(place: u64) -> String {
    format!("Each step matches the plan: record {place} is the marker of another gate or version")
}
