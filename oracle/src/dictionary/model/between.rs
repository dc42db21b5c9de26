//! What becomes of the dictionary between two payloads. It says only what is counted, and decides
//! nothing.

use super::step::{Call, Outcome};
use std::collections::BTreeSet;

/// What a restore notes of the types that it changes.
pub const RECORD_RETYPED: &str = "a channel's record of another type";
pub const LIST_RETYPED: &str = "a channel's list of another type";

/// What a payload then notes, besides an insertion.
const AFTER: [(&str, &str); 2] = [
    (RECORD_RETYPED, "after a record of another type"),
    (LIST_RETYPED, "after a list of another type"),
];

#[derive(Default)]
pub struct Between {
    after_a_payload: bool,
    /// Since that payload.
    done: BTreeSet<&'static str>,
}

impl Between {
    /// After each call, with what was noted of it.
    pub fn follow(&mut self, call: &Call, outcome: &Outcome, notes: &mut Vec<&'static str>) {
        match call {
            _ if outcome.answer != 0 => {}
            Call::ConsumePdoPayload(_) | Call::ConsumeCycle(_) => {
                notes.extend(std::mem::take(&mut self.done));
                self.after_a_payload = true;
            }
            _ if !self.after_a_payload => {}
            Call::Insert(_) => drop(self.done.insert("after an insertion")),
            Call::RestorePowerOnValues { .. } => {
                let seen = AFTER.iter().filter(|(retyped, _)| notes.contains(retyped));
                self.done.extend(seen.map(|(_, after)| after));
            }
            _ => {}
        }
    }
}
