//! What edition 2 adds to a run over one payload: R11.16, and what is noted where a count or an
//! element that is not in use comes up.

use super::edition::{SECOND, in_use, is_counted};
use super::running::{Fate, Run, SHORT_PAYLOADS, Word, bit_of, row};
use crate::fault::Fault;

/// What is noted where edition 2 differs, for the tally.
pub const TURNED_OFF: &str = "a list that is turned off";
pub const CUT: &str = "a list of which not all is in use";
pub const OTHER_COUNT: &str = "another count in a payload, not kept";
pub const UNUSED_PUT: &str = "a target behind a count put";
pub const UNUSED_STOPS: &str = "a target behind a count that takes no such field";
pub const MARKED: [&str; 4] = [
    "a bit for too few bytes",
    "a bit for no byte of a list's count",
    "no bit for a bad text",
    "no bit for an odd length",
];

impl Run<'_> {
    /// R11.16.
    pub fn mark(&mut self, word: &Word, fault: Fault) {
        if self.edition != SECOND {
            return;
        }
        let sender = self.payload.sender;
        let bit = bit_of(self.objects, SHORT_PAYLOADS, sender);
        let is_clear =
            bit.is_some_and(|(row, byte, bit)| self.objects[row].values[0].room[byte] & bit == 0);
        let note = match fault {
            Fault::Value { .. } => {
                self.set_bit(SHORT_PAYLOADS);
                MARKED[usize::from(self.is_count(word))]
            }
            Fault::Text { .. } => MARKED[2],
            Fault::Odd => MARKED[3],
        };
        // Only where it was not set before does it show.
        self.notes.extend(is_clear.then_some(note));
    }

    /// What becomes of a count that a payload brings, and of a target that is not in use.
    pub fn note_second(&mut self, word: &Word, fate: Fate) {
        let Some(row) = row(self.objects, word.index) else { return };
        let object = &self.objects[row];
        if !is_counted(self.edition, object) {
            return;
        }
        let is_unused = u64::from(word.sub_index) > object.kept_count();
        let count = self.field(word).and_then(|field| field.first());
        let is_other = count.is_some_and(|count| u64::from(*count) != object.kept_count());
        match fate {
            Fate::MappingCount if is_other => self.notes.push(OTHER_COUNT),
            Fate::NumberPut | Fate::StringPut if is_unused => self.notes.push(UNUSED_PUT),
            Fate::Undecodable(..) | Fate::TooLong if is_unused => self.notes.push(UNUSED_STOPS),
            _ => {}
        }
    }

    /// Where not all elements are in use.
    pub fn note_list(&mut self, channel: u16) {
        let list = row(self.objects, 0x1600 + channel).map(|row| &self.objects[row]);
        let (used, all) =
            list.map_or((0, 0), |list| (in_use(self.edition, list).len(), list.values.len()));
        match used {
            _ if used == all => {}
            0 => self.notes.push(TURNED_OFF),
            _ => self.notes.push(CUT),
        }
    }
}
