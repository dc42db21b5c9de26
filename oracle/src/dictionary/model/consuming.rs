//! What consuming must give: RULES.md 11 read a second time, on the plain objects. All that the
//! Rust tells must be what is told here, and all its values those of the objects. What it cannot
//! say is document 01's: the element of an event and its numbers, TooLong, the refusals, and where
//! bytes lie.

use super::edition::SECOND;
use super::marking::{CUT, TURNED_OFF};
use super::memory::Memory;
use super::running::{
    MAP_VERSION, Payload, Run, SHORT_PAYLOADS, Told, VALUE, Word, channel_of, gathered, set_bit,
};
use super::sound::{Dictionary, Done, Refused};
use super::step::{Cycle, Received};
use crate::original::BAD_VALUE;

const PAYLOAD_TOO_LONG: u64 = 14;
const NO_EVENT_ROOM: u64 = 15;

pub const LONGEST_PAYLOAD: usize = 1490;
pub const LEAST_ROOM: usize = 254;
pub const MOST_PAYLOADS: usize = 1024;

/// Numbers that say one payload of a cycle.
pub const A_PAYLOAD: usize = 5;

/// What is noted of a payload in edition 2: whether the Rust could be asked, of a list that is cut.
pub const AS_THE_RUST: &str = "as the Rust with just what is in use";
pub const AIMS_AT_UNUSED: &str = "a word for a target that is not in use";

impl Dictionary {
    /// Neither refusal has a counterpart in the Rust, which takes any payload and has no event
    /// list.
    pub fn consume_pdo_payload(
        &mut self,
        given: &Received,
        memory: &mut Memory,
        notes: &mut Vec<&'static str>,
    ) -> Result<Done, Refused> {
        if given.room < LEAST_ROOM {
            return Err((NO_EVENT_ROOM, None));
        }
        if given.payload.len() > LONGEST_PAYLOAD {
            return Err((PAYLOAD_TOO_LONG, None));
        }
        let Received { sender, version, .. } = *given;
        let payload = Payload { bytes: &given.payload, sender, version, ready: given.ready != 0 };
        let events = self.consume(&payload, 0, memory, notes);
        self.check(memory);
        Ok(Done { numbers: vec![events.len() as u64], events, ..Done::default() })
    }

    /// The Rust has no such call: it is given one payload after another.
    pub fn consume_cycle(
        &mut self,
        given: &Cycle,
        memory: &mut Memory,
        notes: &mut Vec<&'static str>,
    ) -> Result<Done, Refused> {
        let payloads = payloads(given).map_err(|rule| (BAD_VALUE, Some(rule)))?;
        if payloads.iter().any(|payload| payload.bytes.len() > LONGEST_PAYLOAD) {
            return Err((PAYLOAD_TOO_LONG, None));
        }
        let mut events = Vec::new();
        let mut consumed = 0;
        for payload in &payloads {
            if given.room < events.len() + LEAST_ROOM {
                break;
            }
            events.extend(self.consume(payload, consumed, memory, notes));
            consumed += 1;
        }
        self.check(memory);
        let cause = match payloads.len() {
            0 => "no payload",
            count if count as u64 > consumed => "ended for event room",
            _ => "all payloads",
        };
        let numbers = vec![consumed, events.len() as u64];
        Ok(Done { numbers, events, cause: Some(cause), ..Done::default() })
    }

    /// The events of a payload, the number-th of its call.
    fn consume(
        &mut self,
        payload: &Payload,
        number: u64,
        memory: &mut Memory,
        notes: &mut Vec<&'static str>,
    ) -> Vec<u64> {
        notes.push("payloads");
        if !payload.ready {
            self.rust.receive(payload.sender, payload.bytes, payload.version, false);
            notes.push("not ready");
            return Vec::new();
        }
        let Payload { bytes, sender, version, .. } = *payload;
        let told = match self.aims_at_unused(sender) {
            true => None,
            false => Some(self.rust.consume(sender, bytes, version, &self.objects)),
        };
        let (edition, noted) = (self.edition, notes.len());
        let mut run = Run { edition, objects: &mut self.objects, memory, payload, notes };
        let (words, wanted) = run.all();
        let is_cut = notes[noted..].iter().any(|note| [CUT, TURNED_OFF].contains(note));
        notes.extend(match &told {
            None => Some(AIMS_AT_UNUSED),
            Some(_) => is_cut.then_some(AS_THE_RUST),
        });
        self.follow(told, &wanted, payload);
        assert!(self.all_equal(), "the model has the Rust's values after {bytes:X?} of {sender}");
        wanted.iter().map(|told| event(told, &words, number)).collect()
    }

    /// Whether a word of the sender's channel has a target that is not in use, which the Rust lacks.
    fn aims_at_unused(&self, sender: u8) -> bool {
        let channel = channel_of(&self.objects, sender).filter(|_| self.edition == SECOND);
        let Some(channel) = channel else { return false };
        let words = gathered(self.edition, &self.objects, channel).unwrap_or_default();
        words.iter().any(|word| self.unused(word.index, word.sub_index).is_some())
    }

    /// Holds what the Rust told against what is wanted. Where it could not be asked it is given all
    /// values anew; else the bit that it does not set for a value that is too short (R11.16).
    fn follow(&mut self, told: Option<Vec<Told>>, wanted: &[Told], payload: &Payload) {
        let Payload { bytes, sender, version, .. } = *payload;
        let Some(told) = told else { return self.give_again() };
        assert_eq!(told, wanted, "what the Rust tells of {bytes:X?} of {sender}, {version:X}");
        if self.edition == SECOND && wanted.iter().any(|told| told.kind == VALUE) {
            self.rust.update_pdo_error_object(SHORT_PAYLOADS, sender);
        }
    }

    pub fn update_pdo_error_object(&mut self, index: u16, node: u8, memory: &mut Memory) -> Done {
        self.rust.update_pdo_error_object(index, node);
        let set = set_bit(&mut self.objects, memory, index, node);
        assert!(self.all_equal(), "the model has the Rust's values after the bit of {node}");
        Done::because(if set { "a bit set" } else { "nothing" })
    }
}

/// R11.12: the payloads, or the rule that makes them BadValue.
fn payloads(given: &Cycle) -> Result<Vec<Payload<'_>>, &'static str> {
    if !given.payloads.len().is_multiple_of(A_PAYLOAD) {
        return Err("numbers not by five");
    }
    if given.payloads.len() > A_PAYLOAD * MOST_PAYLOADS {
        return Err("too many payloads");
    }
    let payload = |numbers: &[u64]| {
        let [start, length] = [numbers[0], numbers[1]];
        let end = start.checked_add(length).ok_or("a payload ends past 64 bits")?;
        let bytes = usize::try_from(end).ok().and_then(|end| given.data.get(start as usize..end));
        Ok(Payload {
            bytes: bytes.ok_or("a payload not within the data")?,
            sender: numbers[2].try_into().map_err(|_| "sender")?,
            version: numbers[3].try_into().map_err(|_| "version")?,
            ready: numbers[4] != 0,
        })
    };
    given.payloads.chunks(A_PAYLOAD).map(payload).collect()
}

/// R11.14. What is said of a field stands where a hand-off has the field's start and length.
fn event(told: &Told, words: &[Word], payload: u64) -> u64 {
    let [mut element, mut index, mut start, mut length] = [0; 4];
    if told.kind != MAP_VERSION {
        element = words[told.step].element;
    }
    match told.said[..] {
        [place] => start = place,
        [needed, had] => [start, length] = [needed, had],
        _ => {}
    }
    if told.handed.is_some() {
        let word = &words[told.step];
        index = word.index.into();
        [start, length] = [word.start / 8, word.length / 8].map(|bytes| bytes as u64);
    }
    let handed = index + 65_536 * (start + 8192 * (length + 8192 * payload));
    told.kind + 16 * (element + 256 * handed)
}
