//! What the channel check must give: RULES.md R12.1 to R12.3 and R12.13 on the plain objects, written
//! from the rules alone. The Rust has no such call; demand.rs asks payloads about its answers.

use super::edition::{FIRST, in_use};
use super::layout::{Object, VARIABLE, Value, element};
use super::running::{Word, channel_of, list_u8, row};
use super::sound::{Dictionary, Done, Refused};
use crate::original::{BUFFER_TOO_SHORT, UNICODE_STRING, size};

/// Numbers of the faults (R12.12).
pub const NO_SENDER: u64 = 31;
const NO_LIST: u64 = 32;
pub const NOT_MAPPING: u64 = 33;
pub const MISALIGNED: u64 = 34;
pub const HAND_OFF: u64 = 35;
pub const NO_TARGET: u64 = 36;
pub const COUNT_TARGET: u64 = 37;
pub const WRONG_LENGTH: u64 = 38;
pub const TOO_FAR: u64 = 39;

/// Three for each of 256 channels.
pub const LEAST_NUMBERS: usize = 768;

const UNSIGNED64: u64 = 8;
const LONGEST_PAYLOAD: usize = 1490;

/// The part of NoList that only a kept count gives.
pub const NONE_IN_USE: &str = "none in use";

/// A number, the element that it names or 0, and which part of its rule gave it.
struct Fault(u64, u64, &'static str);

/// What is noted where not all elements are in use, for the tally.
pub const NOTES: [&str; 4] = [
    "a pass, with a fault behind the count",
    "a pass, with right elements behind the count",
    "a fault before another behind the count",
    "NoSender, and none in use",
];

impl Dictionary {
    pub fn check_channel(&self, channel: u8, notes: &mut Vec<&'static str>) -> Done {
        let matched = matched(&self.objects);
        let fault = fault(self.edition, &self.objects, channel, &matched);
        notes.extend(self.note_unused(channel, fault.as_ref(), &matched));
        match fault {
            Some(Fault(answer, element, cause)) => {
                Done { answer, numbers: vec![element], cause: Some(cause), ..Done::default() }
            }
            None => Done { numbers: vec![0], ..Done::default() },
        }
    }

    pub fn check_all(&self, room: usize, notes: &mut Vec<&'static str>) -> Result<Done, Refused> {
        if room < LEAST_NUMBERS {
            return Err((BUFFER_TOO_SHORT, None));
        }
        let matched = matched(&self.objects);
        let mut events = Vec::new();
        for channel in 0..=u8::MAX {
            if row(&self.objects, 0x1400 + u16::from(channel)).is_none() {
                continue;
            }
            let found = fault(self.edition, &self.objects, channel, &matched);
            notes.extend(self.note_unused(channel, found.as_ref(), &matched));
            let Fault(number, element, cause) = found.unwrap_or(Fault(0, 0, "a pass"));
            events.extend([channel.into(), number, element]);
            notes.push(cause);
        }
        Ok(Done { numbers: vec![events.len() as u64], events, ..Done::default() })
    }

    /// What an answer shows of elements that are not in use, by what it would be if they were.
    fn note_unused(
        &self,
        channel: u8,
        found: Option<&Fault>,
        matched: &[Option<u16>],
    ) -> Option<&'static str> {
        let list = &self.objects[row(&self.objects, 0x1600 + u16::from(channel))?];
        let used = in_use(self.edition, list).len();
        if used == list.values.len() {
            return None;
        }
        let behind = list.values[used..].iter().any(|value| judge(&self.objects, value).is_err());
        match found {
            Some(Fault(NO_SENDER, ..)) if used == 0 => Some(NOTES[3]),
            Some(Fault(_, 1.., _)) if behind => Some(NOTES[2]),
            None if fault(FIRST, &self.objects, channel, matched).is_some() => Some(NOTES[0]),
            None => Some(NOTES[1]),
            _ => None,
        }
    }
}

/// The element that a fault of the channel names where all are in use.
pub fn named(objects: &[Object], channel: u8) -> Option<u8> {
    let Fault(_, element, _) = fault(FIRST, objects, channel, &matched(objects))?;
    (element > 0).then_some(element as u8)
}

/// The first match of each sender.
fn matched(objects: &[Object]) -> Vec<Option<u16>> {
    (0..=u8::MAX).map(|sender| channel_of(objects, sender)).collect()
}

/// R12.2.
fn fault(edition: u64, objects: &[Object], channel: u8, matched: &[Option<u16>]) -> Option<Fault> {
    let channel = u16::from(channel);
    if !matched.contains(&Some(channel)) {
        return Some(Fault(NO_SENDER, 0, no_sender(objects, channel)));
    }
    let Some(row) = row(objects, 0x1600 + channel) else {
        return Some(Fault(NO_LIST, 0, "no mapping"));
    };
    let list = &objects[row];
    let elements = in_use(edition, list);
    match elements.len() {
        _ if list.shape == VARIABLE => return Some(Fault(NO_LIST, 0, "a Variable")),
        0 if list.values.is_empty() => return Some(Fault(NO_LIST, 0, "no element")),
        0 => return Some(Fault(NO_LIST, 0, NONE_IN_USE)),
        _ => {}
    }
    for (value, element) in elements.iter().zip(1..) {
        if let Err((number, cause)) = judge(objects, value) {
            return Some(Fault(number, element, cause));
        }
    }
    let ends = elements.iter().map(|value| {
        let word = Word::of(0, value.word);
        (word.start + word.length).div_ceil(8)
    });
    ends.max().filter(|end| *end > LONGEST_PAYLOAD)?;
    Some(Fault(TOO_FAR, 0, "past 1,490 bytes"))
}

fn no_sender(objects: &[Object], channel: u16) -> &'static str {
    match row(objects, 0x1400 + channel) {
        None => "no record",
        Some(row) if list_u8(&objects[row], 1).is_none() => "no node",
        Some(_) => "taken by an earlier channel",
    }
}

/// The first fault of an element, and which part of its rule it is.
fn judge(objects: &[Object], value: &Value) -> Result<(), (u64, &'static str)> {
    if value.kind != UNSIGNED64 {
        return Err((NOT_MAPPING, "another type"));
    }
    let word = Word::of(0, value.word);
    if !word.is_aligned() {
        return Err((MISALIGNED, "not whole bytes"));
    }
    match word.index {
        0x1200..=0x127F => return Err((HAND_OFF, "to the server")),
        0x1280..=0x12FF => return Err((HAND_OFF, "to the client")),
        _ => {}
    }
    let row = row(objects, word.index).ok_or((NO_TARGET, "no object"))?;
    let object = &objects[row];
    if object.shape != VARIABLE && word.sub_index == 0 {
        let empty = object.values.is_empty();
        return Err((COUNT_TARGET, if empty { "an empty list's" } else { "a list's" }));
    }
    let place = element(object, word.sub_index).ok_or((NO_TARGET, "no such element"))?;
    judge_length(&object.values[place], word.length / 8).map_err(|cause| (WRONG_LENGTH, cause))
}

fn judge_length(target: &Value, length: usize) -> Result<(), &'static str> {
    match size(target.kind) {
        Some(size) if length < size => Err("below its size"),
        Some(size) if length > size => Err("above its size"),
        None if length > target.room.len() => Err("over its room"),
        None if target.kind == UNICODE_STRING && length % 2 == 1 => Err("odd"),
        _ => Ok(()),
    }
}
