//! Which payloads a channel admits (RULES.md R12.4), on the plain objects.

use crate::dictionary::model::edition::in_use;
use crate::dictionary::model::layout::{Object, VARIABLE, Value, element, is_text};
use crate::dictionary::model::running::{Word, channel_of, is_right, list_u8, row};
use crate::dictionary::model::step::Received;
use crate::original::VISIBLE_STRING;

const UNSIGNED64: u64 = 8;
pub const LONGEST_PAYLOAD: usize = 1490;

/// What an element of a list maps, where it is a word of whole bytes.
pub struct Field {
    /// Its place in the list, from 0.
    pub place: usize,
    pub index: u16,
    pub sub_index: u8,
    pub start: usize,
    pub end: usize,
}

impl Field {
    /// None for what is missing and for a list's count.
    pub fn target<'a>(&self, objects: &'a [Object]) -> Option<&'a Value> {
        let object = &objects[row(objects, self.index)?];
        Some(&object.values[element(object, self.sub_index)?])
    }
}

/// The elements of a channel's list that are in use; none where it is no list.
pub fn elements(edition: u64, objects: &[Object], channel: u8) -> &[Value] {
    match row(objects, 0x1600 + u16::from(channel)) {
        Some(row) if objects[row].shape != VARIABLE => in_use(edition, &objects[row]),
        _ => &[],
    }
}

fn words(elements: &[Value]) -> impl Iterator<Item = (usize, Word)> {
    let words = elements.iter().enumerate().filter(|(_, value)| value.kind == UNSIGNED64);
    words.map(|(place, value)| (place, Word::of(0, value.word)))
}

pub fn fields(elements: &[Value]) -> Vec<Field> {
    let aligned = words(elements).filter(|(_, word)| word.is_aligned());
    let field = |(place, Word { index, sub_index, start, length, .. })| Field {
        place,
        index,
        sub_index,
        start: start / 8,
        end: (start + length) / 8,
    };
    aligned.map(field).collect()
}

/// Bytes of the shortest payload that holds all words.
pub fn needed(elements: &[Value]) -> usize {
    let ends = words(elements).map(|(_, word)| (word.start + word.length).div_ceil(8));
    ends.max().unwrap_or(0)
}

/// All that a sender may call its version.
pub fn right_versions(objects: &[Object], channel: u8) -> Vec<u8> {
    let record = row(objects, 0x1400 + u16::from(channel)).map(|row| &objects[row]);
    let expected = record.and_then(|record| list_u8(record, 2)).unwrap_or(0);
    (0..=u8::MAX).filter(|version| is_right(expected, *version)).collect()
}

pub fn senders(objects: &[Object], channel: u8) -> Vec<u8> {
    (0..=u8::MAX).filter(|sender| channel_of(objects, *sender) == Some(channel.into())).collect()
}

pub fn admits(edition: u64, objects: &[Object], channel: u8, given: &Received) -> bool {
    let elements = elements(edition, objects, channel);
    let length = given.payload.len();
    given.ready != 0
        && channel_of(objects, given.sender) == Some(channel.into())
        && right_versions(objects, channel).contains(&given.version)
        && (needed(elements)..=LONGEST_PAYLOAD).contains(&length)
        && fields(elements).iter().all(|field| is_admitted(objects, field, &given.payload))
}

fn is_admitted(objects: &[Object], field: &Field, payload: &[u8]) -> bool {
    let is_handed = matches!(field.index, 0x1200..=0x12FF);
    let target = field.target(objects).filter(|_| !is_handed);
    target.is_none_or(|value| value.kind != VISIBLE_STRING)
        || is_text(&payload[field.start..field.end])
}
