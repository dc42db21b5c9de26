//! Payloads that are tried on a channel. A field that is not written shows where its bytes are not
//! those that its target has, so that most differ from them.

use super::admission::{
    Field, LONGEST_PAYLOAD, admits, elements, fields, needed, right_versions, senders,
};
use crate::dictionary::model::consuming::LEAST_ROOM;
use crate::dictionary::model::layout::{Object, VARIABLE, Value};
use crate::dictionary::model::running::row;
use crate::dictionary::model::step::Received;
use crate::inputs::text;
use crate::original::VISIBLE_STRING;
use crate::random::Random;

/// Those that the channel admits, of every sender; in the first one every field differs.
pub fn payloads(
    random: &mut Random,
    edition: u64,
    objects: &[Object],
    channel: u8,
) -> Vec<Received> {
    let versions = right_versions(objects, channel);
    let elements = elements(edition, objects, channel);
    let mut tried = Vec::new();
    for sender in senders(objects, channel) {
        tried.extend(contents(random, objects, elements).into_iter().map(|payload| Received {
            payload,
            sender,
            version: random.pick(&versions),
            ready: random.pick(&[1, 1, 2, u64::MAX]),
            room: LEAST_ROOM,
        }));
    }
    tried.retain(|given| admits(edition, objects, channel, given));
    tried
}

/// As long as needed, a little longer, or as long as a payload may be.
fn contents(random: &mut Random, objects: &[Object], elements: &[Value]) -> Vec<Vec<u8>> {
    let needed = needed(elements);
    if needed > LONGEST_PAYLOAD || elements.is_empty() {
        return vec![vec![0; needed]];
    }
    let longer = (needed + random.below(6)).min(LONGEST_PAYLOAD);
    let fields = fields(elements);
    let mut contents = vec![
        differing(random, objects, &fields, needed),
        vec![0; needed],
        differing(random, objects, &fields, longer),
        texts(random, objects, &fields, needed),
        random.bytes(longer),
    ];
    match random.below(8) {
        0 => contents.push(vec![0; LONGEST_PAYLOAD]),
        1 => contents.push(differing(random, objects, &fields, LONGEST_PAYLOAD)),
        _ => {}
    }
    contents
}

/// ASCII, so that every field is a text.
fn differing(random: &mut Random, objects: &[Object], fields: &[Field], length: usize) -> Vec<u8> {
    let mut payload: Vec<u8> = (0..length).map(|_| random.below(0x80) as u8).collect();
    // A change of one field may make another that shares the byte equal.
    for _ in 0..4 {
        for field in fields.iter().filter(|field| field.start < field.end) {
            if payload[field.start..field.end] == there(objects, field) {
                payload[field.start] ^= 1 << random.below(7);
            }
        }
    }
    payload
}

/// What a field's target has now, a list's count too.
fn there(objects: &[Object], field: &Field) -> Vec<u8> {
    if let Some(value) = field.target(objects) {
        return value.encoding();
    }
    let list = row(objects, field.index).map(|row| &objects[row]);
    match list.filter(|list| list.shape != VARIABLE && field.sub_index == 0) {
        Some(list) => vec![list.values.len() as u8],
        None => vec![],
    }
}

/// Any bytes, and a text in each field that is to have one.
fn texts(random: &mut Random, objects: &[Object], fields: &[Field], length: usize) -> Vec<u8> {
    let mut payload = random.bytes(length);
    for field in fields {
        if field.target(objects).is_some_and(|value| value.kind == VISIBLE_STRING) {
            let bytes = text(random, field.end - field.start);
            payload[field.start..field.end].copy_from_slice(&bytes);
        }
    }
    payload
}
