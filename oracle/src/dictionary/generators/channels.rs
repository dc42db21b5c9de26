//! Random dictionaries that consume: records of channels, their mapping lists, what the words of
//! these point at, and the two error objects. Most are nearly right.

use super::objects::{self, rising};
use crate::dictionary::model::image::Record;
use crate::dictionary::model::layout::{self, *};
use crate::original::{KINDS, UNICODE_STRING, size};
use crate::random::Random;

const UNSIGNED8: u64 = 5;
const UNSIGNED64: u64 = 8;
const OCTET_STRING: u64 = 12;

const RECORDS: u16 = 0x1400;
pub const LISTS: u16 = 0x1600;
const ERROR_OBJECTS: [u16; 2] = [0x1C80, 0x1C81];

/// Bytes of the longest payload.
pub const LONGEST: usize = 1490;

/// Nodes, the managing one by both its numbers, and the ends of each class.
const NODES: [u8; 9] = [5, 5, 5, 20, 1, 239, 240, 0, 241];

/// What a record or a payload expects or has.
pub const VERSIONS: [u8; 6] = [0, 0, 0, 0x10, 0x12, 0xFF];

/// Objects with a meaning elsewhere, and the ends of what is handed off.
const TARGETS: [u16; 14] = [
    0, 0x1003, 0x1010, 0x1011, 0x11FF, 0x1200, 0x127F, 0x1280, 0x12FF, 0x1300, 0x1A00, 0x1AFF,
    0x6000, 0xFFFF,
];

/// In some of them all words are right, so that long lists are run to their end.
pub fn dictionary(random: &mut Random, most_words: usize) -> Vec<Object> {
    let right = random.below(4) == 0;
    let mut all: Vec<Object> = (0..2 + random.below(5)).map(|_| target(random)).collect();
    for index in ERROR_OBJECTS {
        if random.below(10) > 0 {
            all.push(error_object(random, index));
        }
    }
    let channels: Vec<u16> = (0..1 + random.below(3)).map(|_| channel(random)).collect();
    all.extend(channels.iter().map(|channel| record(random, *channel)));
    let all = rising(all);
    // A channel without a list still takes its sender's payloads.
    let lists = channels.iter().filter_map(|channel| {
        let has_list = random.below(12) > 0;
        has_list.then(|| list(random, *channel, &all, most_words, right))
    });
    let lists: Vec<Object> = lists.collect();
    rising([all, lists].concat())
}

fn bare(index: u16, shape: u64, values: Vec<Value>) -> Object {
    layout::bare(index.into(), shape, values)
}

/// The first, the last, or any.
fn channel(random: &mut Random) -> u16 {
    let any = random.below(256) as u16;
    random.pick(&[0, 0, 0, 1, 255, 255, any])
}

/// A Variable, or a list of a few values; strings have room to spare, with anything behind them.
pub fn target(random: &mut Random) -> Object {
    let any = 0x6000 + random.below(8) as u16;
    let index = if random.below(3) == 0 { random.pick(&TARGETS) } else { any };
    let shape = random.pick(&[VARIABLE, VARIABLE, ARRAY, LAST_SHAPE]);
    let count = if shape == VARIABLE { 1 } else { random.below(4) };
    let mut object = bare(index, shape, (0..count).map(|_| value(random)).collect());
    object.access = random.word() % (NO_ACCESS + 1);
    object.name = b"name"[..random.pick(&[0, 0, 0, 3])].to_vec();
    if random.below(8) == 0 {
        object.default = Some(objects::default_of(random, UNSIGNED8, 0));
    }
    object
}

fn value(random: &mut Random) -> Value {
    let kind = match random.below(3) {
        0 => 11 + random.word() % 4,
        _ => random.word() % KINDS,
    };
    let longest = if random.below(64) == 0 { 300 } else { 6 };
    let mut value = objects::value_of(random, kind, longest);
    if is_string(kind) {
        let used = value.word as usize;
        value.room.resize(value.room.len() + random.below(4), 0);
        value.room[used..].fill_with(|| random.pick(&[0x80, 0xFF, 0x00, 0x41]));
    }
    value
}

/// Most times 32 bytes as DS 301 has them; also shorter, in a larger room, of another type, or a
/// list.
pub fn error_object(random: &mut Random, index: u16) -> Object {
    let length = random.pick(&[32, 32, 32, 32, 30, 29, 1, 0]);
    let room = length + random.pick(&[0, 0, 0, 2]);
    let shape = random.pick(&[VARIABLE, VARIABLE, VARIABLE, VARIABLE, VARIABLE, ARRAY, LAST_SHAPE]);
    let bytes: Vec<u8> = match random.below(3) {
        0 => random.bytes(length),
        _ => vec![0; length],
    };
    let value = match random.below(10) {
        0 => value(random),
        _ => Value::new(OCTET_STRING, room, &bytes),
    };
    bare(index, shape, vec![value])
}

/// A node and a version; also other types, one of them missing, or no list.
fn record(random: &mut Random, channel: u16) -> Object {
    let number = |byte: u8| Value::new(UNSIGNED8, 0, &[byte]);
    let mut values = vec![number(random.pick(&NODES)), number(random.pick(&VERSIONS))];
    match random.below(16) {
        0 => values[0] = value(random),
        1 => values[1] = value(random),
        2 => values.truncate(random.below(2)),
        3 => values.push(value(random)),
        _ => {}
    }
    let mut shape = random.pick(&[LAST_SHAPE, LAST_SHAPE, LAST_SHAPE, ARRAY]);
    if random.below(24) == 0 {
        (shape, values) = (VARIABLE, vec![number(random.pick(&NODES))]);
    }
    bare(RECORDS + channel, shape, values)
}

/// Records of a stored image for half the places of channels' records and lists, of any type that
/// fits there; and for some other places.
pub fn retyping(random: &mut Random, objects: &[Object]) -> Vec<Record> {
    let mut records = Vec::new();
    for object in objects {
        let index = object.index as u16;
        let first = u8::from(object.shape != VARIABLE);
        for sub_index in (first..).take(object.values.len()) {
            let is_channels = matches!(index, 0x1400..=0x16FF);
            if random.below(if is_channels { 2 } else { 8 }) > 0 {
                continue;
            }
            let kind = random.pick(&[UNSIGNED8, UNSIGNED64, 6, 7, 4, 10, 18, 19, OCTET_STRING]);
            let body = match kind {
                UNSIGNED8 => vec![random.pick(&NODES)],
                UNSIGNED64 => word(random, objects, &mut 0).to_le_bytes().to_vec(),
                _ => objects::encoding(random, kind, 0),
            };
            records.push(Record { index, sub_index, kind: kind as u8, body });
        }
    }
    records
}

/// Words for what is there, in order; also another value between them, or no list but a number or a
/// word.
fn list(random: &mut Random, channel: u16, objects: &[Object], most: usize, right: bool) -> Object {
    if random.below(16) == 0 {
        let value = match random.below(2) {
            0 => Value::new(UNSIGNED8, 0, &[random.pick(&[0, 1, 3])]),
            _ => Value::new(UNSIGNED64, 0, &word(random, objects, &mut 0).to_le_bytes()),
        };
        return bare(LISTS + channel, VARIABLE, vec![value]);
    }
    let count = match random.below(6) {
        0 => most,
        _ => random.below(most + 1),
    };
    let mut end = 0;
    let values = (0..count).map(|_| match random.below(12) {
        0 => {
            let kind = random.pick(&[7, 5, 4, 10, 18, 12]);
            objects::value_of(random, kind, 8)
        }
        _ => {
            let word = match right {
                true => right_word(random, objects, &mut end),
                false => word(random, objects, &mut end),
            };
            Value::new(UNSIGNED64, 0, &word.to_le_bytes())
        }
    });
    let values = values.collect();
    bare(LISTS + channel, random.pick(&[ARRAY, ARRAY, ARRAY, LAST_SHAPE]), values)
}

pub fn mapping_word(index: u16, sub_index: u8, offset_bits: u64, length_bits: u64) -> u64 {
    u64::from(index) | u64::from(sub_index) << 16 | offset_bits << 32 | length_bits << 48
}

/// One that stops no run: for a value that is there, or for what is not looked at.
fn right_word(random: &mut Random, objects: &[Object], end: &mut usize) -> u64 {
    let object = &objects[random.below(objects.len())];
    let (index, count) = (object.index as u16, object.values.len());
    let (sub_index, length) = match count {
        0 => (0, 1),
        _ => {
            let element = random.below(count);
            let value = &object.values[element];
            let sub_index = element as u8 + u8::from(object.shape != VARIABLE);
            (sub_index, size(value.kind).unwrap_or(value.room.len() / 2 * 2))
        }
    };
    let start = if *end + length > LONGEST { 0 } else { *end - random.below(*end + 1) % 3 };
    *end = (start + length).max(*end);
    mapping_word(index, sub_index, 8 * start as u64, 8 * length as u64)
}

/// A mapping word whose field begins, most times, where the ones before it end.
pub fn word(random: &mut Random, objects: &[Object], end: &mut usize) -> u64 {
    if random.below(100) == 0 {
        return random.word();
    }
    let (index, sub_index, length) = place(random, objects);
    let start = match random.below(24) {
        0..=2 => random.below(*end + 3),
        3 => *end + random.below(3),
        4 => 0,
        5 if random.below(4) == 0 => LONGEST + random.below(2) - length.min(LONGEST),
        _ => *end,
    };
    if start + length < LONGEST - 100 {
        *end = (start + length).max(*end);
    }
    let misaligned = if random.below(12) == 0 { random.pick(&[1, 4, 7]) } else { 0 };
    let [mut offset_bits, mut length_bits] = [start, length].map(|bytes| 8 * bytes as u64);
    match random.below(2) {
        0 => offset_bits += misaligned,
        _ => length_bits += misaligned,
    }
    // Bits 24 to 31 mean nothing.
    let dropped = random.pick(&[0, 0, 0xFF]) << 24;
    mapping_word(index, sub_index, offset_bits, length_bits) | dropped
}

/// A target and the length of its field in bytes.
fn place(random: &mut Random, objects: &[Object]) -> (u16, u8, usize) {
    let any = random.below(9);
    match random.below(24) {
        0 => (random.pick(&TARGETS), random.below(3) as u8, any),
        1 => (0x6000 + random.below(9) as u16, random.pick(&[0, 1, 4, 254, 255]), any),
        2 => (LISTS + channel(random), random.below(4) as u8, random.pick(&[8, 8, 8, 1, 0])),
        // The next payloads then have another channel, or none.
        3 if random.below(4) == 0 => {
            (RECORDS + channel(random), random.below(3) as u8, random.pick(&[1, 1, 1, 0]))
        }
        4 => (random.pick(&ERROR_OBJECTS), 0, random.pick(&[32, 32, 30, 1, 0, 33, 35])),
        5 => (0x1200 + random.below(0x100) as u16, random.word() as u8, any),
        _ => present(random, objects),
    }
}

/// A place of an object, and about the length that fits there.
fn present(random: &mut Random, objects: &[Object]) -> (u16, u8, usize) {
    let object = &objects[random.below(objects.len())];
    let index = object.index as u16;
    let count = object.values.len();
    // Objects that break a rule may have none in a Variable too.
    if count == 0 || object.shape != VARIABLE && random.below(6) == 0 {
        return (index, 0, random.pick(&[1, 1, 1, 2, 0]));
    }
    let element = random.below(count);
    let length = fitting(random, &object.values[element]);
    (index, element as u8 + u8::from(object.shape != VARIABLE), length)
}

fn fitting(random: &mut Random, value: &Value) -> usize {
    if let Some(size) = size(value.kind) {
        return match random.below(16) {
            0 => size - 1,
            1 => size + 1,
            2 => random.below(12),
            _ => size,
        };
    }
    let room = value.room.len();
    let length = match random.below(12) {
        0 => room + 1,
        1 => room + 2,
        2 => 0,
        3 => (value.word as usize).min(LONGEST),
        4 | 5 => random.below(room + 1),
        _ => room,
    };
    // An odd one stops the run, so that it is not made often.
    let odd = value.kind == UNICODE_STRING && random.below(8) > 0;
    if odd { length / 2 * 2 } else { length }
}
