//! Small random dictionaries for the check: channels 0 to 3, whose lists are right, have one wrong
//! element, or several.

use super::channels::{self, LONGEST, mapping_word};
use super::objects::{self, rising};
use crate::dictionary::model::layout::*;
use crate::original::{UNICODE_STRING, size};
use crate::random::Random;

const UNSIGNED8: u64 = 5;
const UNSIGNED64: u64 = 8;

/// Numbers that records name: two of the managing node, ends of each class, few that are equal.
const NODES: [u8; 12] = [5, 6, 7, 8, 20, 1, 239, 240, 0, 241, 254, 255];

const VERSIONS: [u8; 6] = [0, 0, 0x10, 0x12, 0x0F, 0xFF];

/// Both ends of what is handed off, and what is just beside them.
const HANDED: [u16; 6] = [0x1200, 0x127F, 0x1280, 0x12FF, 0x11FF, 0x1300];

/// One to four channels. A list without a record is that of no channel.
pub fn dictionary(random: &mut Random, most_elements: usize) -> Vec<Object> {
    let mut all: Vec<Object> = (0..2 + random.below(5)).map(|_| target(random)).collect();
    for channel in 0..4 {
        if random.below(5) > 0 {
            all.push(record(random, channel));
        }
        if random.below(10) > 0 {
            all.push(unfilled(random, channel, most_elements));
        }
    }
    // The later of two at one index stands.
    all.reverse();
    let mut all = rising(all);
    // So that a word may point at any list, also at its own.
    let whole = all.clone();
    for list in all.iter_mut().filter(|object| matches!(object.index, 0x1600..=0x1603)) {
        fill(random, list, &whole);
    }
    all
}

/// As in the other dictionaries; also an error object, an empty list, a string as long as a
/// payload, or one of 16-bit units.
fn target(random: &mut Random) -> Object {
    let index = 0x6000 + random.below(8) as u64;
    match random.below(24) {
        0 => channels::error_object(random, 0x1C80),
        1 => channels::error_object(random, 0x1C81),
        2 => bare(index, random.pick(&[ARRAY, LAST_SHAPE]), vec![]),
        3 if random.below(2) == 0 => {
            let kind = 11 + random.word() % 4;
            let room = LONGEST - random.below(4);
            bare(index, VARIABLE, vec![Value::new(kind, room, b"ab")])
        }
        // So that an odd field fits.
        4 | 5 => {
            let room = 2 + random.below(4);
            bare(index, VARIABLE, vec![Value::new(UNICODE_STRING, room, &[1, 2])])
        }
        _ => channels::target(random),
    }
}

/// A node and a version; now and then another type, one of them missing, or no list.
fn record(random: &mut Random, channel: u64) -> Object {
    let number = |byte: u8| Value::new(UNSIGNED8, 0, &[byte]);
    let mut values = vec![number(random.pick(&NODES)), number(random.pick(&VERSIONS))];
    let mut shape = random.pick(&[LAST_SHAPE, LAST_SHAPE, LAST_SHAPE, ARRAY]);
    match random.below(40) {
        0 => values[0] = objects::value(random, 2),
        1 | 2 => values[1] = objects::value(random, 2),
        3 => values.truncate(random.below(2)),
        4 => (shape, values) = (VARIABLE, vec![number(random.pick(&NODES))]),
        _ => {}
    }
    bare(0x1400 + channel, shape, values)
}

/// A list whose words are still to be made.
fn unfilled(random: &mut Random, channel: u64, most: usize) -> Object {
    let word = Value::new(UNSIGNED64, 0, &[0; 8]);
    let index = 0x1600 + channel;
    match random.below(24) {
        0 => bare(index, VARIABLE, vec![word]),
        1 => bare(index, ARRAY, vec![]),
        _ => {
            let shape = random.pick(&[ARRAY, ARRAY, ARRAY, LAST_SHAPE]);
            bare(index, shape, vec![word; 1 + random.below(most)])
        }
    }
}

/// Half of the lists are right; most others have one wrong element.
fn fill(random: &mut Random, list: &mut Object, objects: &[Object]) {
    let count = list.values.len();
    let (wrong, other) = match random.below(16) {
        0..=7 => (None, 0),
        8..=14 => (Some(random.below(count.max(1))), 0),
        _ => (None, 2),
    };
    let mut end = 0;
    for (place, value) in list.values.iter_mut().enumerate() {
        let is_wrong = wrong == Some(place) || random.below(4) < other;
        let mut field = right(random, objects, &mut end);
        match random.below(12) {
            _ if !is_wrong => {}
            0 => {
                let kind = random.pick(&[7, 5, 12]);
                *value = objects::value_of(random, kind, 8);
                continue;
            }
            // Of as many bytes as a word has.
            1 => value.kind = random.pick(&[4, 10, 17, 18]),
            _ => spoil(random, objects, &mut field),
        }
        value.word = field.word(random);
    }
}

/// What a mapping word says; offset and length in bits.
struct Field {
    index: u16,
    sub_index: u8,
    offset: usize,
    length: usize,
}

impl Field {
    /// Bits 24 to 31 mean nothing.
    fn word(&self, random: &mut Random) -> u64 {
        let Self { index, sub_index, .. } = *self;
        let [offset, length] = [self.offset, self.length].map(|bits| u64::from(bits as u16));
        mapping_word(index, sub_index, offset, length) | random.pick(&[0, 0, 0xFF]) << 24
    }
}

/// For a value that is there, with the length that it takes: behind the fields before, over them,
/// or at a payload's end.
fn right(random: &mut Random, objects: &[Object], end: &mut usize) -> Field {
    let Some((index, sub_index, value)) = place(random, objects, |index| !is_handed(index)) else {
        return Field { index: 0x6000, sub_index: 0, offset: 0, length: 8 };
    };
    let length = fitting(random, value);
    let start = match random.below(16) {
        0..=2 => random.below(*end + 3),
        3 => LONGEST - length,
        4 => 0,
        _ => *end,
    };
    let start = start.min(LONGEST - length);
    if start + length < LONGEST {
        *end = (start + length).max(*end);
    }
    Field { index, sub_index, offset: 8 * start, length: 8 * length }
}

/// A length that it takes.
fn fitting(random: &mut Random, value: &Value) -> usize {
    let room = value.room.len();
    let length = match size(value.kind) {
        Some(size) => size,
        None if random.below(3) == 0 => random.below(room + 1),
        None => room,
    };
    if value.kind == UNICODE_STRING { length / 2 * 2 } else { length }
}

fn is_handed(index: u64) -> bool {
    matches!(index, 0x1200..=0x12FF)
}

/// A value of such an object, where there is one.
fn place<'a>(
    random: &mut Random,
    objects: &'a [Object],
    is_wanted: impl Fn(u64) -> bool,
) -> Option<(u16, u8, &'a Value)> {
    let wanted = objects.iter().filter(|object| is_wanted(object.index));
    let wanted: Vec<&Object> = wanted.filter(|object| !object.values.is_empty()).collect();
    let object = *wanted.get(random.below(wanted.len().max(1)))?;
    let element = random.below(object.values.len());
    let sub_index = element as u8 + u8::from(object.shape != VARIABLE);
    Some((object.index as u16, sub_index, &object.values[element]))
}

/// Breaks a rule of R12.2, or stands just at it.
fn spoil(random: &mut Random, objects: &[Object], field: &mut Field) {
    match random.below(8) {
        0 => field.offset += random.pick(&[1, 4, 7]),
        1 => {
            field.length += random.pick(&[1, 4, 4, 7]);
            field.offset += random.pick(&[0, 0, 4]);
        }
        2 => match place(random, objects, is_handed) {
            // Right but for its index.
            Some((index, sub_index, value)) if random.below(4) > 0 => {
                let length = 8 * fitting(random, value);
                *field = Field { index, sub_index, length, ..*field };
            }
            _ => {
                let any = 0x1200 + random.below(0x100) as u16;
                field.index = if random.below(3) == 0 { any } else { random.pick(&HANDED) };
            }
        },
        3 => {
            let any = 0x6000 + random.below(9) as u16;
            field.index = random.pick(&[any, 0x6009, 0, 0xFFFF]);
        }
        4 => field.sub_index = field.sub_index.wrapping_add(random.pick(&[1, 2, 3, 250, 255])),
        5 => {
            let object = &objects[random.below(objects.len())];
            let length = random.pick(&[8, 8, 8, 0, 16]);
            *field = Field { index: object.index as u16, sub_index: 0, length, ..*field };
        }
        6 => {
            let bytes = field.length / 8;
            let other = [bytes + 1, bytes + 1, bytes + 2, bytes.saturating_sub(1), 0, bytes + 4];
            field.length = 8 * random.pick(&other);
        }
        _ => {
            // The last one's end is small again where it is cut to 16 bits.
            let ends = [LONGEST + 1, LONGEST + 1, LONGEST + 2, LONGEST, 8191, 8192];
            let start = random.pick(&ends).saturating_sub(field.length / 8);
            field.offset = 8 * start.min(8191);
        }
    }
}
