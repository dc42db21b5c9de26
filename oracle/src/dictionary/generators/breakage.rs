//! Objects that break one rule and are laid out as if they kept it, so that
//! every start and total fits and that rule alone decides.

use super::objects;
use crate::dictionary::model::layout::*;
use crate::inputs::{damaged, text};
use crate::original::{UNICODE_STRING, VISIBLE_STRING, size};
use crate::random::Random;

const BOOLEAN: u64 = 0;
const OCTET_STRING: u64 = 12;

/// Changes one object so that it stands at a bound of a rule, or just past it.
pub fn any(random: &mut Random, objects: &mut Vec<Object>) {
    let place = random.below(objects.len());
    match random.below(3) {
        0 => order(random, objects, place),
        1 => head(random, &mut objects[place]),
        _ => value(random, &mut objects[place]),
    }
}

fn order(random: &mut Random, objects: &mut Vec<Object>, place: usize) {
    match random.below(4) {
        0 => objects.push(objects[place].clone()),
        1 => objects.insert(place, objects[place].clone()),
        2 => objects.reverse(),
        _ => objects[place].index = random.pick(&[0, 0xFFFF, 0x1_0000, 1 << 32, u64::MAX]),
    }
}

fn head(random: &mut Random, object: &mut Object) {
    match random.below(7) {
        0 => object.shape = random.pick(&[0, 1, 2, 3, 1 << 32, u64::MAX]),
        1 => object.access = random.pick(&[6, 7, 8, 1 << 32, u64::MAX]),
        2 => {
            let length = random.pick(&[LONGEST_NAME, LONGEST_NAME + 1, 200]);
            object.name = text(random, length);
        }
        3 => object.name = damaged(random, &object.name),
        4 => object.name = random.bytes(3),
        5 => object.values.clear(),
        _ => {
            let count = random.pick(&[2, MOST_ELEMENTS, MOST_ELEMENTS + 1, 256, 300]);
            object.values = vec![Value::new(BOOLEAN, 0, &[1]); count];
        }
    }
}

fn value(random: &mut Random, object: &mut Object) {
    if random.below(3) == 0 {
        object.default = Some(default(random));
        return;
    }
    let count = object.values.len();
    if count == 0 {
        return;
    }
    let value = &mut object.values[random.below(count)];
    match random.below(6) {
        0 => value.kind = random.pick(&[20, 21, 255, 1 << 32, u64::MAX]),
        1 => value.room.resize(LARGEST_ROOM + random.below(2), 0x80),
        2 => *value = number(random),
        3 => *value = string(random, OCTET_STRING),
        4 => *value = string(random, VISIBLE_STRING),
        _ => *value = string(random, UNICODE_STRING),
    }
}

/// A number of a fixed type at the end of its size, or past it.
fn number(random: &mut Random) -> Value {
    let kind = random.word() % (LAST_KIND + 1);
    let bits = 8 * size(kind).unwrap_or(1);
    let end = u64::MAX >> (64 - bits);
    let word = random.pick(&[end, end.wrapping_add(1), end.wrapping_add(2), u64::MAX]);
    Value { kind, word, room: vec![0; random.below(3)] }
}

/// A string whose length is about that of its room, with any bytes in and behind it.
fn string(random: &mut Random, kind: u64) -> Value {
    let room = random.pick(&[0, 1, 2, 3, 8, 9, LARGEST_ROOM, LARGEST_ROOM + 1]);
    let mut bytes = text(random, room);
    if random.below(2) == 0 {
        bytes = damaged(random, &bytes);
    }
    let length = bytes.len() as u64;
    let word = match random.below(4) {
        0 => length.wrapping_add(1),
        1 => length / 2,
        2 => length.wrapping_sub(1),
        _ => length,
    };
    Value { kind, word, room: bytes }
}

/// A default whose room is not just its bytes, or is.
fn default(random: &mut Random) -> Value {
    match random.below(3) {
        0 => {
            let kind = random.pick(&[OCTET_STRING, VISIBLE_STRING, UNICODE_STRING]);
            string(random, kind)
        }
        1 => number(random),
        _ => objects::value(random, 6),
    }
}
