//! Random writes and count checks on objects that are, or are not, in the dictionary.

use super::calls;
use super::mappings;
use super::objects;
use crate::dictionary::model::layout::{
    Object, RESTORE_DEFAULTS, STORE_PARAMETERS, Value, element, is_mapping, is_string,
};
use crate::dictionary::model::step::{Call, Write};
use crate::inputs::{damaged, text};
use crate::original::{KINDS, UNICODE_STRING, VISIBLE_STRING};
use crate::random::Random;

const UNSIGNED8: u64 = 5;
const UNSIGNED64: u64 = 8;

/// The first and last mappings, and what is just none.
const MAPPINGS: [u16; 8] = [0x15FF, 0x1600, 0x16FF, 0x1700, 0x19FF, 0x1A00, 0x1AFF, 0x1B00];

/// Any write, or a count check.
pub fn any(random: &mut Random, objects: &[Object]) -> Call {
    match random.below(10) {
        0..=4 => plain(random, objects),
        5 => command(random),
        6 | 7 => count(random, objects),
        _ => check(random, objects),
    }
}

/// Each sort of them once.
pub fn each(random: &mut Random, objects: &[Object]) -> [Call; 4] {
    let plain = plain(random, objects);
    [plain, command(random), count(random, objects), check(random, objects)]
}

pub fn write(index: u16, sub_index: u8, kind: u64, data: &[u8]) -> Call {
    Call::Write(Write { index, sub_index, kind, data: data.to_vec() })
}

pub fn save(list: u8) -> Call {
    write(STORE_PARAMETERS, list, VISIBLE_STRING, b"save")
}

/// At a place that is there or beside it: a value for it, any other, or none.
fn plain(random: &mut Random, objects: &[Object]) -> Call {
    let (index, sub_index) = match random.below(2) {
        0 => calls::place_of_kind(random, objects, is_string),
        _ => calls::place(random, objects),
    };
    let object = objects.iter().find(|object| object.index == index.into());
    let there = object.and_then(|object| Some(&object.values[element(object, sub_index)?]));
    let (kind, data) = match there {
        Some(value) if random.below(5) > 0 => value_for(random, value),
        _ => {
            let kind = random.word() % KINDS;
            (kind, objects::encoding(random, kind, 8))
        }
    };
    match random.below(8) {
        0 => spoiled(random, index, sub_index, kind, data),
        _ => write(index, sub_index, kind, &data),
    }
}

/// A value of its type: a string about as long as its room.
fn value_for(random: &mut Random, value: &Value) -> (u64, Vec<u8>) {
    if value.kind == UNSIGNED64 && random.below(2) == 0 {
        return (value.kind, mappings::word(random).to_le_bytes().to_vec());
    }
    if !is_string(value.kind) {
        return (value.kind, objects::encoding(random, value.kind, 0));
    }
    let room = value.room.len();
    let length = match random.below(8) {
        0 | 1 => room,
        2 => room + 1,
        3 => room + 2,
        4 => 0,
        5 if random.below(8) == 0 => random.pick(&[1489, 1490, 1491, 1492, 5000]),
        _ => random.below(room + 1),
    };
    let data = match value.kind {
        VISIBLE_STRING => text(random, length),
        UNICODE_STRING => random.bytes(length / 2 * 2),
        _ => random.bytes(length),
    };
    (value.kind, data)
}

/// Most times no value: no such type, one byte less or more, or a damaged text.
fn spoiled(random: &mut Random, index: u16, sub_index: u8, kind: u64, data: Vec<u8>) -> Call {
    let (mut kind, mut data) = (kind, data);
    match random.below(4) {
        // Some would be a type if they were cut to fewer bits.
        0 => kind = random.pick(&[21, 255, 256 + kind, (1 << 32) + kind, 1 << 63, u64::MAX]),
        1 => data.push(random.pick(&[0, b'x', 0x80])),
        2 => drop(data.pop()),
        _ => data = damaged(random, &data),
    }
    write(index, sub_index, kind, &data)
}

/// A save or a restore's request, with its signature or something like it.
pub fn command(random: &mut Random) -> Call {
    const OCTET_STRING: u64 = 12;
    const LIKE: [&[u8]; 10] =
        [b"save", b"load", b"Save", b"SAVE", b"sav", b"loa", b"save ", b"load\0", b"", b"sav\xFF"];
    let index = random.pick(&[STORE_PARAMETERS, STORE_PARAMETERS, RESTORE_DEFAULTS]);
    let any_list = random.word() as u8;
    let list = random.pick(&[1, 1, 1, 2, 2, 3, 3, 0, 4, 5, 255, any_list]);
    let right: &[u8] = if index == STORE_PARAMETERS { b"save" } else { b"load" };
    match random.below(12) {
        0 | 1 => write(index, list, VISIBLE_STRING, random.pick(&LIKE)),
        // As bytes, as 16-bit units, and as the number that DS 301 has for it.
        2 => write(index, list, random.pick(&[OCTET_STRING, UNICODE_STRING, 14, 7]), right),
        3 => {
            let kind = random.word() % KINDS;
            write(index, list, kind, &objects::encoding(random, kind, 6))
        }
        _ => write(index, list, VISIBLE_STRING, right),
    }
}

/// A mapping that is there, most times, and a count about that of its elements.
fn mapping(random: &mut Random, objects: &[Object]) -> (u16, u8) {
    let there = objects.iter().filter(|object| is_mapping(object.index as u16));
    let there: Vec<&Object> = there.collect();
    if there.is_empty() || random.below(6) == 0 {
        return (random.pick(&MAPPINGS), random.pick(&[0, 0, 1, 2, 255]));
    }
    let object = there[random.below(there.len())];
    let elements = object.values.len();
    let count = match random.below(8) {
        0 => 0,
        1 => 1,
        2 => elements + 1,
        3 => random.pick(&[254, 255]),
        4 => random.below(elements + 1),
        _ => elements,
    };
    (object.index as u16, count as u8)
}

/// A mapping's count, most times as an Unsigned8; or one of its elements anew.
fn count(random: &mut Random, objects: &[Object]) -> Call {
    let (index, count) = mapping(random, objects);
    match random.below(8) {
        0 => {
            let kind = random.word() % KINDS;
            write(index, 0, kind, &objects::encoding(random, kind, 4))
        }
        1 => write(index, count, UNSIGNED64, &mappings::word(random).to_le_bytes()),
        _ => write(index, 0, UNSIGNED8, &[count]),
    }
}

fn check(random: &mut Random, objects: &[Object]) -> Call {
    let (index, count) = mapping(random, objects);
    let index = if random.below(16) == 0 { random.word() as u16 } else { index };
    Call::ValidatePdoMapping { index, count }
}
