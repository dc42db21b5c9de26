//! Random ranges, right and wrong, and writes about their ends.

use super::writes;
use crate::dictionary::model::layout::{Object, Range, VARIABLE, element};
use crate::dictionary::model::range::meaning;
use crate::dictionary::model::step::Call;
use crate::original::size;
use crate::random::Random;

/// The last of the integer types, of which the first is 1.
const LAST_INTEGER: u64 = 8;

pub fn is_integer(kind: u64) -> bool {
    (1..=LAST_INTEGER).contains(&kind)
}

/// The largest word of an integer type.
pub fn largest(kind: u64) -> u64 {
    u64::MAX >> (64 - 8 * size(kind).expect("an integer has a size"))
}

/// Most of the objects get a range.
pub fn give(random: &mut Random, objects: &mut [Object]) {
    for object in objects {
        if random.below(6) > 0 {
            object.range = any(random, object);
        }
    }
}

/// Most times of the type of a value or the default, where one is an integer, with ends about it.
pub fn any(random: &mut Random, object: &Object) -> Range {
    let integers: Vec<(u64, u64)> = object
        .all_values()
        .filter(|value| is_integer(value.kind))
        .map(|value| (value.kind, value.word))
        .collect();
    let (kind, word) = match integers.len() {
        0 => (1 + random.word() % LAST_INTEGER, 0),
        _ if random.below(8) == 0 => (1 + random.word() % LAST_INTEGER, 0),
        _ => random.pick(&integers),
    };
    let mut ends = [end(random, kind, word), end(random, kind, word)];
    ends.sort_by_key(|end| meaning(kind, *end));
    Range { kind, low: ends[0], high: ends[1] }
}

/// A number of the type: one of its own ends, about a word, or any.
fn end(random: &mut Random, kind: u64, word: u64) -> u64 {
    let largest = largest(kind);
    let least_signed = largest / 2 + 1;
    let end = match random.below(4) {
        0 => random.word(),
        1 => random.pick(&[0, largest, least_signed, least_signed - 1]),
        _ => word.wrapping_add(random.pick(&[0, 1, u64::MAX])),
    };
    end & largest
}

/// Most times no range's ends any more.
pub fn spoil(random: &mut Random, ends: &mut [u64; 4]) {
    let kind = ends[0];
    let one = 2 * random.below(2);
    match random.below(7) {
        0 => ends[one] = random.word() % (LAST_INTEGER + 1),
        // Some would be the type if they were cut to fewer bits.
        1 => ends[one] = random.pick(&[9, 256 + kind, (1 << 32) + kind, u64::MAX]),
        2 => {
            let other =
                random.pick(&[0, 9, 10, 12, 20, 21, 256 + kind, (1 << 32) + kind, u64::MAX]);
            (ends[0], ends[2]) = (other, other);
        }
        3 => ends.swap(1, 3),
        4 if is_integer(kind) => ends[1 + one] = over(random, kind, ends[1 + one]),
        5 => {
            *ends = [0; 4];
            ends[1 + one] = random.pick(&[1, 255, u64::MAX]);
        }
        _ => ends[1 + one] = random.word() >> random.below(64),
    }
}

/// An end that has more bytes than its type, where that can be: the least such, or the end with its
/// sign in all 64 bits.
fn over(random: &mut Random, kind: u64, end: u64) -> u64 {
    let largest = largest(kind);
    random.pick(&[largest.wrapping_add(1), end | !largest, u64::MAX, end | 1 << 63])
}

/// Lays a range that breaks a rule of its row, or stands at one's bound.
pub fn damage(random: &mut Random, object: &mut Object) {
    let mut ends = object.range.ends();
    match random.below(4) {
        0 => ends[0] = random.pick(&[0, 1, 8, 9, 20, 1 << 32, u64::MAX]),
        _ => spoil(random, &mut ends),
    }
    object.range = Range { kind: ends[0], low: ends[1], high: ends[3] };
}

/// A write about an end of a range, most times where its object has a value of the range's type.
pub fn write(random: &mut Random, objects: &[Object]) -> Call {
    let ranged: Vec<&Object> = objects.iter().filter(|o| is_integer(o.range.kind)).collect();
    if ranged.is_empty() {
        return writes::any(random, objects);
    }
    let object = ranged[random.below(ranged.len())];
    let sub_index = place(random, object);
    let there = element(object, sub_index).map(|place| object.values[place].kind);
    let kind = match there {
        Some(there) if is_integer(there) && random.below(6) > 0 => there,
        _ => object.range.kind,
    };
    let word = largest(kind) & about(random, object.range);
    let data = &word.to_le_bytes()[..size(kind).expect("an integer has a size")];
    writes::write(object.index as u16, sub_index, kind, data)
}

/// Of a value of the range's type, where there is one; else any.
fn place(random: &mut Random, object: &Object) -> u8 {
    let first = u8::from(object.shape != VARIABLE);
    let values = object.values.iter().zip(first..=u8::MAX);
    let same = values.filter(|(value, _)| value.kind == object.range.kind);
    let places: Vec<u8> = same.map(|(_, sub_index)| sub_index).collect();
    match random.below(5) {
        0 => random.below(object.values.len() + 2) as u8,
        _ if places.is_empty() => first,
        _ => random.pick(&places),
    }
}

/// An end, a number beside it, or one further off.
fn about(random: &mut Random, Range { low, high, .. }: Range) -> u64 {
    let end = random.pick(&[low, high]);
    let any = random.word();
    random.pick(&[end, end.wrapping_add(1), end.wrapping_sub(1), end ^ 0x80, !end, any])
}
