//! Random mappings, and the limits that their counts are held against (RULES.md 9).

use super::objects;
use crate::dictionary::model::layout::*;
use crate::random::Random;
use powerlink_rs::pdo::PdoMappingEntry;

const UNSIGNED16: u64 = 6;
const UNSIGNED64: u64 = 8;
const LIMITS: u64 = 0x1F98;

/// Bits of the longest payload.
const LONGEST: u16 = 8 * 1490;

/// A mapping word that ends early, about the longest payload's end, or anywhere.
pub fn word(random: &mut Random) -> u64 {
    let any = random.word();
    let (offset, length) = match random.below(8) {
        0 => (LONGEST - 8 + random.below(3) as u16, 7 + random.below(3) as u16),
        1 => (any as u16, (any >> 16) as u16),
        2 => (random.below(500) as u16, random.below(70) as u16),
        _ => (8 * random.below(40) as u16, 8 * random.below(9) as u16),
    };
    // Bits 24 to 31 mean nothing.
    any & 0xFFFF_FFFF | u64::from(offset) << 32 | u64::from(length) << 48
}

/// An Array of mapping words, most times; also one with another value among them, or no Array.
pub fn mapping(random: &mut Random, most: usize) -> Object {
    let shape = random.pick(&[ARRAY, ARRAY, ARRAY, ARRAY, ARRAY, ARRAY, VARIABLE, LAST_SHAPE]);
    let count = if shape == VARIABLE { 1 } else { random.below(most + 1) };
    let mut values: Vec<Value> = (0..count)
        .map(|_| Value::new(UNSIGNED64, random.below(2), &word(random).to_le_bytes()))
        .collect();
    if shape == VARIABLE || count > 0 && random.below(4) == 0 {
        let kind = random.pick(&[5, 5, 5, 7, 4, 10, 18, 12]);
        values[random.below(count)] = objects::value_of(random, kind, 8);
    }
    let any = random.word() as u16;
    let index =
        random.pick(&[0x1600, 0x16FF, 0x1A00, 0x1AFF, 0x1600 | any & 0xFF, 0x1A00 | any & 0xFF]);
    Object { access: access(random), ..bare(index.into(), shape, values) }
}

/// Most times one that neither forbids writing nor is stored.
fn access(random: &mut Random) -> u64 {
    random.pick(&[NO_ACCESS, NO_ACCESS, 3, 3, 3, 0, 1, 2, 4, 5, 6])
}

/// The end in bytes of some of a mapping's elements, or no such.
fn some_end(random: &mut Random, mappings: &[Object]) -> u16 {
    let words = mappings.iter().flat_map(|object| &object.values).map(|value| value.word);
    let words: Vec<u64> = words.collect();
    if words.is_empty() {
        return 1490;
    }
    let entry = PdoMappingEntry::from_u64(random.pick(&words));
    (u32::from(entry.offset_bits) + u32::from(entry.length_bits)).div_ceil(8) as u16
}

/// The limits: about the ends of these mappings, or at the ends of their numbers;
/// also a list that lacks one, has another type, or no list.
pub fn limits(random: &mut Random, mappings: &[Object]) -> Object {
    let shape = random.pick(&[ARRAY, ARRAY, LAST_SHAPE, LAST_SHAPE, LAST_SHAPE, VARIABLE]);
    let count = if shape == VARIABLE { 1 } else { random.pick(&[0, 1, 2, 2, 2, 2, 3]) };
    let values = (0..count).map(|_| {
        let end = some_end(random, mappings);
        let limit = match random.below(8) {
            0 => random.pick(&[0, 1, 1489, 1490, 1491, 0xFFFF]),
            1 | 2 => end.wrapping_sub(1),
            3 => end.wrapping_add(1),
            _ => end,
        };
        match random.below(10) {
            0 => objects::value(random, 4),
            _ => Value::new(UNSIGNED16, 0, &limit.to_le_bytes()),
        }
    });
    let values = values.collect();
    Object { access: access(random), ..bare(LIMITS, shape, values) }
}
