//! Random kept counts, and writes of counts about those that are there.

use super::mappings;
use super::objects::{self, rising};
use super::writes;
use crate::dictionary::model::layout::*;
use crate::dictionary::model::step::Call;
use crate::original::KINDS;
use crate::random::Random;

const UNSIGNED8: u64 = 5;
const UNSIGNED64: u64 = 8;

/// Most mappings get a count about their ends, and half of the other objects any that is right.
pub fn give(random: &mut Random, objects: &mut [Object]) {
    for object in objects {
        let is_mapping = is_mapping(object.index as u16);
        if random.below(if is_mapping { 6 } else { 2 }) > 0 {
            let length = object.values.len();
            object.keep(about(random, length).min(length) as u64);
        }
    }
}

/// None, one, one less than the length, the length, or any.
fn about(random: &mut Random, length: usize) -> usize {
    match random.below(6) {
        0 => 0,
        1 => 1,
        2 | 3 => length.saturating_sub(1),
        4 => length,
        _ => random.below(length + 1),
    }
}

/// With the lists of half the channels once more as lists that are sent, 1A00h+i.
pub fn sent(random: &mut Random, objects: Vec<Object>) -> Vec<Object> {
    let received = objects.iter().filter(|object| matches!(object.index, 0x1600..=0x16FF));
    let sent = received.filter(|_| random.below(2) == 0);
    let sent: Vec<Object> =
        sent.map(|list| Object { index: list.index + 0x400, ..list.clone() }).collect();
    rising([objects, sent].concat())
}

/// A count of a mapping that is there: about its length, as it is, or past its end; also of another
/// type, and now and then one of its elements anew.
pub fn write(random: &mut Random, objects: &[Object]) -> Call {
    let there = objects.iter().filter(|object| is_mapping(object.index as u16));
    let there: Vec<&Object> = there.collect();
    if there.is_empty() {
        return writes::any(random, objects);
    }
    let object = there[random.below(there.len())];
    let (index, length) = (object.index as u16, object.values.len());
    let count = match random.below(12) {
        0 => length + 1,
        1 => random.pick(&[254, 255]),
        2..=4 => object.kept_count() as usize,
        _ => about(random, length),
    };
    match random.below(16) {
        0 => {
            let kind = random.word() % KINDS;
            writes::write(index, 0, kind, &objects::encoding(random, kind, 4))
        }
        1 if length > 0 => {
            let element = 1 + random.below(length) as u8;
            writes::write(index, element, UNSIGNED64, &mappings::word(random).to_le_bytes())
        }
        _ => writes::write(index, 0, UNSIGNED8, &[count as u8]),
    }
}

/// Lays a kept count that is too large, or stands just at the length.
pub fn damage(random: &mut Random, object: &mut Object) {
    let length = object.values.len() as u64;
    let any = random.word();
    let count =
        random.pick(&[length + 1, length + 1, length, 255, 256 + length, 1 << 32, 1 << 63, any]);
    object.keep(count);
}
