//! Random dictionaries: of any sort, with mappings, and as another version of a device has them.

use super::mappings;
use super::objects::{self, Pool, Sizes, rising};
use crate::dictionary::model::image;
use crate::dictionary::model::layout::*;
use crate::inputs::text;
use crate::original::{UNICODE_STRING, VISIBLE_STRING};
use crate::random::Random;

/// Long strings, or long lists.
pub const LARGER: [Sizes; 3] = [
    Sizes { longest: LARGEST_ROOM, elements: 3 },
    Sizes { longest: 200, elements: 12 },
    Sizes { longest: 2, elements: MOST_ELEMENTS },
];

/// Both ends of what the lists 2 and 3 save, and places with a meaning.
const INDICES: [u16; 12] = [
    0x0FFF, 0x1000, 0x1FFF, 0x2000, 0x5FFF, 0x6000, 0x9FFF, 0xA000, 0x1003, 0x1010, 0x1011, 0x1F81,
];

/// Objects of any sort, of which half may be saved; mappings among them.
pub fn mixed(random: &mut Random, sizes: Sizes) -> Vec<Object> {
    let mut pool = Pool::new(random, 8);
    for place in 0..6 {
        pool.indices[place] = random.pick(&INDICES);
    }
    let count = random.below(8);
    let mut all: Vec<Object> = (0..count).map(|_| objects::object(random, &pool, sizes)).collect();
    for object in &mut all {
        if random.below(2) == 0 {
            object.access = random.pick(&[2, 3, 4, 4]);
        }
    }
    if random.below(2) == 0 {
        all.extend(mapped(random, 4));
    }
    rising(all)
}

/// Mappings and, most times, their limits.
pub fn mapped(random: &mut Random, most: usize) -> Vec<Object> {
    let mut all: Vec<Object> =
        (0..1 + random.below(3)).map(|_| mappings::mapping(random, most)).collect();
    if random.below(4) > 0 {
        all.push(mappings::limits(random, &all));
    }
    all
}

/// Bytes of the image of a list, as the objects are.
pub fn image_length(objects: &[Object], list: u8) -> usize {
    let is_saved = |object: &&Object| match list {
        _ if !matches!(object.access, 2 | 4) => false,
        1 => true,
        2 => matches!(object.index, 0x1000..=0x1FFF),
        _ => matches!(object.index, 0x6000..=0x9FFF),
    };
    let values: Vec<&Value> = objects.iter().filter(is_saved).flat_map(|o| &o.values).collect();
    image::length(values.len(), values.iter().map(|value| value.encoding().len()).sum())
}

/// Most objects are saved, and half have a default for one of their values.
pub fn saved(random: &mut Random, sizes: Sizes) -> Vec<Object> {
    let mut all = mixed(random, sizes);
    for object in &mut all {
        if random.below(4) > 0 {
            object.access = random.pick(&[2, 4]);
        }
        redefault(random, object);
    }
    all
}

/// Half of them get a default of the type of one of their values, as long as its room or about that.
fn redefault(random: &mut Random, object: &mut Object) {
    if object.values.is_empty() || random.below(2) == 0 {
        return;
    }
    let value = &object.values[random.below(object.values.len())];
    let room = value.room.len();
    let length = match random.below(6) {
        0 => room + 1,
        1 | 2 => room,
        _ => random.below(room + 1),
    };
    let encoding = match value.kind {
        VISIBLE_STRING => text(random, length.min(LARGEST_ROOM)),
        UNICODE_STRING => random.bytes(length.min(LARGEST_ROOM) / 2 * 2),
        kind if is_string(kind) => random.bytes(length.min(LARGEST_ROOM)),
        kind => objects::encoding(random, kind, 0),
    };
    let room = if is_string(value.kind) { encoding.len() } else { 0 };
    object.default = Some(Value::new(value.kind, room, &encoding));
}

/// The objects as another version of a device has them.
pub fn varied(random: &mut Random, objects: &[Object], sizes: Sizes) -> Vec<Object> {
    let mut all = objects.to_vec();
    all.retain(|_| random.below(12) > 0);
    for object in &mut all {
        for value in &mut object.values {
            match random.below(6) {
                0 | 1 => *value = objects::value(random, sizes.longest),
                2 => *value = objects::value_of(random, value.kind, sizes.longest),
                3 => resize(random, value),
                _ => {}
            }
        }
        match random.below(12) {
            0 if object.values.len() < sizes.elements && object.shape != VARIABLE => {
                object.values.push(objects::value(random, sizes.longest));
            }
            1 if object.shape != VARIABLE => drop(object.values.pop()),
            2 if object.values.len() == 1 => object.shape = random.pick(&[VARIABLE, ARRAY]),
            3 => object.default = None,
            4 | 5 => redefault(random, object),
            _ => {}
        }
    }
    all
}

/// Another room, with other bytes behind the value.
fn resize(random: &mut Random, value: &mut Value) {
    let used = if is_string(value.kind) { value.word as usize } else { 0 };
    let room = used + random.pick(&[0, 0, 1, 2, 9]);
    value.room.resize(room.min(LARGEST_ROOM), 0);
    value.room[used..].fill_with(|| random.pick(&[0x80, 0xFF, 0x00, 0xC3]));
}
