//! The restores among the stored histories with a store.

use super::lines::{Lines, STORE_BYTES};
use super::said::{any_call, any_store, any_write, insert_all, until};
use crate::dictionary::generators::dictionaries::{saved, varied};
use crate::dictionary::generators::objects::{self, Sizes};
use crate::dictionary::generators::restores::{self, range};
use crate::dictionary::generators::writes;
use crate::dictionary::model::image;
use crate::dictionary::model::layout::*;
use crate::dictionary::model::memory::STORE;
use crate::dictionary::runs::goals::IMAGES;
use crate::original::KINDS;
use crate::random::Random;

const OCTET_STRING: u64 = 12;
const READ_WRITE_STORE: u64 = 4;

pub fn all(lines: &mut Lines, random: &mut Random) {
    // A dictionary is judged before anything is restored, also where that is nothing.
    lines.put(0, 3, 3);
    lines.call(restores::everything());
    lines.call(range(1, 0));
    lines.put(0, 3, 1);
    lines.call(range(1, 0));
    for turn in [0, 1, 11, 14] {
        types(lines, random, turn);
    }
    error_history(lines, random);
    for (row, place) in [(0, 0), (1, 1), (2, 0)] {
        too_long(lines, random, row, place);
    }
    damage(lines, random);
    for _ in 0..6 {
        mixture(lines, random);
    }
}

fn in_room(random: &mut Random, kind: u64, room: usize) -> Value {
    let mut value = objects::value_of(random, kind, room);
    value.room.resize(room, 0);
    value
}

fn read_all(lines: &mut Lines) {
    for object in lines.objects() {
        let first = usize::from(object.shape != VARIABLE);
        for place in 0..object.values.len() {
            lines.read(object.index as u16, (first + place) as u8);
        }
    }
}

/// A list of all types, restored over a list of all types that begins with another; then the default,
/// which is of one type.
fn types(lines: &mut Lines, random: &mut Random, turn: u64) {
    let list = |random: &mut Random, turn| {
        let values = (0..KINDS).map(|kind| in_room(random, (kind + turn) % KINDS, 8)).collect();
        let default = Some(objects::default_of(random, turn % KINDS, 6));
        Object { access: READ_WRITE_STORE, default, ..bare(0x2000, ARRAY, values) }
    };
    let variable = |random: &mut Random, turn| {
        let default = Some(objects::default_of(random, (turn + 5) % KINDS, 6));
        let values = vec![in_room(random, turn % KINDS, 8)];
        Object { access: READ_WRITE_STORE, default, ..bare(0x2001, VARIABLE, values) }
    };
    lines.lend(STORE_BYTES);
    insert_all(lines, &[list(random, turn), variable(random, turn)]);
    lines.call(writes::save(1));
    // One that is not saved, so that a default is put beside what was.
    let other = Object { index: 0x2002, access: NO_ACCESS, ..variable(random, turn) };
    insert_all(lines, &[list(random, 0), variable(random, 0), other]);
    lines.call(range(0x2000, 0x2001));
    lines.call(restores::everything());
    read_all(lines);
    lines.call(writes::save(4));
    lines.call(restores::everything());
    read_all(lines);
}

/// Strings that were saved in longer rooms, and a default that is longer than any: in 1003h neither
/// is put nor judged.
fn error_history(lines: &mut Lines, random: &mut Random) {
    let mut object = |index, room: usize, length| {
        let value = Value::new(OCTET_STRING, room, &random.bytes(length));
        let default = Some(Value::new(OCTET_STRING, 9, &random.bytes(9)));
        let values = vec![value.clone(), value];
        Object { access: READ_WRITE_STORE, default, ..bare(index, ARRAY, values) }
    };
    lines.lend(STORE_BYTES);
    insert_all(lines, &[object(0x1002, 9, 3), object(0x1003, 9, 9), object(0x1004, 9, 4)]);
    lines.call(writes::save(1));
    let shorter = [object(0x1002, 9, 1), object(0x1003, 4, 2), object(0x1004, 9, 1)];
    for (first, last) in [(0x1003, 0x1003), (0x1002, 0x1003), (0x1003, 0x1004), (0, 0xFFFF)] {
        insert_all(lines, &shorter);
        lines.call(range(first, last));
        read_all(lines);
    }
    lines.call(writes::save(255));
    lines.call(range(0x1003, 0x1003));
    // Without a table the default of 9 bytes is too long nowhere else.
    lines.call(restores::everything());
    read_all(lines);
}

/// One string is longer than its room, by its record or by the default: nothing is put, unless the
/// range leaves it out.
fn too_long(lines: &mut Lines, random: &mut Random, row: usize, place: usize) {
    let mut objects = |room: usize, length: usize| {
        [0x1000, 0x1001, 0x6000].map(|index| {
            let mut value = |room, length| Value::new(OCTET_STRING, room, &random.bytes(length));
            let long = index == [0x1000, 0x1001, 0x6000][row];
            let mut values = vec![value(6, 3), value(6, 4)];
            if long {
                values[place] = value(room, length);
            }
            let default = long.then(|| value(6, 6));
            Object { access: READ_WRITE_STORE, default, ..bare(index, LAST_SHAPE, values) }
        })
    };
    let [old, new] = [objects(6, 6), objects(5, 5)];
    let index = old[row].index as u16;
    lines.lend(STORE_BYTES);
    insert_all(lines, &old);
    lines.call(writes::save(1));
    insert_all(lines, &new);
    // Its record, then its default, then neither.
    for call in [None, Some(writes::save(2)), Some(writes::save(4))] {
        call.into_iter().for_each(|call| lines.call(call));
        let (below, above) = (range(0, index - 1), range(index + 1, 0xFFFF));
        for call in [restores::everything(), range(index, index), below, above] {
            lines.call(call);
        }
        read_all(lines);
    }
}

/// Each rule of a readable image broken by one byte, and the byte mended; and bytes after which it is
/// another readable image. Every value has a default, so that it shows which of the two is put.
fn damage(lines: &mut Lines, random: &mut Random) {
    let mut object = |index, shape, kinds: &[u64]| {
        let values = kinds.iter().map(|kind| in_room(random, *kind, 8)).collect();
        let default = Some(objects::default_of(random, kinds[0], 6));
        Object { access: READ_WRITE_STORE, default, ..bare(index, shape, values) }
    };
    let objects = [
        object(0x1000, VARIABLE, &[7]),
        object(0x1004, ARRAY, &[OCTET_STRING, 13, OCTET_STRING]),
        object(0x6000, LAST_SHAPE, &[11, 11]),
        object(0x6001, VARIABLE, &[19]),
    ];
    lines.lend(STORE_BYTES);
    insert_all(lines, &objects);
    lines.call(writes::save(1));
    let image = until(|| image::read(&lines.memory().store).ok().map(|table| image::of(&table)));
    for store in [image.len() - 1, image.len(), 0, 1, 2, image.len() + 9] {
        lines.lend(store);
        lines.call(restores::everything());
    }
    for rule in IMAGES.iter().cycle().take(2 * IMAGES.len()) {
        let (at, new) = until(|| changed(lines, random, image.len(), Some(rule)));
        restore_damaged(lines, at, new);
    }
    for _ in 0..12 {
        let (at, new) = until(|| changed(lines, random, image.len(), None));
        restore_damaged(lines, at, new);
    }
    read_all(lines);
}

/// A byte of the image that, changed, breaks just this rule, or none.
fn changed(
    lines: &Lines,
    random: &mut Random,
    image: usize,
    rule: Option<&'static str>,
) -> Option<(usize, u8)> {
    let mut store = lines.memory().store.clone();
    let at = random.below(image);
    let new = match random.below(2) {
        0 => random.word() as u8,
        _ => store[at].wrapping_add(random.pick(&[1, 255, 0x40])),
    };
    store[at] = new;
    (image::read(&store).err() == rule).then_some((at, new))
}

fn restore_damaged(lines: &mut Lines, at: usize, new: u8) {
    let old = lines.memory().store[at];
    lines.put(STORE, at, new.into());
    lines.call(restores::everything());
    lines.put(STORE, at, old.into());
    lines.call(restores::everything());
}

/// Two sets of objects, of which now the one and now the other is the dictionary, with all calls.
fn mixture(lines: &mut Lines, random: &mut Random) {
    let sizes = Sizes { longest: 6, elements: 3 };
    let old = saved(random, sizes);
    let new = varied(random, &old, sizes);
    for objects in [&old, &new, &new] {
        insert_all(lines, objects);
        for turn in 0..8 {
            if random.below(4) == 0 {
                lines.lend(any_store(random, objects));
            }
            match random.below(6) {
                0 => lines.call(writes::save(random.pick(&[1, 1, 2, 3, 4]))),
                1 => any_call(lines, random, objects),
                2 => any_write(lines, random, objects),
                _ if turn < 2 => any_write(lines, random, objects),
                _ => lines.call(restores::any(random, objects)),
            }
        }
    }
}
