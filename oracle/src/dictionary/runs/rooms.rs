//! Restores of every type over every other, of strings as long as their rooms and one byte longer,
//! and of the largest table and the largest dictionary.

use super::saves::{BODIES, RECORDS, saved};
use super::trial::Trial;
use crate::dictionary::generators::objects;
use crate::dictionary::generators::restores;
use crate::dictionary::generators::writes;
use crate::dictionary::model::image::{self, Record};
use crate::dictionary::model::layout::*;
use crate::dictionary::model::memory::Lent;
use crate::dictionary::model::step::{History, Step};
use crate::original::KINDS;
use crate::random::Random;

const OCTET_STRING: u64 = 12;
const UNSIGNED64: u64 = 8;
const ERROR_HISTORY: u64 = 0x1003;

pub fn compare(trial: &mut Trial, random: &mut Random) {
    for kind in 0..KINDS {
        trial.compare(over_every_type(random, kind));
    }
    for _ in 0..100 {
        too_long(trial, random);
    }
    for _ in 0..6 {
        for (values, records) in [(RECORDS, RECORDS), (MOST_VALUES, RECORDS), (MOST_VALUES, 700)] {
            trial.compare(largest(random, values, records));
        }
    }
}

fn object(index: u64, shape: u64, values: Vec<Value>, default: Option<Value>) -> Object {
    Object { access: 4, default, ..bare(index, shape, values) }
}

/// The records of all values, whatever the access.
pub fn table(objects: &[Object]) -> Vec<Record> {
    let mut records = Vec::new();
    for object in objects {
        let first = u8::from(object.shape != VARIABLE);
        records.extend(object.values.iter().zip(first..=u8::MAX).map(|(value, sub_index)| {
            Record {
                index: object.index as u16,
                sub_index,
                kind: value.kind as u8,
                body: value.encoding(),
            }
        }));
    }
    records
}

/// A Variable of each type and a list of all types, with a default of the one type; then a record of
/// it over each. Rooms have 8 bytes, which do not become others behind what is put.
fn over_every_type(random: &mut Random, kind: u64) -> History {
    let value = |random: &mut Random, kind| {
        let mut value = objects::value_of(random, kind, 8);
        value.room.resize(8, 0xFF);
        value
    };
    let mut all: Vec<Object> = Vec::new();
    for (index, old) in (0x6000..).zip(0..KINDS) {
        let default = objects::default_of(random, kind, 6);
        all.push(object(index, VARIABLE, vec![value(random, old)], Some(default)));
    }
    for (index, shape) in [(0x7000, ARRAY), (0x7001, LAST_SHAPE)] {
        let values = (0..KINDS).map(|old| value(random, old)).collect();
        all.push(object(index, shape, values, Some(objects::default_of(random, kind, 6))));
    }
    let mut stored = all.clone();
    for value in stored.iter_mut().flat_map(|object| &mut object.values) {
        *value = objects::value_of(random, kind, 5);
    }
    let image = image::of(&table(&stored));
    let lengths = Used::of(&all).lengths();
    let first = Lent { at_start: random.below(2) == 0, lengths, store: image.len() };
    let restore = || Step::Call(restores::everything());
    let steps = vec![
        Step::Store(vec![0; 2]),
        Step::Lay(all.clone()),
        restore(),
        // The elements now have the default's type only where they had it before.
        restore(),
        Step::Store(image),
        Step::Lay(all),
        restore(),
        // An empty table: each element has the default's type by now.
        Step::Call(writes::save(4)),
        restore(),
    ];
    History { first, steps }
}

/// Lists of numbers, and a string in one place: the first, the last or any, whose record or default
/// is as long as its room, or one byte longer; or it is the error history's, which is not judged.
/// Half the times the default of a Variable behind them, which has no record, is too long as well.
fn too_long(trial: &mut Trial, random: &mut Random) {
    let mut all: Vec<Object> = [0x1000, ERROR_HISTORY, 0x1004, 0x6000]
        .map(|index| {
            let values = (0..3).map(|_| objects::value_of(random, UNSIGNED64, 4)).collect();
            object(index, random.pick(&[ARRAY, LAST_SHAPE]), values, None)
        })
        .into();
    let row = random.pick(&[0, 0, 1, 2, 3, 3]);
    let place = random.pick(&[0, 1, 2]);
    let room = random.below(20);
    let kind = random.pick(&[OCTET_STRING, 14]);
    let stored = room + random.pick(&[0, 1, 1, 2, 1491]);
    let default = room + random.pick(&[0, 1, 1]);
    all[row].values[place] = Value::new(kind, room, &random.bytes(room / 2));
    let mut records = table(&all);
    for record in &mut records {
        record.body = random.bytes(record.body.len());
    }
    records[3 * row + place].body = random.bytes(stored);
    if random.below(2) == 0 {
        all[row].default = Some(Value::new(kind, default, &random.bytes(default)));
    }
    // Without its record the default counts.
    if random.below(3) == 0 {
        records.remove(3 * row + place);
    }
    if random.below(2) == 0 {
        let [old, default] = [2, 3].map(|length| Value::new(kind, length, &random.bytes(length)));
        all.push(object(0x6001, VARIABLE, vec![old], Some(default)));
    }
    let image = image::of(&records);
    let lengths = Used::of(&all).lengths();
    let first = Lent { at_start: random.below(2) == 0, lengths, store: image.len() };
    let mut steps = vec![Step::Store(image)];
    let index = all[row].index as u16;
    for (from, to) in [(0, 0xFFFF), (index, index), (0, index - 1), (index + 1, 0xFFFF)] {
        steps.push(Step::Lay(all.clone()));
        steps.push(Step::Call(restores::range(from, to)));
    }
    trial.compare(History { first, steps });
}

/// A table of 16,384 bytes over a dictionary that has other values, and as many of them as given.
/// The store has just the image, one byte less and more.
fn largest(random: &mut Random, values: usize, records: usize) -> History {
    // Strings enough for all bytes that are not the numbers'.
    let numbers = random.below(records - 12);
    let mut objects = saved(random, records, BODIES, numbers);
    let image = image::of(&table(&objects));
    let default = Value::new(OCTET_STRING, 1, &[7]);
    let mut index = objects.last().map_or(0, |object| object.index + 1);
    let mut left = values - records;
    while left > 0 {
        let count = left.min(MOST_ELEMENTS);
        let numbers = (0..count).map(|_| Value::new(UNSIGNED64, 0, &random.bytes(8))).collect();
        objects.push(object(index, ARRAY, numbers, None));
        (index, left) = (index + 1, left - count);
    }
    // Some have a default, where there is a value and a byte for it.
    if values < MOST_VALUES {
        objects[0].default = Some(default);
    }
    for value in objects.iter_mut().flat_map(|object| &mut object.values) {
        let length = if is_string(value.kind) { random.below(value.room.len() + 1) } else { 8 };
        *value = Value::new(value.kind, value.room.len(), &random.bytes(length));
    }
    let lengths = Used::of(&objects).lengths();
    let mut lent = Lent { at_start: false, lengths, store: image.len() + 1 };
    let first = lent;
    let mut steps = Vec::new();
    for store in [image.len(), image.len() - 1, image.len() + 1] {
        lent = Lent { at_start: !lent.at_start, store, ..lent };
        steps.push(Step::Lend(lent));
        steps.push(Step::Store(image[..store.min(image.len())].to_vec()));
        steps.push(Step::Lay(objects.clone()));
        let objects = &objects;
        steps.push(Step::Call(restores::any(random, objects)));
        steps.push(Step::Call(restores::everything()));
    }
    History { first, steps }
}
