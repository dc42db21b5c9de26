//! The stored histories of writes, saves and count checks, with stores of several lengths; like those
//! of histories.rs, which have no store. recovery.rs has the restores.

use super::lines::{Lines, STORE_BYTES};
use super::recovery;
use super::said::{any_call, any_store, any_write, insert_all, is_short, until};
use crate::dictionary::generators::dictionaries::{image_length, mapped, mixed};
use crate::dictionary::generators::mappings;
use crate::dictionary::generators::objects::{self, Sizes, rising};
use crate::dictionary::generators::writes::{self, write};
use crate::dictionary::model::layout::*;
use crate::dictionary::model::step::Call;
use crate::dictionary::runs::goals::lacking_stored;
use crate::inputs::{damaged, text};
use crate::original::{KINDS, UNICODE_STRING, VISIBLE_STRING};
use crate::random::Random;

/// Never changed: the printed list is the same at every run.
const SEED: u64 = 303;

const UNSIGNED8: u64 = 5;
const UNSIGNED16: u64 = 6;

pub fn print() {
    let random = &mut Random::new(SEED);
    let mut lines = Lines::new(STORE_BYTES);
    // Zeros are no dictionary.
    each_write(&mut lines, random, &[]);
    types(&mut lines, random);
    accesses(&mut lines, random);
    counts(&mut lines, random);
    saves(&mut lines, random);
    for _ in 0..4 {
        mapping_mixture(&mut lines, random);
        mixture(&mut lines, random);
    }
    damage(&mut lines, random);
    // With numbers of its own, so that it stays as it is where what stands before it changes.
    recovery::all(&mut lines, &mut Random::new(SEED + 1));
    no_values(&mut lines);
    let lacking = lacking_stored(&lines.tally);
    assert!(lacking.is_empty(), "the lines lack {lacking:?}");
    print!("{}", lines.finish());
}

/// Each sort of write, and a count check.
fn each_write(lines: &mut Lines, random: &mut Random, objects: &[Object]) {
    let made = until(|| {
        let calls = writes::each(random, objects);
        calls.iter().all(is_short).then_some(calls)
    });
    made.into_iter().for_each(|call| lines.call(call));
}

/// Each type in a Variable or a Record: written anew, as long as its room and longer, damaged, and
/// by a value of another type; and read.
fn types(lines: &mut Lines, random: &mut Random) {
    for first in [0, 7, 14] {
        lines.begin();
        for (index, kind) in (0x2000..).zip(first..first + 7) {
            let mut value = objects::value_of(random, kind, 3);
            value.room.resize(6, 0);
            let shape = random.pick(&[VARIABLE, LAST_SHAPE]);
            lines.insert(&bare(index, shape, vec![value]));
        }
        for object in lines.objects() {
            let (index, kind) = (object.index as u16, object.values[0].kind);
            let sub_index = u8::from(object.shape != VARIABLE);
            for data in values(random, kind) {
                lines.call(write(index, sub_index, kind, &data));
                lines.read(index, sub_index);
            }
            let other = random.word() % KINDS;
            let data = objects::encoding(random, other, 4);
            lines.call(write(index, sub_index, other, &data));
            lines.call(write(index, 1 - sub_index, kind, &objects::encoding(random, kind, 4)));
        }
    }
}

/// Right ones and such as are none, or too long for a room of 6 bytes.
fn values(random: &mut Random, kind: u64) -> Vec<Vec<u8>> {
    match kind {
        VISIBLE_STRING => {
            let long = text(random, 7);
            vec![
                text(random, 6),
                long.clone(),
                Vec::new(),
                b"A\xC3".to_vec(),
                damaged(random, &long),
            ]
        }
        UNICODE_STRING => [6, 8, 7, 2, 0].map(|length| random.bytes(length)).into(),
        kind if is_string(kind) => [6, 7, 1, 0].map(|length| random.bytes(length)).into(),
        kind => {
            let right = objects::encoding(random, kind, 0);
            vec![right[1..].to_vec(), [right.as_slice(), &[0]].concat(), right]
        }
    }
}

/// Each sort of what is no value, at each sort of place: it is judged before the place.
fn no_values(lines: &mut Lines) {
    const TEXTS: [&[u8]; 9] = [
        b"ab\xFF",
        b"\xC0",
        b"abcdefgh\xED\xA0\x80",
        b"abcdef\xE2\x82\x41",
        b"\xF0\x9F\x98\x41",
        b"A\xC3",
        b"\xE2\x82",
        b"\xF4\x8F\xBF",
        b"sav\xFF",
    ];
    lines.begin();
    lines.insert(&bare(0x1600, ARRAY, vec![]));
    lines.insert(&bare(0x2000, VARIABLE, vec![Value::new(VISIBLE_STRING, 6, b"a")]));
    for (index, sub_index) in [(0x2000, 0), (0x2001, 0), (0x1010, 1), (0x1011, 1), (0x1600, 0)] {
        for text in TEXTS {
            lines.call(write(index, sub_index, VISIBLE_STRING, text));
        }
        for (kind, length) in [(UNSIGNED8, 0), (UNSIGNED16, 1), (UNSIGNED16, 3), (8, 1), (15, 5)] {
            lines.call(write(index, sub_index, kind, &vec![7; length]));
        }
    }
}

/// An object of each access: what of it is saved, its places, the count of a list, and what lies behind.
fn accesses(lines: &mut Lines, random: &mut Random) {
    lines.begin();
    for access in 0..=NO_ACCESS {
        let shape = access % (LAST_SHAPE + 1);
        let count = if shape == VARIABLE { 1 } else { 2 };
        let values = (0..count).map(|_| Value::new(UNSIGNED8, 0, &random.bytes(1))).collect();
        lines.insert(&Object { access, ..bare(0x3000 + access, shape, values) });
    }
    lines.call(writes::save(1));
    for index in 0x3000..0x3009 {
        for sub_index in [0, 1, 2, 3, 255] {
            lines.call(write(index, sub_index, UNSIGNED8, &random.bytes(1)));
        }
        lines.call(write(index, random.pick(&[0, 1]), UNSIGNED16, &random.bytes(2)));
        lines.read(index, 1);
    }
}

/// A mapping of three words and a limit about their largest end; then one that is no Array, one with
/// another value among its words, and none.
fn counts(lines: &mut Lines, random: &mut Random) {
    for limit in [0, 23, 24, 25] {
        lines.begin();
        let words = [0x0008_0000_0000_6000_u64, 0x0010_00B0_0001_6200, 0x0020_0010_0002_6200];
        let words = words.map(|word| Value::new(8, 0, &word.to_le_bytes()));
        lines.insert(&bare(0x1600, ARRAY, words.to_vec()));
        lines.insert(&Object { access: 0, ..bare(0x1AFF, ARRAY, words.to_vec()) });
        lines.insert(&bare(0x16FF, LAST_SHAPE, words.to_vec()));
        let number = Value::new(UNSIGNED8, 0, &[9]);
        let limits: Vec<Value> =
            [24, limit].map(|limit: u16| Value::new(UNSIGNED16, 0, &limit.to_le_bytes())).into();
        lines.insert(&bare(0x1A00, ARRAY, vec![words[0].clone(), number.clone()]));
        lines.insert(&bare(0x1A01, VARIABLE, vec![number]));
        if limit > 0 {
            lines.insert(&bare(0x1F98, ARRAY, limits));
        }
        for index in [0x1600, 0x16FF, 0x1A00, 0x1A01, 0x1AFF, 0x1601, 0x1700] {
            for count in [0, 1, 2, 3, 4] {
                lines.call(match random.below(3) {
                    0 => Call::ValidatePdoMapping { index, count },
                    _ => write(index, 0, UNSIGNED8, &[count]),
                });
            }
        }
        lines.call(write(0x1600, 0, UNSIGNED16, &[0, 0]));
    }
}

/// Objects at both ends of what each list saves and just beside them, all with access to be saved.
fn lists(lines: &mut Lines, random: &mut Random) {
    lines.begin();
    for index in [0x0FFF, 0x1000, 0x1FFF, 0x2000, 0x5FFF, 0x6000, 0x9FFF, 0xA000] {
        let shape = random.word() % (LAST_SHAPE + 1);
        let count = if shape == VARIABLE { 1 } else { 1 + random.below(2) };
        let values = (0..count).map(|_| objects::value(random, 4)).collect();
        let access = random.pick(&[2, 4]);
        lines.insert(&Object { access, ..bare(index, shape, values) });
    }
}

/// Saves into no store, the least, just enough, one byte less and more; then all sorts of signatures.
fn saves(lines: &mut Lines, random: &mut Random) {
    lists(lines, random);
    let objects = lines.objects();
    for list in 1..=3 {
        let exact = image_length(&objects, list);
        for store in [exact + 1, 0, 1, 2, exact - 1, exact] {
            lines.lend(store);
            lines.call(writes::save(list));
        }
    }
    for list in [0, 4, 1, 255, 1] {
        lines.lend(STORE_BYTES);
        lines.call(writes::save(list));
    }
    for _ in 0..60 {
        lines.lend(random.pick(&[0, 1, 2, 300, STORE_BYTES]));
        lines.call(until(|| Some(writes::command(random)).filter(is_short)));
    }
}

/// Mappings, their limits, and counts of them.
fn mapping_mixture(lines: &mut Lines, random: &mut Random) {
    let objects = rising(mapped(random, 3));
    insert_all(lines, &objects);
    for _ in 0..16 {
        any_write(lines, random, &objects);
    }
    let word = mappings::word(random).to_le_bytes();
    lines.call(write(objects[0].index as u16, 1, 8, &word));
}

fn mixture(lines: &mut Lines, random: &mut Random) {
    let objects = mixed(random, Sizes { longest: 8, elements: 3 });
    insert_all(lines, &objects);
    for _ in 0..24 {
        if random.below(4) == 0 {
            lines.lend(any_store(random, &objects));
        }
        match random.below(4) {
            0 => any_call(lines, random, &objects),
            _ => any_write(lines, random, &objects),
        }
    }
}

/// A dictionary is judged before anything is written or saved.
fn damage(lines: &mut Lines, random: &mut Random) {
    lines.lend(STORE_BYTES);
    for (slice, at, new, old) in [(0, 3, 3, 1), (0, 4, 1, 0)] {
        lines.put(slice, at, new);
        let objects = [bare(0x1600, VARIABLE, vec![Value::new(UNSIGNED8, 0, &[1])])];
        each_write(lines, random, &objects);
        lines.call(writes::save(1));
        lines.put(slice, at, old);
        lines.call(writes::save(1));
    }
}
