//! The stored histories: never changed, so that they can be replayed without
//! the Rust. Each part says what it is for.

use super::damage;
use super::lines::{LENT, Lines, sayable};
use super::said::{SMALL, any_call, each_call, until};
use crate::dictionary::generators::calls;
use crate::dictionary::generators::objects::{
    self, CONFIGURED_NODES, Pool, Sizes, UNSIGNED32, using,
};
use crate::dictionary::generators::spoil::spoil;
use crate::dictionary::model::insertion::Insertion;
use crate::dictionary::model::layout::*;
use crate::dictionary::model::step::{Call, WIDTHS};
use crate::inputs::{damaged, text};
use crate::original::{KINDS, UNICODE_STRING, VISIBLE_STRING, size};
use crate::random::Random;
use std::collections::BTreeSet;

/// Never changed: the printed list is the same at every run.
const SEED: u64 = 302;

const RECORD: u64 = LAST_SHAPE;
const UNSIGNED8: u64 = 5;
const MAC_ADDRESS: u64 = 19;

const MOST_LENT_VALUES: usize = LENT[2];
const MOST_LENT_BYTES: usize = LENT[3];

pub fn print() {
    let random = &mut Random::new(SEED);
    let mut lines = Lines::new(0);
    // Zeros are no dictionary.
    each_call(&mut lines, random, &[]);
    kinds(&mut lines, random);
    lists(&mut lines, random);
    full_by_objects(&mut lines, random);
    full_by_bytes(&mut lines, random);
    bad_values(&mut lines, random);
    nodes(&mut lines, random);
    counters(&mut lines, random);
    for _ in 0..5 {
        mixture(&mut lines, random);
    }
    damage::each_rule(&mut lines, random);
    damage::unseen(&mut lines, random);
    print!("{}", lines.finish());
}

/// An index that is not taken.
fn free_index(lines: &Lines, random: &mut Random) -> u64 {
    let taken = lines.objects();
    until(|| {
        let index = u64::from(random.word() as u16);
        taken.iter().all(|object| object.index != index).then_some(index)
    })
}

/// Each kind with each access, each type as a value and as a default, short and
/// long names, one of them twice; then every place and every name of it.
fn kinds(lines: &mut Lines, random: &mut Random) {
    let mut first = 0;
    for round in 0..=LAST_SHAPE {
        lines.begin();
        let twice = text(random, 5);
        for (access, length) in (0..=NO_ACCESS).zip([0, 1, 2, 5, 5, 31, LONGEST_NAME, 0]) {
            let shape = (access + round) % (LAST_SHAPE + 1);
            let elements = if shape == VARIABLE { 1 } else { 3 };
            let kinds = (first..first + elements).map(|kind| kind % KINDS);
            first += elements;
            let of_default = (8 * round + access) % KINDS;
            let object = Object {
                index: free_index(lines, random),
                shape,
                access,
                name: if length == 5 { twice.clone() } else { text(random, length) },
                values: kinds.map(|kind| objects::value_of(random, kind, 8)).collect(),
                default: Some(objects::default_of(random, of_default, 8)),
                range: Range::NONE,
                kept: None,
            };
            lines.insert(&object);
        }
        let objects = lines.objects();
        objects.iter().for_each(|object| all_of(lines, random, object));
    }
}

/// Every place of an object and the one behind; typed reads of the right and another type;
/// its name, and names like it.
fn all_of(lines: &mut Lines, random: &mut Random, object: &Object) {
    let index = object.index as u16;
    let first = if object.shape == VARIABLE { 0 } else { 1 };
    for sub_index in 0..=(first + object.values.len()) as u8 {
        lines.read(index, sub_index);
        let value = usize::from(sub_index).checked_sub(first).and_then(|k| object.values.get(k));
        let kind = value.map(|value| value.kind);
        let other = random.pick(&WIDTHS);
        let widths = WIDTHS.into_iter().filter(|width| Some(width.kind()) == kind);
        for width in widths.chain([other]) {
            lines.call(Call::ReadNumber { width, index, sub_index });
        }
    }
    let longer = [object.name.as_slice(), b"x"].concat();
    for name in [object.name.clone(), damaged(random, &object.name), longer] {
        lines.call(Call::FindByName(name));
    }
}

fn bytes_of(random: &mut Random, count: usize) -> Vec<Value> {
    (0..count).map(|_| Value::new(UNSIGNED8, 0, &random.bytes(1))).collect()
}

/// Lists of no element, one, 253 and 254; and all values that fit.
fn lists(lines: &mut Lines, random: &mut Random) {
    lines.begin();
    for (count, index) in [253, 0, 1].into_iter().zip(0x2000..) {
        lines.insert(&bare(index, ARRAY + index % 2, bytes_of(random, count)));
        ends(lines, index, count);
    }
    rest_of_values(lines, random);
    lines.begin();
    let node = |random: &mut Random| {
        let word = random.word() as u32 & !0x101 | 1;
        Value::new(UNSIGNED32, 0, &word.to_le_bytes())
    };
    let nodes = (0..MOST_ELEMENTS).map(|_| node(random)).collect();
    lines.insert(&bare(CONFIGURED_NODES.into(), ARRAY, nodes));
    ends(lines, CONFIGURED_NODES.into(), MOST_ELEMENTS);
    for out in [0, MOST_ELEMENTS - 1, MOST_ELEMENTS] {
        lines.call(Call::GetConfiguredCns(out));
    }
    rest_of_values(lines, random);
    lines.insert(&bare(0x3000, RECORD, bytes_of(random, MOST_ELEMENTS + 1)));
}

fn ends(lines: &mut Lines, index: u64, count: usize) {
    let subs = BTreeSet::from([0, 1, count.saturating_sub(1), count, count + 1, 255]);
    subs.into_iter().for_each(|sub_index| lines.read(index as u16, sub_index as u8));
}

/// One value more than fits, just as many, then one more; a list of none always fits.
fn rest_of_values(lines: &mut Lines, random: &mut Random) {
    let rest = MOST_LENT_VALUES - Used::of(&lines.objects()).values;
    for count in [rest + 1, rest, 1, 0] {
        let index = free_index(lines, random);
        lines.insert(&bare(index, RECORD, bytes_of(random, count)));
        lines.read(index as u16, count as u8);
    }
}

/// Eight objects, then others before, between and behind them; and what is answered before Full.
fn full_by_objects(lines: &mut Lines, random: &mut Random) {
    lines.begin();
    for index in [0x6000, 0xFFFF, 0x1000, 0, 0xFFFE, 0x1002, 0x5FFF, 0x7000] {
        lines.insert(&bare(index, ARRAY + index % 2, Vec::new()));
    }
    for index in [0xFFFD, 1, 0x1001, 0x1002, 0xFFFF, 0] {
        lines.insert(&bare(index, ARRAY, Vec::new()));
        lines.insert(&bare(index, VARIABLE, Vec::new()));
        let objects = lines.objects();
        any_call(lines, random, &objects);
    }
}

/// All bytes but ten, then an object that takes one more, just these, and one more again.
fn full_by_bytes(lines: &mut Lines, random: &mut Random) {
    lines.begin();
    let before = Used { objects: 3, values: 4, bytes: MOST_LENT_BYTES - 10 };
    using(random, before).iter().for_each(|object| lines.insert(object));
    for (values, bytes) in [(1, 11), (0, 11), (1, LARGEST_ROOM), (1, 10), (1, 1), (0, 1), (0, 0)] {
        let mut object = using(random, Used { objects: 1, values, bytes }).remove(0);
        object.index = free_index(lines, random);
        lines.insert(&object);
        let objects = lines.objects();
        any_call(lines, random, &objects);
    }
}

/// The rules of R6.3, but for 255 elements, which is among the lists; each with the parts that are
/// told apart.
const BAD_VALUES: [&[&str]; 15] = [
    &["kind"],
    &["access"],
    &["has_default"],
    &["name too long"],
    &["name not UTF-8"],
    &["numbers not by three"],
    &["no value for the default"],
    &["not one value"],
    &["type", "default's type"],
    &["room", "default's room"],
    &["byte count", "not UTF-8", "odd", "default's byte count", "default not UTF-8", "default odd"],
    &["longer than its room", "default longer than its room"],
    &["default's room not its length"],
    &["bytes missing"],
    &["bytes left over"],
];

/// Each rule for a given object broken twice, then the object as it should be.
fn bad_values(lines: &mut Lines, random: &mut Random) {
    lines.begin();
    let pool = Pool::new(random, 10);
    for rule in BAD_VALUES {
        for _ in 0..2 {
            lines.call(until(|| {
                let mut given = Insertion::of(&objects::object(random, &pool, SMALL));
                spoil(random, &mut given);
                let broken = given.object().is_err_and(|broken| rule.contains(&broken))
                    && given.encodings.len() < 60;
                Some(Call::Insert(given)).filter(|call| broken && sayable(call))
            }));
        }
        lines.insert(&objects::object(random, &pool, SMALL));
    }
    wrong_encodings(lines);
}

/// Each way in which bytes are no encoding, of a value and of a default.
fn wrong_encodings(lines: &mut Lines) {
    let one_short_one_long = [(UNSIGNED32, 3), (UNSIGNED32, 5), (MAC_ADDRESS, 5), (MAC_ADDRESS, 7)];
    let numbers = one_short_one_long.map(|(kind, length)| (kind, vec![1; length]));
    let strings = [(VISIBLE_STRING, vec![b'A', 0xC3]), (UNICODE_STRING, vec![1; 3])];
    for (kind, encodings) in numbers.into_iter().chain(strings) {
        let length = encodings.len() as u64;
        let room = if is_string(kind) { length } else { 0 };
        let numbers = vec![kind, room, length];
        let mut given = Insertion { index: 0x4000, numbers, encodings, ..Insertion::default() };
        lines.call(Call::Insert(given.clone()));
        (given.shape, given.has_default) = (ARRAY, 1);
        lines.call(Call::Insert(given));
    }
}

/// Lists with nodes and others between them, and a Record, which is no such list, into any number of bytes.
fn nodes(lines: &mut Lines, random: &mut Random) {
    let pool = Pool { indices: vec![CONFIGURED_NODES], names: vec![Vec::new()] };
    for shape in [ARRAY, ARRAY, ARRAY, RECORD] {
        lines.begin();
        lines.call(Call::GetConfiguredCns(0));
        let list = until(|| {
            let list = objects::object(random, &pool, Sizes { longest: 4, elements: 7 });
            (list.shape == shape && calls::nodes(&list) > 1).then_some(list)
        });
        lines.insert(&list);
        for out in [0, 1, 2, 3, 4, 5, 6, 7, 255] {
            lines.call(Call::GetConfiguredCns(out));
        }
    }
}

/// The greatest numbers as Variable, in a Record and in an Array, counted up at places that are
/// there and others; some twice.
fn counters(lines: &mut Lines, random: &mut Random) {
    lines.begin();
    let last = |kind| Value::new(kind, 0, &vec![0xFF; size(kind).expect("it is a number")]);
    let values = || WIDTHS.map(|width| last(width.kind())).to_vec();
    lines.insert(&bare(0x1C00, VARIABLE, vec![last(UNSIGNED32)]));
    lines.insert(&bare(0x1C01, VARIABLE, vec![last(UNSIGNED8)]));
    lines.insert(&bare(0x1C02, RECORD, values()));
    lines.insert(&bare(0x1C03, ARRAY, values()));
    lines.insert(&bare(0x1C04, RECORD, vec![objects::value_of(random, 12, 4), last(UNSIGNED32)]));
    for index in 0x1C00..=0x1C05 {
        for sub_index in [0, 1, 2, 3, 3, 5, 255, 0, 2] {
            lines.call(Call::IncrementCounter { index, sub_index });
            lines.read(index, sub_index);
        }
    }
}

/// Right and spoiled insertions with all other calls between them.
fn mixture(lines: &mut Lines, random: &mut Random) {
    lines.begin();
    let pool = Pool::new(random, 10);
    for _ in 0..10 {
        let object = objects::object(random, &pool, Sizes { longest: 10, elements: 4 });
        if random.below(3) == 0 {
            let spoiled = until(|| {
                let mut given = Insertion::of(&object);
                spoil(random, &mut given);
                let short = given.encodings.len() + given.numbers.len() < 80;
                Some(Call::Insert(given)).filter(|call| short && sayable(call))
            });
            lines.call(spoiled);
        }
        lines.insert(&object);
        let objects = lines.objects();
        for _ in 0..random.below(7) {
            any_call(lines, random, &objects);
        }
    }
}
