//! Random objects that keep the rules.

use crate::dictionary::model::layout::*;
use crate::inputs::{patterns, text};
use crate::original::{KINDS, UNICODE_STRING, VISIBLE_STRING, size};
use crate::random::Random;

pub const CONFIGURED_NODES: u16 = 0x1F81;
pub const UNSIGNED32: u64 = 7;

/// Indices with a meaning somewhere, and the ends.
const INDICES: [u16; 10] =
    [0, 1, 0x1003, 0x1010, 0x1600, CONFIGURED_NODES, 0x1F98, 0x6200, 0xFFFE, 0xFFFF];

/// Few indices and names, so that they repeat.
pub struct Pool {
    pub indices: Vec<u16>,
    pub names: Vec<Vec<u8>>,
}

impl Pool {
    pub fn new(random: &mut Random, count: usize) -> Self {
        let indices = (0..count).map(|_| match random.below(3) {
            0 => random.pick(&INDICES),
            _ => random.word() as u16,
        });
        let mut indices: Vec<u16> = indices.collect();
        if random.below(2) == 0 {
            indices[0] = CONFIGURED_NODES;
        }
        let mut names = vec![Vec::new(), text(random, LONGEST_NAME)];
        for _ in 0..count / 2 {
            let length = random.below(LONGEST_NAME + 1);
            names.push(text(random, length));
        }
        Self { indices, names }
    }

    pub fn index(&self, random: &mut Random) -> u16 {
        random.pick(&self.indices)
    }

    pub fn name(&self, random: &mut Random) -> Vec<u8> {
        self.names[random.below(self.names.len())].clone()
    }
}

/// How large the values of an object become.
#[derive(Clone, Copy)]
pub struct Sizes {
    pub longest: usize,
    pub elements: usize,
}

pub fn object(random: &mut Random, pool: &Pool, sizes: Sizes) -> Object {
    let index = pool.index(random);
    let shape = random.word() % (LAST_SHAPE + 1);
    let elements = if shape == VARIABLE { 1 } else { elements(random, sizes.elements) };
    let nodes = index == CONFIGURED_NODES && random.below(4) > 0;
    Object {
        index: index.into(),
        shape: if nodes { ARRAY } else { shape },
        access: random.word() % (NO_ACCESS + 1),
        name: pool.name(random),
        values: (0..elements).map(|_| element(random, sizes.longest, nodes)).collect(),
        default: (random.below(3) == 0).then(|| default(random, sizes.longest)),
        range: Range::NONE,
        kept: None,
    }
}

/// The most, one less, none, one, or any number.
fn elements(random: &mut Random, most: usize) -> usize {
    match random.below(8) {
        0 => most,
        1 => most - 1,
        2 => random.below(2),
        _ => random.below(most + 1),
    }
}

/// Of a list of nodes most elements are assignments, whose bits 0 and 8 count.
fn element(random: &mut Random, longest: usize, nodes: bool) -> Value {
    if nodes && random.below(6) > 0 {
        let others = random.word() as u32 & !0x101;
        let bits = random.pick(&[1, 1, 1, 0, 0x100, 0x101]) | others;
        return Value::new(UNSIGNED32, 0, &bits.to_le_bytes());
    }
    value(random, longest)
}

pub fn value(random: &mut Random, longest: usize) -> Value {
    let kind = kind(random);
    value_of(random, kind, longest)
}

pub fn value_of(random: &mut Random, kind: u64, longest: usize) -> Value {
    let encoding = encoding(random, kind, longest);
    let string = if is_string(kind) { encoding.len() } else { 0 };
    let spare = match random.below(8) {
        0 => random.below(longest + 1),
        1 => 1,
        2 if longest == LARGEST_ROOM => LARGEST_ROOM,
        _ => 0,
    };
    Value::new(kind, (string + spare).min(LARGEST_ROOM), &encoding)
}

fn default(random: &mut Random, longest: usize) -> Value {
    let kind = kind(random);
    default_of(random, kind, longest)
}

/// Its room is just its bytes.
pub fn default_of(random: &mut Random, kind: u64, longest: usize) -> Value {
    let encoding = encoding(random, kind, longest);
    Value::new(kind, if is_string(kind) { encoding.len() } else { 0 }, &encoding)
}

/// Every type, and those that have a read of their own more often.
fn kind(random: &mut Random) -> u64 {
    match random.below(3) {
        0 => random.pick(&[5, 6, 7, 7, 8]),
        _ => random.word() % KINDS,
    }
}

pub fn encoding(random: &mut Random, kind: u64, longest: usize) -> Vec<u8> {
    if let Some(size) = size(kind) {
        let patterns = patterns(size);
        return match random.below(2) {
            0 => patterns[random.below(patterns.len())].clone(),
            _ => random.bytes(size),
        };
    }
    let length = match random.below(4) {
        0 => 0,
        1 => longest,
        _ => random.below(longest + 1),
    };
    match kind {
        VISIBLE_STRING => text(random, length),
        UNICODE_STRING => random.bytes(length / 2 * 2),
        _ => random.bytes(length),
    }
}

/// By index, each index once.
pub fn rising(mut objects: Vec<Object>) -> Vec<Object> {
    objects.sort_by_key(|object| object.index);
    objects.dedup_by_key(|object| object.index);
    objects
}

/// Objects that together use just so much: lists with rising indices. There
/// must be room for it: 254 values a list, 1,490 bytes a value, 32 a name where
/// a list has no value.
pub fn using(random: &mut Random, used: Used) -> Vec<Object> {
    let mut objects: Vec<Object> = (0..used.objects as u64).map(|row| empty_list(row)).collect();
    for _ in 0..used.values {
        let object = loop {
            let row = random.below(objects.len());
            if objects[row].values.len() < MOST_ELEMENTS {
                break &mut objects[row];
            }
        };
        object.values.push(Value::new(UNSIGNED32, 0, &[1, 0, 0, 0]));
    }
    let mut left = used.bytes;
    while left > 0 {
        let row = random.below(objects.len());
        let more = 1 + random.below(400);
        left -= grow(random, &mut objects[row], more.min(left));
    }
    objects
}

fn empty_list(row: u64) -> Object {
    bare(0x1000 + 3 * row, 1 + row % 2, vec![])
}

/// Takes up to so many bytes more: in a room, or in the name where there is no value.
fn grow(random: &mut Random, object: &mut Object, bytes: usize) -> usize {
    if object.values.is_empty() {
        let more = bytes.min(LONGEST_NAME - object.name.len());
        object.name.resize(object.name.len() + more, b'n');
        return more;
    }
    let place = random.below(object.values.len());
    let room = &mut object.values[place].room;
    let more = bytes.min(LARGEST_ROOM - room.len());
    room.resize(room.len() + more, 0x80);
    more
}
