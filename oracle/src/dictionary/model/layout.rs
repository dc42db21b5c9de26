//! Objects as RULES.md 2, 5 and 6 describe them, how they lie in the four
//! slices, and what an insertion is given. Written from the rules alone.

use super::memory::{Memory, ROW, SLOT};
pub use super::range::Range;
use crate::original::{UNICODE_STRING, VISIBLE_STRING, size};

pub const MOST_OBJECTS: usize = 1024;
pub const MOST_VALUES: usize = 6144;
pub const MOST_BYTES: usize = 32768;
pub const MOST_ELEMENTS: usize = 254;
pub const LONGEST_NAME: usize = 32;
pub const LARGEST_ROOM: usize = 1490;
pub const LAST_KIND: u64 = 20;

pub const VARIABLE: u64 = 0;
pub const ARRAY: u64 = 1;
pub const LAST_SHAPE: u64 = 2;
pub const NO_ACCESS: u64 = 7;

/// Where a save is asked for, and a restore.
pub const STORE_PARAMETERS: u16 = 0x1010;
pub const RESTORE_DEFAULTS: u16 = 0x1011;

/// A fixed type's word is its number, a string's its length; the room's first
/// bytes are then the string.
#[derive(Clone, PartialEq, Eq, Debug)]
pub struct Value {
    pub kind: u64,
    pub word: u64,
    pub room: Vec<u8>,
}

#[derive(Clone, PartialEq, Eq, Debug)]
pub struct Object {
    pub index: u64,
    pub shape: u64,
    pub access: u64,
    pub name: Vec<u8>,
    pub values: Vec<Value>,
    pub default: Option<Value>,
    pub range: Range,
    /// None where it is the number of elements, as insertion lays it.
    pub kept: Option<u64>,
}

/// How much of each slice is used.
#[derive(Clone, Copy, Default)]
pub struct Used {
    pub objects: usize,
    pub values: usize,
    pub bytes: usize,
}

pub fn is_string(kind: u64) -> bool {
    kind <= LAST_KIND && size(kind).is_none()
}

pub fn is_text(bytes: &[u8]) -> bool {
    std::str::from_utf8(bytes).is_ok()
}

impl Value {
    /// The value that an encoding says, in a room whose other bytes are 0.
    pub fn new(kind: u64, room: usize, encoding: &[u8]) -> Self {
        let mut value = Self { kind, word: 0, room: vec![0; room] };
        if is_string(kind) {
            value.word = encoding.len() as u64;
            value.room[..encoding.len()].copy_from_slice(encoding);
        } else {
            value.word = encoding.iter().rev().fold(0, |word, byte| word << 8 | u64::from(*byte));
        }
        value
    }

    pub fn encoding(&self) -> Vec<u8> {
        match size(self.kind) {
            Some(size) => self.word.to_le_bytes()[..size].to_vec(),
            None => self.room[..self.word as usize].to_vec(),
        }
    }
}

impl Object {
    pub fn all_values(&self) -> impl Iterator<Item = &Value> {
        self.values.iter().chain(&self.default)
    }

    pub fn used(&self) -> Used {
        let rooms: usize = self.all_values().map(|value| value.room.len()).sum();
        Used { objects: 1, values: self.all_values().count(), bytes: self.name.len() + rooms }
    }

    /// As its row has it.
    pub fn kept_count(&self) -> u64 {
        self.kept.unwrap_or(self.values.len() as u64)
    }

    pub fn keep(&mut self, count: u64) {
        self.kept = Some(count).filter(|count| *count != self.values.len() as u64);
    }
}

/// Without a name, an access, a default or a range, and with all elements in use.
pub fn bare(index: u64, shape: u64, values: Vec<Value>) -> Object {
    let (access, range) = (NO_ACCESS, Range::NONE);
    Object { index, shape, access, name: Vec::new(), values, default: None, range, kept: None }
}

impl Used {
    pub fn of(objects: &[Object]) -> Self {
        objects.iter().map(Object::used).fold(Self::default(), Self::plus)
    }

    pub fn plus(self, more: Self) -> Self {
        Self {
            objects: self.objects + more.objects,
            values: self.values + more.values,
            bytes: self.bytes + more.bytes,
        }
    }

    /// The lengths that the four slices need (R5.1).
    pub fn lengths(self) -> [usize; 4] {
        [ROW * (1 + self.objects), SLOT * self.values, self.values, self.bytes]
    }
}

/// Lays the objects over the memory as R5.2 and R5.5 say; what lies behind stays.
pub fn lay(edition: u64, objects: &[Object], memory: &mut Memory) {
    let used = Used::of(objects);
    let header = [used.objects as u64, used.values as u64, used.bytes as u64, edition];
    lay_row(memory, 0, &header);
    let mut at = Used::default();
    for object in objects {
        let row = [
            object.index,
            object.shape,
            object.access,
            object.values.len() as u64,
            at.values as u64,
            at.bytes as u64,
            object.name.len() as u64,
            object.default.is_some().into(),
            object.kept_count(),
            object.range.kind,
            object.range.low,
            object.range.high,
        ];
        lay_row(memory, 1 + at.objects, &row);
        memory.bytes[at.bytes..][..object.name.len()].copy_from_slice(&object.name);
        lay_values(object, memory, at);
        at = at.plus(object.used());
    }
}

fn lay_row(memory: &mut Memory, place: usize, columns: &[u64]) {
    let row = &mut memory.objects[ROW * place..][..ROW];
    row.fill(0);
    row[..columns.len()].copy_from_slice(columns);
}

fn lay_values(object: &Object, memory: &mut Memory, at: Used) {
    let mut start = at.bytes + object.name.len();
    for (value, place) in object.all_values().zip(at.values..) {
        let slot = [value.kind, start as u64, value.room.len() as u64];
        memory.slots[SLOT * place..][..SLOT].copy_from_slice(&slot);
        memory.words[place] = value.word;
        memory.bytes[start..][..value.room.len()].copy_from_slice(&value.room);
        start += value.room.len();
    }
}

/// The objects that lie in memory; it is one that is not Malformed.
pub fn read_off(memory: &Memory) -> Vec<Object> {
    let count = memory.objects[0] as usize;
    memory.objects[ROW..][..ROW * count].chunks(ROW).map(|row| object_at(memory, row)).collect()
}

fn object_at(memory: &Memory, row: &[u64]) -> Object {
    let column = |place: usize| row[place] as usize;
    let (elements, first, has_default) = (column(3), column(4), column(7));
    let values = (first..first + elements + has_default).map(|place| value_at(memory, place));
    let mut values: Vec<Value> = values.collect();
    let default = values.split_off(elements).pop();
    let name = memory.bytes[column(5)..][..column(6)].to_vec();
    let range = Range { kind: row[9], low: row[10], high: row[11] };
    let (index, shape, access) = (row[0], row[1], row[2]);
    let mut object = Object { index, shape, access, name, values, default, range, kept: None };
    object.keep(row[8]);
    object
}

fn value_at(memory: &Memory, place: usize) -> Value {
    let slot = &memory.slots[SLOT * place..][..SLOT];
    let room = memory.bytes[slot[1] as usize..][..slot[2] as usize].to_vec();
    Value { kind: slot[0], word: memory.words[place], room }
}

/// The place of a value, counted from 0, and where its room starts.
pub fn place_of(objects: &[Object], index: u16, element: usize) -> (usize, usize) {
    let row = objects.partition_point(|object| object.index < index.into());
    let before = Used::of(&objects[..row]);
    let rooms = objects[row].values[..element].iter().map(|value| value.room.len());
    let start = before.bytes + objects[row].name.len() + rooms.sum::<usize>();
    (before.values + element, start)
}

pub fn is_mapping(index: u16) -> bool {
    matches!(index, 0x1600..=0x16FF | 0x1A00..=0x1AFF)
}

/// The value that a sub-index names, counted from 0; none for a list's count and beyond the end.
pub fn element(object: &Object, sub_index: u8) -> Option<usize> {
    let place = match object.shape {
        VARIABLE => usize::from(sub_index),
        _ => usize::from(sub_index).checked_sub(1)?,
    };
    (place < object.values.len()).then_some(place)
}

/// The part of R3.4 that bytes break as the encoding of a value of a type.
pub fn no_encoding(kind: u64, bytes: &[u8]) -> Option<&'static str> {
    let (holds, rule) = match kind {
        VISIBLE_STRING => (is_text(bytes), "not UTF-8"),
        UNICODE_STRING => (bytes.len().is_multiple_of(2), "odd"),
        _ if kind > LAST_KIND => (false, "type"),
        _ => (size(kind).is_none_or(|size| bytes.len() == size), "byte count"),
    };
    (!holds).then_some(rule)
}
