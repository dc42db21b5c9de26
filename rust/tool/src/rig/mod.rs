//! A rig: the console's object dictionary as a text file describes it.

mod count;
mod cursor;
mod element;
mod lexer;
mod literal;
pub mod numbers;
mod object;
mod parser;
mod problem;
mod range;
mod types;

#[cfg(test)]
mod tests;

use loomfinch::{AccessType, Edition, ValueType};
use std::collections::BTreeMap;

pub use count::Count;
pub use lexer::hex_bytes;
pub use parser::parse;
pub use problem::Problem;
pub use range::Range;
pub use types::{bounds, is_unsigned, Kind};

/// The version of the form that is read.
pub const FORM: u64 = 1;

/// The bounds of document 01.
pub const MOST_OBJECTS: usize = 1024;
pub const MOST_VALUES: usize = 6144;
pub const MOST_BYTES: usize = 32_768;
pub const MOST_ELEMENTS: usize = 254;
pub const MOST_NAME: usize = 32;
pub const MOST_ROOM: usize = 1490;

#[derive(Clone, Debug, Default)]
pub struct Rig {
    /// The edition of the mapping rules.
    pub edition: Edition,
    pub objects: BTreeMap<u16, Object>,
    /// The names of nodes that have one.
    pub nodes: BTreeMap<u8, String>,
}

#[derive(Clone, Debug)]
pub struct Object {
    pub kind: Kind,
    pub access: Option<AccessType>,
    pub name: String,
    /// A Variable's one value, or a list's elements from 1 on.
    pub values: Vec<Value>,
    pub default: Option<Value>,
    pub range: Option<Range>,
    /// What is written to its sub-index 0 once all objects are there.
    pub count: Option<Count>,
    /// Where the file describes it.
    pub line: usize,
    pub column: usize,
}

#[derive(Clone, Debug)]
pub struct Value {
    pub of: ValueType,
    /// The encoding.
    pub bytes: Vec<u8>,
    /// The reserved room for text and bytes.
    pub room: usize,
    /// Is the number a time in milliseconds?
    pub milliseconds: bool,
    /// An element's own name, empty where it has none.
    pub name: String,
}

/// What an index and a sub-index name.
#[derive(Clone, Copy, Debug)]
pub enum Place<'a> {
    NoObject,
    /// The object has no such sub-index.
    NoSub(&'a Object),
    /// A list's sub-index 0: the count of its elements.
    Count,
    Value(&'a Object, &'a Value),
}

impl Object {
    pub fn is_list(&self) -> bool {
        self.kind != Kind::Variable
    }

    /// Which of its values a sub-index names, from 0, if there are so many.
    pub fn value_place(&self, sub_index: u8) -> Option<usize> {
        match (self.is_list(), usize::from(sub_index)) {
            (false, 0) => Some(0),
            (true, k) if k > 0 => Some(k - 1),
            _ => None,
        }
    }

    /// What is wrong with the object as a whole.
    pub fn problem(&self, text: impl Into<String>) -> Problem {
        Problem::at(self.line, self.column, text)
    }

    /// How many values the object takes in the dictionary, its default counted.
    pub fn value_count(&self) -> usize {
        self.values.len() + usize::from(self.default.is_some())
    }

    /// The bytes that the object takes in the dictionary.
    pub fn weight(&self) -> usize {
        let rooms: usize = self.values.iter().map(|value| value.room).sum();
        let default = self.default.as_ref().map_or(0, |default| default.room);
        self.name.len() + rooms + default
    }
}

impl Value {
    /// A value that stands for none.
    pub fn empty() -> Value {
        let (of, bytes, name) = (ValueType::Unsigned8, vec![0], String::new());
        Value { of, bytes, room: 0, milliseconds: false, name }
    }

    /// The number of an Unsigned type's value.
    pub fn unsigned(&self) -> Option<u64> {
        Some(little_endian(&self.bytes)).filter(|_| is_unsigned(self.of))
    }

    /// The number that an integer type's value means.
    pub fn integer(&self) -> Option<i128> {
        let (least, greatest) = bounds(self.of)?;
        let number = i128::from(little_endian(&self.bytes));
        Some(if number > greatest { number - (greatest - least + 1) } else { number })
    }
}

pub fn little_endian(bytes: &[u8]) -> u64 {
    bytes.iter().take(8).rev().fold(0, |number, byte| number << 8 | u64::from(*byte))
}

impl Rig {
    pub fn place(&self, index: u16, sub_index: u8) -> Place<'_> {
        let object = match self.objects.get(&index) {
            Some(object) => object,
            None => return Place::NoObject,
        };
        match object.value_place(sub_index).and_then(|place| object.values.get(place)) {
            Some(value) => Place::Value(object, value),
            None if object.is_list() && sub_index == 0 => Place::Count,
            None => Place::NoSub(object),
        }
    }

    /// The value at a place, to be changed.
    pub fn value_mut(&mut self, index: u16, sub_index: u8) -> Option<&mut Value> {
        let object = self.objects.get_mut(&index)?;
        let place = object.value_place(sub_index)?;
        object.values.get_mut(place)
    }

    /// The name of a place: its element's own, else its object's; empty where it has none.
    pub fn name(&self, index: u16, sub_index: u8) -> &str {
        match self.place(index, sub_index) {
            Place::Value(_, value) if !value.name.is_empty() => &value.name,
            Place::Value(object, _) | Place::NoSub(object) => &object.name,
            Place::Count => self.objects.get(&index).map_or("", |object| object.name.as_str()),
            Place::NoObject => "",
        }
    }

    /// The Unsigned8 at a list's element, as consuming reads a channel's record.
    pub fn record_u8(&self, index: u16, sub_index: u8) -> Option<u8> {
        match self.place(index, sub_index) {
            Place::Value(object, value) if object.is_list() && value.of == ValueType::Unsigned8 => {
                value.bytes.first().copied()
            }
            _ => None,
        }
    }

    /// The sender that a channel's record names, whoever else names it.
    pub fn named_sender(&self, channel: u8) -> Option<u8> {
        match self.record_u8(0x1400 + u16::from(channel), 1)? {
            0 => Some(MANAGING_NODE),
            node => Some(node),
        }
    }
}

/// The managing node, from which every PReq comes.
pub const MANAGING_NODE: u8 = 240;
