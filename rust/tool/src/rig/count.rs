//! A mapping's count: what a line says of it, and why it is not kept.

use super::cursor::Cursor;
use super::lexer::Token;
use super::numbers;
use super::problem::Problem;
use super::{Kind, Object, Place, Rig, Value, MOST_ELEMENTS};
use crate::words;
use loomfinch::{PdoMappingEntry, Refusal, ValueType, MOST_PAYLOAD_BYTES};

/// How many of a mapping's elements are in use, as its line says.
#[derive(Clone, Copy, Debug, PartialEq, Eq)]
pub struct Count {
    pub number: u8,
    /// Where the number stands.
    place: (usize, usize),
}

/// `count 2`, behind its first word.
pub fn said(cursor: &mut Cursor, kind: Kind) -> Result<Count, Problem> {
    if kind == Kind::Variable {
        let text = "expected 'count' at an Array or a Record: a Variable has no elements";
        return Err(cursor.problem(text));
    }
    let token = cursor.next();
    let number = match &token {
        Some(Token::Word(word)) => numbers::unsigned(word),
        _ => None,
    };
    let number = number.filter(|number| *number <= MOST_ELEMENTS as u64);
    match number.and_then(|number| u8::try_from(number).ok()) {
        Some(number) => Ok(Count { number, place: cursor.place() }),
        None => {
            let wanted = format!("a count of 0 to {MOST_ELEMENTS} elements, as in count 2");
            Err(cursor.expected(&wanted, token.as_ref()))
        }
    }
}

impl Count {
    fn problem(&self, text: String) -> Problem {
        Problem::at(self.place.0, self.place.1, text)
    }

    /// The error of a count in a rig of edition 1.
    pub fn not_kept(&self) -> Problem {
        let text =
            "expected 'edition 2' before the first object of a rig with a count: edition 1 keeps none";
        self.problem(text.to_string())
    }

    /// The error of a count that the library refuses to write at an index of a rig.
    pub fn refused(&self, rig: &Rig, index: u16, object: &Object, refusal: Refusal) -> Problem {
        let why = match refusal {
            Refusal::CountNotWritable => format!(
                "expected 'count' at a mapping, 1600h to 16FFh or 1A00h to 1AFFh, found it at {index:04X}h"
            ),
            Refusal::ObjectNotFound => format!(
                "expected an Array for a count of {}: a Record can only be turned off, by count 0",
                self.number
            ),
            Refusal::ReadOnly => {
                let access = object.access.map_or(String::new(), |access| format!("{access:?}"));
                format!("expected a mapping that may be written, found {index:04X}h to be {access}")
            }
            Refusal::MissingEntries => self.missing(index, object),
            Refusal::PdoMapOverrun => self.overrun(rig, index, object),
            other => return self.problem(format!("the library refuses this count: {other}")),
        };
        self.problem(format!("{why} ({}, {})", refusal.name(), refusal.number()))
    }

    /// The first element that is none or no mapping word.
    fn missing(&self, index: u16, object: &Object) -> String {
        let other = |value: &Value| value.of != ValueType::Unsigned64;
        match object.values.iter().position(other) {
            Some(place) => {
                let of = words::type_with_article(object.values[place].of);
                self.at_most(place, format!("element {} is {of}, not an Unsigned64", place + 1))
            }
            None => {
                let elements = words::counted(object.values.len(), "element");
                self.at_most(object.values.len(), format!("{index:04X}h has {elements}"))
            }
        }
    }

    /// The first element that ends behind the limit of payloads.
    fn overrun(&self, rig: &Rig, index: u16, object: &Object) -> String {
        let (limit, says) = limit(rig, index);
        let ends = object
            .values
            .iter()
            .map(|value| PdoMappingEntry::from_u64(value.unsigned().unwrap_or(0)).end());
        let far = ends.enumerate().find(|(_, end)| *end > limit);
        let (place, end) = far.unwrap_or((self.number.into(), limit));
        let needs = words::bytes(end);
        self.at_most(place, format!("element {} needs a payload of {needs}, and {says}", place + 1))
    }

    fn at_most(&self, most: usize, why: String) -> String {
        format!("expected a count of at most {most}, found {}: {why}", self.number)
    }
}

/// How many bytes the payloads of a mapping have at most, and what says so.
fn limit(rig: &Rig, index: u16) -> (usize, String) {
    let sub_index = if index < 0x1A00 { 2 } else { 1 };
    let said = match rig.place(0x1F98, sub_index) {
        Place::Value(_, value) if value.of == ValueType::Unsigned16 => value.unsigned(),
        _ => None,
    };
    match said.and_then(|number| usize::try_from(number).ok()) {
        Some(limit) => (limit, format!("{} allows {limit}", words::place(0x1F98, sub_index))),
        None => (MOST_PAYLOAD_BYTES, format!("none has more than {MOST_PAYLOAD_BYTES}")),
    }
}
