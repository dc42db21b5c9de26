//! A run over one payload: RULES.md R11.2 to R11.10 and R11.16 on the plain objects, written from the
//! rules alone.

use super::edition::in_use;
use super::layout::{self, Object, VARIABLE, element, is_mapping, is_string};
use super::memory::Memory;
use crate::fault::Fault;
use crate::original::size;
use crate::sorts;

/// Kinds of events (R11.14).
pub const MAP_VERSION: u64 = 1;
pub const FRAME: u64 = 2;
pub const VALUE: u64 = 3;
pub const TEXT: u64 = 4;
pub const ODD: u64 = 5;
pub const SERVER: u64 = 6;
pub const CLIENT: u64 = 7;
pub const COUNT_REFUSED: u64 = 8;
pub const TOO_LONG: u64 = 9;

const MANAGING_NODE: u8 = 240;
const UNSIGNED8: u64 = 5;
const OCTET_STRING: u64 = 12;
const UNSIGNED64: u64 = 8;
const WRONG_VERSIONS: u16 = 0x1C80;
pub const SHORT_PAYLOADS: u16 = 0x1C81;

/// An event as the Rust can tell it: by the step, counted from 0, that gave it, where it hands
/// something off, by the channel and the bytes, and what is said of a field that does not decode.
#[derive(Debug, PartialEq, Eq)]
pub struct Told {
    pub step: usize,
    pub kind: u64,
    pub handed: Option<(u16, Vec<u8>)>,
    pub said: Vec<u64>,
}

impl Told {
    /// That the version is wrong, before any step.
    pub fn of_version() -> Self {
        Self { step: 0, kind: MAP_VERSION, handed: None, said: Vec::new() }
    }
}

/// One payload of those that a call consumes.
pub struct Payload<'a> {
    pub bytes: &'a [u8],
    pub sender: u8,
    pub version: u8,
    pub ready: bool,
}

/// What becomes of a mapping word (R11.5).
#[derive(Clone, Copy)]
pub enum Fate {
    Misaligned,
    PastThePayload,
    /// With the fault's sort.
    Undecodable(Fault, &'static str),
    Handed(u64),
    Missing,
    CountRefused,
    MappingCount,
    TooLong,
    NumberPut,
    StringPut,
}

impl Fate {
    fn fault(self) -> Option<Fault> {
        match self {
            Self::Undecodable(fault, _) => Some(fault),
            _ => None,
        }
    }

    fn event(self) -> Option<u64> {
        match self {
            Self::PastThePayload => Some(FRAME),
            Self::Undecodable(Fault::Value { .. }, _) => Some(VALUE),
            Self::Undecodable(Fault::Text { .. }, _) => Some(TEXT),
            Self::Undecodable(Fault::Odd, _) => Some(ODD),
            Self::Handed(kind) => Some(kind),
            Self::CountRefused => Some(COUNT_REFUSED),
            Self::TooLong => Some(TOO_LONG),
            Self::Misaligned | Self::Missing | Self::MappingCount => None,
            Self::NumberPut | Self::StringPut => None,
        }
    }

    fn name(self) -> &'static str {
        match self {
            Self::Misaligned => "misaligned",
            Self::PastThePayload => "past the payload",
            Self::Undecodable(_, sort) => sort,
            Self::Handed(SERVER) => "to the server",
            Self::Handed(_) => "to the client",
            Self::Missing => "no target",
            Self::CountRefused => "a list's count",
            Self::MappingCount => "a mapping's count",
            Self::TooLong => "over its room",
            Self::NumberPut => "a number put",
            Self::StringPut => "a string put",
        }
    }
}

/// A mapping word taken apart (R4.1); start and length in bits.
pub struct Word {
    /// Its place in the list, from 1.
    pub element: u64,
    pub index: u16,
    pub sub_index: u8,
    pub start: usize,
    pub length: usize,
}

impl Word {
    pub fn of(element: u64, word: u64) -> Self {
        let bits = |from: u32| (word >> from) as u16;
        let (start, length) = (bits(32).into(), bits(48).into());
        Self { element, index: bits(0), sub_index: bits(16) as u8, start, length }
    }

    pub fn is_aligned(&self) -> bool {
        self.start.is_multiple_of(8) && self.length.is_multiple_of(8)
    }
}

/// R11.10; whether there is such a bit.
pub fn set_bit(objects: &mut [Object], memory: &mut Memory, index: u16, node: u8) -> bool {
    let Some((row, byte, bit)) = bit_of(objects, index, node) else { return false };
    let (_, start) = layout::place_of(objects, index, 0);
    objects[row].values[0].room[byte] |= bit;
    memory.bytes[start + byte] |= bit;
    true
}

/// The row of an error object, and the byte and the bit of a node in it.
pub fn bit_of(objects: &[Object], index: u16, node: u8) -> Option<(usize, usize, u8)> {
    let row = row(objects, index).filter(|row| objects[*row].shape == VARIABLE)?;
    let value = &objects[row].values[0];
    let (byte, bit) = (usize::from(node.checked_sub(1)?) / 8, 1 << ((node - 1) % 8));
    let is_there = value.kind == OCTET_STRING && node < MANAGING_NODE && byte < value.word as usize;
    is_there.then_some((row, byte, bit))
}

pub fn row(objects: &[Object], index: u16) -> Option<usize> {
    objects.binary_search_by_key(&u64::from(index), |object| object.index).ok()
}

/// The channel of a sender (R11.2), counted from 0.
pub fn channel_of(objects: &[Object], sender: u8) -> Option<u16> {
    let records = objects.iter().filter(|object| matches!(object.index, 0x1400..=0x14FF));
    let mut matching = records.filter(|record| match list_u8(record, 1) {
        Some(0) => sender == MANAGING_NODE,
        Some(node) => node == sender,
        None => false,
    });
    matching.next().map(|record| record.index as u16 - 0x1400)
}

/// The U8 at a list's sub-index above 0.
pub fn list_u8(object: &Object, sub_index: usize) -> Option<u8> {
    let value = object.values.get(sub_index - 1)?;
    (object.shape != VARIABLE && value.kind == UNSIGNED8).then_some(value.word as u8)
}

/// The words of a channel's list that are in use (R11.4); none where it is no list.
pub fn gathered(edition: u64, objects: &[Object], channel: u16) -> Option<Vec<Word>> {
    let list = &objects[row(objects, 0x1600 + channel)?];
    let elements = in_use(edition, list).iter().zip(1..);
    let words = elements.filter(|(value, _)| value.kind == UNSIGNED64);
    let words = words.map(|(value, element)| Word::of(element, value.word));
    (list.shape != VARIABLE).then(|| words.collect())
}

/// R11.3.
pub fn is_right(expected: u8, received: u8) -> bool {
    match expected {
        0 => received == 0,
        _ => expected / 16 == received / 16 && expected % 16 <= received % 16,
    }
}

/// A run over the dictionary as it is at each step.
pub struct Run<'a> {
    pub edition: u64,
    pub objects: &'a mut [Object],
    pub memory: &'a mut Memory,
    pub payload: &'a Payload<'a>,
    pub notes: &'a mut Vec<&'static str>,
}

impl Run<'_> {
    /// The gathered words, and what is told of them.
    pub fn all(&mut self) -> (Vec<Word>, Vec<Told>) {
        let nothing = (Vec::new(), Vec::new());
        let Some(channel) = channel_of(self.objects, self.payload.sender) else {
            self.notes.push("no channel");
            return nothing;
        };
        let record = row(self.objects, 0x1400 + channel).expect("it was just found");
        let expected = list_u8(&self.objects[record], 2).unwrap_or(0);
        if !is_right(expected, self.payload.version) {
            self.notes.push("wrong version");
            self.set_bit(WRONG_VERSIONS);
            return (Vec::new(), vec![Told::of_version()]);
        }
        let Some(words) = gathered(self.edition, self.objects, channel) else {
            self.notes.push("no list");
            return nothing;
        };
        self.note_list(channel);
        let told = self.steps(&words);
        (words, told)
    }

    fn steps(&mut self, words: &[Word]) -> Vec<Told> {
        let mut told = Vec::new();
        for (step, word) in words.iter().enumerate() {
            let fate = self.step(word);
            self.notes.push(fate.name());
            if let Some(kind) = fate.event() {
                let field = self.field(word).unwrap_or_default();
                let handed = matches!(fate, Fate::Handed(_)).then(|| (word.index, field.to_vec()));
                let said = fate.fault().map_or(Vec::new(), Fault::numbers);
                told.push(Told { step, kind, handed, said });
            }
            self.note_second(word, fate);
            match fate {
                Fate::PastThePayload => self.set_bit(SHORT_PAYLOADS),
                Fate::Undecodable(fault, _) => {
                    self.note_fault(word, fault);
                    self.mark(word, fault);
                }
                _ => continue,
            }
            return told;
        }
        self.notes.push("to the end");
        told
    }

    /// None where it ends past the payload.
    pub fn field(&self, word: &Word) -> Option<&[u8]> {
        self.payload.bytes.get(word.start / 8..(word.start + word.length) / 8)
    }

    /// R11.5.
    fn step(&mut self, word: &Word) -> Fate {
        if !word.is_aligned() {
            return Fate::Misaligned;
        }
        let Some(field) = self.field(word) else { return Fate::PastThePayload };
        match word.index {
            0x1200..=0x127F => return Fate::Handed(SERVER),
            0x1280..=0x12FF => return Fate::Handed(CLIENT),
            _ => {}
        }
        let Some(row) = row(self.objects, word.index) else { return Fate::Missing };
        let object = &self.objects[row];
        let is_count = self.is_count(word);
        let place = element(object, word.sub_index);
        let kind = match place {
            Some(place) => object.values[place].kind,
            None if is_count => UNSIGNED8,
            None => return Fate::Missing,
        };
        if let Some(fault) = Fault::of(kind, field) {
            return Fate::Undecodable(fault, sorts::name(fault, field));
        }
        match place {
            Some(place) => self.put(word, row, place),
            None if is_mapping(word.index) => Fate::MappingCount,
            None => Fate::CountRefused,
        }
    }

    /// Of a list; what is not there has none.
    pub fn is_count(&self, word: &Word) -> bool {
        let row = row(self.objects, word.index);
        word.sub_index == 0 && row.is_some_and(|row| self.objects[row].shape != VARIABLE)
    }

    /// R5.7, of a field that decodes.
    fn put(&mut self, word: &Word, row: usize, element: usize) -> Fate {
        let field = self.field(word).expect("it lies within the payload").to_vec();
        let (place, start) = layout::place_of(self.objects, word.index, element);
        let value = &mut self.objects[row].values[element];
        if !is_string(value.kind) {
            let size = size(value.kind).expect("it is a fixed type");
            value.word = field[..size].iter().rev().fold(0, |w, byte| w << 8 | u64::from(*byte));
            self.memory.words[place] = value.word;
            return Fate::NumberPut;
        }
        if field.len() > value.room.len() {
            return Fate::TooLong;
        }
        value.word = field.len() as u64;
        value.room[..field.len()].copy_from_slice(&field);
        self.memory.words[place] = value.word;
        self.memory.bytes[start..][..field.len()].copy_from_slice(&field);
        Fate::StringPut
    }

    pub fn set_bit(&mut self, index: u16) {
        if set_bit(self.objects, self.memory, index, self.payload.sender) {
            self.notes.push("a bit set");
        }
    }

    /// Where its numbers are easily mistaken for others.
    fn note_fault(&mut self, word: &Word, fault: Fault) {
        let start = word.start / 8;
        let note = match fault {
            Fault::Value { .. } if self.is_count(word) => "no byte for a list's count",
            Fault::Value { needed, .. } if start + needed <= self.payload.bytes.len() => {
                "too few bytes, with others behind them"
            }
            Fault::Text { place } if place > 255 => "a place above 255",
            Fault::Text { .. } if start > 0 => "a bad text behind other bytes",
            _ => return,
        };
        self.notes.push(note);
    }
}
