//! What calls must give of elements that are not in use (R5.15): RULES.md 7, 8 and 10 on the plain
//! objects, written from the rules alone. The Rust has no such elements.

use super::causes;
use super::edition::{self, in_use, is_counted};
use super::image::Record;
use super::layout::{self, LAST_SHAPE, Object, Value, is_string};
use super::memory::Memory;
use super::restoring::sub_index;
use super::rust::{Found, TYPE_MISMATCH};
use super::sound::{Dictionary, Done, Refused};
use super::step::Write;
use std::ops::RangeInclusive;

const READ_ONLY: u64 = 6;
const TOO_LONG: u64 = 13;
const UNSIGNED32: u64 = 7;

/// ReadOnly and Constant.
const UNWRITABLE: [u64; 2] = [0, 5];

/// WriteOnlyStore and ReadWriteStore.
const STORED: [u64; 2] = [2, 4];

/// What is noted of them, for the tally.
pub const READ: &str = "an element behind the count read";
pub const COUNTED_UP: &str = "an element behind the count counted up";
pub const LEFT: &str = "an element behind the count that is no counter";
pub const SAVED: &str = "an element behind the count saved";
pub const OUTSIDE: &str = "an element behind the count, outside its range";
pub const WRITTEN: [&str; 4] = [
    "an element behind the count written",
    "an element behind the count, ReadOnly",
    "an element behind the count, of another type",
    "an element behind the count, over its room",
];
pub const RESTORED: [&str; 3] = [
    "an element behind the count restored by a record",
    "an element behind the count restored by a default",
    "a default of another type than an element's behind the count",
];
pub const COUNT_LEFT: &str = "a kept count that stays";

impl Dictionary {
    /// The row and the place of what is at an index and sub-index, where it is not in use.
    pub fn unused(&self, index: u16, sub_index: u8) -> Option<(usize, usize)> {
        edition::unused(self.edition, &self.objects, index, sub_index)
    }

    pub fn read_unused(&self, index: u16, sub_index: u8) -> Option<Found> {
        let (row, place) = self.unused(index, sub_index)?;
        Some(Found::of(&self.objects[row].values[place]))
    }

    /// R8.4: a Record's U32 grows, an Array's never.
    pub fn count_unused(
        &mut self,
        (row, place): (usize, usize),
        memory: &mut Memory,
        notes: &mut Vec<&'static str>,
    ) -> Done {
        let Object { shape, values, .. } = &self.objects[row];
        let Value { kind, word, .. } = values[place];
        if *shape != LAST_SHAPE || kind != UNSIGNED32 {
            notes.push(LEFT);
            return Done::because("nothing");
        }
        let grown = (word as u32).wrapping_add(1);
        self.put_unused((row, place), &grown.to_le_bytes(), memory);
        notes.push(COUNTED_UP);
        Done::because("counted")
    }

    /// R8.1 from its step 6 on, but for the range, and R8.3.
    pub fn write_unused(
        &mut self,
        (row, place): (usize, usize),
        given: &Write,
        memory: &mut Memory,
        notes: &mut Vec<&'static str>,
    ) -> Result<Done, Refused> {
        let object = &self.objects[row];
        let Value { kind, room, .. } = &object.values[place];
        let cause = |refusal| causes::of_refusal(&self.objects, given, refusal);
        let (answer, note) = match () {
            _ if UNWRITABLE.contains(&object.access) => (READ_ONLY, WRITTEN[1]),
            _ if *kind != given.kind => (TYPE_MISMATCH, WRITTEN[2]),
            _ if is_string(*kind) && given.data.len() > room.len() => (TOO_LONG, WRITTEN[3]),
            _ => (0, WRITTEN[0]),
        };
        notes.push(note);
        match answer {
            0 => {
                let done = Done::because(causes::of_put(object, given));
                self.put_unused((row, place), &given.data, memory);
                Ok(done)
            }
            TOO_LONG => Err((TOO_LONG, None)),
            refusal => Err((refusal, cause(refusal))),
        }
    }

    /// R5.7.
    fn put_unused(&mut self, (row, place): (usize, usize), encoding: &[u8], memory: &mut Memory) {
        let index = self.objects[row].index as u16;
        let (at, start) = layout::place_of(&self.objects, index, place);
        let value = &mut self.objects[row].values[place];
        value.word = Value::new(value.kind, encoding.len(), encoding).word;
        memory.words[at] = value.word;
        if is_string(value.kind) {
            value.room[..encoding.len()].copy_from_slice(encoding);
            memory.bytes[start..][..encoding.len()].copy_from_slice(encoding);
        }
        self.check(memory);
    }

    /// What of them a save of a list has (R10.1).
    pub fn unused_records(&self, list: u8) -> Vec<Record> {
        let is_saved = |object: &&Object| match list {
            1 => true,
            2 => matches!(object.index, 0x1000..=0x1FFF),
            3 => matches!(object.index, 0x6000..=0x9FFF),
            _ => false,
        };
        let saved = self.objects.iter().filter(|object| STORED.contains(&object.access));
        let records = saved.filter(is_saved).flat_map(|object| {
            let unused = in_use(self.edition, object).len()..object.values.len();
            unused.map(move |place| Record {
                index: object.index as u16,
                sub_index: sub_index(object, place),
                kind: object.values[place].kind as u8,
                body: object.values[place].encoding(),
            })
        });
        records.collect()
    }

    /// What a restore came upon of them, before it.
    pub fn restore_notes(&self, unused: &Unused) -> Vec<&'static str> {
        let places = self.objects.iter().flat_map(|object| {
            let places = in_use(self.edition, object).len()..object.values.len();
            places.map(move |place| (object, place))
        });
        let mut notes: Vec<&'static str> =
            places.filter_map(|(object, place)| unused.note(object, place)).collect();
        let mut counted = self.objects.iter().filter(|object| is_counted(self.edition, object));
        let stays = |object: &Object| {
            object.kept.is_some() && unused.range.contains(&(object.index as u16))
        };
        notes.extend(counted.any(stays).then_some(COUNT_LEFT));
        notes
    }
}

/// What a restore finds in its store, and its range.
pub struct Unused<'a> {
    pub table: &'a [Record],
    pub range: RangeInclusive<u16>,
}

impl Unused<'_> {
    fn record(&self, object: &Object, place: usize) -> Option<&Record> {
        let at = (object.index as u16, sub_index(object, place));
        self.table.iter().find(|record| (record.index, record.sub_index) == at)
    }

    /// R10.9: the record at its place, else the default of its type, else what it was.
    pub fn restored(&self, object: &Object, place: usize) -> Found {
        let value = &object.values[place];
        if !self.range.contains(&(object.index as u16)) {
            return Found::of(value);
        }
        if let Some(Record { kind, body, .. }) = self.record(object, place) {
            return Found::of(&Value::new((*kind).into(), body.len(), body));
        }
        let default = object.default.as_ref().filter(|default| default.kind == value.kind);
        Found::of(default.unwrap_or(value))
    }

    fn note(&self, object: &Object, place: usize) -> Option<&'static str> {
        let value = &object.values[place];
        if !self.range.contains(&(object.index as u16)) {
            return None;
        }
        match (self.record(object, place), &object.default) {
            (Some(_), _) => Some(RESTORED[0]),
            (None, Some(default)) if default.kind == value.kind => Some(RESTORED[1]),
            (None, Some(_)) => Some(RESTORED[2]),
            (None, None) => None,
        }
    }
}
