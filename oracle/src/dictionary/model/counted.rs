//! Counts of mappings that are kept: RULES.md R7.2, R8.1, R8.7 and R9.2 on the plain objects, written
//! from the rules alone. The Rust keeps no count; what it says of one, asked with the whole list, must
//! be what is said here.

use super::causes;
use super::edition::{cut, in_use, is_counted};
use super::layout::{ARRAY, Object, VARIABLE, Value, is_mapping};
use super::memory::{KEPT, Memory, ROW};
use super::range::Lies;
use super::running::{Word, row};
use super::rust::{OBJECT_NOT_FOUND, Rust, TYPE_MISMATCH};
use super::sound::{Dictionary, Done, Refused};
use super::step::Write;
use super::unused;

const READ_ONLY: u64 = 6;
const MISSING_ENTRIES: u64 = 10;
const PDO_MAP_OVERRUN: u64 = 11;

const UNSIGNED8: u64 = 5;
const UNSIGNED16: u64 = 6;
const UNSIGNED64: u64 = 8;

/// ReadOnly and Constant.
const UNWRITABLE: [u64; 2] = [0, 5];

const LIMITS: u16 = 0x1F98;
const LONGEST_PAYLOAD: u64 = 1490;

/// What is noted of counts that are read, for the tally.
pub const READ: [&str; 4] = [
    "a kept count of none",
    "a kept count below the length",
    "the length, whatever is kept of a list that is no mapping",
    "the length, whatever is kept in edition 1",
];

/// Of counts that are written.
pub const ARRAY_KEPT: &str = "an Array's count kept";
pub const RECORD_KEPT: &str = "a Record's count kept";
pub const KEPT_AS: [&str; 6] = [
    "the count that was there",
    "a count lowered",
    "a count raised",
    "a count of none",
    "a count that is not the length",
    "a count outside the object's range",
];

/// Of refusals that would have shown if they kept the count, by their numbers.
pub const NOT_KEPT: [(u64, &str); 5] = [
    (OBJECT_NOT_FOUND, "another count not kept for ObjectNotFound"),
    (TYPE_MISMATCH, "another count not kept for TypeMismatch"),
    (READ_ONLY, "another count not kept for ReadOnly"),
    (MISSING_ENTRIES, "another count not kept for MissingEntries"),
    (PDO_MAP_OVERRUN, "another count not kept for PdoMapOverrun"),
];
pub const STAYS_OFF: &str = "a Record that is off stays off";

impl Dictionary {
    /// The row of a list whose count a write keeps.
    pub fn counted(&self, given: &Write) -> Option<usize> {
        let row = row(&self.objects, given.index).filter(|_| given.sub_index == 0)?;
        is_counted(self.edition, &self.objects[row]).then_some(row)
    }

    pub fn write_count(
        &mut self,
        row: usize,
        given: &Write,
        memory: &mut Memory,
        notes: &mut Vec<&'static str>,
    ) -> Result<Done, Refused> {
        let list = &self.objects[row];
        let judged = judge_write(&self.objects, list, given);
        notes.extend(match judged {
            Ok(()) => kept_notes(list, given.data[0].into()),
            Err(refusal) => refusal_notes(list, given, refusal),
        });
        let asked = self.with_whole(given.index, |rust| rust.write(given).map(drop));
        assert_eq!(judged, asked, "a count of {:X}, {:?}", given.index, given.data);
        judged.map_err(|refusal| (refusal, causes::of_refusal(&self.objects, given, refusal)))?;
        let count = given.data[0].into();
        self.objects[row].keep(count);
        memory.objects[ROW * (1 + row) + KEPT] = count;
        self.rust.insert(&cut(self.edition, &self.objects[row]));
        self.check(memory);
        let is_array = self.objects[row].shape == ARRAY;
        Ok(Done::because(if is_array { ARRAY_KEPT } else { RECORD_KEPT }))
    }

    /// What the Rust says when it has the whole list at an index, of which it else has just what is
    /// in use.
    pub fn with_whole<T>(&mut self, index: u16, ask: impl FnOnce(&mut Rust) -> T) -> T {
        let Self { edition, objects, rust, .. } = self;
        let list = row(objects, index).map(|row| &objects[row]);
        let list = list.filter(|list| in_use(*edition, list).len() < list.values.len());
        list.into_iter().for_each(|list| rust.insert(list));
        let said = ask(rust);
        list.into_iter().for_each(|list| rust.insert(&cut(*edition, list)));
        said
    }
}

/// R8.1 from its step 4 on, of a value that keeps R3.4.
fn judge_write(objects: &[Object], list: &Object, given: &Write) -> Result<(), u64> {
    if given.kind != UNSIGNED8 {
        return Err(TYPE_MISMATCH);
    }
    judge_count(objects, given.index, given.data[0])?;
    if UNWRITABLE.contains(&list.access) { Err(READ_ONLY) } else { Ok(()) }
}

/// R9.1 and R9.2, over all elements that are there.
pub fn judge_count(objects: &[Object], index: u16, count: u8) -> Result<(), u64> {
    if count == 0 || !is_mapping(index) {
        return Ok(());
    }
    let list = row(objects, index).map(|row| &objects[row]);
    let array = list.filter(|list| list.shape == ARRAY).ok_or(OBJECT_NOT_FOUND)?;
    let first = array.values.get(..usize::from(count)).ok_or(MISSING_ENTRIES)?;
    if first.iter().any(|value| value.kind != UNSIGNED64) {
        return Err(MISSING_ENTRIES);
    }
    let ends = first.iter().map(|value| {
        let word = Word::of(0, value.word);
        (word.start + word.length).div_ceil(8) as u64
    });
    let largest = ends.max().unwrap_or(0);
    if largest > limit(objects, index) { Err(PDO_MAP_OVERRUN) } else { Ok(()) }
}

/// R9.3.
fn limit(objects: &[Object], index: u16) -> u64 {
    let place = if index >= 0x1A00 { 0 } else { 1 };
    let limits = row(objects, LIMITS).map(|row| &objects[row]);
    let limits = limits.filter(|limits| limits.shape != VARIABLE);
    match limits.and_then(|limits| limits.values.get(place)) {
        Some(Value { kind: UNSIGNED16, word, .. }) => *word,
        _ => LONGEST_PAYLOAD,
    }
}

/// Of a count that is kept, as its list was before.
fn kept_notes(list: &Object, count: u64) -> Vec<&'static str> {
    let before = list.kept_count();
    let lies = list.range.where_lies(UNSIGNED8, count);
    let notes = [
        (count == before, KEPT_AS[0]),
        (count < before, KEPT_AS[1]),
        (count > before, KEPT_AS[2]),
        (count == 0, KEPT_AS[3]),
        (count != list.values.len() as u64, KEPT_AS[4]),
        (lies.is_some_and(Lies::is_outside), KEPT_AS[5]),
    ];
    notes.into_iter().filter(|(seen, _)| *seen).map(|(_, note)| note).collect()
}

/// Of one that is refused: whether the list would have another count if it were kept.
fn refusal_notes(list: &Object, given: &Write, refusal: u64) -> Vec<&'static str> {
    let before = list.kept_count();
    let is_other = given.data.first().is_some_and(|count| u64::from(*count) != before);
    let named = NOT_KEPT.iter().filter(|(number, _)| *number == refusal && is_other);
    let mut notes: Vec<&'static str> = named.map(|(_, note)| *note).collect();
    if refusal == OBJECT_NOT_FOUND && before == 0 && !list.values.is_empty() {
        notes.push(STAYS_OFF);
    }
    notes
}

/// Of a read that is done: what it shows of counts and of elements that are not in use.
pub fn read_notes(
    edition: u64,
    objects: &[Object],
    index: u16,
    sub_index: u8,
) -> Option<&'static str> {
    let object = &objects[row(objects, index)?];
    let (kept, length) = (object.kept_count(), object.values.len() as u64);
    let is_count = object.shape != VARIABLE && sub_index == 0;
    match is_counted(edition, object) {
        true if is_count && kept == 0 && length > 0 => Some(READ[0]),
        true if is_count && kept < length => Some(READ[1]),
        true if !is_count && u64::from(sub_index) > kept => Some(unused::READ),
        false if is_count && kept < length && is_mapping(index) => Some(READ[3]),
        false if is_count && kept < length => Some(READ[2]),
        _ => None,
    }
}
