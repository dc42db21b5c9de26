//! What `write` and the count check must give. The Rust decides; what it cannot
//! say is document 01's: BadValue and its numbers, OutOfRange, TooLong, StoreFull, and where bytes
//! lie.

use super::causes;
use super::counted::judge_count;
use super::image::{self, Record};
use super::layout::{self, element, is_string, no_encoding};
use super::memory::Memory;
use super::rust::Written;
use super::sound::{Dictionary, Done, Refused};
use super::step::Write;
use super::unused::{OUTSIDE, SAVED};
use crate::fault::Fault;
use crate::original::BAD_VALUE;

const TOO_LONG: u64 = 13;
const STORE_FULL: u64 = 18;
const RESTORE_REQUESTED: u64 = 19;

impl Dictionary {
    pub fn write(
        &mut self,
        given: &Write,
        memory: &mut Memory,
        notes: &mut Vec<&'static str>,
    ) -> Result<Done, Refused> {
        // The Rust has no such value, so that it is not asked.
        if let Some(rule) = no_encoding(given.kind, &given.data) {
            return Ok(self.no_value(given, rule, notes));
        }
        let unused = self.unused(given.index, given.sub_index);
        if let Some(refused) = self.out_of_range(given, notes) {
            notes.extend(unused.map(|_| OUTSIDE));
            return Err(refused);
        }
        if let Some(at) = unused {
            return self.write_unused(at, given, memory, notes);
        }
        if let Some(row) = self.counted(given) {
            return self.write_count(row, given, memory, notes);
        }
        let written = self.rust.write(given);
        let refused = |refusal| (refusal, causes::of_refusal(&self.objects, given, refusal));
        let done = written.map_err(refused).and_then(|written| match written {
            Written::Taken => self.put(given, memory),
            Written::Saved(records) => self.save(given.sub_index, records, memory, notes),
            // No refusal, but it too leaves everything as it was.
            Written::RestoreRequested => Err((RESTORE_REQUESTED, None)),
        });
        let object = self.objects.iter().find(|object| object.index == given.index.into());
        let equal = object.is_none_or(|object| self.is_equal(object));
        assert!(equal, "the model has the Rust's values after a write at {:X}", given.index);
        done
    }

    /// BadValue by a part of R3.4; what decoding would refuse too has its numbers.
    fn no_value(&self, given: &Write, rule: &'static str, notes: &mut Vec<&'static str>) -> Done {
        let fault = Fault::of(given.kind, &given.data);
        let numbers = fault.map_or(Vec::new(), Fault::numbers);
        if !numbers.is_empty() {
            notes.push(causes::of_numbers(&self.objects, given));
        }
        let cause = Some(causes::of_bad_value(given, fault, rule));
        Done { answer: BAD_VALUE, numbers, cause, ..Done::default() }
    }

    /// What the Rust makes of the value is put where the layout has it.
    fn put(&mut self, given: &Write, memory: &mut Memory) -> Result<Done, Refused> {
        let Write { index, sub_index, kind, ref data } = *given;
        let row = self.objects.iter().position(|object| object.index == index.into());
        let row = row.expect("the Rust has just these objects");
        let cause = causes::of_put(&self.objects[row], given);
        let Some(element) = element(&self.objects[row], sub_index) else {
            return Ok(Done::because(cause));
        };
        let (place, start) = layout::place_of(&self.objects, index, element);
        let value = &mut self.objects[row].values[element];
        // The Rust has no rooms: what it took beyond one is outside the domain (R2.5).
        if is_string(kind) && data.len() > value.room.len() {
            self.rust.put_back(index, sub_index, value);
            return Err((TOO_LONG, None));
        }
        let found = self.rust.read(index, sub_index);
        let Ok(found) = found else { unreachable!("it was just written") };
        value.word = found.word;
        value.room[..found.bytes.len()].copy_from_slice(&found.bytes);
        memory.words[place] = found.word;
        memory.bytes[start..][..found.bytes.len()].copy_from_slice(&found.bytes);
        self.check(memory);
        Ok(Done::because(cause))
    }

    /// The image is that of the Rust's table, with the elements that are not in use. Its storage has
    /// no bounds: a table that passes one is outside the domain (R2.5), and the one before it stays.
    fn save(
        &mut self,
        list: u8,
        mut records: Vec<Record>,
        memory: &mut Memory,
        notes: &mut Vec<&'static str>,
    ) -> Result<Done, Refused> {
        assert!(self.all_equal(), "the model has the Rust's values at a save");
        let unused = self.unused_records(list);
        notes.extend((!unused.is_empty()).then_some(SAVED));
        records.extend(unused);
        records.sort_by_key(|record| (record.index, record.sub_index));
        if let Some(cause) = image::full(&records, memory.store.len()) {
            self.rust.undo_save();
            return Err((STORE_FULL, Some(cause)));
        }
        let image = image::of(&records);
        memory.store[..image.len()].copy_from_slice(&image);
        // So that its table is the one that the store has the image of.
        self.rust.keep(Some(&records));
        Ok(Done::because(causes::of_save(list, records.is_empty())))
    }

    /// Of all elements that are there, in use or not; so the Rust is asked with the whole list.
    pub fn validate_pdo_mapping(&mut self, index: u16, count: u8) -> Result<Done, Refused> {
        let judged = self.with_whole(index, |rust| rust.validate_pdo_mapping(index, count));
        assert_eq!(judged, judge_count(&self.objects, index, count), "the count check, {count}");
        let cause = |answer| causes::of_count(&self.objects, index, count, answer);
        judged.map_err(|refusal| (refusal, cause(refusal)))?;
        Ok(Done { cause: cause(0), ..Done::default() })
    }
}
