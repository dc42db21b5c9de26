//! What a restore must give. The Rust decides, from the table that the store has an image of; what
//! it cannot say is document 01's: which images are readable, TooLong, and where bytes lie.

use super::between::{LIST_RETYPED, RECORD_RETYPED};
use super::edition::in_use;
use super::image::{self, Record};
use super::layout::{self, Object, VARIABLE, Value, is_string};
use super::memory::Memory;
use super::sound::{Dictionary, Done, Refused};
use super::unused::Unused;
use std::ops::RangeInclusive;

const TOO_LONG: u64 = 13;
const ERROR_HISTORY: u16 = 0x1003;

impl Dictionary {
    pub fn restore_power_on_values(
        &mut self,
        range: RangeInclusive<u16>,
        memory: &mut Memory,
        notes: &mut Vec<&'static str>,
    ) -> Result<Done, Refused> {
        let read = image::read(&memory.store);
        notes.push(match &read {
            Err(rule) => rule,
            Ok(table) if table.is_empty() => "an empty table",
            Ok(_) => "a table",
        });
        let table = read.ok();
        // A dictionary that was made anew has saved nothing: then the store alone has the table.
        if let Some(kept) = self.rust.table() {
            assert!(table.as_ref() == Some(&kept), "the store has the image of the Rust's table");
        }
        self.rust.keep(table.as_deref());
        self.rust.restore_power_on_values(*range.start(), *range.end());
        let seen = Seen::of(&self.objects, table.as_deref().unwrap_or_default(), range.clone());
        notes.extend(seen.notes());
        let unused = Unused { table: table.as_deref().unwrap_or_default(), range: range.clone() };
        let restored: Option<Vec<Object>> =
            self.objects.iter().map(|object| self.restored(object, &unused)).collect();
        // The Rust has no rooms: what it took beyond one is outside the domain (R2.5).
        let Some(restored) = restored else {
            self.give_again();
            return Err((TOO_LONG, seen.too_long()));
        };
        notes.extend(self.restore_notes(&unused));
        self.retyped.extend(retyped(&self.objects, &restored));
        self.objects = restored;
        layout::lay(self.edition, &self.objects, memory);
        assert!(self.all_equal(), "the model has the Rust's values after a restore");
        self.check(memory);
        Ok(Done::because(if range.is_empty() { "first above last" } else { seen.put() }))
    }

    /// The object with the Rust's values in its rooms, and with those of elements that are not in
    /// use; none where one is longer than its room.
    fn restored(&self, object: &Object, unused: &Unused) -> Option<Object> {
        let in_use = in_use(self.edition, object).len();
        let mut restored = object.clone();
        for (place, value) in restored.values.iter_mut().enumerate() {
            let found = match place < in_use {
                true => self.rust.read(object.index as u16, sub_index(object, place)),
                false => Ok(unused.restored(object, place)),
            };
            let Ok(found) = found else { unreachable!("the Rust has what is in use") };
            value.room.get_mut(..found.bytes.len())?.copy_from_slice(&found.bytes);
            (value.kind, value.word) = (found.kind, found.word);
        }
        Some(restored)
    }
}

/// The values whose types differ, by index and place.
fn retyped(before: &[Object], after: &[Object]) -> impl Iterator<Item = (u64, usize)> {
    before.iter().zip(after).flat_map(|(before, after)| {
        let both = before.values.iter().zip(&after.values).enumerate();
        both.filter(|(_, (old, new))| old.kind != new.kind).map(|(place, _)| (before.index, place))
    })
}

pub fn sub_index(object: &Object, place: usize) -> u8 {
    place as u8 + u8::from(object.shape != VARIABLE)
}

/// What a restore comes upon, by R10.9 alone. It says only what is counted, and decides nothing.
#[derive(Default)]
struct Seen {
    stored: bool,
    default: bool,
    retyped: bool,
    stored_too_long: bool,
    default_too_long: bool,
    default_of_another_type: bool,
    number_over_string: bool,
    shorter_than_its_room: bool,
    error_history: bool,
    record_retyped: bool,
    list_retyped: bool,
    /// Records that are put, and those that stand in the range.
    used: usize,
    in_range: usize,
}

impl Seen {
    fn of(objects: &[Object], table: &[Record], range: RangeInclusive<u16>) -> Self {
        let mut seen = Self::default();
        seen.in_range = table.iter().filter(|record| range.contains(&record.index)).count();
        for object in objects.iter().filter(|object| range.contains(&(object.index as u16))) {
            for (place, value) in object.values.iter().enumerate() {
                let at = (object.index as u16, sub_index(object, place));
                let found = table.binary_search_by_key(&at, |r| (r.index, r.sub_index));
                seen.value(object, value, found.ok().map(|row| &table[row]));
            }
        }
        seen
    }

    fn value(&mut self, object: &Object, value: &Value, record: Option<&Record>) {
        let (kind, length) = match (record, &object.default) {
            (Some(record), _) => (u64::from(record.kind), record.body.len()),
            (None, Some(default)) => (default.kind, default.encoding().len()),
            (None, None) => return,
        };
        let changes = kind != value.kind;
        if record.is_none() && object.shape != VARIABLE && changes {
            self.default_of_another_type = true;
            return;
        }
        if object.index == ERROR_HISTORY.into() {
            self.error_history = true;
            return;
        }
        let too_long = is_string(kind) && length > value.room.len();
        self.used += usize::from(record.is_some());
        self.stored |= record.is_some();
        self.default |= record.is_none();
        self.retyped |= changes;
        self.record_retyped |= changes && matches!(object.index, 0x1400..=0x14FF);
        self.list_retyped |= changes && matches!(object.index, 0x1600..=0x16FF);
        self.stored_too_long |= record.is_some() && too_long;
        self.default_too_long |= record.is_none() && too_long;
        self.number_over_string |= is_string(value.kind) && !is_string(kind);
        self.shorter_than_its_room |= is_string(kind) && length < value.room.len();
    }

    fn put(&self) -> &'static str {
        match (self.stored, self.default, self.retyped) {
            (true, true, true) => "stored and defaults, types changed",
            (true, true, false) => "stored and defaults",
            (true, false, true) => "stored, types changed",
            (true, false, false) => "stored",
            (false, true, true) => "defaults, types changed",
            (false, true, false) => "defaults",
            (false, false, _) => "nothing put",
        }
    }

    fn too_long(&self) -> Option<&'static str> {
        Some(match (self.stored_too_long, self.default_too_long) {
            (true, true) => "stored and default",
            (true, false) => "stored",
            _ => "default",
        })
    }

    fn notes(&self) -> impl Iterator<Item = &'static str> {
        let notes = [
            (self.default_of_another_type, "a default of another type left"),
            (self.number_over_string, "a number over a string"),
            (self.shorter_than_its_room, "a string shorter than its room"),
            (self.error_history, "1003h left"),
            (self.record_retyped, RECORD_RETYPED),
            (self.list_retyped, LIST_RETYPED),
            (self.in_range > self.used, "a record without its place"),
        ];
        notes.into_iter().filter(|(seen, _)| *seen).map(|(_, note)| note)
    }
}
