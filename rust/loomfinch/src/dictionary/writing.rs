//! Writing, saving and restoring.

use super::Dictionary;
use crate::answer::{done, done_at, Said};
use crate::parts::Parts;
use crate::refusal::Refusal;
use crate::refused::Refused;
use crate::sys;
use crate::value::{ObjectValue, ValueType};

/// The index whose write saves.
const STORE_PARAMETERS: u16 = 0x1010;

/// The answer to "load", which is no refusal.
const RESTORE_REQUESTED: u64 = 19;

/// What a write has done.
#[derive(Debug, Clone, Copy, PartialEq, Eq, Hash)]
#[non_exhaustive]
pub enum Written {
    /// The value is written, or the values are saved.
    Done,
    /// "load" was written to 1011h: the caller is asked to restore. Nothing has changed.
    RestoreRequested,
}

impl Dictionary {
    /// Writes a value of the type that the place has.
    ///
    /// "save" written to 1010h saves into the dictionary's own store, as [`save`](Dictionary::save) does, and "load"
    /// written to 1011h asks for a restore. The count of a mapping is kept in [edition 2](crate::Edition::Two), where 0 turns
    /// the mapping off; in edition 1 it is accepted and not kept.
    ///
    /// Refuses, in this order, a mapping's count with [`TypeMismatch`](Refusal::TypeMismatch) where it is no Unsigned8,
    /// and as [`validate_pdo_mapping`](Dictionary::validate_pdo_mapping) does; with
    /// [`ObjectNotFound`](Refusal::ObjectNotFound); with [`ReadOnly`](Refusal::ReadOnly) where access is ReadOnly or
    /// Constant; with [`SubObjectNotFound`](Refusal::SubObjectNotFound); with
    /// [`CountNotWritable`](Refusal::CountNotWritable) the count of a list that is no mapping; with
    /// [`TypeMismatch`](Refusal::TypeMismatch) a value of another type; with [`OutOfRange`](Refusal::OutOfRange) a number
    /// outside the object's range, where that is of its type; with [`TooLong`](Refusal::TooLong) a string longer than its
    /// room. At 1010h and 1011h only with [`BadSignature`](Refusal::BadSignature) another value or
    /// sub-index 0, with [`NoStorage`](Refusal::NoStorage) for want of a store, and with
    /// [`StoreFull`](Refusal::StoreFull).
    ///
    /// ```
    /// use loomfinch::{Capacity, Dictionary, Object, ObjectEntry, ObjectValue, Refusal, Written};
    ///
    /// let mut dictionary = Dictionary::new(Capacity::MOST);
    /// dictionary.insert(0x6000, ObjectEntry::new(Object::Variable(ObjectValue::Unsigned16(0))))?;
    /// assert_eq!(dictionary.write(0x6000, 0, ObjectValue::Unsigned16(7))?, Written::Done);
    /// let wider = dictionary.write(0x6000, 0, ObjectValue::Unsigned32(90_000));
    /// assert_eq!(wider, Err(Refusal::TypeMismatch));
    /// assert_eq!(dictionary.read_u16(0x6000, 0)?, 7);
    /// # Ok::<(), Refusal>(())
    /// ```
    pub fn write(
        &mut self,
        index: u16,
        sub_index: u8,
        value: ObjectValue,
    ) -> Result<Written, Refusal> {
        Ok(write(&mut self.parts, &mut self.store, index, sub_index, &value)?)
    }

    /// Writes a value of the type that the place has, given as it travels: its type and its encoding, as SDO or a file brings
    /// them. What it does is what [`write`](Dictionary::write) does.
    ///
    /// Refuses first with [`BadValue`](Refusal::BadValue) data that is not just a value of the type: a text that is not UTF-8,
    /// with the [place](crate::Place::Text) of the first byte at which none goes on; fewer bytes than the type has, with the
    /// [bytes](crate::Place::Value) needed and had; without a place more bytes than a type of a fixed size has, and units of 16
    /// bits that are an odd number of bytes. Then it refuses as [`write`](Dictionary::write) does, without a place.
    ///
    /// ```
    /// use loomfinch::{Dictionary, Object, ObjectEntry, Place, Refusal, Refused, ValueType, Written};
    ///
    /// let mut dictionary = Dictionary::new(Default::default());
    /// let caption = ObjectEntry::new(Object::Variable("Act I".into())).with_rooms([40]);
    /// dictionary.insert(0x6100, caption)?;
    /// let text = ValueType::VisibleString;
    /// assert_eq!(dictionary.write_encoded(0x6100, 0, text, "Décor".as_bytes())?, Written::Done);
    /// let latin_1 = dictionary.write_encoded(0x6100, 0, text, b"D\xE9cor").unwrap_err();
    /// assert_eq!(latin_1, Refused::new(Refusal::BadValue, Some(Place::Text { at: 2 })));
    /// assert_eq!(dictionary.read_str(0x6100, 0)?, "Décor");
    /// # Ok::<(), Refused>(())
    /// ```
    pub fn write_encoded(
        &mut self,
        index: u16,
        sub_index: u8,
        value_type: ValueType,
        data: &[u8],
    ) -> Result<Written, Refused> {
        write_data(&mut self.parts, &mut self.store, index, sub_index, value_type, data)
    }

    /// Writes a value as [`write`](Dictionary::write) does, with a lent store instead of the dictionary's own.
    pub fn write_with_store(
        &mut self,
        index: u16,
        sub_index: u8,
        value: ObjectValue,
        store: &mut [u8],
    ) -> Result<Written, Refusal> {
        Ok(write(&mut self.parts, store, index, sub_index, &value)?)
    }

    /// Saves a list into the dictionary's own store, as "save" written to 1010h does: list 1 is everything, 2 the indices
    /// 1000h to 1FFFh, 3 the indices 6000h to 9FFFh, any other nothing. Only objects with access ReadWriteStore or
    /// WriteOnlyStore are saved, and what the store kept before is gone.
    ///
    /// Refuses with [`BadSignature`](Refusal::BadSignature) list 0, and otherwise as [`write`](Dictionary::write) says.
    pub fn save(&mut self, list: u8) -> Result<(), Refusal> {
        self.write(STORE_PARAMETERS, list, signature()).map(|_| ())
    }

    /// Saves a list as [`save`](Dictionary::save) does, into a lent store instead of the dictionary's own. A save changes no
    /// value; the call works on a copy of the dictionary's memory, which it makes.
    ///
    /// ```
    /// use loomfinch::{AccessType, Capacity, Dictionary, Object, ObjectEntry, ObjectValue};
    ///
    /// let mut dictionary = Dictionary::new(Capacity::MOST);
    /// let time = ObjectEntry::new(Object::Variable(ObjectValue::Unsigned16(2_500)));
    /// dictionary.insert(0x6000, time.with_access(AccessType::ReadWriteStore))?;
    /// let mut store = [0; 64];
    /// dictionary.save_to(1, &mut store)?;
    /// dictionary.write(0x6000, 0, ObjectValue::Unsigned16(1))?;
    /// dictionary.restore_from(0x6000, 0x6FFF, &store)?;
    /// assert_eq!(dictionary.read_u16(0x6000, 0)?, 2_500);
    /// # Ok::<(), loomfinch::Refusal>(())
    /// ```
    pub fn save_to(&self, list: u8, store: &mut [u8]) -> Result<(), Refusal> {
        write(&mut self.parts.clone(), store, STORE_PARAMETERS, list, &signature())?;
        Ok(())
    }

    /// Restores the values of the objects from index `first` to index `last`, 1003h left out: to what the dictionary's own
    /// store keeps for the place, else to the object's default, at a list's element only where the types agree. Other
    /// values stay. A restored value has the type that was saved. The counts of mappings are neither saved nor restored.
    ///
    /// Refuses with [`TooLong`](Refusal::TooLong) where a string is longer than its room, and then restores nothing.
    pub fn restore_power_on_values(&mut self, first: u16, last: u16) -> Result<(), Refusal> {
        done(sys::restore_power_on_values(&mut self.parts, &self.store, first, last))
    }

    /// Restores values as [`restore_power_on_values`](Dictionary::restore_power_on_values) does, from a lent store instead
    /// of the dictionary's own.
    pub fn restore_from(&mut self, first: u16, last: u16, store: &[u8]) -> Result<(), Refusal> {
        done(sys::restore_power_on_values(&mut self.parts, store, first, last))
    }

    /// Adds 1 modulo 2^32 to an Unsigned32 that is a Variable or a Record's element; elsewhere nothing happens.
    pub fn increment_counter(&mut self, index: u16, sub_index: u8) -> Result<(), Refusal> {
        done(sys::increment_counter(&mut self.parts, index, sub_index))
    }
}

fn write(
    parts: &mut Parts,
    store: &mut [u8],
    index: u16,
    sub_index: u8,
    value: &ObjectValue,
) -> Result<Written, Refused> {
    write_data(parts, store, index, sub_index, value.value_type(), &value.serialize())
}

fn write_data(
    parts: &mut Parts,
    store: &mut [u8],
    index: u16,
    sub_index: u8,
    value_type: ValueType,
    data: &[u8],
) -> Result<Written, Refused> {
    let (type_number, mut said) = (value_type.number().into(), Said::nothing());
    match sys::write(parts, store, index, sub_index, type_number, data, &mut said) {
        RESTORE_REQUESTED => Ok(Written::RestoreRequested),
        answer => done_at(answer, &said).map(|()| Written::Done),
    }
}

/// What is written to save.
fn signature() -> ObjectValue {
    ObjectValue::VisibleString("save".to_owned())
}
