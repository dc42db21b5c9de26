//! Reading.

use super::Dictionary;
use crate::answer::{done, fit};
use crate::refusal::Refusal;
use crate::sys;
use crate::types::NodeId;
use crate::value::{text, ObjectValue, ValueType};

/// The most elements of a list, so the most nodes.
const MOST_ELEMENTS: usize = 254;

impl Dictionary {
    /// Reads a value. A list's sub-index 0 is the count of its elements, an Unsigned8; of a mapping in
    /// [edition 2](crate::Edition::Two) it is the count that was written last. Access is not looked at.
    ///
    /// Refuses with [`ObjectNotFound`](Refusal::ObjectNotFound) or [`SubObjectNotFound`](Refusal::SubObjectNotFound) a
    /// place that holds nothing.
    pub fn read(&self, index: u16, sub_index: u8) -> Result<ObjectValue, Refusal> {
        let (value_type, word, part) = self.stored(index, sub_index)?;
        Ok(ObjectValue::from_word(value_type, word, part))
    }

    /// The value at a place, or none where the place holds nothing.
    ///
    /// ```
    /// use loomfinch::{Capacity, Dictionary};
    ///
    /// let dictionary = Dictionary::new(Capacity::MOST);
    /// assert_eq!(dictionary.get(0x6000, 0), Ok(None));
    /// ```
    pub fn get(&self, index: u16, sub_index: u8) -> Result<Option<ObjectValue>, Refusal> {
        match self.read(index, sub_index) {
            Ok(value) => Ok(Some(value)),
            Err(Refusal::ObjectNotFound | Refusal::SubObjectNotFound) => Ok(None),
            Err(refusal) => Err(refusal),
        }
    }

    /// Reads an Unsigned8. Refuses a place that holds nothing as [`read`](Dictionary::read) does, and with
    /// [`TypeMismatch`](Refusal::TypeMismatch) a value of another type.
    pub fn read_u8(&self, index: u16, sub_index: u8) -> Result<u8, Refusal> {
        let mut number = 0;
        done(sys::read_u8(&self.parts, index, sub_index, &mut number))?;
        Ok(fit(number))
    }

    /// Reads an Unsigned16, as [`read_u8`](Dictionary::read_u8) reads an Unsigned8.
    pub fn read_u16(&self, index: u16, sub_index: u8) -> Result<u16, Refusal> {
        let mut number = 0;
        done(sys::read_u16(&self.parts, index, sub_index, &mut number))?;
        Ok(fit(number))
    }

    /// Reads an Unsigned32, as [`read_u8`](Dictionary::read_u8) reads an Unsigned8.
    pub fn read_u32(&self, index: u16, sub_index: u8) -> Result<u32, Refusal> {
        let mut number = 0;
        done(sys::read_u32(&self.parts, index, sub_index, &mut number))?;
        Ok(fit(number))
    }

    /// Reads an Unsigned64, as [`read_u8`](Dictionary::read_u8) reads an Unsigned8.
    pub fn read_u64(&self, index: u16, sub_index: u8) -> Result<u64, Refusal> {
        let mut number = 0;
        done(sys::read_u64(&self.parts, index, sub_index, &mut number))?;
        Ok(number)
    }

    /// Reads an Integer8, as [`read_u8`](Dictionary::read_u8) reads an Unsigned8.
    pub fn read_i8(&self, index: u16, sub_index: u8) -> Result<i8, Refusal> {
        self.read(index, sub_index)?.try_into()
    }

    /// Reads an Integer16, as [`read_u8`](Dictionary::read_u8) reads an Unsigned8.
    pub fn read_i16(&self, index: u16, sub_index: u8) -> Result<i16, Refusal> {
        self.read(index, sub_index)?.try_into()
    }

    /// Reads an Integer32, as [`read_u8`](Dictionary::read_u8) reads an Unsigned8.
    pub fn read_i32(&self, index: u16, sub_index: u8) -> Result<i32, Refusal> {
        self.read(index, sub_index)?.try_into()
    }

    /// Reads an Integer64, as [`read_u8`](Dictionary::read_u8) reads an Unsigned8.
    pub fn read_i64(&self, index: u16, sub_index: u8) -> Result<i64, Refusal> {
        self.read(index, sub_index)?.try_into()
    }

    /// Reads a VisibleString, which is not copied. Refuses as [`read_u8`](Dictionary::read_u8) does.
    ///
    /// ```
    /// use loomfinch::{Capacity, Dictionary, Object, ObjectEntry, ObjectValue};
    ///
    /// let mut dictionary = Dictionary::new(Capacity::MOST);
    /// let cue = Object::Variable(ObjectValue::VisibleString("Act I".into()));
    /// dictionary.insert(0x2000, ObjectEntry::new(cue))?;
    /// assert_eq!(dictionary.read_str(0x2000, 0)?, "Act I");
    /// # Ok::<(), loomfinch::Refusal>(())
    /// ```
    pub fn read_str(&self, index: u16, sub_index: u8) -> Result<&str, Refusal> {
        match self.stored(index, sub_index)? {
            (ValueType::VisibleString, _, part) => Ok(text(part)),
            _ => Err(Refusal::TypeMismatch),
        }
    }

    /// Reads the bytes of a string of any of the four types, which are not copied. Refuses as
    /// [`read_u8`](Dictionary::read_u8) does.
    pub fn read_bytes(&self, index: u16, sub_index: u8) -> Result<&[u8], Refusal> {
        match self.stored(index, sub_index)? {
            (value_type, _, part) if value_type.size().is_none() => Ok(part),
            _ => Err(Refusal::TypeMismatch),
        }
    }

    /// A value as it is stored: its type, its word, and a string's part of the dictionary's bytes.
    fn stored(&self, index: u16, sub_index: u8) -> Result<(ValueType, u64, &[u8]), Refusal> {
        let mut numbers = [0; 3];
        done(sys::read(&self.parts, index, sub_index, &mut numbers))?;
        let [type_number, word, start] = numbers;
        let value_type = ValueType::from_number(fit(type_number)).expect("loomfinch: a type");
        let part = match value_type.size() {
            Some(_) => &[],
            None => &self.parts.bytes[fit(start)..][..fit(word)],
        };
        Ok((value_type, word, part))
    }

    /// The lowest index of a name.
    ///
    /// Refuses with [`BadValue`](Refusal::BadValue) a name over 32 bytes, and with
    /// [`ObjectNotFound`](Refusal::ObjectNotFound) one that no object has.
    pub fn find_by_name(&self, name: &str) -> Result<u16, Refusal> {
        let mut index = 0;
        done(sys::find_by_name(&self.parts, name.as_bytes(), &mut index))?;
        Ok(fit(index))
    }

    /// The configured nodes, rising: the numbers of those elements of the Array 1F81h that are Unsigned32 with bit 0 set
    /// and bit 8 clear. There are none where 1F81h is no Array.
    ///
    /// ```
    /// use loomfinch::{Capacity, Dictionary, NodeId, Object, ObjectEntry, ObjectValue};
    ///
    /// let mut dictionary = Dictionary::new(Capacity::MOST);
    /// let assignments = [1, 0, 0x101, 1].map(ObjectValue::Unsigned32);
    /// dictionary.insert(0x1F81, ObjectEntry::new(Object::Array(assignments.into())))?;
    /// assert_eq!(dictionary.get_configured_cns()?, [NodeId(1), NodeId(4)]);
    /// # Ok::<(), loomfinch::Refusal>(())
    /// ```
    pub fn get_configured_cns(&self) -> Result<Vec<NodeId>, Refusal> {
        let mut nodes = [0; MOST_ELEMENTS];
        let mut count = 0;
        done(sys::get_configured_cns(&self.parts, &mut nodes, &mut count))?;
        Ok(nodes[..fit(count)].iter().copied().map(NodeId).collect())
    }

    /// May the first `count` elements of the mapping at an index be used, be they in use or not? Yes for a count of 0 and for
    /// an index that is no mapping's.
    ///
    /// Refuses, in this order, with [`ObjectNotFound`](Refusal::ObjectNotFound) where no Array is there, with
    /// [`MissingEntries`](Refusal::MissingEntries) where one of them is missing or no Unsigned64, and with
    /// [`PdoMapOverrun`](Refusal::PdoMapOverrun) where one ends behind the limit that 1F98h has for payloads, or behind
    /// 1490 bytes where it has none.
    pub fn validate_pdo_mapping(&self, index: u16, count: u8) -> Result<(), Refusal> {
        done(sys::validate_pdo_mapping(&self.parts, index, count))
    }
}
