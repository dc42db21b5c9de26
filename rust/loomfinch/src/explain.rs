//! What an element of a mapping maps, and onto what.

use crate::answer::{done, fit};
use crate::check::Fault;
use crate::dictionary::Dictionary;
use crate::mapping::PdoMappingEntry;
use crate::refusal::Refusal;
use crate::sys;
use crate::value::ValueType;
use crate::words::{bytes, counted, with_article};
use std::fmt;

/// How many numbers explain an element.
const EXPLAIN_NUMBERS: usize = 11;

/// What is at the place that an element maps to.
#[derive(Debug, Clone, Copy, PartialEq, Eq, Hash)]
#[non_exhaustive]
pub enum Target {
    /// There is no such object.
    NoObject,
    /// The object has no such sub-index.
    NoSubIndex,
    /// A list's count.
    Count,
    /// A value of a fixed type.
    Fixed {
        /// Its type.
        value_type: ValueType,
        /// Its size in bytes.
        size: usize,
    },
    /// A string.
    String {
        /// Its type.
        value_type: ValueType,
        /// How many bytes it has room for.
        room: usize,
    },
}

/// What an element of a mapping maps, and onto what. It displays as a sentence for a person, with the fault's name behind it where
/// there is one: `element 1 maps 4 bytes onto 6000h/0, an Unsigned16 of 2 bytes: WrongLength`.
#[derive(Debug, Clone, Copy, PartialEq, Eq, Hash)]
#[non_exhaustive]
pub struct Explanation {
    /// The place of the element in the mapping, from 1.
    pub element: u8,
    /// What the check says of the element by itself, or none where it is in order.
    pub fault: Option<Fault>,
    /// The type of the element; only an Unsigned64 is a mapping word.
    pub element_type: ValueType,
    /// What the mapping word says and leads to, or none where the element is no mapping word.
    pub mapped: Option<(PdoMappingEntry, Target)>,
}

impl Dictionary {
    /// Explains an element, from 1, of the mapping 1600h+channel, in order or not, in use or not.
    ///
    /// Refuses with [`ObjectNotFound`](Refusal::ObjectNotFound) where 1600h+channel is no list, and with
    /// [`SubObjectNotFound`](Refusal::SubObjectNotFound) an element that it does not have.
    ///
    /// ```
    /// use loomfinch::{Capacity, Dictionary, Object, ObjectEntry, ObjectValue, PdoMappingEntry};
    ///
    /// let mut dictionary = Dictionary::new(Capacity::MOST);
    /// let time = PdoMappingEntry { index: 0x6000, sub_index: 0, offset_bits: 0, length_bits: 32 };
    /// let mapping = vec![ObjectValue::Unsigned64(time.to_u64())];
    /// dictionary.insert(0x1600, ObjectEntry::new(Object::Array(mapping)))?;
    /// dictionary.insert(0x6000, ObjectEntry::new(Object::Variable(ObjectValue::Unsigned16(0))))?;
    /// let explanation = dictionary.explain(0, 1)?;
    /// assert_eq!(
    ///     explanation.to_string(),
    ///     "element 1 maps 4 bytes onto 6000h/0, an Unsigned16 of 2 bytes: WrongLength"
    /// );
    /// # Ok::<(), loomfinch::Refusal>(())
    /// ```
    pub fn explain(&self, channel: u8, element: u8) -> Result<Explanation, Refusal> {
        let mut numbers = [0; EXPLAIN_NUMBERS];
        done(sys::explain(self.parts(), channel, element, &mut numbers))?;
        let [fault, type_number, index, sub_index, offset, length, _, _, there, target, size] =
            numbers;
        let element_type = value_type(type_number);
        let entry = PdoMappingEntry {
            index: fit(index),
            sub_index: fit(sub_index),
            offset_bits: fit(offset),
            length_bits: fit(length),
        };
        let mapped = (element_type == ValueType::Unsigned64)
            .then(|| (entry, Target::from_numbers(there, target, size)));
        Ok(Explanation { element, fault: Fault::from_number(fit(fault)), element_type, mapped })
    }
}

fn value_type(number: u64) -> ValueType {
    ValueType::from_number(fit(number)).expect("loomfinch: a type")
}

impl Target {
    fn from_numbers(there: u64, type_number: u64, size: u64) -> Self {
        match there {
            0 => Target::NoObject,
            1 => Target::NoSubIndex,
            2 => Target::Count,
            _ => {
                let value_type = value_type(type_number);
                match value_type.size() {
                    Some(_) => Target::Fixed { value_type, size: fit(size) },
                    None => Target::String { value_type, room: fit(size) },
                }
            }
        }
    }
}

impl fmt::Display for Explanation {
    fn fmt(&self, f: &mut fmt::Formatter<'_>) -> fmt::Result {
        write!(f, "element {} ", self.element)?;
        let (entry, target) = match self.mapped {
            Some(mapped) => mapped,
            None => {
                write!(f, "is {} and no mapping word", with_article(self.element_type))?;
                return self.named_fault(f);
            }
        };
        match entry.field() {
            Some(field) => write!(f, "maps {}", bytes(field.len()))?,
            None => {
                let length = counted(entry.length_bits.into(), "bit");
                write!(f, "maps {length} from bit {} on", entry.offset_bits)?;
            }
        }
        write!(f, " onto {:04X}h/{}, ", entry.index, entry.sub_index)?;
        match self.fault {
            Some(Fault::HandOff) => f.write_str("which is handed to SDO")?,
            _ => target.fmt(f)?,
        }
        self.named_fault(f)
    }
}

impl Explanation {
    fn named_fault(&self, f: &mut fmt::Formatter<'_>) -> fmt::Result {
        self.fault.map_or(Ok(()), |fault| write!(f, ": {fault}"))
    }
}

impl fmt::Display for Target {
    fn fmt(&self, f: &mut fmt::Formatter<'_>) -> fmt::Result {
        match *self {
            Target::NoObject => f.write_str("where there is no object"),
            Target::NoSubIndex => f.write_str("a sub-index that the object does not have"),
            Target::Count => f.write_str("a list's count"),
            Target::Fixed { value_type, size } => {
                write!(f, "{} of {}", with_article(value_type), bytes(size))
            }
            Target::String { value_type, room } => {
                write!(f, "{} with room for {}", with_article(value_type), bytes(room))
            }
        }
    }
}
