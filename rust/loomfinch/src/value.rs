//! Values and their types.

use crate::types::{IpAddress, MacAddress, NetTime, RelativeTime, TimeDifference, TimeOfDay};
use std::borrow::Cow;
use std::fmt;

/// A value, with the names and payloads that powerlink-rs gives it.
#[derive(Debug, Clone, PartialEq)]
pub enum ObjectValue {
    /// A truth value: any byte.
    Boolean(u8),
    /// A signed number of 8 bits.
    Integer8(i8),
    /// A signed number of 16 bits.
    Integer16(i16),
    /// A signed number of 32 bits.
    Integer32(i32),
    /// A signed number of 64 bits.
    Integer64(i64),
    /// A number of 8 bits.
    Unsigned8(u8),
    /// A number of 16 bits.
    Unsigned16(u16),
    /// A number of 32 bits.
    Unsigned32(u32),
    /// A number of 64 bits.
    Unsigned64(u64),
    /// A real number of 32 bits, which are kept as they are.
    Real32(f32),
    /// A real number of 64 bits, which are kept as they are.
    Real64(f64),
    /// Text.
    VisibleString(String),
    /// Bytes.
    OctetString(Vec<u8>),
    /// Units of 16 bits.
    UnicodeString(Vec<u16>),
    /// Bytes of any meaning.
    Domain(Vec<u8>),
    /// A time of the day.
    TimeOfDay(TimeOfDay),
    /// A difference of two times of the day.
    TimeDifference(TimeDifference),
    /// A time as IEEE 1588 has it.
    NetTime(NetTime),
    /// A relative time.
    RelativeTime(RelativeTime),
    /// The address of a network interface.
    MacAddress(MacAddress),
    /// An Internet address.
    IpAddress(IpAddress),
}

/// The type of a value; the names are those of DS 301.
#[derive(Debug, Clone, Copy, PartialEq, Eq, Hash)]
#[repr(u8)]
pub enum ValueType {
    /// A truth value: any byte.
    Boolean,
    /// A signed number of 8 bits.
    Integer8,
    /// A signed number of 16 bits.
    Integer16,
    /// A signed number of 32 bits.
    Integer32,
    /// A signed number of 64 bits.
    Integer64,
    /// A number of 8 bits.
    Unsigned8,
    /// A number of 16 bits.
    Unsigned16,
    /// A number of 32 bits.
    Unsigned32,
    /// A number of 64 bits.
    Unsigned64,
    /// A real number of 32 bits, which are kept as they are.
    Real32,
    /// A real number of 64 bits, which are kept as they are.
    Real64,
    /// Text.
    VisibleString,
    /// Bytes.
    OctetString,
    /// Units of 16 bits.
    UnicodeString,
    /// Bytes of any meaning.
    Domain,
    /// A time of the day.
    TimeOfDay,
    /// A difference of two times of the day.
    TimeDifference,
    /// A time as IEEE 1588 has it.
    NetTime,
    /// A relative time.
    RelativeTime,
    /// The address of a network interface.
    MacAddress,
    /// An Internet address.
    IpAddress,
}

/// The types in the order of their numbers, with their names and the sizes of their encodings in bytes.
const TYPES: [(ValueType, &str, Option<usize>); 21] = [
    (ValueType::Boolean, "Boolean", Some(1)),
    (ValueType::Integer8, "Integer8", Some(1)),
    (ValueType::Integer16, "Integer16", Some(2)),
    (ValueType::Integer32, "Integer32", Some(4)),
    (ValueType::Integer64, "Integer64", Some(8)),
    (ValueType::Unsigned8, "Unsigned8", Some(1)),
    (ValueType::Unsigned16, "Unsigned16", Some(2)),
    (ValueType::Unsigned32, "Unsigned32", Some(4)),
    (ValueType::Unsigned64, "Unsigned64", Some(8)),
    (ValueType::Real32, "Real32", Some(4)),
    (ValueType::Real64, "Real64", Some(8)),
    (ValueType::VisibleString, "VisibleString", None),
    (ValueType::OctetString, "OctetString", None),
    (ValueType::UnicodeString, "UnicodeString", None),
    (ValueType::Domain, "Domain", None),
    (ValueType::TimeOfDay, "TimeOfDay", Some(6)),
    (ValueType::TimeDifference, "TimeDifference", Some(6)),
    (ValueType::NetTime, "NetTime", Some(8)),
    (ValueType::RelativeTime, "RelativeTime", Some(8)),
    (ValueType::MacAddress, "MacAddress", Some(6)),
    (ValueType::IpAddress, "IpAddress", Some(4)),
];

impl ValueType {
    /// The number of the type in docs/RULES.md, 0 to 20.
    pub fn number(self) -> u8 {
        self as u8
    }

    /// The type of a number, or none.
    pub fn from_number(number: u8) -> Option<Self> {
        TYPES.get(usize::from(number)).map(|&(value_type, ..)| value_type)
    }

    /// The name of the type.
    pub fn name(self) -> &'static str {
        TYPES[usize::from(self.number())].1
    }

    /// How many bytes a value of the type takes; none for the four types of strings.
    pub fn size(self) -> Option<usize> {
        TYPES[usize::from(self.number())].2
    }
}

impl fmt::Display for ValueType {
    fn fmt(&self, f: &mut fmt::Formatter<'_>) -> fmt::Result {
        f.write_str(self.name())
    }
}

impl ObjectValue {
    /// The type of the value.
    pub fn value_type(&self) -> ValueType {
        match self {
            ObjectValue::Boolean(_) => ValueType::Boolean,
            ObjectValue::Integer8(_) => ValueType::Integer8,
            ObjectValue::Integer16(_) => ValueType::Integer16,
            ObjectValue::Integer32(_) => ValueType::Integer32,
            ObjectValue::Integer64(_) => ValueType::Integer64,
            ObjectValue::Unsigned8(_) => ValueType::Unsigned8,
            ObjectValue::Unsigned16(_) => ValueType::Unsigned16,
            ObjectValue::Unsigned32(_) => ValueType::Unsigned32,
            ObjectValue::Unsigned64(_) => ValueType::Unsigned64,
            ObjectValue::Real32(_) => ValueType::Real32,
            ObjectValue::Real64(_) => ValueType::Real64,
            ObjectValue::VisibleString(_) => ValueType::VisibleString,
            ObjectValue::OctetString(_) => ValueType::OctetString,
            ObjectValue::UnicodeString(_) => ValueType::UnicodeString,
            ObjectValue::Domain(_) => ValueType::Domain,
            ObjectValue::TimeOfDay(_) => ValueType::TimeOfDay,
            ObjectValue::TimeDifference(_) => ValueType::TimeDifference,
            ObjectValue::NetTime(_) => ValueType::NetTime,
            ObjectValue::RelativeTime(_) => ValueType::RelativeTime,
            ObjectValue::MacAddress(_) => ValueType::MacAddress,
            ObjectValue::IpAddress(_) => ValueType::IpAddress,
        }
    }

    /// The value's word, as the library has it: the little-endian number of a fixed type's bytes, or a string's length.
    pub(crate) fn word(&self) -> u64 {
        match *self {
            ObjectValue::Boolean(value) | ObjectValue::Unsigned8(value) => value.into(),
            ObjectValue::Integer8(value) => (value as u8).into(),
            ObjectValue::Integer16(value) => (value as u16).into(),
            ObjectValue::Integer32(value) => (value as u32).into(),
            ObjectValue::Integer64(value) => value as u64,
            ObjectValue::Unsigned16(value) => value.into(),
            ObjectValue::Unsigned32(value) => value.into(),
            ObjectValue::Unsigned64(value) => value,
            ObjectValue::Real32(value) => value.to_bits().into(),
            ObjectValue::Real64(value) => value.to_bits(),
            ObjectValue::TimeOfDay(TimeOfDay { ms, days }) => pair(ms, days.into()),
            ObjectValue::TimeDifference(TimeDifference { ms, days }) => pair(ms, days.into()),
            ObjectValue::NetTime(NetTime { seconds, nanoseconds }) => pair(seconds, nanoseconds),
            ObjectValue::RelativeTime(RelativeTime(micros)) => micros,
            ObjectValue::MacAddress(MacAddress([a, b, c, d, e, f])) => {
                u64::from_le_bytes([a, b, c, d, e, f, 0, 0])
            }
            ObjectValue::IpAddress(address) => u32::from_le_bytes(address).into(),
            ObjectValue::VisibleString(_)
            | ObjectValue::OctetString(_)
            | ObjectValue::UnicodeString(_)
            | ObjectValue::Domain(_) => self.part().len() as u64,
        }
    }

    /// The text or the bytes of a string, empty for a fixed type.
    pub(crate) fn part(&self) -> Cow<'_, [u8]> {
        match self {
            ObjectValue::VisibleString(text) => text.as_bytes().into(),
            ObjectValue::OctetString(bytes) | ObjectValue::Domain(bytes) => bytes.into(),
            ObjectValue::UnicodeString(units) => {
                units.iter().flat_map(|unit| unit.to_le_bytes()).collect()
            }
            _ => Cow::default(),
        }
    }

    /// The value of a word, and of the part that is a string's text or bytes, as a call of the library gave them.
    pub(crate) fn from_word(value_type: ValueType, word: u64, part: &[u8]) -> Self {
        let [a, b, c, d, e, f, ..] = word.to_le_bytes();
        let (low, high) = (word as u32, (word >> 32) as u32);
        match value_type {
            ValueType::Boolean => ObjectValue::Boolean(a),
            ValueType::Integer8 => ObjectValue::Integer8(a as i8),
            ValueType::Integer16 => ObjectValue::Integer16(word as i16),
            ValueType::Integer32 => ObjectValue::Integer32(word as i32),
            ValueType::Integer64 => ObjectValue::Integer64(word as i64),
            ValueType::Unsigned8 => ObjectValue::Unsigned8(a),
            ValueType::Unsigned16 => ObjectValue::Unsigned16(word as u16),
            ValueType::Unsigned32 => ObjectValue::Unsigned32(low),
            ValueType::Unsigned64 => ObjectValue::Unsigned64(word),
            ValueType::Real32 => ObjectValue::Real32(f32::from_bits(low)),
            ValueType::Real64 => ObjectValue::Real64(f64::from_bits(word)),
            ValueType::VisibleString => ObjectValue::VisibleString(text(part).to_owned()),
            ValueType::OctetString => ObjectValue::OctetString(part.to_vec()),
            ValueType::UnicodeString => ObjectValue::UnicodeString(units(part)),
            ValueType::Domain => ObjectValue::Domain(part.to_vec()),
            ValueType::TimeOfDay => {
                ObjectValue::TimeOfDay(TimeOfDay { ms: low, days: high as u16 })
            }
            ValueType::TimeDifference => {
                ObjectValue::TimeDifference(TimeDifference { ms: low, days: high as u16 })
            }
            ValueType::NetTime => ObjectValue::NetTime(NetTime { seconds: low, nanoseconds: high }),
            ValueType::RelativeTime => ObjectValue::RelativeTime(RelativeTime(word)),
            ValueType::MacAddress => ObjectValue::MacAddress(MacAddress([a, b, c, d, e, f])),
            ValueType::IpAddress => ObjectValue::IpAddress([a, b, c, d]),
        }
    }
}

/// The number of two parts, the lower one in bits 0 to 31.
fn pair(low: u32, high: u32) -> u64 {
    u64::from(low) | u64::from(high) << 32
}

/// Bytes that the library has judged to be text.
pub(crate) fn text(part: &[u8]) -> &str {
    std::str::from_utf8(part).expect("loomfinch: the library takes no other text than UTF-8")
}

fn units(part: &[u8]) -> Vec<u16> {
    part.chunks_exact(2).map(|unit| u16::from_le_bytes([unit[0], unit[1]])).collect()
}
