//! The unchanged Rust's answers, put into the port's numbers.

use powerlink_rs::PowerlinkError;
use powerlink_rs::common::{NetTime, RelativeTime, TimeDifference, TimeOfDay};
use powerlink_rs::frame::basic::MacAddress;
use powerlink_rs::od::ObjectValue;

pub const BAD_VALUE: u64 = 2;
pub const TYPE_MISMATCH: u64 = 5;
pub const BUFFER_TOO_SHORT: u64 = 12;

pub const KINDS: u64 = 21;
pub const VISIBLE_STRING: u64 = 11;
pub const UNICODE_STRING: u64 = 13;

/// Bytes of a fixed type; none for text and bytes.
pub fn size(kind: u64) -> Option<usize> {
    match kind {
        0 | 1 | 5 => Some(1),
        2 | 6 => Some(2),
        3 | 7 | 9 | 20 => Some(4),
        15 | 16 | 19 => Some(6),
        4 | 8 | 10 | 17 | 18 => Some(8),
        _ => None,
    }
}

/// A value of the type with this number; its content does not matter.
fn template(kind: u64) -> Option<ObjectValue> {
    Some(match kind {
        0 => ObjectValue::Boolean(0),
        1 => ObjectValue::Integer8(0),
        2 => ObjectValue::Integer16(0),
        3 => ObjectValue::Integer32(0),
        4 => ObjectValue::Integer64(0),
        5 => ObjectValue::Unsigned8(0),
        6 => ObjectValue::Unsigned16(0),
        7 => ObjectValue::Unsigned32(0),
        8 => ObjectValue::Unsigned64(0),
        9 => ObjectValue::Real32(0.0),
        10 => ObjectValue::Real64(0.0),
        11 => ObjectValue::VisibleString(String::new()),
        12 => ObjectValue::OctetString(Vec::new()),
        13 => ObjectValue::UnicodeString(Vec::new()),
        14 => ObjectValue::Domain(Vec::new()),
        15 => ObjectValue::TimeOfDay(TimeOfDay::default()),
        16 => ObjectValue::TimeDifference(TimeDifference::default()),
        17 => ObjectValue::NetTime(NetTime::default()),
        18 => ObjectValue::RelativeTime(RelativeTime::default()),
        19 => ObjectValue::MacAddress(MacAddress::default()),
        20 => ObjectValue::IpAddress([0; 4]),
        _ => return None,
    })
}

/// The decoded value, or the number of the refusal.
pub fn decode(kind: u64, data: &[u8]) -> Result<ObjectValue, u64> {
    let template = template(kind).ok_or(BAD_VALUE)?;
    ObjectValue::deserialize(data, &template).map_err(|error| match error {
        PowerlinkError::BufferTooShort => BUFFER_TOO_SHORT,
        PowerlinkError::TypeMismatch => TYPE_MISMATCH,
        other => panic!("the Rust gives {other:?}, which has no number"),
    })
}

/// The encoding of the value that `word` and `part` stand for. The Rust has no
/// value for what is refused here, so BadValue is document 01's word alone.
pub fn encode(kind: u64, word: u64, part: &[u8]) -> Result<Vec<u8>, u64> {
    let little_endian = word.to_le_bytes();
    let (encoding, behind) = match size(kind) {
        Some(size) => little_endian.split_at(size),
        None => (part, [].as_slice()),
    };
    let fits = behind.iter().all(|byte| *byte == 0);
    if !fits || (size(kind).is_none() && word != part.len() as u64) {
        return Err(BAD_VALUE);
    }
    let value = decode(kind, encoding).map_err(|_| BAD_VALUE)?;
    Ok(value.serialize())
}

/// The word and the six fields of a value.
pub const NUMBERS: usize = 7;

pub fn numbers(value: &ObjectValue) -> [u64; NUMBERS] {
    let mut numbers = [0; NUMBERS];
    let fields = fields(value);
    numbers[0] = word(value);
    numbers[1..=fields.len()].copy_from_slice(&fields);
    numbers
}

fn word(value: &ObjectValue) -> u64 {
    let bytes = value.serialize();
    match value {
        ObjectValue::VisibleString(_)
        | ObjectValue::OctetString(_)
        | ObjectValue::UnicodeString(_)
        | ObjectValue::Domain(_) => bytes.len() as u64,
        _ => bytes.iter().rev().fold(0, |word, byte| word << 8 | u64::from(*byte)),
    }
}

/// Signed fields are widened with their sign, reals are their bits, so that NaN compares.
fn fields(value: &ObjectValue) -> Vec<u64> {
    match value {
        ObjectValue::Boolean(v) | ObjectValue::Unsigned8(v) => vec![(*v).into()],
        ObjectValue::Integer8(v) => vec![*v as u64],
        ObjectValue::Integer16(v) => vec![*v as u64],
        ObjectValue::Integer32(v) => vec![*v as u64],
        ObjectValue::Integer64(v) => vec![*v as u64],
        ObjectValue::Unsigned16(v) => vec![(*v).into()],
        ObjectValue::Unsigned32(v) => vec![(*v).into()],
        ObjectValue::Unsigned64(v) => vec![*v],
        ObjectValue::Real32(v) => vec![v.to_bits().into()],
        ObjectValue::Real64(v) => vec![v.to_bits()],
        ObjectValue::VisibleString(v) => vec![v.len() as u64],
        ObjectValue::OctetString(v) | ObjectValue::Domain(v) => vec![v.len() as u64],
        ObjectValue::UnicodeString(v) => vec![2 * v.len() as u64],
        ObjectValue::TimeOfDay(v) => vec![v.ms.into(), v.days.into()],
        ObjectValue::TimeDifference(v) => vec![v.ms.into(), v.days.into()],
        ObjectValue::NetTime(v) => vec![v.seconds.into(), v.nanoseconds.into()],
        ObjectValue::RelativeTime(v) => vec![v.0],
        ObjectValue::MacAddress(v) => v.0.map(u64::from).to_vec(),
        ObjectValue::IpAddress(v) => v.map(u64::from).to_vec(),
    }
}
