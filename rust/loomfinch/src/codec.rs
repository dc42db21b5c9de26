//! Values as the bytes that travel.

use crate::answer::{done, done_at, fit, Said};
use crate::refusal::Refusal;
use crate::refused::Refused;
use crate::sys;
use crate::value::{ObjectValue, ValueType};

/// Decodes the value of a type that the data begins with. Bytes behind a value of a fixed size are ignored, as consuming
/// ignores them; [`decode_exact`] refuses them.
///
/// Refuses with [`TypeMismatch`](Refusal::TypeMismatch) text that is not UTF-8, with the [place](crate::Place::Text) of the
/// first byte at which none goes on, and units of 16 bits that are an odd number of bytes; with
/// [`BufferTooShort`](Refusal::BufferTooShort) fewer bytes than the type has, with the [bytes](crate::Place::Value) needed and
/// had.
///
/// ```
/// use loomfinch::{decode, ObjectValue, Place, Refusal, ValueType};
///
/// assert_eq!(decode(ValueType::Integer16, &[0x00, 0x80]), Ok(ObjectValue::Integer16(-32_768)));
/// let short = decode(ValueType::Integer16, &[0x00]).unwrap_err();
/// assert_eq!(short.refusal, Refusal::BufferTooShort);
/// assert_eq!(short.place, Some(Place::Value { needed: 2, had: 1 }));
/// let broken = decode(ValueType::VisibleString, b"Acte II \xFC").unwrap_err();
/// assert_eq!(broken.place, Some(Place::Text { at: 8 }));
/// ```
pub fn decode(value_type: ValueType, data: &[u8]) -> Result<ObjectValue, Refused> {
    let (mut numbers, mut said) = ([0; 7], Said::nothing());
    let answer = sys::decode(value_type.number().into(), data, &mut numbers, &mut said);
    done_at(answer, &said)?;
    Ok(ObjectValue::from_word(value_type, numbers[0], data))
}

/// Decodes the value of a type that the data is, to its last byte.
///
/// Refuses as [`decode`] does, and with [`TypeMismatch`](Refusal::TypeMismatch), without a place, bytes behind the value.
///
/// ```
/// use loomfinch::{decode, decode_exact, ObjectValue, Refusal, ValueType};
///
/// let ninety_seconds = 90_000_u32.to_le_bytes();
/// assert_eq!(decode(ValueType::Unsigned16, &ninety_seconds), Ok(ObjectValue::Unsigned16(24_464)));
/// assert_eq!(decode_exact(ValueType::Unsigned16, &ninety_seconds), Err(Refusal::TypeMismatch.into()));
/// ```
pub fn decode_exact(value_type: ValueType, data: &[u8]) -> Result<ObjectValue, Refused> {
    let value = decode(value_type, data)?;
    match value_type.size() {
        Some(size) if size < data.len() => Err(Refusal::TypeMismatch.into()),
        _ => Ok(value),
    }
}

/// Lays the encoding of a value at the output's start and answers its length; bytes behind it stay.
///
/// Refuses with [`BufferTooShort`](Refusal::BufferTooShort) an output that is shorter.
///
/// ```
/// use loomfinch::{encode, ObjectValue, Refusal};
///
/// let mut out = [0xFF; 6];
/// assert_eq!(encode(&ObjectValue::Unsigned32(90_000), &mut out), Ok(4));
/// assert_eq!(out, [0x90, 0x5F, 0x01, 0x00, 0xFF, 0xFF]);
/// assert_eq!(encode(&ObjectValue::Unsigned32(1), &mut []), Err(Refusal::BufferTooShort));
/// ```
pub fn encode(value: &ObjectValue, out: &mut [u8]) -> Result<usize, Refusal> {
    let mut written = 0;
    let type_number = value.value_type().number().into();
    done(sys::encode(type_number, value.word(), &value.part(), out, &mut written))?;
    Ok(fit(written))
}

impl ObjectValue {
    /// The encoding of the value.
    ///
    /// ```
    /// use loomfinch::ObjectValue;
    ///
    /// assert_eq!(ObjectValue::UnicodeString(vec![0x41, 0x263A]).serialize(), [0x41, 0, 0x3A, 0x26]);
    /// ```
    pub fn serialize(&self) -> Vec<u8> {
        let size = self.value_type().size().unwrap_or_else(|| self.part().len());
        let mut out = vec![0; size];
        encode(self, &mut out).expect("loomfinch: every value has an encoding of its size");
        out
    }

    /// Decodes a value of the template's type; see [`decode`].
    pub fn deserialize(data: &[u8], type_template: &ObjectValue) -> Result<ObjectValue, Refused> {
        decode(type_template.value_type(), data)
    }
}
