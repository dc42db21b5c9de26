//! The mapping word: which value lies where in a payload.

use crate::answer::{done, fit};
use crate::sys;
use std::ops::Range;

/// An element of a mapping: the value at an index and a sub-index, and where its field lies in a payload.
///
/// ```
/// use loomfinch::PdoMappingEntry;
///
/// let entry = PdoMappingEntry::from_u64(0x0020_0010_AB03_6200);
/// assert_eq!((entry.index, entry.sub_index), (0x6200, 3));
/// assert_eq!((entry.offset_bits, entry.length_bits), (16, 32));
/// assert_eq!(entry.field(), Some(2..6));
/// assert_eq!(entry.to_u64(), 0x0020_0010_0003_6200);
/// ```
#[derive(Debug, Clone, Copy, PartialEq, Eq, Hash)]
pub struct PdoMappingEntry {
    /// The index of the value.
    pub index: u16,
    /// The sub-index of the value.
    pub sub_index: u8,
    /// Where the field starts in the payload, in bits.
    pub offset_bits: u16,
    /// The length of the field, in bits.
    pub length_bits: u16,
}

impl PdoMappingEntry {
    /// The element that a mapping word says; bits 24 to 31 of the word are dropped.
    pub fn from_u64(value: u64) -> Self {
        let [index, sub_index, offset_bits, length_bits, ..] = numbers(value);
        PdoMappingEntry {
            index: fit(index),
            sub_index: fit(sub_index),
            offset_bits: fit(offset_bits),
            length_bits: fit(length_bits),
        }
    }

    /// The mapping word of the element.
    pub fn to_u64(&self) -> u64 {
        sys::to_u64(self.index, self.sub_index, self.offset_bits, self.length_bits)
    }

    /// Where the field starts in bytes, or none where that is not whole bytes.
    pub fn byte_offset(&self) -> Option<usize> {
        let [.., whole, offset, _, _, _] = numbers(self.to_u64());
        (whole == 1).then(|| fit(offset))
    }

    /// The length of the field in bytes, or none where that is not whole bytes.
    pub fn byte_length(&self) -> Option<usize> {
        let [.., whole, length, _] = numbers(self.to_u64());
        (whole == 1).then(|| fit(length))
    }

    /// How many bytes a payload must have to hold the field. The sum of the bits is rounded up, so every element has an end.
    pub fn end(&self) -> usize {
        let [.., end] = numbers(self.to_u64());
        fit(end)
    }

    /// The part of the payload that is the field, or none where it is not whole bytes.
    pub fn field(&self) -> Option<Range<usize>> {
        let start = self.byte_offset()?;
        Some(start..start + self.byte_length()?)
    }
}

/// What the library says of a mapping word: index, sub-index, offset and length in bits; whether the offset is whole
/// bytes, and how many; the same of the length; and the end in bytes.
fn numbers(word: u64) -> [u64; 9] {
    let mut numbers = [0; 9];
    done(sys::from_u64(word, &mut numbers)).expect("loomfinch: there is room for nine numbers");
    numbers
}
