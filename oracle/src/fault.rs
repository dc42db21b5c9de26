//! Data that is no value of a type (R3.6), and the numbers that are said of it. The Rust says only
//! which kind of fault it is, so that the numbers are judged here: from the rule's words, and by the
//! test of a text that the language of the Rust has.

use crate::original::{
    self, BAD_VALUE, BUFFER_TOO_SHORT, TYPE_MISMATCH, UNICODE_STRING, VISIBLE_STRING, size,
};

#[derive(Clone, Copy)]
pub enum Fault {
    /// Fewer bytes than the type has.
    Value { needed: usize, had: usize },
    /// No text: the place of the first byte at which none goes on, or the data's length where it
    /// ends too early.
    Text { place: usize },
    /// 16-bit units of an odd count of bytes, of which nothing more is said.
    Odd,
}

impl Fault {
    /// None where the data decodes, or there is no such type. The Rust must refuse the data for the
    /// same kind of fault, or for none.
    pub fn of(kind: u64, data: &[u8]) -> Option<Self> {
        let fault = Self::judged(kind, data);
        let refusal = original::decode(kind, data).err().filter(|refusal| *refusal != BAD_VALUE);
        assert_eq!(refusal, fault.map(Self::refusal), "what the Rust refuses of {data:X?}");
        fault
    }

    fn refusal(self) -> u64 {
        match self {
            Self::Value { .. } => BUFFER_TOO_SHORT,
            Self::Text { .. } | Self::Odd => TYPE_MISMATCH,
        }
    }

    fn judged(kind: u64, data: &[u8]) -> Option<Self> {
        let (is_fault, fault) = match (kind, size(kind)) {
            (VISIBLE_STRING, _) => {
                (std::str::from_utf8(data).is_err(), Self::Text { place: place(data) })
            }
            (UNICODE_STRING, _) => (!data.len().is_multiple_of(2), Self::Odd),
            (_, Some(needed)) => (data.len() < needed, Self::Value { needed, had: data.len() }),
            (_, None) => return None,
        };
        is_fault.then_some(fault)
    }

    /// In the order in which they are lent, and in which an event has them.
    pub fn numbers(self) -> Vec<u64> {
        match self {
            Self::Value { needed, had } => vec![needed as u64, had as u64],
            Self::Text { place } => vec![place as u64],
            Self::Odd => Vec::new(),
        }
    }
}

/// The length of the longest start of the data that is a text, or lacks nothing but a text's rest.
pub fn place(data: &[u8]) -> usize {
    let begins_a_text = |end: &usize| match std::str::from_utf8(&data[..*end]) {
        Ok(_) => true,
        Err(error) => error.error_len().is_none(),
    };
    (0..=data.len()).rev().find(begins_a_text).expect("every text begins with no byte")
}
