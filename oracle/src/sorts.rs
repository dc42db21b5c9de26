//! Sorts of faults, for what is counted; they decide nothing.

use crate::fault::Fault;

/// Of bad texts: by the byte that breaks a character, or by how much of the last one is there.
pub const BAD_TEXTS: [&str; 7] = [
    "a bad first byte",
    "a bad second byte",
    "a bad third byte",
    "a bad fourth byte",
    "an end after one byte of a character",
    "an end after two bytes of a character",
    "an end after three bytes of a character",
];

const LONGEST_CHARACTER: usize = 4;

/// The sort of a fault of the data.
pub fn name(fault: Fault, data: &[u8]) -> &'static str {
    match fault {
        Fault::Value { .. } => "too few bytes",
        Fault::Text { place } if place < data.len() => BAD_TEXTS[place - bad_character(data)],
        Fault::Text { place } => BAD_TEXTS[LONGEST_CHARACTER - 1 + place - bad_character(data)],
        Fault::Odd => "odd",
    }
}

/// Where the character starts at which the data is no text, or its length where it is one.
pub fn bad_character(data: &[u8]) -> usize {
    std::str::from_utf8(data).map_or_else(|error| error.valid_up_to(), str::len)
}
