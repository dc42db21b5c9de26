//! One call with all that is lent to it, and what it leaves.

use crate::fault::Fault;
use crate::{mapping, original};
use original::BUFFER_TOO_SHORT;
use powerlink_rs::pdo::PdoMappingEntry;

#[derive(Clone, Copy, Debug, PartialEq, Eq, PartialOrd, Ord)]
pub enum Function {
    Decode,
    Encode,
    FromU64,
    /// The four fields are handed over as a word.
    ToU64,
    /// `to_u64` of what `from_u64` gives.
    Again,
}

/// What a function does not take is 0 or empty.
#[derive(Clone, PartialEq, Eq)]
pub struct Call {
    pub function: Function,
    pub kind: u64,
    pub word: u64,
    /// The data of `decode`, the part of `encode`.
    pub input: Vec<u8>,
    /// How many output bytes are lent.
    pub out: usize,
    /// How many numbers are lent.
    pub room: usize,
}

/// The answer of a call and the lent memory after it.
#[derive(PartialEq, Eq)]
pub struct Outcome {
    pub answer: u64,
    /// Whether memory was touched that no call may touch.
    pub touched: bool,
    pub numbers: Vec<u64>,
    /// What decoding is lent for the numbers of a fault: a place or the bytes needed, and the bytes
    /// had.
    pub said: [u64; SAID],
    pub out: Vec<u8>,
}

pub const SAID: usize = 2;

/// Cells kept behind each lent slice, so that a store past its end shows.
pub const BEHIND: usize = 8;

pub fn number_fill(place: usize) -> u64 {
    0xF111_F111_0000_0000 + place as u64
}

pub fn byte_fill(place: usize) -> u8 {
    (place as u8).wrapping_mul(29) ^ 0xA5
}

impl Call {
    pub fn decode(kind: u64, data: &[u8], room: usize) -> Self {
        Self { kind, input: data.to_vec(), ..Self::mapping(Function::Decode, 0, room) }
    }

    pub fn encode(kind: u64, word: u64, part: &[u8], out: usize, room: usize) -> Self {
        Self { kind, input: part.to_vec(), out, ..Self::mapping(Function::Encode, word, room) }
    }

    /// A call of a function on mapping words.
    pub fn mapping(function: Function, word: u64, room: usize) -> Self {
        Self { function, kind: 0, word, input: Vec::new(), out: 0, room }
    }

    /// The lent memory before the call.
    pub fn lent(&self) -> Outcome {
        Outcome {
            answer: 0,
            touched: false,
            numbers: (0..self.room + BEHIND).map(number_fill).collect(),
            said: std::array::from_fn(number_fill),
            out: (0..self.out + BEHIND).map(byte_fill).collect(),
        }
    }

    /// What the unchanged Rust makes of the call, and what is said of data that it does not decode.
    pub fn wanted(&self) -> Outcome {
        let mut outcome = self.lent();
        match self.rust() {
            Ok((answer, numbers, bytes)) => {
                outcome.answer = answer;
                outcome.numbers[..numbers.len()].copy_from_slice(&numbers);
                outcome.out[..bytes.len()].copy_from_slice(&bytes);
            }
            Err(refusal) => outcome.answer = refusal,
        }
        if let Some(fault) = self.fault() {
            let numbers = fault.numbers();
            outcome.said[..numbers.len()].copy_from_slice(&numbers);
        }
        outcome
    }

    /// Of data to decode.
    pub fn fault(&self) -> Option<Fault> {
        match self.function {
            Function::Decode => Fault::of(self.kind, &self.input),
            _ => None,
        }
    }

    /// The answer, the numbers and the bytes to be written, or a refusal that writes nothing.
    fn rust(&self) -> Result<(u64, Vec<u64>, Vec<u8>), u64> {
        let entry = PdoMappingEntry::from_u64(self.word);
        let (answer, numbers, bytes) = match self.function {
            Function::Decode => {
                let value = original::decode(self.kind, &self.input)?;
                (0, original::numbers(&value).to_vec(), Vec::new())
            }
            Function::Encode => {
                let bytes = original::encode(self.kind, self.word, &self.input)?;
                (0, vec![bytes.len() as u64], bytes)
            }
            Function::FromU64 => (0, mapping::numbers(self.word).to_vec(), Vec::new()),
            Function::ToU64 => (entry.to_u64(), Vec::new(), Vec::new()),
            Function::Again => (entry.to_u64(), mapping::numbers(self.word).to_vec(), Vec::new()),
        };
        // The Rust allocates what it needs; only the port can be lent too little.
        if numbers.len() > self.room || bytes.len() > self.out {
            return Err(BUFFER_TOO_SHORT);
        }
        Ok((answer, numbers, bytes))
    }
}
