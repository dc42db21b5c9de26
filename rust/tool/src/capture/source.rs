//! Bytes of a capture with the place where they lie, for errors that name it.

use std::io::{ErrorKind, Read};

/// Why a capture cannot be read on, and the byte where that shows.
#[derive(Debug, PartialEq, Eq)]
pub struct Damage {
    pub offset: u64,
    pub text: String,
}

impl Damage {
    pub fn at(offset: u64, text: impl Into<String>) -> Damage {
        Damage { offset, text: text.into() }
    }
}

pub struct Source {
    reader: Box<dyn Read>,
    offset: u64,
}

impl Source {
    pub fn new(reader: Box<dyn Read>) -> Source {
        Source { reader, offset: 0 }
    }

    /// The place of the next byte.
    pub fn offset(&self) -> u64 {
        self.offset
    }

    /// Up to `count` bytes; fewer only at the end.
    pub fn up_to(&mut self, count: usize) -> Result<Vec<u8>, Damage> {
        let mut bytes = vec![0; count];
        let mut filled = 0;
        while filled < count {
            match self.reader.read(&mut bytes[filled..]) {
                Ok(0) => break,
                Ok(more) => filled += more,
                Err(error) if error.kind() == ErrorKind::Interrupted => (),
                Err(error) => {
                    return Err(Damage::at(self.offset + filled as u64, error.to_string()))
                }
            }
        }
        self.offset += filled as u64;
        bytes.truncate(filled);
        Ok(bytes)
    }

    /// Just `count` bytes of what began at `start`.
    pub fn exactly(&mut self, count: usize, what: &str, start: u64) -> Result<Vec<u8>, Damage> {
        let bytes = self.up_to(count)?;
        if bytes.len() < count {
            let text = format!(
                "the file ends inside {} that begins at byte {}: {} bytes needed, {} there",
                what,
                start,
                count,
                bytes.len()
            );
            return Err(Damage::at(self.offset, text));
        }
        Ok(bytes)
    }

    /// Passes over `count` bytes without keeping them.
    pub fn pass_over(&mut self, count: usize, what: &str, start: u64) -> Result<(), Damage> {
        let mut left = count;
        while left > 0 {
            let step = left.min(65_536);
            self.exactly(step, what, start)?;
            left -= step;
        }
        Ok(())
    }
}

/// The order of bytes in which a capture's own numbers are written.
#[derive(Clone, Copy, Debug, PartialEq, Eq)]
pub enum Order {
    Little,
    Big,
}

impl Order {
    /// The two-byte number at a place within the bytes.
    pub fn u16(self, bytes: &[u8], at: usize) -> u16 {
        let pair = [bytes[at], bytes[at + 1]];
        match self {
            Order::Little => u16::from_le_bytes(pair),
            Order::Big => u16::from_be_bytes(pair),
        }
    }

    /// The four-byte number at a place within the bytes.
    pub fn u32(self, bytes: &[u8], at: usize) -> u32 {
        let four = [bytes[at], bytes[at + 1], bytes[at + 2], bytes[at + 3]];
        match self {
            Order::Little => u32::from_le_bytes(four),
            Order::Big => u32::from_be_bytes(four),
        }
    }

    /// The signed eight-byte number at a place within the bytes.
    pub fn i64(self, bytes: &[u8], at: usize) -> i64 {
        let (first, second) = (self.u32(bytes, at), self.u32(bytes, at + 4));
        let (low, high) = match self {
            Order::Little => (first, second),
            Order::Big => (second, first),
        };
        (u64::from(high) << 32 | u64::from(low)) as i64
    }
}
