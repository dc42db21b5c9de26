//! Very many texts at one go: the port's program decodes all of them and sums what they leave, and
//! the sum is held against that of what is wanted.

use crate::call::{Call, Outcome};
use crate::original::{NUMBERS, VISIBLE_STRING};

/// All texts that begin alike, with so many bytes of a set behind that, in every way.
pub struct Sweep {
    pub start: Vec<u8>,
    pub set: Vec<u8>,
    pub count: usize,
}

impl Sweep {
    /// Those of them that have the same byte behind the start, for each byte.
    pub fn parts(&self) -> impl Iterator<Item = Self> {
        let part = |byte: &u8| Self {
            start: [self.start.as_slice(), &[*byte]].concat(),
            set: self.set.clone(),
            count: self.count - 1,
        };
        self.set.iter().map(part)
    }

    /// The sum of what is wanted, after `look` at each call and its outcome.
    pub fn wanted(&self, look: &mut impl FnMut(&Call, &Outcome)) -> u64 {
        let mut call = self.first();
        let mut sum = 0;
        for text in 0..self.set.len().pow(self.count as u32) {
            let mut rest = text;
            for byte in call.input[self.start.len()..].iter_mut().rev() {
                *byte = self.set[rest % self.set.len()];
                rest /= self.set.len();
            }
            let outcome = call.wanted();
            sum = folded(sum, outcome.answer);
            sum = outcome.numbers[..NUMBERS].iter().copied().fold(sum, folded);
            sum = outcome.said.into_iter().fold(sum, folded);
            look(&call, &outcome);
        }
        sum
    }

    /// The call of its first text.
    pub fn first(&self) -> Call {
        let behind = vec![self.set[0]; self.count];
        Call::decode(VISIBLE_STRING, &[self.start.as_slice(), &behind].concat(), NUMBERS)
    }
}

/// As in port.c.
fn folded(sum: u64, number: u64) -> u64 {
    (sum.rotate_left(5) ^ number).wrapping_mul(0x517C_C1B7_2722_0A95)
}
