//! Values written out by hand.

use crate::dictionary::model::layout::{LAST_SHAPE, Value};

pub const RECORD: u64 = LAST_SHAPE;

/// A mapping word: length and offset in bits.
pub fn w(length: u64, offset: u64, sub_index: u64, index: u64) -> Value {
    Value::new(8, 0, &(index | sub_index << 16 | offset << 32 | length << 48).to_le_bytes())
}

pub fn u8s<const N: usize>(numbers: [u8; N]) -> Vec<Value> {
    numbers.map(|number| Value::new(5, 0, &[number])).to_vec()
}

pub fn u16s<const N: usize>(numbers: [u16; N]) -> Vec<Value> {
    numbers.map(|number| Value::new(6, 0, &number.to_le_bytes())).to_vec()
}

pub fn u32s<const N: usize>(numbers: [u32; N]) -> Vec<Value> {
    numbers.map(|number| Value::new(7, 0, &number.to_le_bytes())).to_vec()
}
