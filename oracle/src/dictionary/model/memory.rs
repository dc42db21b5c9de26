//! The four lent slices of a dictionary (RULES.md 5), and the store beside them.

use crate::call::{byte_fill, number_fill};

/// Words of the header and of a row, and of a slot.
pub const ROW: usize = 12;
pub const SLOT: usize = 3;

/// The header's word that has the edition, and a row's that has the kept count.
pub const EDITION: usize = 3;
pub const KEPT: usize = 8;

pub const SLICES: [&str; 5] = ["objects", "slots", "words", "bytes", "store"];
pub const BYTES: usize = 3;
pub const STORE: usize = 4;

#[derive(Clone, PartialEq, Eq, Default)]
pub struct Memory {
    pub objects: Vec<u64>,
    pub slots: Vec<u64>,
    pub words: Vec<u64>,
    pub bytes: Vec<u8>,
    pub store: Vec<u8>,
}

/// How many elements of each slice and bytes of the store are lent, and whether
/// an end or the start of each lies at a page that may not be touched.
#[derive(Clone, Copy, PartialEq, Eq)]
pub struct Lent {
    pub at_start: bool,
    pub lengths: [usize; 4],
    pub store: usize,
}

impl Memory {
    /// Lent memory into which nothing has been put.
    pub fn filled(lengths: [usize; 4], store: usize) -> Self {
        let mut memory = Self::default();
        memory.lend(lengths, store);
        memory
    }

    /// What is there stays; what is new is filled.
    pub fn lend(&mut self, lengths: [usize; 4], store: usize) {
        let words = [&mut self.objects, &mut self.slots, &mut self.words];
        for (slice, length) in words.into_iter().zip(lengths) {
            let old = slice.len();
            slice.truncate(length);
            slice.extend((old..length).map(number_fill));
        }
        for (slice, length) in [(&mut self.bytes, lengths[BYTES]), (&mut self.store, store)] {
            let old = slice.len();
            slice.truncate(length);
            slice.extend((old..length).map(byte_fill));
        }
    }

    /// How much is lent; the side is not known here.
    pub fn lent(&self) -> Lent {
        Lent { at_start: false, lengths: self.lengths(), store: self.store.len() }
    }

    /// Of the dictionary that lies here.
    pub fn edition(&self) -> u64 {
        self.objects[EDITION]
    }

    /// Of the dictionary's slices.
    pub fn lengths(&self) -> [usize; 4] {
        [self.objects.len(), self.slots.len(), self.words.len(), self.bytes.len()]
    }

    pub fn word_slices(&mut self) -> [&mut Vec<u64>; 3] {
        [&mut self.objects, &mut self.slots, &mut self.words]
    }

    /// Of any slice, the store too.
    pub fn length(&self, slice: usize) -> usize {
        if slice == STORE { self.store.len() } else { self.lengths()[slice] }
    }

    pub fn get(&self, slice: usize, at: usize) -> u64 {
        match slice {
            BYTES => self.bytes[at].into(),
            STORE => self.store[at].into(),
            _ => [&self.objects, &self.slots, &self.words][slice][at],
        }
    }

    pub fn put(&mut self, slice: usize, at: usize, cell: u64) {
        match slice {
            BYTES => self.bytes[at] = cell as u8,
            STORE => self.store[at] = cell as u8,
            _ => self.word_slices()[slice][at] = cell,
        }
    }
}
