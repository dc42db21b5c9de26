//! The memory of a dictionary.

use crate::edition::Edition;

/// How much a dictionary can hold.
#[derive(Debug, Clone, Copy, PartialEq, Eq, Hash)]
pub struct Capacity {
    /// How many objects.
    pub objects: usize,
    /// How many values, each default counted as one.
    pub values: usize,
    /// How many bytes of names, rooms and defaults together.
    pub bytes: usize,
}

impl Capacity {
    /// The most that any dictionary holds; more is not used.
    pub const MOST: Capacity = Capacity { objects: 1024, values: 6144, bytes: 32_768 };
}

/// The most.
impl Default for Capacity {
    fn default() -> Self {
        Capacity::MOST
    }
}

/// The four pieces of memory that are a dictionary, laid out as docs/RULES.md says.
#[derive(Debug, Clone, PartialEq, Eq)]
pub struct Parts {
    /// The header, then a row for each object, of twelve words each.
    pub objects: Vec<u64>,
    /// Three words a value: its type, and the start and the size of its room.
    pub slots: Vec<u64>,
    /// One word a value: the number of a fixed type, or the length of a string.
    pub words: Vec<u64>,
    /// Names, rooms and defaults.
    pub bytes: Vec<u8>,
}

/// How many words the header and each row of an object take.
pub(crate) const ROW: usize = 12;

/// How many words a value's slot takes.
pub(crate) const SLOT: usize = 3;

impl Parts {
    /// Memory for so much, without a header.
    pub(crate) fn new(capacity: Capacity) -> Self {
        let values = capacity.values.min(Capacity::MOST.values);
        Parts {
            objects: vec![0; ROW * (1 + capacity.objects.min(Capacity::MOST.objects))],
            slots: vec![0; SLOT * values],
            words: vec![0; values],
            bytes: vec![0; capacity.bytes.min(Capacity::MOST.bytes)],
        }
    }

    /// How much is used, as the header says.
    pub(crate) fn used(&self) -> Capacity {
        let number = |place: usize| self.objects.get(place).map_or(0, |&number| number as usize);
        Capacity { objects: number(0), values: number(1), bytes: number(2) }
    }

    /// The edition that the header names; none where there is no such edition.
    pub(crate) fn edition(&self) -> Option<Edition> {
        let number = u8::try_from(*self.objects.get(3)?).ok()?;
        Edition::from_number(number)
    }
}
