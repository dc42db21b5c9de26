//! A dictionary's memory read by its layout (docs/RULES.md, section 5), without a call of the library.

use crate::edition::Edition;
use crate::entry::{AccessType, Kind};
use crate::parts::{Parts, ROW, SLOT};
use crate::refusal::Refusal;
use crate::value::ValueType;

/// An object's row.
#[derive(Clone, Copy)]
pub struct Row<'a> {
    parts: &'a Parts,
    words: &'a [u64],
}

/// A value: its type, its word, and a string's part of the bytes.
pub type Stored<'a> = (ValueType, u64, &'a [u8]);

/// The rows of a dictionary that is well formed, rising by index.
pub fn rows(parts: &Parts) -> impl Iterator<Item = Row<'_>> {
    let rows = parts.objects.chunks_exact(ROW).skip(1).take(parts.used().objects);
    rows.map(move |words| Row { parts, words })
}

/// Whether a list at an index is a mapping.
fn is_mapping_index(index: u16) -> bool {
    matches!(index, 0x1600..=0x16FF | 0x1A00..=0x1AFF)
}

/// The row of an index.
pub fn row(parts: &Parts, index: u16) -> Option<Row<'_>> {
    let count = parts.used().objects;
    let at = |place: usize| parts.objects.get(ROW * (1 + place)..ROW * (2 + place));
    let (mut low, mut high) = (0, count);
    while low < high {
        let middle = (low + high) / 2;
        let words = at(middle)?;
        match words[0].cmp(&index.into()) {
            std::cmp::Ordering::Equal => return Some(Row { parts, words }),
            std::cmp::Ordering::Less => low = middle + 1,
            std::cmp::Ordering::Greater => high = middle,
        }
    }
    None
}

impl<'a> Row<'a> {
    pub fn index(self) -> u16 {
        self.words[0] as u16
    }

    pub fn kind(self) -> Kind {
        match self.words[1] {
            0 => Kind::Variable,
            1 => Kind::Array,
            _ => Kind::Record,
        }
    }

    pub fn access(self) -> Option<AccessType> {
        AccessType::from_number(self.words[2])
    }

    pub fn elements(self) -> usize {
        self.words[3] as usize
    }

    /// How many of its elements are in use: of a mapping in edition 2 its kept count, else all.
    pub fn in_use(self) -> usize {
        let mapping = self.kind() != Kind::Variable && is_mapping_index(self.index());
        match self.parts.edition() {
            Some(Edition::Two) if mapping => self.words[8] as usize,
            _ => self.elements(),
        }
    }

    pub fn name(self) -> &'a [u8] {
        self.bytes(self.words[5], self.words[6])
    }

    /// The type of the object's range and the words of its ends; none where it has no range.
    pub fn range(self) -> Option<(ValueType, [u64; 2])> {
        let value_type = u8::try_from(self.words[9]).ok().filter(|number| *number != 0);
        let value_type = value_type.and_then(ValueType::from_number)?;
        Some((value_type, [self.words[10], self.words[11]]))
    }

    fn bytes(self, start: u64, len: u64) -> &'a [u8] {
        let (start, len) = (start as usize, len as usize);
        self.parts.bytes.get(start..start.saturating_add(len)).unwrap_or_default()
    }

    /// The value at a sub-index. How many elements of a list are in use is read as an Unsigned8.
    pub fn read(self, sub_index: u8) -> Result<Stored<'a>, Refusal> {
        let place = match (self.kind(), usize::from(sub_index)) {
            (Kind::Variable, 0) => 0,
            (Kind::Variable, _) => return Err(Refusal::SubObjectNotFound),
            (_, 0) => return Ok((ValueType::Unsigned8, self.in_use() as u64, &[])),
            (_, element) if element <= self.elements() => element - 1,
            _ => return Err(Refusal::SubObjectNotFound),
        };
        self.slot(self.words[4] as usize + place).ok_or(Refusal::Malformed)
    }

    fn slot(self, slot: usize) -> Option<Stored<'a>> {
        let word = *self.parts.words.get(slot)?;
        let columns = self.parts.slots.get(SLOT * slot..SLOT * (slot + 1))?;
        let value_type = u8::try_from(columns[0]).ok().and_then(ValueType::from_number)?;
        let part = if value_type.size().is_none() { self.bytes(columns[1], word) } else { &[] };
        Some((value_type, word, part))
    }

    /// All that a call can read of the object: its row, its name, and each value with its room and its default.
    pub fn contents(self) -> impl Iterator<Item = (Option<Stored<'a>>, Option<u64>)> {
        let count = self.elements() + self.words[7] as usize;
        let first = self.words[4] as usize;
        (first..first + count)
            .map(move |slot| (self.slot(slot), self.parts.slots.get(SLOT * slot + 2).copied()))
    }

    /// Whether both objects have the same index, kind, access, range, name, values, rooms and default, and as many elements in use.
    pub fn same(self, other: Row<'_>) -> bool {
        let columns =
            |row: Row<'_>| [row.words[0], row.words[1], row.words[2], row.words[3], row.words[7]];
        columns(self) == columns(other)
            && self.in_use() == other.in_use()
            && self.range() == other.range()
            && self.name() == other.name()
            && self.contents().eq(other.contents())
    }
}
