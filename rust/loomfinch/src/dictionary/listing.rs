//! What is in the dictionary: its objects, its channels, and values read without a call each.

use super::Dictionary;
use crate::entry::{AccessType, Kind, ValueRange};
use crate::layout::{self, Row};
use crate::refusal::Refusal;
use crate::types::{NodeId, PDOVersion};
use crate::value::{text, ObjectValue, ValueType};

/// The managing node, which a channel's record may name by 0.
const MANAGING_NODE: u8 = 240;

/// An object of a dictionary, as [`objects`](Dictionary::objects) lists it.
#[derive(Debug, Clone, Copy, PartialEq, Eq)]
#[non_exhaustive]
pub struct ObjectInfo<'a> {
    /// Its index.
    pub index: u16,
    /// Whether it is a Variable, an Array or a Record.
    pub kind: Kind,
    /// Who may write it.
    pub access: Option<AccessType>,
    /// Its name, empty where it has none.
    pub name: &'a str,
    /// How many elements it has; a Variable has one.
    pub elements: usize,
    /// How many of them are in use, from the first one on: of a mapping in [edition 2](crate::Edition::Two) as many as the count
    /// says that was written last, else all.
    pub in_use: usize,
    range: Option<(ValueType, [u64; 2])>,
}

impl ObjectInfo<'_> {
    /// The range that writes are held against; `None` is none.
    pub fn value_range(&self) -> Option<ValueRange> {
        let (value_type, ends) = self.range?;
        let [min, max] = ends.map(|end| ObjectValue::from_word(value_type, end, &[]));
        Some(ValueRange { min, max })
    }
}

impl<'a> From<Row<'a>> for ObjectInfo<'a> {
    fn from(row: Row<'a>) -> Self {
        let (index, kind, access) = (row.index(), row.kind(), row.access());
        let (name, range) = (text(row.name()), row.range());
        let (elements, in_use) = (row.elements(), row.in_use());
        ObjectInfo { index, kind, access, name, elements, in_use, range }
    }
}

/// These calls read the dictionary's memory by its layout, and call the library only once for a dictionary that was made of
/// foreign memory.
impl Dictionary {
    /// The objects, rising by index. There are none in memory that is no dictionary.
    ///
    /// ```
    /// use loomfinch::{Dictionary, Kind, Object, ObjectEntry, ObjectValue};
    ///
    /// let mut dictionary = Dictionary::new(Default::default());
    /// let times = [1_u32, 2, 3].map(ObjectValue::from);
    /// let entry = ObjectEntry::new(Object::Array(times.into())).with_name("Move times");
    /// dictionary.insert(0x6200, entry)?;
    /// let object = dictionary.objects().next().unwrap();
    /// assert_eq!((object.index, object.kind, object.elements), (0x6200, Kind::Array, 3));
    /// assert_eq!((object.name, object.access), ("Move times", None));
    /// # Ok::<(), loomfinch::Refusal>(())
    /// ```
    pub fn objects(&self) -> impl Iterator<Item = ObjectInfo<'_>> {
        let rows = (!self.malformed).then(|| layout::rows(&self.parts));
        rows.into_iter().flatten().map(ObjectInfo::from)
    }

    /// Whether an object has the index.
    pub fn contains(&self, index: u16) -> bool {
        !self.malformed && layout::row(&self.parts, index).is_some()
    }

    /// Reads a value as [`read`](Dictionary::read) does, without judging the dictionary again: for whoever reads many values
    /// of a large one.
    pub fn peek(&self, index: u16, sub_index: u8) -> Result<ObjectValue, Refusal> {
        if self.malformed {
            return Err(Refusal::Malformed);
        }
        let row = layout::row(&self.parts, index).ok_or(Refusal::ObjectNotFound)?;
        let (value_type, word, part) = row.read(sub_index)?;
        Ok(ObjectValue::from_word(value_type, word, part))
    }

    /// The channel that takes the payloads of a node: the first whose record 1400h+channel names it, by 0 or 240 the
    /// managing node. None where no channel does.
    ///
    /// ```
    /// use loomfinch::{Dictionary, NodeId, Object, ObjectEntry, ObjectValue, PDOVersion};
    ///
    /// let mut dictionary = Dictionary::new(Default::default());
    /// let record = [5, 0x10].map(ObjectValue::Unsigned8);
    /// dictionary.insert(0x1402, ObjectEntry::new(Object::Record(record.into())))?;
    /// assert_eq!(dictionary.channel_of(NodeId(5)), Some(2));
    /// assert_eq!(dictionary.expected_version(2), PDOVersion(0x10));
    /// # Ok::<(), loomfinch::Refusal>(())
    /// ```
    pub fn channel_of(&self, node: NodeId) -> Option<u8> {
        let names = |channel: &u8| match self.record(*channel, 1) {
            Some(0) => node.0 == MANAGING_NODE,
            Some(named) => named == node.0,
            None => false,
        };
        (0..=u8::MAX).find(names)
    }

    /// The mapping version that a channel expects: the Unsigned8 at 1400h+channel/2, else 0.
    pub fn expected_version(&self, channel: u8) -> PDOVersion {
        PDOVersion(self.record(channel, 2).unwrap_or(0))
    }

    /// The Unsigned8 at an element of a channel's record.
    fn record(&self, channel: u8, element: u8) -> Option<u8> {
        if self.malformed {
            return None;
        }
        let row = layout::row(&self.parts, 0x1400 + u16::from(channel))?;
        match row.read(element) {
            Ok((ValueType::Unsigned8, word, _)) if row.kind() != Kind::Variable => Some(word as u8),
            _ => None,
        }
    }
}

/// Equal are dictionaries of one edition with the same objects, values, ranges, rooms and defaults, as many elements in use, and the
/// same store; how much room is left does not count.
impl PartialEq for Dictionary {
    fn eq(&self, other: &Self) -> bool {
        if self.malformed || other.malformed {
            return self.parts == other.parts && self.store == other.store;
        }
        if self.parts.edition() != other.parts.edition() {
            return false;
        }
        let (mut rows, mut others) = (layout::rows(&self.parts), layout::rows(&other.parts));
        let same = loop {
            match (rows.next(), others.next()) {
                (Some(one), Some(two)) if one.same(two) => (),
                (one, two) => break one.is_none() && two.is_none(),
            }
        };
        same && self.store == other.store
    }
}
