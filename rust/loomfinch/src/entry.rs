//! What is inserted: objects with their names, access and rooms.

use crate::value::{ObjectValue, ValueType};
use std::iter::repeat;

/// An object's values.
#[derive(Debug, Clone, PartialEq)]
pub enum Object {
    /// One value, at sub-index 0.
    Variable(ObjectValue),
    /// Elements at the sub-indices from 1 on; sub-index 0 is their count, or how many of a mapping's are in use.
    Array(Vec<ObjectValue>),
    /// Elements at the sub-indices from 1 on; sub-index 0 is their count, or how many of a mapping's are in use.
    Record(Vec<ObjectValue>),
}

impl Object {
    /// The values, in order.
    pub fn values(&self) -> &[ObjectValue] {
        match self {
            Object::Variable(value) => std::slice::from_ref(value),
            Object::Array(values) | Object::Record(values) => values,
        }
    }

    /// Whether it is a Variable, an Array or a Record.
    pub fn kind(&self) -> Kind {
        match self {
            Object::Variable(_) => Kind::Variable,
            Object::Array(_) => Kind::Array,
            Object::Record(_) => Kind::Record,
        }
    }
}

/// The kind of an object.
#[derive(Debug, Clone, Copy, PartialEq, Eq, Hash)]
#[non_exhaustive]
#[repr(u8)]
pub enum Kind {
    /// One value, at sub-index 0.
    Variable,
    /// Elements at the sub-indices from 1 on; sub-index 0 is their count.
    Array,
    /// Elements at the sub-indices from 1 on; sub-index 0 is their count.
    Record,
}

/// Who may write an object, and whether a save keeps it.
#[derive(Debug, Clone, Copy, PartialEq, Eq, Hash)]
#[repr(u8)]
pub enum AccessType {
    /// May be read.
    ReadOnly,
    /// May be written.
    WriteOnly,
    /// May be written, and is saved.
    WriteOnlyStore,
    /// May be read and written.
    ReadWrite,
    /// May be read and written, and is saved.
    ReadWriteStore,
    /// May be read and does not change.
    Constant,
    /// Controlled by the device.
    Conditional,
}

impl AccessType {
    pub(crate) fn number(access: Option<Self>) -> u64 {
        access.map_or(7, |access| access as u64)
    }

    /// The access of a number in docs/RULES.md, or none.
    pub(crate) fn from_number(number: u64) -> Option<Self> {
        const ALL: [AccessType; 7] = [
            AccessType::ReadOnly,
            AccessType::WriteOnly,
            AccessType::WriteOnlyStore,
            AccessType::ReadWrite,
            AccessType::ReadWriteStore,
            AccessType::Constant,
            AccessType::Conditional,
        ];
        usize::try_from(number).ok().and_then(|number| ALL.get(number)).copied()
    }
}

/// The least and the greatest number that may be written to an object's values of the ends' type, which is one of the integer
/// types; each end may be written itself.
#[derive(Debug, Clone, PartialEq)]
pub struct ValueRange {
    /// The least number.
    pub min: ObjectValue,
    /// The greatest number.
    pub max: ObjectValue,
}

impl ValueRange {
    /// The range of two numbers.
    pub fn new(min: impl Into<ObjectValue>, max: impl Into<ObjectValue>) -> Self {
        ValueRange { min: min.into(), max: max.into() }
    }

    /// The type and the word of each end, as the library takes them.
    fn numbers(&self) -> [u64; 4] {
        // A Boolean has the number by which the library knows that there is no range: no type has the one given instead.
        let type_number = |end: &ObjectValue| match end.value_type() {
            ValueType::Boolean => u64::MAX,
            other => other.number().into(),
        };
        [type_number(&self.min), self.min.word(), type_number(&self.max), self.max.word()]
    }
}

/// An object with its name, access, default, range and rooms, as [`insert`](crate::Dictionary::insert) takes it.
///
/// ```
/// use loomfinch::{AccessType, Object, ObjectEntry, ObjectValue};
///
/// let cue = ObjectEntry::new(Object::Variable("Act I".into()))
///     .with_name("Cue")
///     .with_access(AccessType::ReadWriteStore)
///     .with_rooms([40]);
/// assert_eq!((cue.name, cue.access), ("Cue", Some(AccessType::ReadWriteStore)));
/// assert_eq!((&cue.default_value, &cue.rooms), (&None, &vec![40]));
/// let default = ObjectValue::from("Act I");
/// assert_eq!(cue.with_default_value(default.clone()).default_value, Some(default));
/// ```
#[derive(Debug, Clone, PartialEq)]
#[non_exhaustive]
pub struct ObjectEntry<'n> {
    /// The values.
    pub object: Object,
    /// The name, of at most 32 bytes.
    pub name: &'n str,
    /// Who may write the object; an object without access may be written and is not saved.
    pub access: Option<AccessType>,
    /// What a restore puts where nothing was saved.
    pub default_value: Option<ObjectValue>,
    /// What a write is held against: a number of the range's type outside it is refused. It holds for each element of a list,
    /// never for the count. Payloads, restores and the values given here are not held against it.
    pub value_range: Option<ValueRange>,
    /// How many bytes each value, in order, has room for, for good. A value behind the last has just the room that it takes.
    /// More rooms than values are refused.
    pub rooms: Vec<usize>,
}

impl<'n> ObjectEntry<'n> {
    /// An object without a name, access, default and range, each value with just the room that it takes.
    pub fn new(object: Object) -> Self {
        let (access, default_value, value_range) = (None, None, None);
        ObjectEntry { object, name: "", access, default_value, value_range, rooms: Vec::new() }
    }

    /// The object with a name.
    pub fn with_name(self, name: &'n str) -> Self {
        ObjectEntry { name, ..self }
    }

    /// The object with an access; `None` is none.
    pub fn with_access(self, access: impl Into<Option<AccessType>>) -> Self {
        ObjectEntry { access: access.into(), ..self }
    }

    /// The object with a default; `None` is none.
    pub fn with_default_value(self, default_value: impl Into<Option<ObjectValue>>) -> Self {
        ObjectEntry { default_value: default_value.into(), ..self }
    }

    /// The object with a range; `None` is none.
    ///
    /// ```
    /// use loomfinch::{Dictionary, Object, ObjectEntry, ObjectValue, Refusal, ValueRange, Written};
    ///
    /// let mut dictionary = Dictionary::new(Default::default());
    /// let times = Object::Array(vec![ObjectValue::Unsigned32(0); 3]);
    /// let limit = ValueRange::new(0_u32, 60_000_u32);
    /// dictionary.insert(0x6200, ObjectEntry::new(times).with_value_range(limit))?;
    /// assert_eq!(dictionary.write(0x6200, 3, 60_000_u32.into())?, Written::Done);
    /// assert_eq!(dictionary.write(0x6200, 3, 90_000_u32.into()), Err(Refusal::OutOfRange));
    /// # Ok::<(), Refusal>(())
    /// ```
    pub fn with_value_range(self, value_range: impl Into<Option<ValueRange>>) -> Self {
        ObjectEntry { value_range: value_range.into(), ..self }
    }

    /// The object with rooms, one for each value, in order.
    pub fn with_rooms(self, rooms: impl Into<Vec<usize>>) -> Self {
        ObjectEntry { rooms: rooms.into(), ..self }
    }
}

/// An object as the library takes it.
pub struct Description {
    pub kind: u64,
    pub access: u64,
    pub has_default: u64,
    /// Of the range's least and of its greatest number the type and the word; 0 for no range.
    pub range: [u64; 4],
    /// Of each value, the default last: its type, its room and the length of its encoding.
    pub values: Vec<u64>,
    /// The encodings back to back.
    pub encodings: Vec<u8>,
}

impl Description {
    pub fn of(entry: &ObjectEntry<'_>) -> Self {
        let mut description = Description {
            kind: entry.object.kind() as u64,
            access: AccessType::number(entry.access),
            has_default: entry.default_value.is_some().into(),
            range: entry.value_range.as_ref().map_or([0; 4], ValueRange::numbers),
            values: Vec::new(),
            encodings: Vec::new(),
        };
        let values = entry.object.values();
        let rooms = entry.rooms.iter().map(|&room| Some(room)).chain(repeat(None));
        for (value, room) in values.iter().zip(rooms) {
            description.add(value, room);
        }
        if let Some(value) = &entry.default_value {
            description.add(value, None);
        }
        if entry.rooms.len() > values.len() {
            // A number that belongs to no value: the library refuses the description.
            description.values.push(0);
        }
        description
    }

    /// Adds a value with a room, or with just the room that it takes.
    fn add(&mut self, value: &ObjectValue, room: Option<usize>) {
        let encoding = value.serialize();
        let room = room.unwrap_or_else(|| value.part().len());
        let numbers = [value.value_type().number().into(), room as u64, encoding.len() as u64];
        self.values.extend(numbers);
        self.encodings.extend(encoding);
    }
}
