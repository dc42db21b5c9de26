//! What an element of a mapping maps, and onto what, as the library explains it.

use crate::words;
use loomfinch::{
    Dictionary, Explanation, Fault, PdoMappingEntry, Target, ValueType, MOST_PAYLOAD_BYTES,
};
use std::ops::Range;

/// The elements of a mapping, explained.
#[derive(Clone, Debug)]
pub struct Mapping {
    /// Those in use.
    pub elements: Vec<Element>,
    /// Those behind its count, which are not in use.
    pub unused: Vec<Element>,
}

impl Mapping {
    /// The mapping of elements of which so many are in use.
    pub fn new(mut elements: Vec<Element>, in_use: usize) -> Mapping {
        let unused = elements.split_off(in_use.min(elements.len()));
        Mapping { elements, unused }
    }

    /// All elements, in use or not.
    pub fn all(&self) -> impl Iterator<Item = &Element> {
        self.elements.iter().chain(&self.unused)
    }

    /// Is it turned off: has it elements, and none in use?
    pub fn is_off(&self) -> bool {
        self.elements.is_empty() && !self.unused.is_empty()
    }

    /// `2 elements`, or `2 of 3 elements in use` where not all are.
    pub fn counted(&self) -> String {
        self.of_all(words::counted(self.all().count(), "element"))
    }

    /// `2`, or `2 of 3 in use`: the same where elements have been named before.
    pub fn counted_again(&self) -> String {
        self.of_all(self.all().count().to_string())
    }

    fn of_all(&self, all: String) -> String {
        match self.unused.is_empty() {
            true => all,
            false => format!("{} of {all} in use", self.elements.len()),
        }
    }
}

/// An element of a mapping, explained.
#[derive(Clone, Debug)]
pub struct Element {
    /// Its place in the mapping, from 1.
    pub number: u8,
    /// What the check says of it by itself, or none where it is in order.
    pub fault: Option<Fault>,
    /// Its type; only an Unsigned64 is a mapping word.
    pub element_type: ValueType,
    /// What the mapping word says, or none where it is none.
    pub mapped: Option<Mapped>,
}

impl Element {
    /// Does every payload stop here? The field ends behind the longest one, or can hold no value of the target's type.
    pub fn stops(&self) -> bool {
        let mapped = self.mapped.as_ref();
        let (mapped, field) = match mapped.and_then(|it| Some((it, it.field.as_ref()?))) {
            Some(found) => found,
            None => return false,
        };
        let unreadable = match mapped.target {
            Target::Fixed { size, .. } => field.len() < size,
            Target::Count => field.is_empty(),
            Target::String { value_type, .. } => {
                value_type == ValueType::UnicodeString && field.len() % 2 != 0
            }
            _ => false,
        };
        self.ends_behind_payloads() || (unreadable && self.fault != Some(Fault::HandOff))
    }

    /// Does its field end behind the longest payload?
    pub fn ends_behind_payloads(&self) -> bool {
        let whole = self.mapped.as_ref().filter(|mapped| mapped.field.is_some());
        whole.map_or(false, |mapped| mapped.end > MOST_PAYLOAD_BYTES)
    }

    /// Where its field is written, whole or cut, by a payload that reaches it.
    pub fn written_to(&self) -> Option<(u16, u8)> {
        let mapped = self.mapped.as_ref()?;
        let cut = match (self.fault, mapped.target) {
            (Some(Fault::WrongLength), Target::Fixed { size, .. }) => mapped.length() > size,
            _ => false,
        };
        let place = (mapped.entry.index, mapped.entry.sub_index);
        Some(place).filter(|_| self.fault.is_none() || cut)
    }
}

/// The first element at which every payload stops, or none.
pub fn first_stop(elements: &[Element]) -> Option<u8> {
    elements.iter().find(|element| element.stops()).map(|element| element.number)
}

/// What a mapping word says. The field and its end are kept, since asking for them calls the library each time.
#[derive(Clone, Debug)]
pub struct Mapped {
    pub entry: PdoMappingEntry,
    pub target: Target,
    /// The part of the payload, or none where it is not whole bytes.
    pub field: Option<Range<usize>>,
    /// How many bytes a payload must have to hold it.
    pub end: usize,
}

impl Mapped {
    /// The length of the field in bytes, 0 where it is not whole bytes.
    pub fn length(&self) -> usize {
        self.field.as_ref().map_or(0, |field| field.len())
    }
}

impl From<Explanation> for Element {
    fn from(explanation: Explanation) -> Element {
        let Explanation { element, fault, element_type, mapped, .. } = explanation;
        let mapped = mapped.map(|(entry, target)| Mapped {
            entry,
            target,
            field: entry.field(),
            end: entry.end(),
        });
        Element { number: element, fault, element_type, mapped }
    }
}

/// Explains each element of a channel's mapping; none where it is no list.
pub fn mapping(dictionary: &Dictionary, channel: u8) -> Mapping {
    let explained = (1..=u8::MAX).map_while(|element| dictionary.explain(channel, element).ok());
    let elements = explained.map(Element::from).collect();
    Mapping::new(elements, in_use(dictionary, 0x1600 + u16::from(channel)))
}

/// How many elements of the object at an index are in use.
pub fn in_use(dictionary: &Dictionary, index: u16) -> usize {
    let object = dictionary.objects().find(|object| object.index == index);
    object.map_or(0, |object| object.in_use)
}
