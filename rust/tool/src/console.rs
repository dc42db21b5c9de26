//! A rig laid into a dictionary of the library, which checks and consumes; the rig keeps a copy of each value, so that
//! what a payload changed can be told.

use crate::explain::{self, Element, Mapping};
use crate::rig::{Kind, Object, Place, Problem, Range, Rig, Value};
use loomfinch::{
    decode, Capacity, Cause, Checked, Dictionary, Event, EventRecord, NodeId, ObjectEntry,
    ObjectValue, PDOVersion, Refusal, Refused, ValueRange,
};
use std::collections::HashMap;

pub struct Console {
    pub rig: Rig,
    dictionary: Dictionary,
    /// The explained mappings of channels, for as long as they stay.
    explained: HashMap<u8, Mapping>,
}

/// A payload with what came along with it.
#[derive(Clone, Copy, Debug)]
pub struct Received<'a> {
    pub sender: u8,
    pub version: u8,
    pub ready: bool,
    pub payload: &'a [u8],
}

/// What consuming a payload came to.
pub enum Consumed {
    NotReady,
    NoChannel,
    /// The version is wrong; the one that the channel expects.
    WrongVersion {
        channel: u8,
        expected: u8,
        mapping: Mapping,
        noted: Option<Change>,
    },
    Taken {
        channel: u8,
        /// The elements in use.
        steps: Vec<Step>,
        unused: Vec<Element>,
        noted: Option<Change>,
    },
}

/// An element of the mapping, and what became of its field.
pub struct Step {
    pub element: Element,
    pub outcome: Outcome,
}

pub enum Outcome {
    Written(Change),
    /// Neither written nor reported by the library: misaligned, no mapping word, no target, a mapping's count.
    PassedOver,
    HandedOn,
    /// Not written, as the event says.
    Refused(Event),
    Stopped(Cause),
    /// An earlier element stopped the payload.
    NotReached,
}

/// A value before and after a payload.
pub struct Change {
    pub index: u16,
    pub sub_index: u8,
    pub before: Value,
    pub after: Value,
}

/// The objects that note senders whose payloads had a wrong version, or were short.
const WRONG_VERSIONS: u16 = 0x1C80;
const SHORT_PAYLOADS: u16 = 0x1C81;

impl Console {
    /// Lays a rig, or says what of it the library refuses.
    pub fn new(rig: Rig) -> Result<Console, Vec<Problem>> {
        let mut dictionary = Dictionary::with_edition(capacity(&rig), rig.edition);
        for (index, object) in &rig.objects {
            let inserted = entry(object)
                .and_then(|entry| dictionary.insert(*index, entry).map_err(Refused::from));
            inserted.map_err(|refused| {
                vec![object.problem(format!("the library refuses this object: {refused}"))]
            })?;
        }
        let mut problems = keep_counts(&mut dictionary, &rig);
        if problems.is_empty() {
            return Ok(Console { rig, dictionary, explained: HashMap::new() });
        }
        problems.sort_by_key(|problem| (problem.line, problem.column));
        Err(problems)
    }

    /// What the library's check says of each channel that has a record.
    pub fn check(&self) -> Result<Vec<(u8, Checked)>, Refusal> {
        self.dictionary.check_all()
    }

    pub fn consume(&mut self, received: Received) -> Result<Consumed, Refusal> {
        let (node, version) = (NodeId(received.sender), PDOVersion(received.version));
        // A payload may change its own channel and mapping; what it is taken by is what stands before.
        let channel = self.channel_of(received.sender).filter(|_| received.ready);
        let taken_by = channel.map(|channel| (channel, self.mapping(channel)));
        let answer =
            self.dictionary.consume_pdo_payload(node, received.payload, version, received.ready)?;
        let events: Vec<EventRecord> = answer.into_iter().collect();
        let (channel, mapping) = match taken_by {
            _ if !received.ready => return Ok(Consumed::NotReady),
            None => return Ok(Consumed::NoChannel),
            Some(taken_by) => taken_by,
        };
        if events.iter().any(|record| record.event == Event::MapVersion) {
            let expected = self.expected_version(channel);
            let noted = self.noted(WRONG_VERSIONS);
            return Ok(Consumed::WrongVersion { channel, expected, mapping, noted });
        }
        let Mapping { elements, unused } = mapping;
        let mut steps = self.steps(elements, &events, received.payload);
        // Which of them sets a bit is the edition's matter: it is told where one was set.
        let short = events.iter().any(|record| matches!(record.event, Event::PayloadShort(_)));
        let noted = if short { self.noted(SHORT_PAYLOADS) } else { None };
        self.confirm(&mut steps, noted.as_ref());
        Ok(Consumed::Taken { channel, steps, unused, noted })
    }

    /// The channel that takes a node's payloads.
    pub fn channel_of(&self, node: u8) -> Option<u8> {
        self.dictionary.channel_of(NodeId(node))
    }

    /// The mapping version that a channel expects.
    pub fn expected_version(&self, channel: u8) -> u8 {
        self.dictionary.expected_version(channel).0
    }

    /// How many elements of the object at an index are in use.
    pub fn in_use(&self, index: u16) -> usize {
        explain::in_use(&self.dictionary, index)
    }

    /// Is a channel turned off: has its mapping elements, and none in use?
    pub fn is_off(&self, channel: u8) -> bool {
        let index = 0x1600 + u16::from(channel);
        let mapping = self.rig.objects.get(&index).filter(|object| object.is_list());
        let has_elements = mapping.map_or(false, |object| !object.values.is_empty());
        has_elements && self.in_use(index) == 0
    }

    /// The explained mapping of a channel.
    pub fn mapping(&mut self, channel: u8) -> Mapping {
        let dictionary = &self.dictionary;
        let explained = self.explained.entry(channel);
        explained.or_insert_with(|| explain::mapping(dictionary, channel)).clone()
    }

    /// Each element with its outcome, on the values that the elements before it left.
    fn steps(
        &mut self,
        elements: Vec<Element>,
        events: &[EventRecord],
        payload: &[u8],
    ) -> Vec<Step> {
        let mut stopped = false;
        let mut steps = Vec::new();
        for element in elements {
            let event = events.iter().find(|record| record.element == Some(element.number));
            let outcome = match event.map(|record| record.event) {
                _ if stopped => Outcome::NotReached,
                Some(Event::PayloadShort(cause)) => Outcome::Stopped(cause),
                Some(Event::Server { .. }) | Some(Event::Client { .. }) => Outcome::HandedOn,
                Some(event) => Outcome::Refused(event),
                None => self.put(&element, payload).map_or(Outcome::PassedOver, Outcome::Written),
            };
            stopped = stopped || matches!(outcome, Outcome::Stopped(_));
            steps.push(Step { element, outcome });
        }
        steps
    }

    /// Puts a field that was reached and gave no event into the rig's copy; none where it has no place there.
    fn put(&mut self, element: &Element, payload: &[u8]) -> Option<Change> {
        let mapped = element.mapped.as_ref()?;
        let field = payload.get(mapped.field.clone()?)?;
        let (index, sub_index) = (mapped.entry.index, mapped.entry.sub_index);
        let value = self.rig.value_mut(index, sub_index)?;
        let before = value.clone();
        value.bytes = field[..value.of.size().unwrap_or(field.len()).min(field.len())].to_vec();
        let after = value.clone();
        if (0x1600..=0x16FF).contains(&index) {
            self.explained.remove(&(index as u8));
        }
        Some(Change { index, sub_index, before, after })
    }

    /// Reads each value that was written from the dictionary: what the last step left is what the library holds, but for
    /// an error object in which it then set a bit.
    fn confirm(&mut self, steps: &mut [Step], noted: Option<&Change>) {
        let mut done: Vec<(u16, u8)> = noted.map(|change| (change.index, 0)).into_iter().collect();
        for step in steps.iter_mut().rev() {
            let change = match &mut step.outcome {
                Outcome::Written(change) => change,
                _ => continue,
            };
            let place = (change.index, change.sub_index);
            if !done.contains(&place) {
                done.push(place);
                let before = change.after.clone();
                if let Some(read) = self.read_again(place.0, place.1, before) {
                    change.after = read.after;
                }
            }
        }
    }

    /// Reads a value from the dictionary, and brings the rig's copy up to date.
    fn read_again(&mut self, index: u16, sub_index: u8, before: Value) -> Option<Change> {
        let object = self.rig.objects.get_mut(&index)?;
        let place = object.value_place(sub_index)?;
        let value = object.values.get_mut(place)?;
        value.bytes = self.dictionary.peek(index, sub_index).ok()?.serialize();
        Some(Change { index, sub_index, before, after: value.clone() })
    }

    /// The change of an error object, where the rig has one and it changed.
    fn noted(&mut self, index: u16) -> Option<Change> {
        let before = match self.rig.place(index, 0) {
            Place::Value(_, value) => value.clone(),
            _ => return None,
        };
        let change = self.read_again(index, 0, before)?;
        Some(change).filter(|change| change.before.bytes != change.after.bytes)
    }

    /// Holds each value of the rig's copy against what the library reads.
    #[cfg(test)]
    pub fn assert_up_to_date(&self) {
        for (index, object) in &self.rig.objects {
            for (value, sub_index) in object.values.iter().zip(u8::from(object.is_list())..) {
                let read = self.dictionary.read(*index, sub_index).unwrap();
                assert_eq!(read.value_type(), value.of);
                assert_eq!(read.serialize(), value.bytes, "{index:04X}h/{sub_index}");
            }
        }
    }
}

/// Writes the counts that the rig says, and answers which of them are refused. A count is judged by other objects too, so it is
/// written when all of them are there.
fn keep_counts(dictionary: &mut Dictionary, rig: &Rig) -> Vec<Problem> {
    let refused = |(index, object): (&u16, &Object)| {
        let count = object.count?;
        let written = dictionary.write(*index, 0, count.number.into());
        written.err().map(|refusal| count.refused(rig, *index, object, refusal))
    };
    rig.objects.iter().filter_map(refused).collect()
}

fn capacity(rig: &Rig) -> Capacity {
    let objects = rig.objects.len();
    let values = rig.objects.values().map(Object::value_count).sum();
    let bytes = rig.objects.values().map(Object::weight).sum();
    Capacity { objects, values, bytes }
}

fn entry(object: &Object) -> Result<ObjectEntry<'_>, Refused> {
    let values: Result<Vec<ObjectValue>, Refused> =
        object.values.iter().map(object_value).collect();
    let mut values = values?;
    let default = object.default.as_ref().map(object_value).transpose()?;
    let rooms: Vec<usize> = object.values.iter().map(|value| value.room).collect();
    let inner = match object.kind {
        Kind::Variable => loomfinch::Object::Variable(values.pop().ok_or(Refusal::BadValue)?),
        Kind::Array => loomfinch::Object::Array(values),
        Kind::Record => loomfinch::Object::Record(values),
    };
    let entry = ObjectEntry::new(inner).with_name(&object.name).with_access(object.access);
    let range = object.range.map(value_range).transpose()?;
    Ok(entry.with_default_value(default).with_value_range(range).with_rooms(rooms))
}

fn value_range(range: Range) -> Result<ValueRange, Refused> {
    let [min, max] = range.ends().map(|end| decode(range.of, &end));
    Ok(ValueRange { min: min?, max: max? })
}

fn object_value(value: &Value) -> Result<ObjectValue, Refused> {
    decode(value.of, &value.bytes)
}

#[cfg(test)]
mod tests {
    use super::*;
    use crate::rig;
    use loomfinch::ValueType;
    use std::cmp::Ordering;

    /// The least and the greatest numbers of a type, and those about its middle.
    fn edges(of: ValueType) -> [i128; 7] {
        let (least, greatest) = rig::bounds(of).unwrap();
        let middle = (least + greatest) / 2;
        [least, least + 1, middle - 1, middle, middle + 1, greatest - 1, greatest]
    }

    #[test]
    fn what_lies_outside_a_range_is_what_the_library_refuses() {
        let mut refused = 0;
        for of in (1..=8).filter_map(ValueType::from_number) {
            let ends = edges(of).map(|least| edges(of).map(|greatest| (least, greatest)));
            for (least, greatest) in ends.concat().into_iter().filter(|ends| ends.0 <= ends.1) {
                let text = format!("6000h Variable {of} range {least} to {greatest}");
                let rig = rig::parse(text.as_bytes()).unwrap();
                let range = rig.objects[&0x6000].range.unwrap();
                let mut console = Console::new(rig).unwrap_or_else(|found| panic!("{found:?}"));
                for number in edges(of) {
                    let bytes = number.to_le_bytes()[..of.size().unwrap()].to_vec();
                    let value = Value { of, bytes, ..Value::empty() };
                    let written =
                        console.dictionary.write(0x6000, 0, object_value(&value).unwrap());
                    let outside = written == Err(Refusal::OutOfRange);
                    assert_eq!(range.side(&value) != Ordering::Equal, outside, "{text}: {number}");
                    refused += usize::from(outside);
                }
            }
        }
        assert_eq!(refused, 8 * 112);
    }
}
