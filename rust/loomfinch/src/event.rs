//! What happened while payloads were consumed.

use crate::types::{NodeId, PDOVersion};
use crate::words::bytes;
use std::fmt;

/// Why a field stopped the run of its payload. It displays as `Frame`, `Value, which needs 2 bytes and has 1`, `Text, in which
/// no UTF-8 goes on at byte 8` or `Odd`.
///
/// ```
/// use loomfinch::{Cause, Dictionary, Event, NodeId, Object, ObjectEntry, ObjectValue, PDOVersion, PdoMappingEntry};
///
/// let mut rig = Dictionary::new(Default::default());
/// rig.insert(0x1400, ObjectEntry::new(Object::Record(vec![ObjectValue::Unsigned8(5)])))?;
/// // Bytes 2 to 7 of the payload are the caption.
/// let caption = PdoMappingEntry { index: 0x6100, sub_index: 0, offset_bits: 16, length_bits: 48 };
/// rig.insert(0x1600, ObjectEntry::new(Object::Array(vec![caption.to_u64().into()])))?;
/// rig.insert(0x6100, ObjectEntry::new(Object::Variable("Act II".into())))?;
///
/// // The field is no UTF-8: 63h, its byte 2, cannot follow E9h.
/// let events = rig.consume_pdo_payload(NodeId(5), b"\x10\x27D\xE9cor ", PDOVersion(0), true)?;
/// assert_eq!(events.as_slice()[0].event, Event::PayloadShort(Cause::Text { at: 2 }));
/// # Ok::<(), loomfinch::Refusal>(())
/// ```
#[derive(Debug, Clone, Copy, PartialEq, Eq, Hash)]
#[non_exhaustive]
pub enum Cause {
    /// The field ends past the payload.
    Frame,
    /// The field has fewer bytes than the value's type.
    Value {
        /// How many bytes the value's type has.
        needed: u16,
        /// How many bytes the field has.
        had: u16,
    },
    /// The field is no UTF-8.
    Text {
        /// The first byte, from 0 within the field, at which no UTF-8 goes on; the field's length where it only ends too early.
        at: u16,
    },
    /// The field has an odd number of bytes for units of 16 bits.
    Odd,
}

/// Why a field was not written; the run of its payload went on.
#[derive(Debug, Clone, Copy, PartialEq, Eq, Hash)]
#[non_exhaustive]
pub enum Unwritten {
    /// The target is a list's count.
    CountNotWritable,
    /// The field is longer than the room of its target.
    TooLong,
}

/// What happened. It displays as `MapVersion`, `PayloadShort: Frame` or `Server: 1200h, 2 bytes from byte 6 on`.
#[derive(Debug, Clone, Copy, PartialEq, Eq, Hash)]
#[non_exhaustive]
pub enum Event {
    /// The payload has the wrong mapping version, and nothing of it was written.
    MapVersion,
    /// A field stopped the run; those before it are written.
    PayloadShort(Cause),
    /// A field is for the SDO server, and not written.
    Server {
        /// The index of the server's channel, 1200h to 127Fh.
        index: u16,
        /// Where the field starts in the payload, in bytes.
        start: u16,
        /// The length of the field in bytes.
        len: u16,
    },
    /// A field is for the SDO client, and not written.
    Client {
        /// The index of the client's channel, 1280h to 12FFh.
        index: u16,
        /// Where the field starts in the payload, in bytes.
        start: u16,
        /// The length of the field in bytes.
        len: u16,
    },
    /// A field was not written.
    WriteRefused(Unwritten),
}

/// An event and where it happened. It displays as `payload 0, element 1: PayloadShort: Frame`.
#[derive(Debug, Clone, Copy, PartialEq, Eq, Hash)]
pub struct EventRecord {
    /// The number of the payload in its cycle, from 0; 0 for a single payload.
    pub payload: u16,
    /// The place of the element in the mapping, from 1; none with [`Event::MapVersion`].
    pub element: Option<u8>,
    /// What happened.
    pub event: Event,
}

impl EventRecord {
    /// Takes an event's number apart, as docs/RULES.md puts it together.
    fn from_number(number: u64) -> Self {
        let bits = |first: u32, count: u32| (number >> first & ((1 << count) - 1)) as u16;
        let (index, start, len) = (bits(12, 16), bits(28, 13), bits(41, 13));
        let event = match bits(0, 4) {
            1 => Event::MapVersion,
            2 => Event::PayloadShort(Cause::Frame),
            3 => Event::PayloadShort(Cause::Value { needed: start, had: len }),
            4 => Event::PayloadShort(Cause::Text { at: start }),
            5 => Event::PayloadShort(Cause::Odd),
            6 => Event::Server { index, start, len },
            7 => Event::Client { index, start, len },
            8 => Event::WriteRefused(Unwritten::CountNotWritable),
            9 => Event::WriteRefused(Unwritten::TooLong),
            _ => panic!("loomfinch: the library has no event {number}"),
        };
        let element = bits(4, 8) as u8;
        EventRecord { payload: bits(54, 10), element: (element > 0).then_some(element), event }
    }
}

impl fmt::Display for Cause {
    fn fmt(&self, f: &mut fmt::Formatter<'_>) -> fmt::Result {
        match *self {
            Cause::Frame => f.write_str("Frame"),
            Cause::Value { needed, had } => {
                write!(f, "Value, which needs {} and has {had}", bytes(needed.into()))
            }
            Cause::Text { at } => write!(f, "Text, in which no UTF-8 goes on at byte {at}"),
            Cause::Odd => f.write_str("Odd"),
        }
    }
}

impl fmt::Display for Unwritten {
    fn fmt(&self, f: &mut fmt::Formatter<'_>) -> fmt::Result {
        write!(f, "{self:?}")
    }
}

impl fmt::Display for Event {
    fn fmt(&self, f: &mut fmt::Formatter<'_>) -> fmt::Result {
        match self {
            Event::MapVersion => f.write_str("MapVersion"),
            Event::PayloadShort(cause) => write!(f, "PayloadShort: {cause}"),
            Event::Server { index, start, len } => handed_on(f, "Server", *index, *start, *len),
            Event::Client { index, start, len } => handed_on(f, "Client", *index, *start, *len),
            Event::WriteRefused(why) => write!(f, "WriteRefused: {why}"),
        }
    }
}

fn handed_on(
    f: &mut fmt::Formatter<'_>,
    to: &str,
    index: u16,
    start: u16,
    len: u16,
) -> fmt::Result {
    write!(f, "{to}: {index:04X}h, {} from byte {start} on", bytes(len.into()))
}

impl fmt::Display for EventRecord {
    fn fmt(&self, f: &mut fmt::Formatter<'_>) -> fmt::Result {
        write!(f, "payload {}", self.payload)?;
        if let Some(element) = self.element {
            write!(f, ", element {element}")?;
        }
        write!(f, ": {}", self.event)
    }
}

/// The events of a payload or of a cycle, in order: a list that is iterated by reference or taken apart.
#[derive(Clone, PartialEq, Eq)]
#[must_use = "a payload that stops half-way says so by its events alone"]
pub struct Events {
    records: Vec<EventRecord>,
}

impl Events {
    pub(crate) fn of(numbers: &[u64]) -> Self {
        Events { records: numbers.iter().copied().map(EventRecord::from_number).collect() }
    }

    /// How many there are.
    pub fn len(&self) -> usize {
        self.records.len()
    }

    /// Whether nothing happened that is told.
    pub fn is_empty(&self) -> bool {
        self.records.is_empty()
    }

    /// The events, in order.
    pub fn iter(&self) -> std::slice::Iter<'_, EventRecord> {
        self.records.iter()
    }

    /// The events as a slice.
    pub fn as_slice(&self) -> &[EventRecord] {
        &self.records
    }
}

/// A list of what [`EventRecord`] displays.
impl fmt::Debug for Events {
    fn fmt(&self, f: &mut fmt::Formatter<'_>) -> fmt::Result {
        f.debug_list().entries(self.records.iter().map(Shown)).finish()
    }
}

/// A record that is debugged as it displays.
struct Shown<'a>(&'a EventRecord);

impl fmt::Debug for Shown<'_> {
    fn fmt(&self, f: &mut fmt::Formatter<'_>) -> fmt::Result {
        fmt::Display::fmt(self.0, f)
    }
}

impl IntoIterator for Events {
    type Item = EventRecord;
    type IntoIter = std::vec::IntoIter<EventRecord>;

    fn into_iter(self) -> Self::IntoIter {
        self.records.into_iter()
    }
}

impl<'a> IntoIterator for &'a Events {
    type Item = &'a EventRecord;
    type IntoIter = std::slice::Iter<'a, EventRecord>;

    fn into_iter(self) -> Self::IntoIter {
        self.iter()
    }
}

/// A payload of a cycle, which lies somewhere in the bytes that the cycle delivered.
#[derive(Debug, Clone, Copy, PartialEq, Eq, Hash)]
pub struct Payload {
    /// Where the payload starts in the delivered bytes.
    pub start: usize,
    /// Its length in bytes.
    pub len: usize,
    /// The node that sent it.
    pub source_node_id: NodeId,
    /// The mapping version that came with it.
    pub received_version: PDOVersion,
    /// Whether its data is valid, as the frame's RD flag says.
    pub is_ready: bool,
}

impl Payload {
    /// The five numbers that the library takes for a payload.
    pub(crate) fn numbers(&self) -> [u64; 5] {
        let (start, len) = (self.start as u64, self.len as u64);
        let (sender, version) = (self.source_node_id.0, self.received_version.0);
        [start, len, sender.into(), version.into(), self.is_ready.into()]
    }
}

/// A payload of a cycle with its own bytes.
#[derive(Debug, Clone, Copy, PartialEq, Eq, Hash)]
pub struct ReceivedPayload<'a> {
    /// Its bytes.
    pub payload: &'a [u8],
    /// The node that sent it.
    pub source_node_id: NodeId,
    /// The mapping version that came with it.
    pub received_version: PDOVersion,
    /// Whether its data is valid, as the frame's RD flag says.
    pub is_ready: bool,
}
