//! What is no fault of a rig, and still worth knowing.

use crate::explain::{first_stop, Element};
use crate::json::Json;
use crate::rig::{Place, Rig};
use crate::words::{self, named_place, place, type_with_article};
use loomfinch::{AccessType, ValueType};

/// What a note is about; programs read its name.
#[derive(Clone, Copy, Debug, PartialEq, Eq)]
pub enum Kind {
    /// 1400h+channel/2 is no Unsigned8.
    VersionType,
    /// Two fields of a channel share bytes of the payload.
    SharedBytes,
    /// Two elements of a channel have one target.
    MappedTwice,
    /// Two channels have one target.
    TwoChannels,
    /// The target is a record of the channel itself.
    OwnRecord,
    /// The target is ReadOnly or Constant.
    ReadOnlyTarget,
    /// The field can hold numbers outside the target's range.
    RangedTarget,
    /// The target is 1010h or 1011h, where a write saves or restores.
    StoreTarget,
    NoChannel,
    UnusedMapping,
    /// An error object that cannot note every node.
    SmallErrorObject,
}

#[derive(Clone, Debug)]
pub struct Note {
    kind: Kind,
    channel: Option<u8>,
    element: Option<u8>,
    /// The channel and the element that it shares something with.
    other: Option<(u8, u8)>,
    pub text: String,
}

impl Note {
    fn of_rig(kind: Kind, text: String) -> Note {
        Note { kind, channel: None, element: None, other: None, text }
    }

    fn of_channel(kind: Kind, channel: u8, element: Option<u8>, text: &str) -> Note {
        let text = format!("channel {channel}: {text}");
        Note { kind, channel: Some(channel), element, other: None, text }
    }

    pub fn json(&self) -> Json {
        let number = |number: Option<u8>| Json::or_null(number.map(Json::number));
        let other = self.other.map(|(channel, element)| {
            Json::Object(vec![
                ("channel", Json::number(channel)),
                ("element", Json::number(element)),
            ])
        });
        Json::Object(vec![
            ("kind", Json::Text(format!("{:?}", self.kind))),
            ("channel", number(self.channel)),
            ("element", number(self.element)),
            ("other", Json::or_null(other)),
            ("text", Json::text(self.text.as_str())),
        ])
    }
}

/// No channel at all, mappings that no channel uses, and error objects that cannot note every node.
pub fn of_rig(rig: &Rig) -> Vec<Note> {
    let mut notes = Vec::new();
    if rig.objects.range(0x1400..=0x14FF).next().is_none() {
        let text = "no channel: the rig has no object from 1400h to 14FFh, so nothing is received";
        notes.push(Note::of_rig(Kind::NoChannel, text.to_string()));
    }
    for index in rig.objects.range(0x1600..=0x16FF).map(|(index, _)| *index) {
        let record = index - 0x200;
        if !rig.objects.contains_key(&record) {
            let text = format!(
                "nothing uses the mapping {index:04X}h: there is no {record:04X}h that names its sender"
            );
            notes.push(Note::of_rig(Kind::UnusedMapping, text));
        }
    }
    for index in [0x1C80, 0x1C81] {
        if rig.objects.contains_key(&index) && !notes_every_node(rig, index) {
            let text = format!(
                "{index:04X}h cannot note every node: that takes a Variable, an OctetString of 32 bytes"
            );
            notes.push(Note::of_rig(Kind::SmallErrorObject, text));
        }
    }
    notes
}

/// Has an error object a bit for each of the nodes 1 to 239?
fn notes_every_node(rig: &Rig, index: u16) -> bool {
    match rig.place(index, 0) {
        Place::Value(_, value) => value.of == ValueType::OctetString && value.bytes.len() >= 30,
        _ => false,
    }
}

/// Fields that share bytes; and of a channel that takes payloads a version that is none, and what is to be said of the targets
/// that are written.
pub fn of_channel(rig: &Rig, channel: u8, elements: &[Element], takes: bool) -> Vec<Note> {
    let version = Some(channel).filter(|_| takes);
    let mut notes: Vec<Note> =
        version.and_then(|channel| unread_version(rig, channel)).into_iter().collect();
    let written = if takes { written(elements) } else { Vec::new() };
    for (k, later) in elements.iter().enumerate() {
        let target = written.iter().find(|found| found.0 == later.number).map(|found| found.1);
        if let Some(target) = target {
            notes.extend(of_target(rig, channel, later.number, target));
        }
        notes.extend(shared_bytes(channel, &elements[..k], later));
        if let Some(target) = target {
            notes.extend(mapped_twice(rig, channel, &written, later.number, target));
        }
    }
    notes
}

/// The elements that some payload writes, with their targets.
fn written(elements: &[Element]) -> Vec<(u8, (u16, u8))> {
    let stop = first_stop(elements);
    let reached = elements.iter().filter(|element| stop.map_or(true, |stop| element.number < stop));
    reached.filter_map(|element| Some((element.number, element.written_to()?))).collect()
}

/// Of a version of another type nothing is read, and that counts as 0.
fn unread_version(rig: &Rig, channel: u8) -> Option<Note> {
    let index = 0x1400 + u16::from(channel);
    let text = match rig.place(index, 2) {
        Place::Value(_, value) if value.of != ValueType::Unsigned8 => format!(
            "{} is {}, not an Unsigned8: payloads of version {} alone are taken",
            place(index, 2),
            type_with_article(value.of),
            words::version(0)
        ),
        _ => return None,
    };
    Some(Note::of_channel(Kind::VersionType, channel, None, &text))
}

/// What a payload that writes an element's target does beside it, or in spite of it.
fn of_target(rig: &Rig, channel: u8, element: u8, (index, sub_index): (u16, u8)) -> Vec<Note> {
    let at = named_place(rig, index, sub_index);
    let mut notes = Vec::new();
    let mut note = |kind, text: String| {
        let text = format!("element {element} maps onto {at}, {text}");
        notes.push(Note::of_channel(kind, channel, Some(element), &text));
    };
    if [0x1400 + u16::from(channel), 0x1600 + u16::from(channel)].contains(&index) {
        let text = "a record of the channel itself: a payload may change what the next ones do";
        note(Kind::OwnRecord, text.to_string());
    }
    match rig.objects.get(&index).and_then(|object| object.access) {
        Some(access @ AccessType::ReadOnly) | Some(access @ AccessType::Constant) => {
            note(
                Kind::ReadOnlyTarget,
                format!("which is {access:?}: payloads change it all the same"),
            );
        }
        _ => (),
    }
    if let Some(range) = passable_range(rig, (index, sub_index)) {
        let text = format!("whose range is {range}: payloads are stored outside it all the same");
        note(Kind::RangedTarget, text);
    }
    let command = match index {
        0x1010 => "saved",
        0x1011 => "restored",
        _ => return notes,
    };
    note(
        Kind::StoreTarget,
        format!("which takes a plain value from a payload: nothing is {command}"),
    );
    notes
}

/// The range that a target's numbers are held against in writing, where its field can hold others.
fn passable_range(rig: &Rig, (index, sub_index): (u16, u8)) -> Option<String> {
    let (range, value) = match rig.place(index, sub_index) {
        Place::Value(object, value) => (object.range?, value),
        _ => return None,
    };
    let [least, greatest] =
        [range.least, range.greatest].map(|end| words::amount(end, value.milliseconds));
    let passable = range.of == value.of && range.can_be_passed();
    Some(format!("{least} to {greatest}")).filter(|_| passable)
}

/// The first element before this one whose field shares bytes with its own.
fn shared_bytes(channel: u8, earlier: &[Element], later: &Element) -> Option<Note> {
    let (one, bytes) = earlier.iter().find_map(|one| Some((one, shared(one, later)?)))?;
    let text = format!("elements {} and {} share {}", one.number, later.number, bytes);
    let note = Note::of_channel(Kind::SharedBytes, channel, Some(later.number), &text);
    Some(Note { other: Some((channel, one.number)), ..note })
}

/// The bytes of the payload that two elements share.
fn shared(one: &Element, other: &Element) -> Option<String> {
    let (one, other) =
        (one.mapped.as_ref()?.field.as_ref()?, other.mapped.as_ref()?.field.as_ref()?);
    let (start, end) = (one.start.max(other.start), one.end.min(other.end));
    match end.checked_sub(start) {
        None | Some(0) => None,
        Some(1) => Some(format!("byte {start} of the payload")),
        Some(_) => Some(format!("bytes {} to {} of the payload", start, end - 1)),
    }
}

/// The first element before this one that has the same target.
fn mapped_twice(
    rig: &Rig,
    channel: u8,
    written: &[(u8, (u16, u8))],
    element: u8,
    target: (u16, u8),
) -> Option<Note> {
    let one = written.iter().find(|one| one.0 < element && one.1 == target)?.0;
    let at = named_place(rig, target.0, target.1);
    let text = format!("elements {one} and {element} both map onto {at}: the later one stands");
    let note = Note::of_channel(Kind::MappedTwice, channel, Some(element), &text);
    Some(Note { other: Some((channel, one)), ..note })
}

/// A channel that takes payloads: its number, its sender and its elements.
pub struct Receiving<'a> {
    pub channel: u8,
    pub sender: u8,
    pub elements: &'a [Element],
}

/// Targets that two channels write: each element with the first channel before its own.
pub fn of_channels(rig: &Rig, channels: &[Receiving]) -> Vec<Note> {
    let written: Vec<Vec<(u8, (u16, u8))>> =
        channels.iter().map(|channel| written(channel.elements)).collect();
    let mut notes = Vec::new();
    for (k, later) in channels.iter().enumerate() {
        for (element, target) in &written[k] {
            let same = |found: &&(u8, (u16, u8))| found.1 == *target;
            let earlier = (0..k).find_map(|one| Some((one, written[one].iter().find(same)?.0)));
            if let Some((one, other)) = earlier {
                let one = (&channels[one], other);
                notes.push(two_channels(rig, one, (later, *element), *target));
            }
        }
    }
    notes
}

fn two_channels(
    rig: &Rig,
    (one, other): (&Receiving, u8),
    (later, element): (&Receiving, u8),
    target: (u16, u8),
) -> Note {
    let text = format!(
        "channels {} and {} both map onto {} (elements {} and {}): of {} and {} the last to arrive stands",
        one.channel,
        later.channel,
        named_place(rig, target.0, target.1),
        other,
        element,
        words::node(rig, one.sender),
        words::node(rig, later.sender)
    );
    let (kind, channel, element) = (Kind::TwoChannels, Some(later.channel), Some(element));
    Note { kind, channel, element, other: Some((one.channel, other)), text }
}
