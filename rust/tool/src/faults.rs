//! The faults of the check in plain words.

use crate::console::Console;
use crate::explain::{first_stop, Element, Mapped};
use crate::rig::{Place, Rig};
use crate::words::{self, named_place, place};
use loomfinch::{Checked, Fault, PdoMappingEntry, Target, ValueType, MOST_PAYLOAD_BYTES};

/// Why a channel does not pass.
pub fn sentence(console: &Console, channel: u8, checked: Checked, elements: &[Element]) -> String {
    let rig = &console.rig;
    match checked {
        Checked::Pass => "pass".to_string(),
        Checked::NoSender => no_sender(console, channel),
        Checked::NoList => no_list(rig, channel),
        Checked::TooFar => too_far(elements),
        Checked::Element { element, fault } => {
            let named = elements.iter().find(|known| known.number == element);
            named.map_or(format!("element {element}: {fault}"), |known| {
                of_element(rig, known, fault, first_stop(elements)) + &why_stopped(known, elements)
            })
        }
        other => other.to_string(),
    }
}

/// Why every payload stops before an element that has the first fault: what stops it has none, so it lies too far.
fn why_stopped(named: &Element, elements: &[Element]) -> String {
    let stop = elements.iter().find(|element| element.stops());
    stop.filter(|stop| stop.number < named.number).map_or(String::new(), |stop| {
        let end = stop.mapped.as_ref().map_or(0, |mapped| mapped.end);
        format!(
            ", which needs a payload of {end} bytes, and none has more than {MOST_PAYLOAD_BYTES}"
        )
    })
}

fn no_sender(console: &Console, channel: u8) -> String {
    let (rig, index) = (&console.rig, 0x1400 + u16::from(channel));
    let taken = |sender| console.channel_of(sender).map(|earlier| (earlier, sender));
    if let Some((earlier, sender)) = rig.named_sender(channel).and_then(taken) {
        return format!(
            "no sender: channel {} takes {} before it",
            earlier,
            words::node(rig, sender)
        );
    }
    let found = match rig.place(index, 1) {
        Place::Value(_, value) => {
            let of = words::type_with_article(value.of);
            return format!("no sender: {} is {}, not an Unsigned8", place(index, 1), of);
        }
        Place::NoSub(object) if object.is_list() => format!("{index:04X}h has no element"),
        Place::NoSub(_) => format!("{index:04X}h is a Variable"),
        Place::NoObject | Place::Count => format!("there is no {index:04X}h"),
    };
    format!("no sender: there is no Unsigned8 at {}: {}", place(index, 1), found)
}

fn no_list(rig: &Rig, channel: u8) -> String {
    let index = 0x1600 + u16::from(channel);
    match rig.objects.get(&index) {
        None => format!("no mapping: there is no {index:04X}h"),
        Some(object) if object.is_list() && object.values.is_empty() => {
            format!("no mapping: {index:04X}h has no element")
        }
        Some(object) if object.is_list() => {
            format!("the channel is {}: payloads write nothing", words::off(index))
        }
        Some(_) => format!("no mapping: {index:04X}h is a Variable, not an Array or a Record"),
    }
}

fn too_far(elements: &[Element]) -> String {
    let first = elements.iter().find(|element| element.ends_behind_payloads());
    first.map_or("the mapping reaches too far".to_string(), |element| {
        format!("element {} {}", element.number, needs_more(element))
    })
}

fn needs_more(element: &Element) -> String {
    let end = element.mapped.as_ref().map_or(0, |mapped| mapped.end);
    format!(
        "needs a payload of {end} bytes, and none has more than {MOST_PAYLOAD_BYTES}: every payload stops there"
    )
}

/// The element that a fault names: TooFar names the first that ends behind every payload.
pub fn named_element(checked: Checked, elements: &[Element]) -> Option<u8> {
    let far = || elements.iter().find(|element| element.ends_behind_payloads());
    match checked {
        Checked::TooFar => far().map(|element| element.number),
        checked => checked.element(),
    }
}

/// What is wrong with an element, as a sentence; `stop` is the first element at which every payload stops.
pub fn of_element(rig: &Rig, element: &Element, fault: Fault, stop: Option<u8>) -> String {
    let (what, then) = of_fault(rig, element, fault);
    let then = unreached(element, stop).map_or(then, |why| format!(": {why}"));
    format!("element {} {}{}", element.number, what, then)
}

/// What an element maps, whatever becomes of it: `maps 4 bytes onto 6000h/0, an Unsigned16 of 2 bytes`.
pub fn what(rig: &Rig, element: &Element) -> String {
    match (element.fault, &element.mapped) {
        (Some(fault), _) => of_fault(rig, element, fault).0,
        (None, Some(mapped)) => format!(
            "maps {} onto {}, {}",
            words::bytes(mapped.length()),
            named_place(rig, mapped.entry.index, mapped.entry.sub_index),
            words::target(mapped.target)
        ),
        (None, None) => "maps nothing".to_string(),
    }
}

/// What an element with a fault maps, and what becomes of its field.
fn of_fault(rig: &Rig, element: &Element, fault: Fault) -> (String, String) {
    match &element.mapped {
        Some(mapped) => of_mapping(rig, mapped, fault),
        None => {
            let of = words::type_with_article(element.element_type);
            (format!("is {of}, not an Unsigned64, and maps nothing"), String::new())
        }
    }
}

/// Why an element's own fault or order does not matter: every payload stops before it, or ends before it does.
pub fn unreached(element: &Element, stop: Option<u8>) -> Option<String> {
    match stop {
        Some(stop) if stop < element.number => {
            Some(format!("never reached, since every payload stops at element {stop}"))
        }
        Some(stop) if stop == element.number && element.ends_behind_payloads() => {
            Some(format!("it {}", needs_more(element)))
        }
        _ => None,
    }
}

/// What a mapping says, and what becomes of its field.
fn of_mapping(rig: &Rig, mapped: &Mapped, fault: Fault) -> (String, String) {
    let entry = &mapped.entry;
    let at = named_place(rig, entry.index, entry.sub_index);
    let (what, then) = match fault {
        Fault::NotMapping => ("maps nothing".to_string(), ""),
        Fault::Misaligned => (
            format!(
                "maps {} from bit {} on onto {}",
                words::counted(usize::from(entry.length_bits), "bit"),
                entry.offset_bits,
                at
            ),
            ": only whole bytes are written, so it is passed over",
        ),
        Fault::HandOff => {
            (format!("maps onto {at}, which belongs to SDO"), ": it is handed on and not written")
        }
        Fault::NoTarget => {
            (format!("maps onto {}, and {}", at, missing(rig, entry)), ": it is passed over")
        }
        Fault::CountTarget => (
            format!("maps onto {at}, the count of the list's elements"),
            ", which no payload changes",
        ),
        Fault::WrongLength => return wrong_length(&at, mapped),
        other => return (format!("maps onto {at}"), format!(": {other}")),
    };
    (what, then.to_string())
}

/// Why there is nothing at a place: `there is no object 6000h`.
pub fn missing(rig: &Rig, entry: &PdoMappingEntry) -> String {
    match rig.objects.get(&entry.index) {
        None => format!("there is no object {:04X}h", entry.index),
        Some(object) if object.is_list() => {
            format!("{:04X}h has {}", entry.index, words::counted(object.values.len(), "element"))
        }
        Some(_) => format!("{:04X}h is a Variable, which has sub-index 0 only", entry.index),
    }
}

fn wrong_length(at: &str, mapped: &Mapped) -> (String, String) {
    let length = mapped.length();
    let maps = format!("maps {} onto {}", words::bytes(length), at);
    match mapped.target {
        Target::Fixed { value_type, size } => {
            let of = words::type_with_article(value_type);
            let then = if length > size {
                format!(": {} would be lost", last_bytes(length - size))
            } else {
                format!(": {} missing, so every payload stops there", are(size - length))
            };
            (format!("{}, {} of {}", maps, of, words::bytes(size)), then)
        }
        Target::String { value_type, room } if length > room => {
            let of = words::type_with_article(value_type);
            let what = format!("{}, {} with room for {}", maps, of, words::bytes(room));
            (what, ": nothing would be written".to_string())
        }
        Target::String { value_type: ValueType::UnicodeString, .. } => (
            format!("{maps}, a UnicodeString of 2 bytes a character"),
            ": every payload stops there".to_string(),
        ),
        _ => (maps, String::new()),
    }
}

/// `the last byte`, `the last 2 bytes`.
pub fn last_bytes(count: usize) -> String {
    match count {
        1 => "the last byte".to_string(),
        count => format!("the last {count} bytes"),
    }
}

fn are(count: usize) -> String {
    format!("{} {}", words::bytes(count), if count == 1 { "is" } else { "are" })
}
