//! What is wrong with an element of the mapping that a drive sends, whoever receives it.

use crate::explain::{Element, Mapped};
use crate::faults::{last_bytes, missing};
use crate::rig::{is_unsigned, Place, Rig};
use crate::words::{self, named_place, Style};
use loomfinch::{Target, ValueType, MOST_PAYLOAD_BYTES};
use std::ops::Range;

/// The objects that belong to SDO: what is sent of them is SDO's matter.
const OF_SDO: Range<u16> = 0x1200..0x1300;

/// How many bytes the count of a list's elements has.
const COUNT_BYTES: usize = 1;

/// What a drive's element sends, in words: `the drive's element 1 sends 4 bytes (0 to 3) of 6000h/0`.
pub fn what(rig: &Rig, element: &Element, mapped: &Mapped) -> String {
    let sends = match &mapped.field {
        Some(field) => bytes_of(field),
        None => format!(
            "{} from bit {} on",
            words::counted(mapped.entry.length_bits.into(), "bit"),
            mapped.entry.offset_bits
        ),
    };
    let at = named_place(rig, mapped.entry.index, mapped.entry.sub_index);
    format!("the drive's element {} sends {sends} of {at}", element.number)
}

/// An element that is no mapping word, in words.
pub fn nothing(element: &Element) -> String {
    let (number, of) = (element.number, words::type_with_article(element.element_type));
    format!("the drive's element {number} is {of}, not an Unsigned64, and sends nothing")
}

/// Why a drive's element sends something else than the object that it names; none where it sends just that.
pub fn fault(rig: &Rig, element: &Element, mapped: &Mapped, style: Style) -> Option<String> {
    let why = match &mapped.field {
        None => Some(": the console takes whole bytes alone".to_string()),
        Some(field) if field.end > MOST_PAYLOAD_BYTES => {
            Some(format!(": no payload has more than {MOST_PAYLOAD_BYTES} bytes"))
        }
        Some(_) if OF_SDO.contains(&mapped.entry.index) => None,
        Some(field) => of_object(rig, mapped, field.len(), style),
    };
    why.map(|why| what(rig, element, mapped) + &why)
}

/// What is wrong with so many bytes of the object that an element names.
fn of_object(rig: &Rig, mapped: &Mapped, length: usize, style: Style) -> Option<String> {
    let there = words::target(mapped.target);
    match mapped.target {
        Target::NoObject | Target::NoSubIndex => {
            Some(format!(", and {}", missing(rig, &mapped.entry)))
        }
        Target::Count => other_length(&there, length, COUNT_BYTES, String::new()),
        Target::Fixed { size, .. } => {
            let so = example(rig, mapped, (size, length), style);
            other_length(&there, length, size, so.map_or(String::new(), |so| format!(", so {so}")))
        }
        Target::String { room, .. } if length > room => {
            other_length(&there, length, room, String::new())
        }
        Target::String { value_type: ValueType::UnicodeString, .. } if length % 2 != 0 => {
            Some(format!(", {there}: half of its last character is not sent"))
        }
        _ => None,
    }
}

/// What is said of a field that has another length than the object; `so` is what a shorter one makes of a number.
fn other_length(there: &str, length: usize, size: usize, so: String) -> Option<String> {
    if length > size {
        return Some(format!(", {there}: {} not the object's", are(length - size)));
    }
    (length < size).then(|| format!(", {there}: {} not sent{so}", are(size - length)))
}

fn are(count: usize) -> String {
    format!("{} {}", last_bytes(count), if count == 1 { "is" } else { "are" })
}

/// A number of an Unsigned type that arrives as another, where fewer of its bytes do.
pub fn example(
    rig: &Rig,
    mapped: &Mapped,
    (whole, kept): (usize, usize),
    style: Style,
) -> Option<String> {
    let (of, milliseconds) = match rig.place(mapped.entry.index, mapped.entry.sub_index) {
        Place::Value(_, value) => (value.of, value.milliseconds),
        _ => return None,
    };
    let number: u64 = if whole > 2 { 90_000 } else { 2_500 };
    let left = number & ((1 << (8 * kept.min(7))) - 1);
    let shown = |number: u64| words::number(number, milliseconds, style);
    let changes = is_unsigned(of) && left != number;
    changes.then(|| format!("{} arrives as {}", shown(number), shown(left)))
}

/// `4 bytes (0 to 3)`.
pub fn bytes_of(field: &Range<usize>) -> String {
    match field.len() {
        0 => "no byte".to_string(),
        1 => format!("1 byte ({})", field.start),
        length => format!("{} ({} to {})", words::bytes(length), field.start, field.end - 1),
    }
}
