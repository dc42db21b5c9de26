//! Plain words: numbers, places, types and values as a person reads them.

use crate::quoting;
use crate::rig::{bounds, is_unsigned, little_endian, Kind, Rig, Value, MANAGING_NODE};
use loomfinch::{PDOVersion, PdoMappingEntry, Target, ValueType};

/// How values are shown.
#[derive(Clone, Copy, Debug, Default)]
pub struct Style {
    /// Show every Unsigned16 and Unsigned32 as a time, marked in the rig or not.
    pub times: bool,
    /// Write the decimal mark as a comma.
    pub comma: bool,
}

impl Style {
    /// The decimal mark.
    pub fn mark(self) -> char {
        if self.comma {
            ','
        } else {
            '.'
        }
    }

    /// A number that is written with a point, with the decimal mark.
    fn decimal(self, number: &str) -> String {
        number.replace('.', &self.mark().to_string())
    }
}

pub fn bytes(count: usize) -> String {
    counted(count, "byte")
}

/// `1 byte`, `2 bytes`.
pub fn counted(count: usize, thing: &str) -> String {
    format!("{} {}{}", count, thing, if count == 1 { "" } else { "s" })
}

/// A type's name with its article.
pub fn type_with_article(of: ValueType) -> String {
    let vowel = matches!(of.name().as_bytes()[0], b'I' | b'O') || is_unsigned(of);
    format!("{} {}", if vowel { "an" } else { "a" }, of.name())
}

/// The numbers of an integer type: `a number from 0 to 255`.
pub fn numbers_of(of: ValueType) -> String {
    let (least, greatest) = bounds(of).unwrap_or_default();
    format!("a number from {least} to {greatest}")
}

pub fn kind_with_article(kind: Kind) -> String {
    format!("{} {}", if kind == Kind::Array { "an" } else { "a" }, kind.name())
}

/// `6000h/0`.
pub fn place(index: u16, sub_index: u8) -> String {
    format!("{index:04X}h/{sub_index}")
}

/// Why an element takes no part: `not in use, since the count of 1600h is 2`.
pub fn not_in_use(index: u16, count: usize) -> String {
    format!("not in use, since the count of {index:04X}h is {count}")
}

/// Why none of a mapping's elements does: `off, since the count of 1600h is 0`.
pub fn off(index: u16) -> String {
    format!("off, since the count of {index:04X}h is 0")
}

/// `6000h/0 "Ramp time"`.
pub fn named_place(rig: &Rig, index: u16, sub_index: u8) -> String {
    match rig.name(index, sub_index) {
        "" => place(index, sub_index),
        name => format!("{} {}", place(index, sub_index), quoting::text(name)),
    }
}

/// `node 5 "Revolve"`.
pub fn node(rig: &Rig, node: u8) -> String {
    let number = match node {
        MANAGING_NODE => "the managing node (240)".to_string(),
        node => format!("node {node}"),
    };
    rig.nodes
        .get(&node)
        .map_or(number.clone(), |name| format!("{} {}", number, quoting::text(name)))
}

/// A mapping version: `1.2 (12h)`.
pub fn version(version: u8) -> String {
    format!("{} ({:02X}h)", PDOVersion(version), version)
}

/// The versions that a channel takes which expects one: `1.0 to 1.F`.
pub fn versions_from(expected: u8) -> String {
    let last = PDOVersion(expected | 0x0F);
    match expected {
        0 => version(0),
        expected if expected & 0x0F == 0x0F => version(expected),
        expected => format!("{} to {}", PDOVersion(expected), last),
    }
}

pub fn hex(bytes: &[u8]) -> String {
    let pairs: Vec<String> = bytes.iter().map(|byte| format!("{byte:02X}")).collect();
    pairs.join(" ")
}

/// The value in the form in which a rig file writes it, and as a time where it is one.
pub fn value(value: &Value, style: Style) -> String {
    as_type(value.of, &value.bytes, value.milliseconds, style)
}

/// Bytes as a value of a type; longer fields of numbers are read whole.
pub fn as_type(of: ValueType, bytes: &[u8], milliseconds: bool, style: Style) -> String {
    use ValueType::*;
    let number = little_endian(bytes);
    match of {
        _ if is_unsigned(of) && (milliseconds || timed(of, style)) => time(number, style),
        Integer8 | Integer16 | Integer32 | Integer64 => signed(number, bytes.len()).to_string(),
        Real32 => style.decimal(&f32::from_bits(number as u32).to_string()),
        Real64 => style.decimal(&f64::from_bits(number).to_string()),
        VisibleString => quoting::text(&String::from_utf8_lossy(bytes)),
        UnicodeString => quoting::text(&String::from_utf16_lossy(&units(bytes))),
        OctetString | Domain => format!("[{}]", hex(bytes)),
        TimeOfDay | TimeDifference => format!("{} ms {} days", number as u32, number >> 32),
        NetTime => format!("{} s {} ns", number as u32, number >> 32),
        RelativeTime => format!("{number} us"),
        MacAddress => joined(bytes, ":", |byte| format!("{byte:02X}")),
        IpAddress => joined(bytes, ".", |byte| byte.to_string()),
        _ => number.to_string(),
    }
}

/// Is a value shown as a time?
pub fn is_time(value: &Value, style: Style) -> bool {
    value.milliseconds || timed(value.of, style)
}

fn timed(of: ValueType, style: Style) -> bool {
    style.times && matches!(of, ValueType::Unsigned16 | ValueType::Unsigned32)
}

/// `60000`, or `60000 ms`.
pub fn amount(number: i128, milliseconds: bool) -> String {
    format!("{}{}", number, if milliseconds { " ms" } else { "" })
}

/// A plain number, or a time where it is one.
pub fn number(number: u64, milliseconds: bool, style: Style) -> String {
    match milliseconds || style.times {
        true => time(number, style),
        false => number.to_string(),
    }
}

/// What is at the place that an element maps to: `an Unsigned16 of 2 bytes`.
pub fn target(target: Target) -> String {
    match target {
        Target::Fixed { value_type, size } => {
            format!("{} of {}", type_with_article(value_type), bytes(size))
        }
        Target::String { value_type, room } => {
            format!("{} with room for {}", type_with_article(value_type), bytes(room))
        }
        Target::NoObject | Target::NoSubIndex => "nothing".to_string(),
        other => other.to_string(),
    }
}

/// A mapping word as a rig file writes it: `6000h/0 at 0 length 2`.
pub fn mapping(word: u64) -> String {
    let entry = PdoMappingEntry::from_u64(word);
    let target = place(entry.index, entry.sub_index);
    match entry.field() {
        Some(field) => format!("{} at {} length {}", target, field.start, field.len()),
        None => {
            format!("{} at {} bits length {} bits", target, entry.offset_bits, entry.length_bits)
        }
    }
}

/// `2500 ms = 2.500 s`.
fn time(milliseconds: u64, style: Style) -> String {
    let (seconds, rest) = (milliseconds / 1000, milliseconds % 1000);
    format!("{} ms = {}{}{:03} s", milliseconds, seconds, style.mark(), rest)
}

/// The number that so many bytes of two's complement say.
fn signed(number: u64, size: usize) -> i64 {
    let unused = 64 - 8 * size.clamp(1, 8) as u32;
    (number << unused) as i64 >> unused
}

fn units(bytes: &[u8]) -> Vec<u16> {
    bytes.chunks(2).map(|pair| little_endian(pair) as u16).collect()
}

fn joined(bytes: &[u8], mark: &str, part: impl Fn(&u8) -> String) -> String {
    bytes.iter().map(part).collect::<Vec<_>>().join(mark)
}

#[cfg(test)]
mod tests {
    use super::*;

    #[test]
    fn times_have_three_decimals() {
        let comma = Style { comma: true, ..Style::default() };
        assert_eq!(time(2500, Style::default()), "2500 ms = 2.500 s");
        assert_eq!(time(90_000, comma), "90000 ms = 90,000 s");
        assert_eq!(time(7, Style::default()), "7 ms = 0.007 s");
    }

    #[test]
    fn a_version_has_one_spelling() {
        assert_eq!((version(0x12).as_str(), version(0).as_str()), ("1.2 (12h)", "0.0 (00h)"));
        for (expected, wanted) in
            [(0, "0.0 (00h)"), (0x10, "1.0 to 1.F"), (0x2A, "2.A to 2.F"), (0x3F, "3.F (3Fh)")]
        {
            assert_eq!(versions_from(expected), wanted);
        }
    }

    #[test]
    fn reals_have_the_decimal_mark_too() {
        let comma = Style { comma: true, ..Style::default() };
        let half = (-2.5f64).to_le_bytes();
        assert_eq!(as_type(ValueType::Real64, &half, false, Style::default()), "-2.5");
        assert_eq!(as_type(ValueType::Real64, &half, false, comma), "-2,5");
        assert_eq!(as_type(ValueType::Real32, &1.25f32.to_le_bytes(), false, comma), "1,25");
        assert_eq!(as_type(ValueType::IpAddress, &[1, 2, 3, 4], false, comma), "1.2.3.4");
    }

    #[test]
    fn cases_3_and_4() {
        let plain = Style::default();
        assert_eq!(as_type(ValueType::Integer16, &[0xFF, 0xFF], false, plain), "-1");
        assert_eq!(as_type(ValueType::Integer16, &[0x00, 0x80], false, plain), "-32768");
        assert_eq!(as_type(ValueType::Integer64, &[0xFF; 8], false, plain), "-1");
    }

    #[test]
    fn every_type_is_shown() {
        let plain = Style::default();
        for number in 0..=20 {
            let of = ValueType::from_number(number).unwrap();
            assert!(!as_type(of, &[1; 8][..of.size().unwrap_or(8)], false, plain).is_empty());
        }
        assert_eq!(
            as_type(ValueType::IpAddress, &[192, 168, 100, 5], false, plain),
            "192.168.100.5"
        );
        assert_eq!(
            as_type(ValueType::MacAddress, &[0, 0x60, 0x65, 1, 2, 3], false, plain),
            "00:60:65:01:02:03"
        );
    }
}
