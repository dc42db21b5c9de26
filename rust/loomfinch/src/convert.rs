//! Rust's types as values, and back.

use crate::refusal::Refusal;
use crate::types::{MacAddress, NetTime, RelativeTime, TimeDifference, TimeOfDay};
use crate::value::ObjectValue;
use std::fmt::{self, Write};

/// `From` a type for a value, and `TryFrom` back, which refuses with TypeMismatch a value of another type.
macro_rules! converts {
    ($($of:ty => $variant:ident),* $(,)?) => {$(
        impl From<$of> for ObjectValue {
            fn from(value: $of) -> Self {
                ObjectValue::$variant(value)
            }
        }

        impl TryFrom<ObjectValue> for $of {
            type Error = Refusal;

            fn try_from(value: ObjectValue) -> Result<Self, Refusal> {
                match value {
                    ObjectValue::$variant(value) => Ok(value),
                    _ => Err(Refusal::TypeMismatch),
                }
            }
        }
    )*};
}

converts! {
    i8 => Integer8,
    i16 => Integer16,
    i32 => Integer32,
    i64 => Integer64,
    u8 => Unsigned8,
    u16 => Unsigned16,
    u32 => Unsigned32,
    u64 => Unsigned64,
    f32 => Real32,
    f64 => Real64,
    String => VisibleString,
    Vec<u8> => OctetString,
    Vec<u16> => UnicodeString,
    TimeOfDay => TimeOfDay,
    TimeDifference => TimeDifference,
    NetTime => NetTime,
    RelativeTime => RelativeTime,
    MacAddress => MacAddress,
    [u8; 4] => IpAddress,
}

impl From<bool> for ObjectValue {
    fn from(value: bool) -> Self {
        ObjectValue::Boolean(value.into())
    }
}

/// Any byte but 0 is true.
impl TryFrom<ObjectValue> for bool {
    type Error = Refusal;

    fn try_from(value: ObjectValue) -> Result<Self, Refusal> {
        match value {
            ObjectValue::Boolean(value) => Ok(value != 0),
            _ => Err(Refusal::TypeMismatch),
        }
    }
}

impl From<&str> for ObjectValue {
    fn from(value: &str) -> Self {
        ObjectValue::VisibleString(value.to_owned())
    }
}

/// As a rig file writes it: `2500`, `"Act I"`, `[C4 09]`, `12 s 500 ns`. In texts a quote and a backslash have a backslash before
/// them, and what would move a cursor or turn the direction of writing is escaped; nothing else is.
impl fmt::Display for ObjectValue {
    fn fmt(&self, f: &mut fmt::Formatter<'_>) -> fmt::Result {
        match self {
            ObjectValue::Boolean(value) | ObjectValue::Unsigned8(value) => write!(f, "{value}"),
            ObjectValue::Integer8(value) => write!(f, "{value}"),
            ObjectValue::Integer16(value) => write!(f, "{value}"),
            ObjectValue::Integer32(value) => write!(f, "{value}"),
            ObjectValue::Integer64(value) => write!(f, "{value}"),
            ObjectValue::Unsigned16(value) => write!(f, "{value}"),
            ObjectValue::Unsigned32(value) => write!(f, "{value}"),
            ObjectValue::Unsigned64(value) => write!(f, "{value}"),
            ObjectValue::Real32(value) => write!(f, "{value}"),
            ObjectValue::Real64(value) => write!(f, "{value}"),
            ObjectValue::VisibleString(text) => quoted(f, text),
            ObjectValue::UnicodeString(units) => quoted(f, &String::from_utf16_lossy(units)),
            ObjectValue::OctetString(bytes) | ObjectValue::Domain(bytes) => {
                let pairs: Vec<String> = bytes.iter().map(|byte| format!("{byte:02X}")).collect();
                write!(f, "[{}]", pairs.join(" "))
            }
            ObjectValue::TimeOfDay(TimeOfDay { ms, days })
            | ObjectValue::TimeDifference(TimeDifference { ms, days }) => {
                write!(f, "{ms} ms {days} days")
            }
            ObjectValue::NetTime(NetTime { seconds, nanoseconds }) => {
                write!(f, "{seconds} s {nanoseconds} ns")
            }
            ObjectValue::RelativeTime(RelativeTime(micros)) => write!(f, "{micros} us"),
            ObjectValue::MacAddress(address) => write!(f, "{address}"),
            ObjectValue::IpAddress([a, b, c, d]) => write!(f, "{a}.{b}.{c}.{d}"),
        }
    }
}

/// A text in double quotes.
fn quoted(f: &mut fmt::Formatter<'_>, text: &str) -> fmt::Result {
    f.write_char('"')?;
    for c in text.chars() {
        match c {
            '"' | '\\' => write!(f, "\\{c}")?,
            '\n' => f.write_str("\\n")?,
            '\t' => f.write_str("\\t")?,
            c if c.is_control() || turns(c) => write!(f, "{}", c.escape_unicode())?,
            c => f.write_char(c)?,
        }
    }
    f.write_char('"')
}

/// Whether a character ends a line or turns the direction of writing, and is no control character.
fn turns(c: char) -> bool {
    matches!(c, '\u{61C}' | '\u{200E}' | '\u{200F}' | '\u{2028}'..='\u{202E}' | '\u{2066}'..='\u{2069}')
}
