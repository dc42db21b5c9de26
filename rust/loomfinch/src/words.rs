//! Counts and types as a person reads them.

use crate::value::ValueType;

/// `1 byte`, `2 bytes`.
pub fn bytes(count: usize) -> String {
    counted(count, "byte")
}

pub fn counted(count: usize, what: &str) -> String {
    let plural = if count == 1 { "" } else { "s" };
    format!("{count} {what}{plural}")
}

pub fn with_article(value_type: ValueType) -> String {
    let name = value_type.name();
    let vowel = name.starts_with(['I', 'O', 'U']) && value_type != ValueType::UnicodeString;
    format!("{} {name}", if vowel { "an" } else { "a" })
}
