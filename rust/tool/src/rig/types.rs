//! The names that a rig file uses: value types, kinds of object and access.

use loomfinch::{AccessType, ValueType};

/// Document 01's short names.
const SHORT: [(&str, ValueType); 8] = [
    ("u8", ValueType::Unsigned8),
    ("u16", ValueType::Unsigned16),
    ("u32", ValueType::Unsigned32),
    ("u64", ValueType::Unsigned64),
    ("i8", ValueType::Integer8),
    ("i16", ValueType::Integer16),
    ("i32", ValueType::Integer32),
    ("i64", ValueType::Integer64),
];

/// The type of a name as DS 301 writes it (VISIBLE_STRING), as we do (VisibleString), or short (U16).
pub fn type_of_name(name: &str) -> Option<ValueType> {
    let name = plain(name);
    let long = (0..=20).filter_map(ValueType::from_number).find(|of| plain(of.name()) == name);
    long.or_else(|| SHORT.iter().find(|entry| entry.0 == name).map(|entry| entry.1))
}

pub fn is_unsigned(of: ValueType) -> bool {
    use ValueType::*;
    matches!(of, Unsigned8 | Unsigned16 | Unsigned32 | Unsigned64)
}

/// The least and the greatest number of an integer type; none of another type.
pub fn bounds(of: ValueType) -> Option<(i128, i128)> {
    use ValueType::*;
    let count = 1i128 << (8 * of.size()?.min(8));
    match of {
        Integer8 | Integer16 | Integer32 | Integer64 => Some((-count / 2, count / 2 - 1)),
        _ => Some((0, count - 1)).filter(|_| is_unsigned(of)),
    }
}

/// The access of a long name (ReadWriteStore) or of DS 301's short one (rws).
pub fn access_of_name(name: &str) -> Option<AccessType> {
    match plain(name).as_str() {
        "readonly" | "ro" => Some(AccessType::ReadOnly),
        "writeonly" | "wo" => Some(AccessType::WriteOnly),
        "writeonlystore" | "wos" => Some(AccessType::WriteOnlyStore),
        "readwrite" | "rw" => Some(AccessType::ReadWrite),
        "readwritestore" | "rws" => Some(AccessType::ReadWriteStore),
        "constant" | "const" => Some(AccessType::Constant),
        "conditional" | "cond" => Some(AccessType::Conditional),
        _ => None,
    }
}

/// Case and underscores carry no meaning in names.
fn plain(name: &str) -> String {
    name.chars().filter(|c| *c != '_').collect::<String>().to_ascii_lowercase()
}

#[derive(Clone, Copy, Debug, PartialEq, Eq)]
pub enum Kind {
    Variable,
    Array,
    Record,
}

impl Kind {
    pub fn of_name(name: &str) -> Option<Kind> {
        match plain(name).as_str() {
            "variable" | "var" => Some(Kind::Variable),
            "array" => Some(Kind::Array),
            "record" => Some(Kind::Record),
            _ => None,
        }
    }

    pub fn name(self) -> &'static str {
        match self {
            Kind::Variable => "Variable",
            Kind::Array => "Array",
            Kind::Record => "Record",
        }
    }
}

#[cfg(test)]
mod tests {
    use super::*;

    #[test]
    fn all_forms_of_a_name() {
        for name in ["VISIBLE_STRING", "VisibleString", "visiblestring"] {
            assert_eq!(type_of_name(name), Some(ValueType::VisibleString));
        }
        assert_eq!(type_of_name("U16"), Some(ValueType::Unsigned16));
        assert_eq!(type_of_name("Unsigned24"), None);
        assert_eq!(access_of_name("rws"), access_of_name("ReadWriteStore"));
        assert_eq!(Kind::of_name("VAR"), Some(Kind::Variable));
    }
}
