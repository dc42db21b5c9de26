//! The unchanged Rust's mapping word.

use powerlink_rs::od::{Category, Object, ObjectDictionary, ObjectEntry, ObjectValue};
use powerlink_rs::pdo::PdoMappingEntry;

const LIST: u16 = 0x1600;
const TIMING: u16 = 0x1F98;
const RECEIVE_LIMIT: u8 = 2;

/// The nine numbers of a word.
pub fn numbers(word: u64) -> [u64; 9] {
    let entry = PdoMappingEntry::from_u64(word);
    let (offset, length) = (entry.byte_offset(), entry.byte_length());
    [
        entry.index.into(),
        entry.sub_index.into(),
        entry.offset_bits.into(),
        entry.length_bits.into(),
        offset.is_some().into(),
        offset.unwrap_or(0) as u64,
        length.is_some().into(),
        length.unwrap_or(0) as u64,
        end(word).into(),
    ]
}

/// The field's end in bytes. The Rust has no function for it, but its size test
/// of a mapping gives it away: it is the least payload limit that the test admits.
fn end(word: u64) -> u16 {
    let mut od = ObjectDictionary::new(None);
    od.insert(LIST, entry(vec![ObjectValue::Unsigned64(word)]));
    od.insert(TIMING, entry(vec![ObjectValue::Unsigned16(0); 2]));
    let mut admits = |limit: u16| {
        let limit = ObjectValue::Unsigned16(limit);
        od.write(TIMING, RECEIVE_LIMIT, limit).expect("the limit is writable");
        od.write(LIST, 0, ObjectValue::Unsigned8(1)).is_ok()
    };
    let (mut low, mut high) = (0, u16::MAX);
    while low < high {
        let middle = low + (high - low) / 2;
        if admits(middle) {
            high = middle;
        } else {
            low = middle + 1;
        }
    }
    low
}

fn entry(values: Vec<ObjectValue>) -> ObjectEntry {
    ObjectEntry {
        object: Object::Array(values),
        name: "",
        category: Category::Optional,
        access: None,
        default_value: None,
        value_range: None,
        pdo_mapping: None,
    }
}
