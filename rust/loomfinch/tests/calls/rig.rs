//! Objects in few words, and the rig of the mission's story.

use loomfinch::{
    Capacity, Dictionary, Edition, NodeId, Object, ObjectEntry, ObjectValue, PDOVersion,
    PdoMappingEntry, Refusal,
};

pub const NODE: NodeId = NodeId(5);
pub const VERSION: PDOVersion = PDOVersion(0x12);

pub fn variable(value: ObjectValue) -> ObjectEntry<'static> {
    ObjectEntry::new(Object::Variable(value))
}

pub fn array<const N: usize>(values: [ObjectValue; N]) -> ObjectEntry<'static> {
    ObjectEntry::new(Object::Array(values.into()))
}

pub fn record<const N: usize>(values: [ObjectValue; N]) -> ObjectEntry<'static> {
    ObjectEntry::new(Object::Record(values.into()))
}

pub fn text(value: &str) -> ObjectValue {
    ObjectValue::VisibleString(value.to_owned())
}

/// A mapping word.
pub fn maps(length_bits: u16, offset_bits: u16, sub_index: u8, index: u16) -> ObjectValue {
    let entry = PdoMappingEntry { index, sub_index, offset_bits, length_bits };
    ObjectValue::Unsigned64(entry.to_u64())
}

/// A dictionary of these objects.
pub fn dictionary<const N: usize>(
    objects: [(u16, ObjectEntry<'_>); N],
) -> Result<Dictionary, Refusal> {
    dictionary_of(Edition::One, objects)
}

/// A dictionary of an edition and these objects.
pub fn dictionary_of<const N: usize>(
    edition: Edition,
    objects: [(u16, ObjectEntry<'_>); N],
) -> Result<Dictionary, Refusal> {
    let capacity = Capacity { objects: 40, values: 600, bytes: 4_096 };
    let mut dictionary = Dictionary::with_edition(capacity, edition);
    for (index, entry) in objects {
        dictionary.insert(index, entry)?;
    }
    Ok(dictionary)
}

/// Channel 0 of node 5 with these elements, and two targets: 6000h of two bytes, 6200h of three times four.
pub fn channel<const N: usize>(elements: [ObjectValue; N]) -> Result<Dictionary, Refusal> {
    channel_of(Edition::One, array(elements))
}

/// The same in a dictionary of an edition, with a mapping.
pub fn channel_of(edition: Edition, mapping: ObjectEntry<'_>) -> Result<Dictionary, Refusal> {
    let objects = [
        (0x1400, record([ObjectValue::Unsigned8(5), ObjectValue::Unsigned8(0x10)])),
        (0x1600, mapping),
        (0x1C80, variable(ObjectValue::OctetString(vec![0; 32]))),
        (0x1C81, variable(ObjectValue::OctetString(vec![0; 32]))),
        (0x6000, variable(ObjectValue::Unsigned16(0))),
        (0x6200, array([0, 0, 0].map(ObjectValue::Unsigned32))),
    ];
    dictionary_of(edition, objects)
}

/// The rig: a move time at 6000h, in a field of so many bits, and a position at 6200h/3.
pub fn rig(time_bits: u16) -> Result<Dictionary, Refusal> {
    channel([maps(time_bits, 0, 0, 0x6000), maps(32, 16, 3, 0x6200)])
}
