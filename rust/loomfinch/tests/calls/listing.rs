//! What is in a dictionary: objects, channels, values without a call each, and whether two are equal.

use crate::rig::{array, channel, dictionary, maps, record, rig, text, variable};
use loomfinch::{
    AccessType, Capacity, Dictionary, Kind, NodeId, ObjectInfo, ObjectValue, PDOVersion, Refusal,
};

#[test]
fn objects_rise_by_index() -> Result<(), Refusal> {
    let access = Some(AccessType::ReadWriteStore);
    let speed = variable(7_u16.into()).with_name("Speed").with_access(access);
    let dictionary = dictionary([
        (0x6200, array([1_u32, 2, 3].map(ObjectValue::from))),
        (0x6000, speed),
        (0x1400, record([])),
    ])?;
    let columns = |object: ObjectInfo<'_>| {
        let ObjectInfo { index, kind, access, name, elements, .. } = object;
        (index, kind, access, name.to_owned(), elements)
    };
    let wanted = [
        (0x1400, Kind::Record, None, String::new(), 0),
        (0x6000, Kind::Variable, access, "Speed".to_owned(), 1),
        (0x6200, Kind::Array, None, String::new(), 3),
    ];
    assert_eq!(dictionary.objects().map(columns).collect::<Vec<_>>(), wanted);
    let found = [0x1400, 0x1401, 0x6000, 0xFFFF].map(|index| dictionary.contains(index));
    assert_eq!(found, [true, false, true, false]);
    Ok(())
}

#[test]
fn a_peek_is_a_read() -> Result<(), Refusal> {
    let mut dictionary = rig(16)?;
    dictionary.insert(0x2000, variable(text("Act I")).with_rooms([9]))?;
    dictionary.insert(0x2001, variable(ObjectValue::Real64(-2.5)))?;
    for index in [0, 0x1400, 0x1600, 0x1C81, 0x2000, 0x2001, 0x6000, 0x6200, 0xFFFF] {
        for sub_index in 0..5 {
            assert_eq!(dictionary.peek(index, sub_index), dictionary.read(index, sub_index));
        }
    }
    Ok(())
}

#[test]
fn the_channel_of_a_node() -> Result<(), Refusal> {
    let of = |node: u8| ObjectValue::Unsigned8(node);
    let dictionary = dictionary([
        (0x1400, record([ObjectValue::Unsigned16(5)])),
        (0x1401, variable(of(5))),
        (0x1402, record([of(5), of(0x21)])),
        (0x1403, record([of(5)])),
        (0x1404, record([of(0), ObjectValue::Unsigned16(1)])),
        (0x14FF, array([of(240), of(3)])),
    ])?;
    let channels = [5, 240, 0, 6].map(|node| dictionary.channel_of(NodeId(node)));
    assert_eq!(channels, [Some(2), Some(4), None, None]);
    let versions = [2, 3, 4, 255, 9].map(|channel| dictionary.expected_version(channel));
    assert_eq!(versions, [0x21, 0, 0, 3, 0].map(PDOVersion));
    Ok(())
}

#[test]
fn a_version_takes_what_a_channel_takes() -> Result<(), Refusal> {
    for expected in [0, 1, 0x0F, 0x10, 0x12, 0x1F, 0xF0, 0xFF].map(PDOVersion) {
        let node = NodeId(5);
        let of = [node.0, expected.0].map(ObjectValue::Unsigned8);
        let mut channel = dictionary([(0x1400, record(of))])?;
        for received in (0..=u8::MAX).map(PDOVersion) {
            let events = channel.consume_pdo_payload(node, &[], received, true)?;
            assert_eq!(expected.takes(received), events.is_empty(), "{expected} {received}");
        }
    }
    Ok(())
}

#[test]
fn memory_that_is_no_dictionary_has_nothing() -> Result<(), Refusal> {
    let mut parts = rig(16)?.into_parts();
    parts.objects[12] = u64::MAX;
    let none = Dictionary::from_parts(parts);
    assert_eq!((none.objects().count(), none.contains(0x6000)), (0, false));
    assert_eq!(none.peek(0x6000, 0), Err(Refusal::Malformed));
    assert_eq!((none.channel_of(NodeId(5)), none.expected_version(0)), (None, PDOVersion(0)));
    assert_eq!(none, none.clone());
    Ok(())
}

#[test]
fn equal_are_dictionaries_of_the_same_objects() -> Result<(), Refusal> {
    let mut large = Dictionary::new(Capacity::default());
    assert_eq!(large, Dictionary::new(Capacity { objects: 0, values: 0, bytes: 0 }));
    let entry = |value: &str| variable(text(value)).with_rooms([9]);
    large.insert(0x2000, entry("Akt I"))?;
    let mut small = Dictionary::new(Capacity { objects: 1, values: 1, bytes: 9 });
    small.insert(0x2000, entry("Overture"))?;
    assert_ne!(large, small);
    // What a longer text left in its room does not count.
    small.write(0x2000, 0, text("Akt I"))?;
    assert_eq!(large, small);
    assert_ne!(large, small.clone().with_store(vec![0; 2]));
    let other = dictionary([(0x2000, variable(text("Akt I")).with_rooms([8]))])?;
    assert_ne!(large, other);
    assert_ne!(channel([maps(16, 0, 0, 0x6000)])?, channel([maps(32, 0, 0, 0x6000)])?);
    Ok(())
}
