//! Reading, names and nodes.

use crate::rig::{array, dictionary, maps, record, text, variable};
use loomfinch::{NodeId, ObjectValue, Refusal};

#[test]
fn a_place_that_holds_nothing_is_none() -> Result<(), Refusal> {
    let dictionary = dictionary([
        (0x6000, variable(ObjectValue::Unsigned16(7))),
        (0x6200, record([ObjectValue::Unsigned8(1)])),
    ])?;
    assert_eq!(dictionary.get(0x6000, 0)?, Some(ObjectValue::Unsigned16(7)));
    for (index, sub_index, refusal) in [
        (0x5FFF, 0, Refusal::ObjectNotFound),
        (0x6000, 1, Refusal::SubObjectNotFound),
        (0x6200, 2, Refusal::SubObjectNotFound),
        (0x6200, 255, Refusal::SubObjectNotFound),
    ] {
        assert_eq!(dictionary.get(index, sub_index), Ok(None));
        assert_eq!(dictionary.read(index, sub_index), Err(refusal));
        assert_eq!(dictionary.read_u8(index, sub_index), Err(refusal));
        assert_eq!(dictionary.read_bytes(index, sub_index), Err(refusal));
    }
    Ok(())
}

#[test]
fn a_number_is_read_as_its_own_type() -> Result<(), Refusal> {
    let numbers = record([
        ObjectValue::Unsigned8(u8::MAX),
        ObjectValue::Unsigned16(u16::MAX),
        ObjectValue::Unsigned32(u32::MAX),
        ObjectValue::Unsigned64(u64::MAX),
    ]);
    let dictionary = dictionary([(0x6000, numbers)])?;
    assert_eq!(dictionary.read_u8(0x6000, 0)?, 4);
    assert_eq!(dictionary.read_u8(0x6000, 1)?, u8::MAX);
    assert_eq!(dictionary.read_u16(0x6000, 2)?, u16::MAX);
    assert_eq!(dictionary.read_u32(0x6000, 3)?, u32::MAX);
    assert_eq!(dictionary.read_u64(0x6000, 4)?, u64::MAX);
    assert_eq!(dictionary.read_u8(0x6000, 2), Err(Refusal::TypeMismatch));
    assert_eq!(dictionary.read_u16(0x6000, 3), Err(Refusal::TypeMismatch));
    assert_eq!(dictionary.read_u32(0x6000, 4), Err(Refusal::TypeMismatch));
    assert_eq!(dictionary.read_u64(0x6000, 0), Err(Refusal::TypeMismatch));
    Ok(())
}

#[test]
fn strings_are_lent() -> Result<(), Refusal> {
    let dictionary = dictionary([(
        0x2000,
        record([
            text("Dé"),
            ObjectValue::OctetString(vec![0, 1]),
            ObjectValue::UnicodeString(vec![0x263A]),
            ObjectValue::Domain(vec![]),
            ObjectValue::Unsigned8(1),
        ]),
    )])?;
    assert_eq!(dictionary.read_str(0x2000, 1)?, "Dé");
    assert_eq!(dictionary.read_bytes(0x2000, 1)?, "Dé".as_bytes());
    assert_eq!(dictionary.read_bytes(0x2000, 2)?, [0, 1]);
    assert_eq!(dictionary.read_bytes(0x2000, 3)?, [0x3A, 0x26]);
    assert_eq!(dictionary.read_bytes(0x2000, 4)?, []);
    assert_eq!(dictionary.read_str(0x2000, 2), Err(Refusal::TypeMismatch));
    assert_eq!(dictionary.read_bytes(0x2000, 5), Err(Refusal::TypeMismatch));
    let lent = dictionary.read_str(0x2000, 1)?.as_ptr();
    assert!(dictionary.parts().bytes.as_ptr_range().contains(&lent));
    Ok(())
}

#[test]
fn a_name_leads_to_its_lowest_index() -> Result<(), Refusal> {
    let named = |name: &'static str| variable(ObjectValue::Boolean(0)).with_name(name);
    let dictionary =
        dictionary([(0x6002, named("Time")), (0x6001, named("Time")), (0x6000, named(""))])?;
    assert_eq!(dictionary.find_by_name("Time")?, 0x6001);
    assert_eq!(dictionary.find_by_name("")?, 0x6000);
    assert_eq!(dictionary.find_by_name("time"), Err(Refusal::ObjectNotFound));
    assert_eq!(dictionary.find_by_name(&"a".repeat(32)), Err(Refusal::ObjectNotFound));
    assert_eq!(dictionary.find_by_name(&"a".repeat(33)), Err(Refusal::BadValue));
    Ok(())
}

#[test]
fn configured_nodes_are_listed() -> Result<(), Refusal> {
    let assignments = [1, 0x101, 3, 0].map(ObjectValue::Unsigned32);
    let some = dictionary([(0x1F81, array(assignments.clone()))])?;
    assert_eq!(some.get_configured_cns()?, [NodeId(1), NodeId(3)]);
    let all = dictionary([(0x1F81, array([(); 254].map(|()| ObjectValue::Unsigned32(1))))])?;
    assert_eq!(all.get_configured_cns()?.last(), Some(&NodeId(254)));
    assert_eq!(dictionary([(0x1F81, record(assignments))])?.get_configured_cns()?, []);
    Ok(())
}

#[test]
fn a_mapping_count_is_judged() -> Result<(), Refusal> {
    let dictionary = dictionary([
        (
            0x1600,
            array([maps(16, 0, 0, 0x6000), maps(8, 11_913, 0, 0x6000), ObjectValue::Boolean(0)]),
        ),
        (0x1A00, array([maps(16, 0, 0, 0x6000), maps(16, 16, 0, 0x6000)])),
        (0x1F98, record([ObjectValue::Unsigned16(3)])),
    ])?;
    assert_eq!(dictionary.validate_pdo_mapping(0x1600, 1), Ok(()));
    assert_eq!(dictionary.validate_pdo_mapping(0x1600, 2), Err(Refusal::PdoMapOverrun));
    assert_eq!(dictionary.validate_pdo_mapping(0x1600, 3), Err(Refusal::MissingEntries));
    assert_eq!(dictionary.validate_pdo_mapping(0x1A00, 1), Ok(()));
    assert_eq!(dictionary.validate_pdo_mapping(0x1A00, 2), Err(Refusal::PdoMapOverrun));
    assert_eq!(dictionary.validate_pdo_mapping(0x1601, 1), Err(Refusal::ObjectNotFound));
    assert_eq!(dictionary.validate_pdo_mapping(0x1601, 0), Ok(()));
    assert_eq!(dictionary.validate_pdo_mapping(0x6000, 1), Ok(()));
    Ok(())
}
