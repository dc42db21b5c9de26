//! Writing and counting.

use crate::rig::{array, dictionary, maps, record, text, variable};
use loomfinch::{AccessType, Dictionary, ObjectValue, Refusal, Written};

fn writable() -> Result<Dictionary, Refusal> {
    let accessed = |access: AccessType, value| variable(value).with_access(access);
    dictionary([
        (0x1600, array([maps(16, 0, 0, 0x6000)])),
        (0x2000, accessed(AccessType::ReadOnly, ObjectValue::Unsigned8(1))),
        (0x2001, accessed(AccessType::Constant, ObjectValue::Unsigned8(1))),
        (0x2002, accessed(AccessType::Conditional, ObjectValue::Unsigned8(1))),
        (0x6000, variable(ObjectValue::Unsigned16(0))),
        (0x6001, record([ObjectValue::Unsigned32(u32::MAX), text("ab")])),
        (0x6002, array([ObjectValue::Unsigned32(1)])),
    ])
}

#[test]
fn a_value_is_written_in_its_place() -> Result<(), Refusal> {
    let mut dictionary = writable()?;
    assert_eq!(dictionary.write(0x6000, 0, ObjectValue::Unsigned16(2_500))?, Written::Done);
    assert_eq!(dictionary.write(0x6001, 2, text("c"))?, Written::Done);
    assert_eq!(dictionary.write(0x2002, 0, ObjectValue::Unsigned8(9))?, Written::Done);
    assert_eq!(dictionary.read_u16(0x6000, 0)?, 2_500);
    assert_eq!(dictionary.read_str(0x6001, 2)?, "c");
    assert_eq!(dictionary.read_u8(0x2002, 0)?, 9);
    Ok(())
}

#[test]
fn what_may_not_be_written_stays() -> Result<(), Refusal> {
    let mut dictionary = writable()?;
    let before = dictionary.parts().clone();
    let byte = ObjectValue::Unsigned8;
    for (index, sub_index, value, refusal) in [
        (0x7000, 0, byte(0), Refusal::ObjectNotFound),
        (0x2000, 0, byte(0), Refusal::ReadOnly),
        (0x2001, 0, byte(0), Refusal::ReadOnly),
        (0x6000, 1, byte(0), Refusal::SubObjectNotFound),
        (0x6001, 3, byte(0), Refusal::SubObjectNotFound),
        (0x6001, 0, byte(2), Refusal::CountNotWritable),
        (0x6000, 0, byte(0), Refusal::TypeMismatch),
        (0x6001, 2, text("abc"), Refusal::TooLong),
        (0x1600, 0, ObjectValue::Unsigned16(1), Refusal::TypeMismatch),
        (0x1600, 0, byte(2), Refusal::MissingEntries),
        (0x1601, 0, byte(1), Refusal::ObjectNotFound),
    ] {
        let refused = dictionary.write(index, sub_index, value.clone());
        assert_eq!(refused, Err(refusal), "{index:X}h/{sub_index} {value:?}");
        assert_eq!(dictionary.parts(), &before);
    }
    Ok(())
}

#[test]
fn a_mapping_count_is_accepted_and_not_kept() -> Result<(), Refusal> {
    let mut dictionary = writable()?;
    assert_eq!(dictionary.write(0x1600, 0, ObjectValue::Unsigned8(0))?, Written::Done);
    assert_eq!(dictionary.read_u8(0x1600, 0)?, 1);
    Ok(())
}

#[test]
fn a_counter_goes_round() -> Result<(), Refusal> {
    let mut dictionary = writable()?;
    dictionary.increment_counter(0x6001, 1)?;
    assert_eq!(dictionary.read_u32(0x6001, 1)?, 0);
    let before = dictionary.parts().clone();
    for (index, sub_index) in [(0x6002, 1), (0x6000, 0), (0x6001, 0), (0x6001, 2), (0x7000, 0)] {
        assert_eq!(dictionary.increment_counter(index, sub_index), Ok(()));
    }
    assert_eq!(dictionary.parts(), &before);
    Ok(())
}
