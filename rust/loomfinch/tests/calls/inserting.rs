//! Inserting.

use crate::rig::{array, dictionary, record, text, variable};
use loomfinch::{Capacity, Dictionary, Object, ObjectEntry, ObjectValue, Parts, Refusal, Written};

fn empty() -> Dictionary {
    Dictionary::new(Capacity::MOST)
}

#[test]
fn objects_are_where_they_were_put() -> Result<(), Refusal> {
    let dictionary = dictionary([
        (0x6200, array([1, 2, 3].map(ObjectValue::Unsigned32))),
        (0x0000, variable(text("first"))),
        (0xFFFF, record([ObjectValue::Boolean(1), text("last")])),
    ])?;
    assert_eq!(dictionary.read_str(0x0000, 0)?, "first");
    assert_eq!(dictionary.read_u32(0x6200, 3)?, 3);
    assert_eq!(dictionary.read(0xFFFF, 2)?, text("last"));
    assert_eq!(dictionary.used(), Capacity { objects: 3, values: 6, bytes: 9 });
    Ok(())
}

#[test]
fn an_object_that_breaks_a_rule_is_a_bad_value() {
    let long = "é".repeat(17);
    let entry = || variable(ObjectValue::Unsigned8(0));
    let list = |count| ObjectEntry::new(Object::Array(vec![ObjectValue::Boolean(0); count]));
    let bad = [
        entry().with_name(&long),
        list(255),
        entry().with_rooms([1_491]),
        variable(text("abc")).with_rooms([2]),
        entry().with_rooms([0, 0]),
        entry().with_default_value(text(&"a".repeat(1_491))),
    ];
    for entry in bad {
        let mut dictionary = empty();
        let before = dictionary.parts().clone();
        assert_eq!(dictionary.insert(0x6000, entry.clone()), Err(Refusal::BadValue), "{entry:?}");
        assert_eq!(dictionary.parts(), &before);
    }
    assert_eq!(empty().insert(0x6000, list(254).with_name(&long[..32])), Ok(()));
    assert_eq!(empty().insert(0x6000, list(0).with_rooms([1_490])), Err(Refusal::BadValue));
}

#[test]
fn a_taken_index_stays_as_it_was() -> Result<(), Refusal> {
    let mut dictionary = dictionary([(0x6000, variable(ObjectValue::Unsigned8(1)))])?;
    let again = dictionary.insert(0x6000, variable(ObjectValue::Unsigned8(2)));
    assert_eq!(again, Err(Refusal::Occupied));
    assert_eq!(dictionary.read_u8(0x6000, 0)?, 1);
    Ok(())
}

#[test]
fn each_bound_is_a_full_dictionary() {
    let mut dictionary = Dictionary::new(Capacity { objects: 2, values: 3, bytes: 4 });
    let full = |dictionary: &mut Dictionary, entry| dictionary.insert(0x7000, entry);
    let bits = |count| ObjectEntry::new(Object::Array(vec![ObjectValue::Boolean(0); count]));
    assert_eq!(full(&mut dictionary, bits(4)), Err(Refusal::Full));
    assert_eq!(full(&mut dictionary, variable(text("abcde"))), Err(Refusal::Full));
    assert_eq!(dictionary.insert(0x6000, bits(0)), Ok(()));
    assert_eq!(dictionary.insert(0x6001, variable(text("abcd"))), Ok(()));
    assert_eq!(full(&mut dictionary, bits(0)), Err(Refusal::Full));
}

#[test]
fn a_dictionary_holds_no_more_than_the_most() -> Result<(), Refusal> {
    let mut dictionary =
        Dictionary::new(Capacity { objects: usize::MAX, values: usize::MAX, bytes: usize::MAX });
    assert_eq!(dictionary.parts().bytes.len(), Capacity::MOST.bytes);
    assert_eq!(dictionary.parts().words.len(), Capacity::MOST.values);
    let roomy = || variable(text("")).with_rooms([1_490]);
    for index in 0..21 {
        dictionary.insert(index, roomy())?;
    }
    assert_eq!(dictionary.insert(21, roomy()), Err(Refusal::Full));
    assert_eq!(
        Dictionary::new(Capacity { objects: 0, values: 0, bytes: 0 }).check_all(),
        Ok(vec![])
    );
    Ok(())
}

#[test]
fn a_room_outlasts_its_value() -> Result<(), Refusal> {
    let mut dictionary = dictionary([(0x2000, variable(text("")).with_rooms([4]))])?;
    assert_eq!(dictionary.write(0x2000, 0, text("four"))?, Written::Done);
    assert_eq!(dictionary.write(0x2000, 0, text("fifth")), Err(Refusal::TooLong));
    assert_eq!(dictionary.read_str(0x2000, 0)?, "four");
    Ok(())
}

#[test]
fn memory_that_is_no_dictionary_is_malformed() {
    let nothing = Parts { objects: vec![], slots: vec![], words: vec![], bytes: vec![] };
    let mut dictionary = Dictionary::from_parts(nothing);
    assert_eq!(dictionary.used(), Capacity { objects: 0, values: 0, bytes: 0 });
    let entry = variable(ObjectValue::Boolean(0));
    assert_eq!(dictionary.insert(0x6000, entry), Err(Refusal::Malformed));
    assert_eq!(dictionary.get(0x6000, 0), Err(Refusal::Malformed));
    assert_eq!(dictionary.check(0), Err(Refusal::Malformed));
    assert_eq!(dictionary.check_all(), Err(Refusal::Malformed));
}
