//! Ranges: what insertion takes, what a write is held against, and what ignores them.

use crate::rig::{array, channel, dictionary, maps, record, text, variable, NODE, VERSION};
use loomfinch::{
    AccessType, Dictionary, ObjectEntry, ObjectValue, Refusal, ValueRange, ValueType, Written,
};

const TIMES: u16 = 0x6300;

fn ranged(
    entry: ObjectEntry<'static>,
    min: impl Into<ObjectValue>,
    max: impl Into<ObjectValue>,
) -> ObjectEntry<'static> {
    entry.with_value_range(ValueRange::new(min, max))
}

/// A dictionary of one object at 6300h.
fn with(entry: ObjectEntry<'_>) -> Result<Dictionary, Refusal> {
    dictionary([(TIMES, entry)])
}

#[test]
fn ends_are_ordered_by_what_they_mean() {
    let byte = || variable(0_i8.into());
    assert!(with(ranged(byte(), i8::MIN, i8::MAX)).is_ok());
    assert_eq!(with(ranged(byte(), i8::MAX, i8::MIN)), Err(Refusal::BadValue));
    assert!(with(ranged(byte(), -1_i8, -1_i8)).is_ok());
    assert_eq!(with(ranged(byte(), 0x80_u8, 0x7F_u8)), Err(Refusal::BadValue));
    assert!(with(ranged(byte(), i64::MIN, i64::MAX)).is_ok());
    assert_eq!(with(ranged(byte(), 0_i64, -1_i64)), Err(Refusal::BadValue));
}

#[test]
fn ends_are_integers_of_one_type() {
    let (real, text) = (ObjectValue::Real32(0.0), text("0"));
    let boolean = ObjectValue::Boolean;
    let bad = [
        (5_u8.into(), 6_u16.into()),
        (0_u8.into(), 0_i8.into()),
        (real.clone(), real),
        (text.clone(), text),
        (boolean(0), boolean(0)),
        (boolean(0), boolean(1)),
        (boolean(0), 0_u8.into()),
        (ObjectValue::IpAddress([0; 4]), ObjectValue::IpAddress([1; 4])),
    ];
    for (min, max) in bad {
        let range = ValueRange { min, max };
        let entry = variable(0_u8.into()).with_value_range(range.clone());
        assert_eq!(with(entry), Err(Refusal::BadValue), "{range:?}");
    }
}

#[test]
fn insertion_holds_no_value_against_the_range() -> Result<(), Refusal> {
    let entry =
        ranged(variable(9_u8.into()).with_default_value(ObjectValue::from(8_u8)), 1_u8, 2_u8);
    let mut dictionary = with(entry)?;
    assert_eq!(dictionary.read_u8(TIMES, 0)?, 9);
    dictionary.restore_power_on_values(0, 0xFFFF)?;
    assert_eq!(dictionary.read_u8(TIMES, 0)?, 8);
    assert_eq!(dictionary.write(TIMES, 0, 8_u8.into()), Err(Refusal::OutOfRange));
    Ok(())
}

#[test]
fn a_taken_index_comes_behind_a_bad_range() -> Result<(), Refusal> {
    let mut dictionary = with(variable(0_u8.into()))?;
    let reversed = ranged(variable(0_u8.into()), 2_u8, 1_u8);
    assert_eq!(dictionary.insert(TIMES, reversed), Err(Refusal::BadValue));
    Ok(())
}

#[test]
fn a_signed_number_is_held_against_the_range_by_its_sign() -> Result<(), Refusal> {
    let mut dictionary = with(ranged(variable(0_i8.into()), -1_i8, 1_i8))?;
    let before = dictionary.parts().clone();
    for outside in [i8::MIN, -2, 2, i8::MAX] {
        assert_eq!(
            dictionary.write(TIMES, 0, outside.into()),
            Err(Refusal::OutOfRange),
            "{outside}"
        );
        assert_eq!(dictionary.parts(), &before);
    }
    for within in [-1_i8, 1, 0] {
        assert_eq!(dictionary.write(TIMES, 0, within.into()), Ok(Written::Done), "{within}");
    }
    let encoded = |dictionary: &mut Dictionary, byte: u8| {
        dictionary.write_encoded(TIMES, 0, ValueType::Integer8, &[byte])
    };
    assert_eq!(encoded(&mut dictionary, 0xFF), Ok(Written::Done));
    assert_eq!(encoded(&mut dictionary, 0x80), Err(Refusal::OutOfRange.into()));
    Ok(())
}

#[test]
fn the_widest_range_takes_every_number() -> Result<(), Refusal> {
    let mut dictionary = with(ranged(variable(7_u64.into()), 0_u64, u64::MAX))?;
    assert_eq!(dictionary.write(TIMES, 0, 0_u64.into())?, Written::Done);
    assert_eq!(dictionary.write(TIMES, 0, u64::MAX.into())?, Written::Done);
    let mut dictionary = with(ranged(variable(7_u64.into()), 1_u64, u64::MAX - 1))?;
    assert_eq!(dictionary.write(TIMES, 0, 0_u64.into()), Err(Refusal::OutOfRange));
    assert_eq!(dictionary.write(TIMES, 0, u64::MAX.into()), Err(Refusal::OutOfRange));
    Ok(())
}

#[test]
fn another_type_than_the_range_s_is_not_tested() -> Result<(), Refusal> {
    let mut dictionary = with(ranged(variable(0_u16.into()), 1_u8, 2_u8))?;
    assert_eq!(dictionary.write(TIMES, 0, 60_000_u16.into())?, Written::Done);
    assert_eq!(dictionary.write(TIMES, 0, 0_u8.into()), Err(Refusal::TypeMismatch));
    Ok(())
}

#[test]
fn a_restore_that_changes_the_type_changes_what_is_tested() -> Result<(), Refusal> {
    let level = variable(9_u8.into()).with_default_value(ObjectValue::from(9_u16));
    let mut dictionary = with(ranged(level, 1_u16, 2_u16))?;
    assert_eq!(dictionary.write(TIMES, 0, 9_u8.into())?, Written::Done);
    dictionary.restore_power_on_values(TIMES, TIMES)?;
    assert_eq!(dictionary.read_u16(TIMES, 0)?, 9);
    assert_eq!(dictionary.write(TIMES, 0, 9_u16.into()), Err(Refusal::OutOfRange));
    assert_eq!(dictionary.write(TIMES, 0, 2_u16.into())?, Written::Done);
    Ok(())
}

#[test]
fn each_element_is_tested_and_the_count_never() -> Result<(), Refusal> {
    let elements = [0_u32.into(), text(""), 0_u32.into()];
    let mut dictionary = with(ranged(record(elements), 0_u32, 60_000_u32))?;
    for sub_index in [1, 3] {
        let above = dictionary.write(TIMES, sub_index, 60_001_u32.into());
        assert_eq!(above, Err(Refusal::OutOfRange));
        assert_eq!(dictionary.write(TIMES, sub_index, 60_000_u32.into())?, Written::Done);
    }
    assert_eq!(dictionary.write(TIMES, 2, text(""))?, Written::Done);
    let mapping = ranged(array([maps(16, 0, 0, TIMES)]), 5_u8, 9_u8);
    dictionary.insert(0x1600, mapping)?;
    assert_eq!(dictionary.write(0x1600, 0, 1_u8.into())?, Written::Done);
    Ok(())
}

#[test]
fn a_variable_where_a_mapping_would_be_is_tested_as_one() -> Result<(), Refusal> {
    let mut dictionary = dictionary([(0x1600, ranged(variable(5_u8.into()), 1_u8, 9_u8))])?;
    assert_eq!(dictionary.write(0x1600, 0, 0_u8.into()), Err(Refusal::OutOfRange));
    assert_eq!(dictionary.write(0x1600, 0, 1_u8.into()), Err(Refusal::ObjectNotFound));
    Ok(())
}

#[test]
fn access_and_type_come_before_the_range() -> Result<(), Refusal> {
    let constant = variable(0_u8.into()).with_access(AccessType::Constant);
    let mut dictionary = dictionary([
        (0x2000, ranged(constant, 1_u8, 2_u8)),
        (0x2001, ranged(variable(0_u8.into()), 1_u8, 2_u8)),
    ])?;
    assert_eq!(dictionary.write(0x2000, 0, 9_u8.into()), Err(Refusal::ReadOnly));
    assert_eq!(dictionary.write(0x2001, 0, 9_u16.into()), Err(Refusal::TypeMismatch));
    assert_eq!(dictionary.write(0x2001, 0, 9_u8.into()), Err(Refusal::OutOfRange));
    Ok(())
}

#[test]
fn payloads_and_counters_pass_a_range() -> Result<(), Refusal> {
    let mut dictionary = channel([maps(32, 0, 3, TIMES)])?;
    let times = [0, 0, 0].map(ObjectValue::Unsigned32);
    dictionary.insert(TIMES, ranged(record(times), 0_u32, 60_000_u32))?;
    let payload = 90_000_u32.to_le_bytes();
    assert_eq!(dictionary.consume_pdo_payload(NODE, &payload, VERSION, true)?.len(), 0);
    assert_eq!(dictionary.read_u32(TIMES, 3)?, 90_000);
    assert_eq!(dictionary.write(TIMES, 3, 90_000_u32.into()), Err(Refusal::OutOfRange));
    dictionary.increment_counter(TIMES, 3)?;
    assert_eq!(dictionary.read_u32(TIMES, 3)?, 90_001);
    assert!(dictionary.check(0)?.is_pass());
    Ok(())
}

#[test]
fn a_range_is_listed_and_told_apart() -> Result<(), Refusal> {
    let entry = || variable(0_i16.into());
    let listed = |dictionary: &Dictionary| {
        let object = dictionary.objects().next();
        object.and_then(|object| object.value_range())
    };
    let range = ValueRange::new(-5_i16, 5_i16);
    let dictionary = with(entry().with_value_range(range.clone()))?;
    assert_eq!(listed(&dictionary), Some(range));
    let without = with(entry().with_value_range(None))?;
    assert_eq!(listed(&without), None);
    assert_ne!(dictionary, without);
    assert_ne!(dictionary, with(ranged(entry(), -5_i16, 6_i16))?);
    assert_eq!(dictionary, with(ranged(entry(), -5_i16, 5_i16))?);
    assert_eq!(dictionary.used(), without.used());
    Ok(())
}

#[test]
fn memory_with_a_bad_range_is_malformed() -> Result<(), Refusal> {
    let good = with(ranged(variable(0_i8.into()), -1_i8, 1_i8))?.into_parts();
    let reads = |range: [u64; 3]| {
        let mut parts = good.clone();
        parts.objects[21..24].copy_from_slice(&range);
        Dictionary::from_parts(parts).read(TIMES, 0).map(|_| ())
    };
    assert_eq!(good.objects[21..24], [1, 0xFF, 1]);
    for range in [[1, 0xFF, 1], [0, 0, 0], [8, 0, u64::MAX], [5, 3, 3]] {
        assert_eq!(reads(range), Ok(()), "{range:?}");
    }
    for range in [[0, 0, 1], [9, 0, 0], [1, 1, 0xFF], [1, u64::MAX, 1], [5, 0, 0x100], [5, 2, 1]] {
        assert_eq!(reads(range), Err(Refusal::Malformed), "{range:?}");
    }
    Ok(())
}
