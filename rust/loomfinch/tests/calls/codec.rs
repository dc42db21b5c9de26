//! Decoding and encoding.

use loomfinch::{
    decode, encode, MacAddress, NetTime, ObjectValue, Refusal, RelativeTime, TimeDifference,
    TimeOfDay, ValueType,
};

/// A value of each type, with its encoding.
fn samples() -> Vec<(ObjectValue, Vec<u8>)> {
    vec![
        (ObjectValue::Boolean(2), vec![2]),
        (ObjectValue::Integer8(-1), vec![0xFF]),
        (ObjectValue::Integer16(-32_768), vec![0, 0x80]),
        (ObjectValue::Integer32(-2), vec![0xFE, 0xFF, 0xFF, 0xFF]),
        (ObjectValue::Integer64(i64::MIN), vec![0, 0, 0, 0, 0, 0, 0, 0x80]),
        (ObjectValue::Unsigned8(200), vec![200]),
        (ObjectValue::Unsigned16(24_464), vec![0x90, 0x5F]),
        (ObjectValue::Unsigned32(90_000), vec![0x90, 0x5F, 1, 0]),
        (ObjectValue::Unsigned64(u64::MAX - 1), vec![0xFE, 255, 255, 255, 255, 255, 255, 255]),
        (ObjectValue::Real32(1.5), vec![0, 0, 0xC0, 0x3F]),
        (ObjectValue::Real64(-2.0), vec![0, 0, 0, 0, 0, 0, 0, 0xC0]),
        (ObjectValue::VisibleString("Dé".into()), vec![0x44, 0xC3, 0xA9]),
        (ObjectValue::OctetString(vec![0, 0x80]), vec![0, 0x80]),
        (ObjectValue::UnicodeString(vec![0x263A, 0xD800]), vec![0x3A, 0x26, 0, 0xD8]),
        (ObjectValue::Domain(vec![1, 2, 3]), vec![1, 2, 3]),
        (
            ObjectValue::TimeOfDay(TimeOfDay { ms: 0xF000_0001, days: 0x0203 }),
            vec![1, 0, 0, 0xF0, 3, 2],
        ),
        (
            ObjectValue::TimeDifference(TimeDifference { ms: 4, days: 0xFFFF }),
            vec![4, 0, 0, 0, 255, 255],
        ),
        (
            ObjectValue::NetTime(NetTime { seconds: 1, nanoseconds: 2 }),
            vec![1, 0, 0, 0, 2, 0, 0, 0],
        ),
        (ObjectValue::RelativeTime(RelativeTime(1 << 40)), vec![0, 0, 0, 0, 0, 1, 0, 0]),
        (ObjectValue::MacAddress(MacAddress([1, 2, 3, 4, 5, 6])), vec![1, 2, 3, 4, 5, 6]),
        (ObjectValue::IpAddress([192, 168, 100, 240]), vec![192, 168, 100, 240]),
    ]
}

#[test]
fn each_type_is_encoded_and_decoded() {
    let samples = samples();
    assert_eq!(samples.len(), 21);
    for (number, (value, encoding)) in samples.iter().enumerate() {
        let value_type = value.value_type();
        assert_eq!(usize::from(value_type.number()), number);
        assert_eq!(ValueType::from_number(number as u8), Some(value_type));
        assert_eq!(&value.serialize(), encoding, "{value_type}");
        assert_eq!(decode(value_type, encoding).as_ref(), Ok(value), "{value_type}");
        assert_eq!(ObjectValue::deserialize(encoding, value).as_ref(), Ok(value));
        assert!(value_type.size().map_or(true, |size| size == encoding.len()));
    }
    assert_eq!(ValueType::from_number(21), None);
}

#[test]
fn a_fixed_type_ignores_what_is_behind_it() {
    for (value, mut encoding) in samples() {
        if value.value_type().size().is_some() {
            encoding.push(0xAA);
            assert_eq!(decode(value.value_type(), &encoding), Ok(value));
        }
    }
}

#[test]
fn an_output_that_is_too_short_is_refused() {
    for (value, encoding) in samples() {
        let mut out = vec![0xAA; encoding.len() - 1];
        assert_eq!(encode(&value, &mut out), Err(Refusal::BufferTooShort));
        assert!(out.iter().all(|&byte| byte == 0xAA));
    }
}

#[test]
fn data_of_a_size_comes_back() {
    let mut word = 1_u64;
    for value_type in (0..=20).filter_map(ValueType::from_number) {
        for _ in 0..20 {
            word = word
                .wrapping_mul(6_364_136_223_846_793_005)
                .wrapping_add(1_442_695_040_888_963_407);
            let data = (word ^ word >> 29).to_le_bytes();
            let data = &data[..value_type.size().unwrap_or(8)];
            // Eight bytes at random are hardly text.
            if value_type != ValueType::VisibleString {
                let value = decode(value_type, data).expect("a value");
                assert_eq!((value.value_type(), &*value.serialize()), (value_type, data));
            }
        }
    }
}

#[test]
fn empty_strings_are_values() {
    assert_eq!(
        decode(ValueType::VisibleString, &[]),
        Ok(ObjectValue::VisibleString(String::new()))
    );
    assert_eq!(encode(&ObjectValue::Domain(Vec::new()), &mut []), Ok(0));
}

#[test]
fn what_is_behind_an_encoding_stays() {
    for (value, encoding) in samples() {
        let mut out = vec![0xAA; encoding.len() + 2];
        assert_eq!(encode(&value, &mut out), Ok(encoding.len()));
        assert_eq!(out, [&encoding[..], &[0xAA, 0xAA]].concat());
    }
}

#[test]
fn a_real_keeps_its_bits() {
    let signalling = 0x7F80_0001_u32;
    let value = decode(ValueType::Real32, &signalling.to_le_bytes());
    assert_eq!(value.map(|value| value.serialize()), Ok(signalling.to_le_bytes().to_vec()));
}

#[test]
fn an_address_is_displayed_as_it_is_written() {
    let address = MacAddress([0x00, 0x60, 0x65, 0x0A, 0x1B, 0x2C]);
    assert_eq!(address.to_string(), "00:60:65:0a:1b:2c");
}
