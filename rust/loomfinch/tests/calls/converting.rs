//! Values from Rust's types and back, as text, and decoded to their last byte.

use crate::rig::{array, dictionary, variable, NODE, VERSION};
use loomfinch::{
    decode_exact, MacAddress, NetTime, ObjectValue, ReceivedPayload, Refusal, RelativeTime,
    TimeDifference, TimeOfDay, ValueType,
};

/// A value that came from a Rust type goes back to it, and to no other.
macro_rules! there_and_back {
    ($($value:expr => $of:ty, $type:ident, $shown:expr;)*) => {$({
        let (value, given): ($of, $of) = ($value, $value);
        let object = ObjectValue::from(given);
        assert_eq!(object.value_type(), ValueType::$type);
        assert_eq!(object.to_string(), $shown);
        assert_eq!(<$of>::try_from(object), Ok(value));
        assert_eq!(<$of>::try_from(ObjectValue::Domain(vec![1])), Err(Refusal::TypeMismatch));
    })*};
}

#[test]
fn every_type_goes_there_and_back() {
    there_and_back! {
        true => bool, Boolean, "1";
        -5 => i8, Integer8, "-5";
        -5 => i16, Integer16, "-5";
        -5 => i32, Integer32, "-5";
        -5 => i64, Integer64, "-5";
        5 => u8, Unsigned8, "5";
        2_500 => u16, Unsigned16, "2500";
        90_000 => u32, Unsigned32, "90000";
        5 => u64, Unsigned64, "5";
        1.5 => f32, Real32, "1.5";
        -2.5 => f64, Real64, "-2.5";
        "l'été \"1\"".to_owned() => String, VisibleString, "\"l'été \\\"1\\\"\"";
        vec![0xC4, 9] => Vec<u8>, OctetString, "[C4 09]";
        vec![0x41, 0xE9] => Vec<u16>, UnicodeString, "\"Aé\"";
        TimeOfDay { ms: 1, days: 2 } => TimeOfDay, TimeOfDay, "1 ms 2 days";
        TimeDifference { ms: 1, days: 2 } => TimeDifference, TimeDifference, "1 ms 2 days";
        NetTime { seconds: 12, nanoseconds: 500 } => NetTime, NetTime, "12 s 500 ns";
        RelativeTime(9) => RelativeTime, RelativeTime, "9 us";
        MacAddress([0, 0x60, 0x65, 1, 2, 3]) => MacAddress, MacAddress, "00:60:65:01:02:03";
        [192, 168, 100, 5] => [u8; 4], IpAddress, "192.168.100.5";
    }
    assert_eq!(ObjectValue::from("Act I"), ObjectValue::VisibleString("Act I".into()));
    assert_eq!(bool::try_from(ObjectValue::Boolean(7)), Ok(true));
}

#[test]
fn texts_are_shown_as_they_are_written() {
    for (text, shown) in [
        ("Durée d'accélération", "\"Durée d'accélération\""),
        ("e\u{301}te\u{301}", "\"e\u{301}te\u{301}\""),
        ("a\\b\n\t", "\"a\\\\b\\n\\t\""),
        ("\u{1B}[1m\u{202E}", "\"\\u{1b}[1m\\u{202e}\""),
    ] {
        assert_eq!(ObjectValue::from(text).to_string(), shown);
        let units = ObjectValue::UnicodeString(text.encode_utf16().collect());
        assert_eq!(units.to_string(), shown);
    }
}

#[test]
fn signed_numbers_are_read() -> Result<(), Refusal> {
    let rig = dictionary([
        (
            0x6000,
            array([ObjectValue::from(-1_i8), (-2_i16).into(), (-3_i32).into(), (-4_i64).into()]),
        ),
        (0x6001, variable(1_u8.into())),
    ])?;
    assert_eq!((rig.read_i8(0x6000, 1)?, rig.read_i16(0x6000, 2)?), (-1, -2));
    assert_eq!((rig.read_i32(0x6000, 3)?, rig.read_i64(0x6000, 4)?), (-3, -4));
    assert_eq!(rig.read_i8(0x6001, 0), Err(Refusal::TypeMismatch));
    assert_eq!(rig.read_i16(0x6000, 5), Err(Refusal::SubObjectNotFound));
    assert_eq!(rig.read_i32(0x6002, 0), Err(Refusal::ObjectNotFound));
    Ok(())
}

#[test]
fn bytes_behind_a_value_are_refused() {
    assert_eq!(decode_exact(ValueType::Unsigned16, &[1, 0]), Ok(ObjectValue::Unsigned16(1)));
    let refused = |data: &[u8]| decode_exact(ValueType::Unsigned16, data).unwrap_err();
    assert_eq!(refused(&[1, 0, 0]), Refusal::TypeMismatch.into());
    assert_eq!(refused(&[1]).refusal, Refusal::BufferTooShort);
    let text = decode_exact(ValueType::VisibleString, b"Act");
    assert_eq!(text, Ok(ObjectValue::from("Act")));
}

#[test]
fn payloads_of_a_cycle_have_bytes_of_their_own() -> Result<(), Refusal> {
    let mut rig = crate::rig::rig(16)?;
    let received = |payload| ReceivedPayload {
        payload,
        source_node_id: NODE,
        received_version: VERSION,
        is_ready: true,
    };
    let events = rig.consume_payloads(&[received(&[0xC4, 9, 1, 0, 0, 0]), received(&[1, 0, 0])])?;
    assert_eq!(rig.read_u16(0x6000, 0)?, 1);
    assert_eq!(rig.read_u32(0x6200, 3)?, 1);
    assert_eq!((events.len(), events.is_empty()), (1, false));
    assert_eq!(format!("{events:?}"), "[payload 1, element 2: PayloadShort: Frame]");
    for record in &events {
        assert_eq!((record.payload, record.element), (1, Some(2)));
    }
    Ok(())
}
