//! Refusals: their numbers and names, and the place of their reason where they have one.

use crate::rig::{channel, dictionary, maps, text, variable, NODE, VERSION};
use loomfinch::{
    decode, Cause, Dictionary, Event, NoRefusal, ObjectValue, Place, Refusal, Refused, ValueType,
    Written, MOST_PAYLOAD_BYTES,
};
use std::error::Error;

/// Texts that are no UTF-8, and the first byte at which none goes on.
const BROKEN: [(&[u8], usize); 19] = [
    (&[0x80], 0),
    (&[0xC0, 0x80], 0),
    (&[0xC1, 0xBF], 0),
    (&[0xF5, 0x80], 0),
    (&[0xFF], 0),
    (&[0xE0, 0x80, 0x80], 1),
    (&[0xED, 0xA0, 0x80], 1),
    (&[0xF0, 0x8F, 0xBF, 0xBF], 1),
    (&[0xF4, 0x90, 0x80, 0x80], 1),
    (&[0xE2, 0x82, 0x41], 2),
    (&[0xF0, 0x9F, 0x8E, 0xC0], 3),
    (&[0xC3], 1),
    (&[0xE2, 0x82], 2),
    (&[0xF0, 0x9F, 0x8E], 3),
    (b"Acte II \xFCber", 8),
    (b"Acte II \xE9t\xE9", 9),
    (b"Acte II \xE9", 9),
    (&[0xA9, 0x00], 0),
    (b"\xC3\xA9\xC3", 3),
];

#[test]
fn a_refusal_has_a_number_and_a_name() {
    let refusal: Box<dyn Error> = Box::new(Refusal::TooLong);
    assert_eq!(refusal.to_string(), "TooLong (13): a string is longer than its room");
    for number in 0..=u8::MAX {
        let refusal = Refusal::try_from(number);
        assert_eq!(refusal.ok(), Refusal::from_number(number));
        match refusal {
            Ok(refusal) => {
                assert_eq!((refusal.number(), refusal.name()), (number, &*format!("{refusal:?}")));
                assert_eq!(u8::from(refusal), number);
                let start = format!("{} ({number}): ", refusal.name());
                assert!(refusal.to_string().starts_with(&start), "{refusal}");
            }
            Err(none) => assert_eq!(none, NoRefusal(number)),
        }
        assert_eq!(refusal.is_ok(), matches!(number, 1..=18 | 21), "{number}");
    }
}

#[test]
fn a_refusal_goes_both_ways() -> Result<(), Refused> {
    fn alone() -> Result<ObjectValue, Refusal> {
        Ok(decode(ValueType::VisibleString, &[0xFF])?)
    }
    assert_eq!(alone(), Err(Refusal::TypeMismatch));
    let broken = decode(ValueType::VisibleString, &[0xFF]).unwrap_err();
    assert_eq!(Refused::from(Refusal::from(broken)), Refused::new(Refusal::TypeMismatch, None));
    // The refusal of a call that has no place is taken by `?` too.
    assert!(!dictionary([])?.contains(0x6000));
    let error: Box<dyn Error> = Box::new(Refused::from(Refusal::Full));
    assert_eq!(error.to_string(), Refusal::Full.to_string());
    Ok(())
}

#[test]
fn a_place_is_said_in_words() {
    for (refusal, place, shown) in [
        (
            Refusal::TypeMismatch,
            Place::Text { at: 8 },
            "TypeMismatch (5): no UTF-8 goes on at byte 8 of the text",
        ),
        (
            Refusal::BufferTooShort,
            Place::Value { needed: 8, had: 1 },
            "BufferTooShort (12): the value needs 8 bytes and has 1",
        ),
        (
            Refusal::BadValue,
            Place::Value { needed: 1, had: 0 },
            "BadValue (2): the value needs 1 byte and has 0",
        ),
    ] {
        assert_eq!(Refused::new(refusal, Some(place)).to_string(), shown);
    }
    for (cause, shown) in [
        (Cause::Frame, "Frame"),
        (Cause::Value { needed: 2, had: 1 }, "Value, which needs 2 bytes and has 1"),
        (Cause::Text { at: 8 }, "Text, in which no UTF-8 goes on at byte 8"),
        (Cause::Odd, "Odd"),
    ] {
        let event = Event::PayloadShort(cause);
        assert_eq!(event.to_string(), format!("PayloadShort: {shown}"));
    }
}

#[test]
fn a_broken_text_is_refused_at_its_byte() {
    for (bad, at) in BROKEN {
        let refused = Refused::new(Refusal::TypeMismatch, Some(Place::Text { at }));
        assert_eq!(decode(ValueType::VisibleString, bad), Err(refused), "{bad:02X?}");
        assert_eq!(decode(ValueType::OctetString, bad), Ok(ObjectValue::OctetString(bad.to_vec())));
    }
    let mut long = "é".repeat(150).into_bytes();
    long[299] = 0xFF;
    let refused = decode(ValueType::VisibleString, &long).unwrap_err();
    assert_eq!(refused.place, Some(Place::Text { at: 299 }));
}

#[test]
fn a_short_value_is_refused_with_its_bytes() {
    for value_type in (0..=20).filter_map(ValueType::from_number) {
        for had in 0..value_type.size().unwrap_or(0) {
            let place = Place::Value { needed: value_type.size().unwrap(), had };
            let refused = Refused::new(Refusal::BufferTooShort, Some(place));
            assert_eq!(decode(value_type, &[0; 8][..had]), Err(refused), "{value_type}");
        }
    }
    let odd = decode(ValueType::UnicodeString, &[0x41]);
    assert_eq!(odd, Err(Refusal::TypeMismatch.into()));
}

/// Where std says that a text breaks, made into the first byte at which no UTF-8 goes on: std names the character's start
/// and the length of what began well, which is 1 also for a byte that begins nothing.
fn broken_at(data: &[u8]) -> Option<usize> {
    let error = std::str::from_utf8(data).err()?;
    let start = error.valid_up_to();
    let begins = (0xC2..=0xF4).contains(&data[start]);
    Some(error.error_len().map_or(data.len(), |len| if begins { start + len } else { start }))
}

#[test]
fn random_texts_break_where_std_says() {
    let bytes = [
        0x00, 0x41, 0x7F, 0x80, 0x8F, 0x90, 0x9F, 0xA0, 0xBF, 0xC1, 0xC2, 0xDF, 0xE0, 0xE2, 0xED,
        0xEF, 0xF0, 0xF3, 0xF4, 0xF5, 0xFF,
    ];
    let (mut word, mut broken) = (1_u64, 0);
    for round in 0..2_000_usize {
        let mut data = "Acte é ".as_bytes()[..round % 8].to_vec();
        for _ in 0..round % 7 {
            word = word.wrapping_mul(6_364_136_223_846_793_005).wrapping_add(1_442_695_040_888_963);
            data.push(bytes[(word >> 33) as usize % bytes.len()]);
        }
        let place = decode(ValueType::VisibleString, &data).err().and_then(|refused| refused.place);
        assert_eq!(place, broken_at(&data).map(|at| Place::Text { at }), "{data:02X?}");
        broken += usize::from(place.is_some());
    }
    assert!((1_000..2_000).contains(&broken), "{broken} of 2000 were broken");
}

fn caption() -> Result<Dictionary, Refusal> {
    dictionary([
        (0x6100, variable(text("Act I")).with_rooms([400])),
        (0x6101, variable(ObjectValue::UnicodeString(vec![0x41]))),
        (0x6102, variable(ObjectValue::Unsigned64(7))),
    ])
}

#[test]
fn an_encoding_is_written() -> Result<(), Refused> {
    let mut dictionary = caption()?;
    let long = "é".repeat(200);
    let written = dictionary.write_encoded(0x6100, 0, ValueType::VisibleString, long.as_bytes())?;
    assert_eq!((written, dictionary.read_str(0x6100, 0)?), (Written::Done, &*long));
    dictionary.write_encoded(0x6102, 0, ValueType::Unsigned64, &9_u64.to_le_bytes())?;
    assert_eq!(dictionary.read_u64(0x6102, 0)?, 9);
    let mut dictionary = dictionary.with_store(vec![0; 64]);
    let load = dictionary.write_encoded(0x1011, 1, ValueType::VisibleString, b"load")?;
    assert_eq!(load, Written::RestoreRequested);
    Ok(())
}

#[test]
fn an_encoding_that_is_no_value_is_refused_at_its_byte() -> Result<(), Refusal> {
    let mut dictionary = caption()?;
    let before = dictionary.parts().clone();
    let mut refused = |index, value_type, data: &[u8]| {
        let refused = dictionary.write_encoded(index, 0, value_type, data).unwrap_err();
        assert_eq!(dictionary.parts(), &before);
        refused
    };
    let bad = |place| Refused::new(Refusal::BadValue, place);
    for (data, at) in BROKEN {
        let place = Some(Place::Text { at });
        // Bad text is told before all else: of a missing object, and of a save too.
        for index in [0x6100, 0x6102, 0x7000, 0x1010] {
            assert_eq!(refused(index, ValueType::VisibleString, data), bad(place), "{data:02X?}");
        }
    }
    let mut long = vec![b'a'; 2 * MOST_PAYLOAD_BYTES];
    long.push(0xFF);
    let place = Some(Place::Text { at: 2 * MOST_PAYLOAD_BYTES });
    assert_eq!(refused(0x6100, ValueType::VisibleString, &long), bad(place));
    let place = Some(Place::Value { needed: 8, had: 1 });
    assert_eq!(refused(0x6102, ValueType::Unsigned64, &[1]), bad(place));
    assert_eq!(refused(0x6102, ValueType::Unsigned64, &[0; 9]), bad(None));
    assert_eq!(refused(0x6101, ValueType::UnicodeString, &[0x41]), bad(None));
    assert_eq!(refused(0x6102, ValueType::Unsigned8, &[1]), Refused::from(Refusal::TypeMismatch));
    Ok(())
}

/// The event of a payload on channel 0, whose only element is a field of the payload from a byte on.
fn stopped(payload: &[u8], start: u16, target: ObjectValue) -> Result<Event, Refusal> {
    let bits = 8 * (payload.len() as u16 - start);
    let mut dictionary = channel([maps(bits, 8 * start, 0, 0x6100)])?;
    dictionary.insert(0x6100, variable(target).with_rooms([MOST_PAYLOAD_BYTES]))?;
    let events = dictionary.consume_pdo_payload(NODE, payload, VERSION, true)?;
    assert_eq!((events.len(), events.as_slice()[0].element), (1, Some(1)));
    Ok(events.as_slice()[0].event)
}

#[test]
fn an_event_counts_from_the_field_s_first_byte() -> Result<(), Refusal> {
    for (bad, at) in BROKEN {
        let payload = [&[0x10, 0x27][..], bad].concat();
        let event = Event::PayloadShort(Cause::Text { at: at as u16 });
        assert_eq!(stopped(&payload, 2, text(""))?, event, "{bad:02X?}");
    }
    let mut longest = vec![b'a'; MOST_PAYLOAD_BYTES];
    for (last, at) in [(0xFF, MOST_PAYLOAD_BYTES - 1), (0xC3, MOST_PAYLOAD_BYTES)] {
        longest[MOST_PAYLOAD_BYTES - 1] = last;
        let event = Event::PayloadShort(Cause::Text { at: at as u16 });
        assert_eq!(stopped(&longest, 0, text(""))?, event);
    }
    Ok(())
}

#[test]
fn an_event_has_the_bytes_needed_and_had() -> Result<(), Refusal> {
    for had in 0..8 {
        let cause = Cause::Value { needed: 8, had };
        let payload = &[0; 8][..usize::from(had)];
        let event = stopped(payload, 0, ObjectValue::Unsigned64(0))?;
        assert_eq!(event, Event::PayloadShort(cause));
    }
    // A list's count is a value of one byte.
    let mut dictionary = channel([maps(0, 0, 0, 0x6200)])?;
    let events = dictionary.consume_pdo_payload(NODE, &[], VERSION, true)?;
    let cause = Cause::Value { needed: 1, had: 0 };
    assert_eq!(events.as_slice()[0].event, Event::PayloadShort(cause));
    Ok(())
}
