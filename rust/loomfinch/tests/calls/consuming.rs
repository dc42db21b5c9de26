//! Consuming payloads: the mission's story (docs/FORMS.md, cases 8 to 11), each event, and cycles.

use crate::rig::{channel, dictionary, maps, record, rig, text, variable, NODE, VERSION};
use loomfinch::{
    AccessType, Cause, Dictionary, Event, EventRecord, NodeId, ObjectValue, PDOVersion, Payload,
    Refusal, Unwritten, MOST_PAYLOADS, MOST_PAYLOAD_BYTES,
};

const MOVE: [u8; 6] = [0xC4, 0x09, 0x10, 0x27, 0, 0];

fn consume(dictionary: &mut Dictionary, payload: &[u8]) -> Result<Vec<EventRecord>, Refusal> {
    let events = dictionary.consume_pdo_payload(NODE, payload, VERSION, true)?;
    Ok(events.into_iter().collect())
}

fn at(element: u8, event: Event) -> EventRecord {
    EventRecord { payload: 0, element: Some(element), event }
}

#[test]
fn a_payload_is_written_whole() -> Result<(), Refusal> {
    let mut rig = rig(16)?;
    assert_eq!(consume(&mut rig, &MOVE)?, []);
    assert_eq!(rig.read_u16(0x6000, 0)?, 2_500);
    assert_eq!(rig.read_u32(0x6200, 3)?, 10_000);
    Ok(())
}

#[test]
fn a_payload_that_ends_early_stops_and_marks_its_node() -> Result<(), Refusal> {
    let mut rig = rig(16)?;
    assert_eq!(consume(&mut rig, &MOVE[..5])?, [at(2, Event::PayloadShort(Cause::Frame))]);
    assert_eq!(rig.read_u16(0x6000, 0)?, 2_500);
    assert_eq!(rig.read_u32(0x6200, 3)?, 0);
    assert_eq!(rig.read_bytes(0x1C81, 0)?[0], 0x10);
    Ok(())
}

#[test]
fn a_field_that_is_too_short_stops_without_a_mark() -> Result<(), Refusal> {
    let mut rig = rig(8)?;
    let cause = Cause::Value { needed: 2, had: 1 };
    assert_eq!(consume(&mut rig, &MOVE)?, [at(1, Event::PayloadShort(cause))]);
    assert_eq!(rig.read_bytes(0x1C81, 0)?, [0; 32]);
    Ok(())
}

#[test]
fn ninety_seconds_become_twenty_four() -> Result<(), Refusal> {
    let mut rig = rig(32)?;
    assert_eq!(consume(&mut rig, &[0x90, 0x5F, 0x01, 0, 0, 0])?, []);
    assert_eq!(rig.read_u16(0x6000, 0)?, 24_464);
    assert_eq!(rig.read_u32(0x6200, 3)?, 1);
    Ok(())
}

#[test]
fn nothing_happens_without_a_ready_payload_of_a_channel() -> Result<(), Refusal> {
    let mut rig = rig(16)?;
    let before = rig.parts().clone();
    assert_eq!(rig.consume_pdo_payload(NODE, &MOVE, VERSION, false)?.len(), 0);
    assert_eq!(rig.consume_pdo_payload(NodeId(6), &MOVE, VERSION, true)?.len(), 0);
    assert_eq!(rig.parts(), &before);
    Ok(())
}

#[test]
fn a_wrong_version_names_no_element() -> Result<(), Refusal> {
    let mut rig = rig(16)?;
    let events = rig.consume_pdo_payload(NODE, &MOVE, PDOVersion(0x22), true)?;
    let wanted = EventRecord { payload: 0, element: None, event: Event::MapVersion };
    assert_eq!(events.as_slice(), [wanted]);
    assert_eq!(rig.read_bytes(0x1C80, 0)?[0], 0x10);
    assert_eq!(rig.read_u16(0x6000, 0)?, 0);
    Ok(())
}

#[test]
fn bad_text_and_half_a_unit_stop() -> Result<(), Refusal> {
    for (value, cause) in
        [(text("a"), Cause::Text { at: 0 }), (ObjectValue::UnicodeString(vec![0x41]), Cause::Odd)]
    {
        let mut dictionary = channel([maps(8, 0, 0, 0x2000)])?;
        dictionary.insert(0x2000, variable(value.clone()))?;
        assert_eq!(consume(&mut dictionary, &[0x80])?, [at(1, Event::PayloadShort(cause))]);
        assert_eq!(dictionary.read(0x2000, 0)?, value);
    }
    Ok(())
}

#[test]
fn what_is_not_written_is_told_and_the_run_goes_on() -> Result<(), Refusal> {
    let mut dictionary = channel([
        maps(8, 0, 0, 0x6200),
        maps(16, 0, 0, 0x2000),
        maps(24, 8, 0, 0x1200),
        maps(0, 16, 9, 0x12FF),
        maps(8, 0, 0, 0x7000),
        maps(16, 0, 0, 0x6000),
    ])?;
    dictionary.insert(0x2000, variable(text("a")))?;
    let events = [
        at(1, Event::WriteRefused(Unwritten::CountNotWritable)),
        at(2, Event::WriteRefused(Unwritten::TooLong)),
        at(3, Event::Server { index: 0x1200, start: 1, len: 3 }),
        at(4, Event::Client { index: 0x12FF, start: 2, len: 0 }),
    ];
    assert_eq!(consume(&mut dictionary, b"ABCD")?, events);
    assert_eq!(dictionary.read_u16(0x6000, 0)?, 0x4241);
    Ok(())
}

#[test]
fn every_element_may_have_an_event() -> Result<(), Refusal> {
    let mut dictionary = channel([(); 254].map(|()| maps(8, 0, 0, 0x6200)))?;
    let events = consume(&mut dictionary, &[0])?;
    assert_eq!(events.len(), 254);
    assert_eq!(events[253], at(254, Event::WriteRefused(Unwritten::CountNotWritable)));
    Ok(())
}

#[test]
fn a_payload_over_the_limit_is_refused() -> Result<(), Refusal> {
    let mut rig = rig(16)?;
    let long = [0; MOST_PAYLOAD_BYTES + 1];
    assert_eq!(consume(&mut rig, &long), Err(Refusal::PayloadTooLong));
    assert_eq!(consume(&mut rig, &long[1..])?, []);
    Ok(())
}

fn payload(start: usize, len: usize, node: u8) -> Payload {
    Payload { start, len, source_node_id: NodeId(node), received_version: VERSION, is_ready: true }
}

#[test]
fn a_cycle_is_its_payloads_in_turn() -> Result<(), Refusal> {
    let delivered = [&MOVE[..], &[1, 0], &[2, 0, 3, 0, 0, 0]].concat();
    let unready = Payload { is_ready: false, ..payload(0, 6, 5) };
    let payloads =
        [payload(0, 6, 5), payload(6, 2, 5), payload(8, 6, 5), payload(0, 6, 7), unready];
    let mut rig = rig(16)?;
    let mut apart = rig.clone();
    let events: Vec<_> = rig.consume_cycle(&delivered, &payloads)?.into_iter().collect();
    let short = Event::PayloadShort(Cause::Frame);
    assert_eq!(events, [EventRecord { payload: 1, element: Some(2), event: short }]);
    assert_eq!(events[0].to_string(), "payload 1, element 2: PayloadShort: Frame");
    assert_eq!(VERSION.to_string(), "1.2");
    for payload in payloads {
        let Payload { start, len, source_node_id, is_ready, .. } = payload;
        let bytes = &delivered[start..][..len];
        let _ = apart.consume_pdo_payload(source_node_id, bytes, VERSION, is_ready)?;
    }
    assert_eq!(rig.parts(), apart.parts());
    assert_eq!((rig.read_u16(0x6000, 0)?, rig.read_u32(0x6200, 3)?), (2, 3));
    Ok(())
}

#[test]
fn a_cycle_has_room_for_all_events() -> Result<(), Refusal> {
    let mut dictionary = channel([(); 254].map(|()| maps(8, 0, 0, 0x6200)))?;
    let events = dictionary.consume_cycle(&[0], &[payload(0, 1, 5); MOST_PAYLOADS])?;
    assert_eq!(events.len(), 254 * MOST_PAYLOADS);
    assert_eq!(events.iter().last().map(|record| record.payload), Some(1_023));
    assert_eq!(dictionary.consume_cycle(&[], &[])?.len(), 0);
    Ok(())
}

#[test]
fn a_cycle_is_judged_before_it_is_consumed() -> Result<(), Refusal> {
    let mut rig = rig(16)?;
    let before = rig.parts().clone();
    let mut refusal = |delivered: &[u8], payloads: &[Payload]| {
        let refused = rig.consume_cycle(delivered, payloads).map(|events| events.len());
        assert_eq!(rig.parts(), &before);
        refused.unwrap_err()
    };
    let many = [payload(0, 0, 5); MOST_PAYLOADS + 1];
    assert_eq!(refusal(&MOVE, &many), Refusal::BadValue);
    assert_eq!(refusal(&MOVE, &[payload(0, 6, 5), payload(1, 6, 5)]), Refusal::BadValue);
    assert_eq!(refusal(&MOVE, &[payload(usize::MAX, 6, 5)]), Refusal::BadValue);
    let long = [0; MOST_PAYLOAD_BYTES + 1];
    assert_eq!(refusal(&long, &[payload(0, long.len(), 5)]), Refusal::PayloadTooLong);
    Ok(())
}

#[test]
fn an_error_object_has_a_bit_for_each_node() -> Result<(), Refusal> {
    let octets = variable(ObjectValue::OctetString(vec![0; 30]));
    let mut dictionary =
        dictionary([(0x1C80, octets), (0x1C81, record([ObjectValue::OctetString(vec![0])]))])?;
    for node in [0, 1, 239, 240, 255] {
        dictionary.update_pdo_error_object(0x1C80, NodeId(node))?;
        dictionary.update_pdo_error_object(0x1C81, NodeId(node))?;
    }
    let bits = dictionary.read_bytes(0x1C80, 0)?;
    assert_eq!((bits[0], bits[29]), (0x01, 0x40));
    assert_eq!(bits[1..29], [0; 28]);
    assert_eq!(dictionary.read_bytes(0x1C81, 1)?, [0]);
    Ok(())
}

#[test]
fn access_is_not_looked_at() -> Result<(), Refusal> {
    let mut dictionary = channel([maps(16, 0, 0, 0x2000)])?;
    let time = variable(ObjectValue::Unsigned16(0));
    dictionary.insert(0x2000, time.with_access(AccessType::ReadOnly))?;
    assert_eq!(consume(&mut dictionary, &MOVE)?, []);
    assert_eq!(dictionary.read_u16(0x2000, 0)?, 2_500);
    Ok(())
}
