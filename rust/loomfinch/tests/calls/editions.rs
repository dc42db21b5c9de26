//! Editions: what edition 2 keeps of a mapping's count and uses, and that edition 1 does not.

use crate::rig::{array, channel_of, dictionary_of, maps, record, text, variable, NODE, VERSION};
use loomfinch::{
    AccessType, Capacity, Cause, Checked, Dictionary, Edition, Event, EventRecord, Fault, NodeId,
    ObjectEntry, ObjectValue, PDOVersion, Payload, Refusal, ValueRange, ValueType, Written,
};

const BOTH: [Edition; 2] = [Edition::One, Edition::Two];

/// The kept count of 1600h in a dictionary of `channel_of`, where it is the second row.
const KEPT: usize = 12 + 20;

/// A time for 6000h, then positions for 6200h/1 and 6200h/2.
const MOVE: [u8; 10] = [0xC4, 0x09, 1, 0, 0, 0, 2, 0, 0, 0];

/// The mapping of that payload.
fn mapping() -> ObjectEntry<'static> {
    array([maps(16, 0, 0, 0x6000), maps(32, 16, 1, 0x6200), maps(32, 48, 2, 0x6200)])
}

/// Channel 0 in edition 2 with so many elements of that mapping in use.
fn counted(count: u8) -> Result<Dictionary, Refusal> {
    let mut dictionary = channel_of(Edition::Two, mapping())?;
    write_count(&mut dictionary, count)?;
    Ok(dictionary)
}

fn write_count(dictionary: &mut Dictionary, count: u8) -> Result<Written, Refusal> {
    dictionary.write(0x1600, 0, count.into())
}

fn consume(dictionary: &mut Dictionary, payload: &[u8]) -> Result<Vec<Event>, Refusal> {
    let events = dictionary.consume_pdo_payload(NODE, payload, VERSION, true)?;
    Ok(events.into_iter().map(|record| record.event).collect())
}

/// What the payload's targets hold.
fn values(dictionary: &Dictionary) -> Result<(u16, u32, u32), Refusal> {
    let position = |element| dictionary.read_u32(0x6200, element);
    Ok((dictionary.read_u16(0x6000, 0)?, position(1)?, position(2)?))
}

fn in_use(dictionary: &Dictionary, index: u16) -> Option<usize> {
    dictionary.objects().find(|object| object.index == index).map(|object| object.in_use)
}

#[test]
fn a_dictionary_has_its_edition_for_good() -> Result<(), Refusal> {
    for edition in BOTH {
        let dictionary = channel_of(edition, mapping())?;
        assert_eq!(dictionary.edition(), Ok(edition));
        assert_eq!(dictionary.parts().objects[3], edition.number().into());
        let again = Dictionary::from_parts(dictionary.into_parts());
        assert_eq!(again.edition(), Ok(edition));
        assert_eq!(Edition::from_number(edition.number()), Some(edition));
    }
    assert_eq!((Edition::from_number(0), Edition::from_number(3)), (None, None));
    assert_eq!(Dictionary::new(Capacity::MOST).edition(), Ok(Edition::One));
    assert_eq!(Edition::default(), Edition::One);
    Ok(())
}

#[test]
fn a_count_is_kept_in_one_word_and_read_back() -> Result<(), Refusal> {
    let mut dictionary = channel_of(Edition::Two, mapping())?;
    let mut wanted = dictionary.parts().clone();
    assert_eq!(wanted.objects[KEPT], 3);
    for count in [2, 1, 0, 3, 3] {
        assert_eq!(write_count(&mut dictionary, count)?, Written::Done);
        wanted.objects[KEPT] = count.into();
        assert_eq!(dictionary.parts(), &wanted);
        assert_eq!(dictionary.read_u8(0x1600, 0)?, count);
        assert_eq!(dictionary.peek(0x1600, 0)?, count.into());
        assert_eq!(in_use(&dictionary, 0x1600), Some(count.into()));
    }
    dictionary.write_encoded(0x1600, 0, ValueType::Unsigned8, &[2])?;
    assert_eq!(dictionary.read_u8(0x1600, 0)?, 2);
    Ok(())
}

#[test]
fn edition_1_keeps_no_count() -> Result<(), Refusal> {
    let mut dictionary = channel_of(Edition::One, mapping())?;
    let before = dictionary.parts().clone();
    for count in 0..=3 {
        assert_eq!(write_count(&mut dictionary, count)?, Written::Done);
        assert_eq!((dictionary.parts(), dictionary.read_u8(0x1600, 0)?), (&before, 3));
    }
    assert_eq!(consume(&mut dictionary, &MOVE)?, []);
    assert_eq!(values(&dictionary)?, (2_500, 1, 2));
    Ok(())
}

#[test]
fn mappings_are_lists_of_two_ranges() -> Result<(), Refusal> {
    let kept = [0x1600, 0x16FF, 0x1A00, 0x1AFF].map(|index| (index, Ok(Written::Done), 2));
    let refused =
        [0x15FF, 0x1700, 0x19FF, 0x1B00].map(|index| (index, Err(Refusal::CountNotWritable), 3));
    for (index, wanted, count) in kept.into_iter().chain(refused) {
        let mut dictionary = dictionary_of(Edition::Two, [(index, mapping())])?;
        assert_eq!(dictionary.write(index, 0, 2_u8.into()), wanted, "{index:04X}h");
        assert_eq!(dictionary.read_u8(index, 0)?, count);
        assert_eq!(in_use(&dictionary, index), Some(count.into()));
    }
    Ok(())
}

#[test]
fn elements_in_use_alone_are_consumed() -> Result<(), Refusal> {
    let wanted = [(0, 0, 0), (2_500, 0, 0), (2_500, 1, 0), (2_500, 1, 2)];
    for (count, wanted) in (0..).zip(wanted) {
        let mut dictionary = counted(count)?;
        assert_eq!(consume(&mut dictionary, &MOVE)?, []);
        assert_eq!(values(&dictionary)?, wanted);
    }
    // A payload needs no byte for an element that is not in use.
    assert_eq!(consume(&mut counted(1)?, &MOVE[..2])?, []);
    let short = [Event::PayloadShort(Cause::Frame)];
    assert_eq!(consume(&mut counted(2)?, &MOVE[..2])?, short);
    Ok(())
}

#[test]
fn a_mapping_is_turned_off_and_on_again() -> Result<(), Refusal> {
    let mut dictionary = counted(0)?;
    let before = dictionary.parts().clone();
    assert_eq!(dictionary.check(0)?, Checked::NoList);
    assert_eq!(consume(&mut dictionary, &MOVE)?, []);
    assert_eq!(consume(&mut dictionary, &[])?, []);
    assert_eq!(dictionary.parts(), &before);
    write_count(&mut dictionary, 3)?;
    assert_eq!(dictionary.check(0)?, Checked::Pass);
    assert_eq!(consume(&mut dictionary, &MOVE)?, []);
    assert_eq!(values(&dictionary)?, (2_500, 1, 2));
    Ok(())
}

#[test]
fn a_mapping_that_is_off_has_its_version_judged() -> Result<(), Refusal> {
    let mut dictionary = counted(0)?;
    let events = dictionary.consume_pdo_payload(NODE, &MOVE, PDOVersion(0x22), true)?;
    let wanted = EventRecord { payload: 0, element: None, event: Event::MapVersion };
    assert_eq!(events.as_slice(), [wanted]);
    assert_eq!(dictionary.read_bytes(0x1C80, 0)?[0], 0x10);
    assert_eq!(dictionary.read_bytes(0x1C81, 0)?, [0; 32]);
    assert_eq!(values(&dictionary)?, (0, 0, 0));
    Ok(())
}

#[test]
fn a_record_is_turned_off_for_good() -> Result<(), Refusal> {
    for (edition, checked) in [(Edition::One, Checked::Pass), (Edition::Two, Checked::NoList)] {
        let mut dictionary = channel_of(edition, record([maps(16, 0, 0, 0x6000)]))?;
        assert_eq!(write_count(&mut dictionary, 1), Err(Refusal::ObjectNotFound));
        assert_eq!((dictionary.read_u8(0x1600, 0)?, dictionary.check(0)?), (1, Checked::Pass));
        for _ in 0..2 {
            assert_eq!(write_count(&mut dictionary, 0)?, Written::Done);
            assert_eq!(dictionary.check(0)?, checked);
            assert_eq!(dictionary.read_u8(0x1600, 0)?, u8::from(edition == Edition::One));
            assert_eq!(write_count(&mut dictionary, 1), Err(Refusal::ObjectNotFound));
        }
    }
    Ok(())
}

#[test]
fn what_a_write_refuses_is_not_kept() -> Result<(), Refusal> {
    let number = || array([maps(16, 0, 0, 0x6000), ObjectValue::Unsigned32(0)]);
    let (byte, word) = (ObjectValue::Unsigned8, ObjectValue::Unsigned16);
    let mut dictionary = dictionary_of(
        Edition::Two,
        [
            (0x1600, mapping().with_access(AccessType::ReadOnly)),
            (0x1601, mapping().with_access(AccessType::Constant)),
            (0x1602, number()),
            (0x1603, mapping()),
            (0x1605, variable(byte(1))),
            (0x1A03, mapping()),
            (0x1F98, array([word(9), word(5)])),
            (0x6200, mapping()),
        ],
    )?;
    let before = dictionary.parts().clone();
    for (index, count, refusal) in [
        (0x1600, byte(1), Refusal::ReadOnly),
        (0x1600, byte(0), Refusal::ReadOnly),
        (0x1600, byte(4), Refusal::MissingEntries),
        (0x1601, byte(1), Refusal::ReadOnly),
        (0x1602, byte(2), Refusal::MissingEntries),
        (0x1602, byte(255), Refusal::MissingEntries),
        (0x1602, word(1), Refusal::TypeMismatch),
        (0x1603, byte(2), Refusal::PdoMapOverrun),
        (0x1A03, byte(3), Refusal::PdoMapOverrun),
        (0x1604, byte(0), Refusal::ObjectNotFound),
        (0x1605, byte(1), Refusal::ObjectNotFound),
        (0x6200, byte(1), Refusal::CountNotWritable),
    ] {
        let refused = dictionary.write(index, 0, count.clone());
        assert_eq!(refused, Err(refusal), "{index:04X}h {count:?}");
        assert_eq!(dictionary.parts(), &before);
    }
    for (index, count) in [(0x1602, 1), (0x1603, 1), (0x1A03, 2)] {
        assert_eq!(dictionary.write(index, 0, byte(count))?, Written::Done);
        assert_eq!(dictionary.read_u8(index, 0)?, count);
    }
    Ok(())
}

#[test]
fn a_count_is_judged_by_the_elements_that_are_there_and_no_range() -> Result<(), Refusal> {
    let ranged = mapping().with_value_range(ValueRange::new(5_u8, 9_u8));
    let mut dictionary = channel_of(Edition::Two, ranged)?;
    for count in [1, 3] {
        assert_eq!(write_count(&mut dictionary, count)?, Written::Done);
        assert_eq!(dictionary.read_u8(0x1600, 0)?, count);
        assert_eq!(dictionary.validate_pdo_mapping(0x1600, 3), Ok(()));
        assert_eq!(dictionary.validate_pdo_mapping(0x1600, 4), Err(Refusal::MissingEntries));
    }
    Ok(())
}

#[test]
fn elements_that_are_not_in_use_are_values_like_others() -> Result<(), Refusal> {
    let stored = mapping().with_access(AccessType::ReadWriteStore);
    let mut dictionary = channel_of(Edition::Two, stored)?;
    write_count(&mut dictionary, 1)?;
    let last = dictionary.read_u64(0x1600, 3)?;
    assert_eq!(dictionary.read_u64(0x1600, 4), Err(Refusal::SubObjectNotFound));
    assert_eq!(dictionary.explain(0, 3)?.mapped.map(|(entry, _)| entry.to_u64()), Some(last));
    let mut store = [0; 64];
    dictionary.save_to(2, &mut store)?;
    assert_eq!(store[..2], [3, 0]);
    assert_eq!(dictionary.write(0x1600, 3, 7_u64.into())?, Written::Done);
    assert_eq!(dictionary.read_u64(0x1600, 3)?, 7);
    write_count(&mut dictionary, 2)?;
    dictionary.restore_from(0x0000, 0xFFFF, &store)?;
    assert_eq!((dictionary.read_u64(0x1600, 3)?, dictionary.read_u8(0x1600, 0)?), (last, 2));
    Ok(())
}

#[test]
fn an_element_that_is_not_in_use_may_be_a_target() -> Result<(), Refusal> {
    let onto_itself = array([maps(64, 0, 2, 0x1600), maps(16, 0, 0, 0x6000)]);
    let mut dictionary = channel_of(Edition::Two, onto_itself)?;
    write_count(&mut dictionary, 1)?;
    assert_eq!(dictionary.check(0)?, Checked::Pass);
    assert_eq!(consume(&mut dictionary, &[7, 0, 0, 0, 0, 0, 0, 0])?, []);
    assert_eq!((dictionary.read_u64(0x1600, 2)?, dictionary.read_u8(0x1600, 0)?), (7, 1));
    Ok(())
}

#[test]
fn the_check_speaks_of_elements_in_use() -> Result<(), Refusal> {
    for (behind, fault) in [
        (ObjectValue::Unsigned32(0), Fault::NotMapping),
        (maps(16, 4, 0, 0x6000), Fault::Misaligned),
        (maps(16, 0, 0, 0x1200), Fault::HandOff),
        (maps(16, 0, 0, 0x7000), Fault::NoTarget),
        (maps(8, 0, 0, 0x6200), Fault::CountTarget),
        (maps(8, 0, 0, 0x6000), Fault::WrongLength),
    ] {
        let elements = array([maps(16, 0, 0, 0x6000), behind]);
        let mut dictionary = channel_of(Edition::Two, elements)?;
        assert_eq!(dictionary.check(0)?, Checked::Element { element: 2, fault });
        write_count(&mut dictionary, 1)?;
        assert_eq!(dictionary.check(0)?, Checked::Pass);
        assert_eq!(dictionary.explain(0, 2)?.fault, Some(fault));
        assert_eq!(consume(&mut dictionary, &MOVE)?, []);
    }
    let far = array([maps(16, 0, 0, 0x6000), maps(16, 11_912, 0, 0x6000)]);
    let mut dictionary = channel_of(Edition::Two, far)?;
    assert_eq!(dictionary.check(0)?, Checked::TooFar);
    write_count(&mut dictionary, 1)?;
    assert_eq!(dictionary.check_all()?, [(0, Checked::Pass)]);
    Ok(())
}

#[test]
fn no_sender_comes_before_no_list() -> Result<(), Refusal> {
    let mut dictionary = counted(0)?;
    dictionary.insert(0x1401, record([ObjectValue::Unsigned8(5)]))?;
    dictionary.insert(0x1601, mapping())?;
    dictionary.write(0x1601, 0, 0_u8.into())?;
    assert_eq!(dictionary.check_all()?, [(0, Checked::NoList), (1, Checked::NoSender)]);
    Ok(())
}

#[test]
fn a_short_value_sets_the_bit_in_edition_2() -> Result<(), Refusal> {
    let (caption, units) = (text("a"), ObjectValue::UnicodeString(vec![0x41]));
    let value = |needed, had| Cause::Value { needed, had };
    for (word, cause, bits) in [
        (maps(8, 0, 0, 0x6000), value(2, 1), [0, 0x10]),
        (maps(0, 0, 0, 0x6200), value(1, 0), [0, 0x10]),
        (maps(0, 0, 0, 0x1600), value(1, 0), [0, 0x10]),
        (maps(16, 8, 0, 0x6000), Cause::Frame, [0x10, 0x10]),
        (maps(8, 0, 0, 0x2000), Cause::Text { at: 0 }, [0, 0]),
        (maps(8, 0, 0, 0x2001), Cause::Odd, [0, 0]),
    ] {
        for (edition, bits) in BOTH.into_iter().zip(bits) {
            let mut dictionary = channel_of(edition, array([word.clone()]))?;
            dictionary.insert(0x2000, variable(caption.clone()))?;
            dictionary.insert(0x2001, variable(units.clone()))?;
            assert_eq!(consume(&mut dictionary, &[0x80])?, [Event::PayloadShort(cause)]);
            assert_eq!(dictionary.read_bytes(0x1C81, 0)?[0], bits, "{edition:?} {cause}");
            assert_eq!(dictionary.read_bytes(0x1C80, 0)?, [0; 32]);
        }
    }
    Ok(())
}

#[test]
fn a_count_in_a_payload_is_not_kept() -> Result<(), Refusal> {
    for edition in BOTH {
        let elements = array([maps(8, 0, 0, 0x1600), maps(16, 8, 0, 0x6000)]);
        let mut dictionary = channel_of(edition, elements)?;
        assert_eq!(consume(&mut dictionary, &[1, 0xC4, 0x09])?, []);
        assert_eq!((dictionary.read_u8(0x1600, 0)?, dictionary.read_u16(0x6000, 0)?), (2, 2_500));
    }
    Ok(())
}

#[test]
fn every_other_call_leaves_the_count() -> Result<(), Refusal> {
    let mut dictionary = counted(2)?.with_store(vec![0; 64]);
    dictionary.insert(0x1000, variable(0_u32.into()))?;
    dictionary.insert(0x1601, mapping())?;
    dictionary.increment_counter(0x1600, 0)?;
    dictionary.increment_counter(0x1600, 3)?;
    dictionary.update_pdo_error_object(0x1600, NODE)?;
    dictionary.save(1)?;
    dictionary.restore_power_on_values(0x0000, 0xFFFF)?;
    let (source_node_id, received_version) = (NodeId(5), VERSION);
    let payload =
        Payload { start: 0, len: MOVE.len(), source_node_id, received_version, is_ready: true };
    assert!(dictionary.consume_cycle(&MOVE, &[payload])?.is_empty());
    assert_eq!(values(&dictionary)?, (2_500, 1, 0));
    let counts = [0x1600, 0x1601].map(|index| dictionary.read_u8(index, 0));
    assert_eq!(counts, [Ok(2), Ok(3)]);
    Ok(())
}

#[test]
fn memory_of_another_edition_or_count_is_malformed() -> Result<(), Refusal> {
    for edition in BOTH {
        let good = channel_of(edition, mapping())?;
        let reads = |place: usize, word: u64| {
            let mut parts = good.parts().clone();
            parts.objects[place] = word;
            let dictionary = Dictionary::from_parts(parts);
            assert_eq!(dictionary.edition().is_ok(), dictionary.read(0x6000, 0).is_ok());
            dictionary.read(0x6000, 0).map(|_| ())
        };
        for number in [0, 3, 0x101, u64::MAX] {
            assert_eq!(reads(3, number), Err(Refusal::Malformed), "edition {number}");
        }
        for (row, elements) in [2, 3, 1, 1, 1, 3].into_iter().enumerate() {
            let place = 12 * row + 20;
            assert_eq!(good.parts().objects[place], elements);
            for kept in 0..=elements {
                assert_eq!(reads(place, kept), Ok(()), "row {row}, {kept}");
            }
            for kept in [elements + 1, u64::MAX] {
                assert_eq!(reads(place, kept), Err(Refusal::Malformed), "row {row}, {kept}");
            }
        }
    }
    Ok(())
}

#[test]
fn a_kept_word_that_is_not_used_says_nothing() -> Result<(), Refusal> {
    // That of a list that is no mapping, and in edition 1 that of a mapping.
    for (edition, index, place) in
        [(Edition::Two, 0x6200, 12 * 5 + 20), (Edition::One, 0x1600, KEPT)]
    {
        let whole = channel_of(edition, mapping())?;
        let mut parts = whole.parts().clone();
        parts.objects[place] = 0;
        let mut dictionary = Dictionary::from_parts(parts);
        assert_eq!((dictionary.read_u8(index, 0)?, dictionary.peek(index, 0)?), (3, 3_u8.into()));
        assert_eq!((in_use(&dictionary, index), dictionary.check(0)?), (Some(3), Checked::Pass));
        assert_eq!(dictionary, whole);
        assert_eq!(consume(&mut dictionary, &MOVE)?, []);
        assert_eq!(values(&dictionary)?, (2_500, 1, 2));
    }
    Ok(())
}

#[test]
fn equal_are_dictionaries_of_one_edition_and_count() -> Result<(), Refusal> {
    let empty = |edition| Dictionary::with_edition(Capacity::MOST, edition);
    assert_ne!(empty(Edition::One), empty(Edition::Two));
    assert_ne!(channel_of(Edition::One, mapping())?, channel_of(Edition::Two, mapping())?);
    assert_ne!(counted(1)?, counted(2)?);
    assert_eq!(counted(3)?, channel_of(Edition::Two, mapping())?);
    Ok(())
}
