//! The check: a pass, each fault, and all channels at once.

use crate::rig::{array, channel, dictionary, maps, record, rig, text, variable};
use loomfinch::{Checked, Fault, ObjectValue, Refusal};

fn at(element: u8, fault: Fault) -> Checked {
    Checked::Element { element, fault }
}

#[test]
fn the_check_names_what_makes_ninety_seconds_twenty_four() -> Result<(), Refusal> {
    assert_eq!(rig(16)?.check(0)?, Checked::Pass);
    let checked = rig(32)?.check(0)?;
    assert_eq!(checked, at(1, Fault::WrongLength));
    assert_eq!(checked.to_string(), "WrongLength at element 1");
    assert_eq!((checked.number(), checked.name(), checked.element()), (38, "WrongLength", Some(1)));
    assert!(!checked.is_pass());
    Ok(())
}

#[test]
fn each_fault_of_an_element_is_named() -> Result<(), Refusal> {
    let good = || maps(16, 0, 0, 0x6000);
    for (element, fault, number) in [
        (ObjectValue::Unsigned32(0), Fault::NotMapping, 33),
        (maps(16, 4, 0, 0x6000), Fault::Misaligned, 34),
        (maps(16, 0, 0, 0x1200), Fault::HandOff, 35),
        (maps(16, 0, 1, 0x6000), Fault::NoTarget, 36),
        (maps(8, 0, 0, 0x6200), Fault::CountTarget, 37),
        (maps(24, 0, 0, 0x6000), Fault::WrongLength, 38),
    ] {
        let checked = channel([good(), element, good()])?.check(0)?;
        assert_eq!(checked, at(2, fault));
        assert_eq!((checked.number(), fault.number()), (number, number));
        assert_eq!((Fault::from_number(number), checked.name()), (Some(fault), fault.name()));
    }
    assert_eq!((Fault::from_number(32), Fault::from_number(39)), (None, None));
    Ok(())
}

#[test]
fn each_fault_of_a_channel_names_no_element() -> Result<(), Refusal> {
    let far = channel([maps(16, 11_912, 0, 0x6000)])?.check(0)?;
    let empty = channel([])?.check(0)?;
    let nobody = rig(16)?.check(1)?;
    assert_eq!([far, empty, nobody], [Checked::TooFar, Checked::NoList, Checked::NoSender]);
    assert_eq!([far, empty, nobody].map(Checked::number), [39, 32, 31]);
    assert_eq!([far, empty, nobody].map(Checked::element), [None; 3]);
    assert_eq!(nobody.to_string(), "NoSender");
    Ok(())
}

#[test]
fn a_string_is_judged_by_its_room() -> Result<(), Refusal> {
    let roomy = || variable(text("")).with_rooms([4]);
    for (bits, wanted) in [(0, Checked::Pass), (32, Checked::Pass), (40, at(1, Fault::WrongLength))]
    {
        let mut dictionary = channel([maps(bits, 0, 0, 0x2000)])?;
        dictionary.insert(0x2000, roomy())?;
        assert_eq!(dictionary.check(0)?, wanted);
    }
    Ok(())
}

#[test]
fn all_channels_are_checked_at_once() -> Result<(), Refusal> {
    let sender = |node| record([ObjectValue::Unsigned8(node)]);
    let dictionary = dictionary([
        (0x1400, sender(1)),
        (0x1401, sender(1)),
        (0x14FF, sender(240)),
        (0x1600, array([maps(16, 0, 0, 0x6000)])),
        (0x16FF, array([maps(16, 0, 0, 0x6000), maps(32, 0, 0, 0x6000)])),
        (0x6000, variable(ObjectValue::Unsigned16(0))),
    ])?;
    let wanted = [(0, Checked::Pass), (1, Checked::NoSender), (255, at(2, Fault::WrongLength))];
    assert_eq!(dictionary.check_all()?, wanted);
    for (channel, checked) in wanted {
        assert_eq!(dictionary.check(channel)?, checked);
    }
    Ok(())
}

#[test]
fn every_channel_may_be_there() -> Result<(), Refusal> {
    let mut dictionary = loomfinch::Dictionary::new(loomfinch::Capacity::MOST);
    for channel in 0..=255_u8 {
        dictionary
            .insert(0x1400 + u16::from(channel), record([ObjectValue::Unsigned8(channel)]))?;
    }
    let checked = dictionary.check_all()?;
    assert_eq!(checked.len(), 256);
    assert_eq!(checked[255], (255, Checked::NoList));
    Ok(())
}
