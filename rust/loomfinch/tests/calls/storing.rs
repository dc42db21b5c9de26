//! Saving and restoring.

use crate::rig::{dictionary, record, text, variable};
use loomfinch::{AccessType, Dictionary, ObjectEntry, ObjectValue, Refusal, Written, MOST_STORED};

fn storable() -> Result<Dictionary, Refusal> {
    let stored = |entry: ObjectEntry<'static>| entry.with_access(AccessType::ReadWriteStore);
    dictionary([
        (0x1F00, stored(variable(ObjectValue::Unsigned32(1)))),
        (0x6000, stored(variable(ObjectValue::Unsigned16(2_500)))),
        (0x6001, stored(variable(text("Act I")).with_rooms([8]))),
        (0x6002, record([text("a")]).with_default_value(text("!"))),
    ])
}

fn spoil(dictionary: &mut Dictionary) -> Result<(), Refusal> {
    dictionary.write(0x1F00, 0, ObjectValue::Unsigned32(0))?;
    dictionary.write(0x6000, 0, ObjectValue::Unsigned16(0))?;
    dictionary.write(0x6001, 0, text(""))?;
    dictionary.write(0x6002, 1, text("b")).map(|_| ())
}

#[test]
fn an_owned_store_keeps_what_was_saved() -> Result<(), Refusal> {
    let mut dictionary = storable()?.with_store(vec![0; MOST_STORED]);
    dictionary.save(3)?;
    assert_eq!(dictionary.store()[..2], [2, 0]);
    spoil(&mut dictionary)?;
    dictionary.restore_power_on_values(0x0000, 0xFFFF)?;
    assert_eq!(dictionary.read_u32(0x1F00, 0)?, 0);
    assert_eq!(dictionary.read_u16(0x6000, 0)?, 2_500);
    assert_eq!(dictionary.read_str(0x6001, 0)?, "Act I");
    assert_eq!(dictionary.read_str(0x6002, 1)?, "!");
    dictionary.store_mut().fill(0);
    spoil(&mut dictionary)?;
    dictionary.restore_power_on_values(0x0000, 0xFFFF)?;
    assert_eq!(dictionary.read_u16(0x6000, 0)?, 0);
    Ok(())
}

#[test]
fn a_lent_store_keeps_what_was_saved() -> Result<(), Refusal> {
    let mut dictionary = storable()?;
    let mut store = [0xAA; 64];
    // A save borrows the dictionary for reading alone.
    let saving: &Dictionary = &dictionary;
    saving.save_to(1, &mut store)?;
    assert_eq!(store[..2], [3, 0]);
    assert_eq!(store[63], 0xAA);
    spoil(&mut dictionary)?;
    dictionary.restore_from(0x6001, 0x6001, &store)?;
    assert_eq!(dictionary.read_str(0x6001, 0)?, "Act I");
    assert_eq!(dictionary.read_u16(0x6000, 0)?, 0);
    assert!(dictionary.store().is_empty());
    Ok(())
}

#[test]
fn a_save_is_a_write_to_1010h() -> Result<(), Refusal> {
    let (mut saved, mut written) = ([0; 64], [0; 64]);
    let mut dictionary = storable()?;
    dictionary.save_to(2, &mut saved)?;
    let answer = dictionary.write_with_store(0x1010, 2, text("save"), &mut written)?;
    assert_eq!((answer, written), (Written::Done, saved));
    let mut owning = dictionary.clone().with_store(vec![0; 64]);
    assert_eq!(owning.write(0x1010, 2, text("save"))?, Written::Done);
    assert_eq!(owning.store(), saved);
    assert_eq!(owning.write(0x1010, 9, text("save"))?, Written::Done);
    assert_eq!(owning.store()[..2], [0, 0]);
    Ok(())
}

#[test]
fn commands_are_refused_for_their_own_reasons() -> Result<(), Refusal> {
    let mut dictionary = storable()?;
    assert_eq!(dictionary.save(1), Err(Refusal::NoStorage));
    assert_eq!(dictionary.save(0), Err(Refusal::BadSignature));
    assert_eq!(dictionary.save_to(1, &mut [0]), Err(Refusal::NoStorage));
    assert_eq!(dictionary.save_to(1, &mut [0; 36]), Err(Refusal::StoreFull));
    assert_eq!(dictionary.save_to(1, &mut [0; 37]), Ok(()));
    assert_eq!(dictionary.write(0x1010, 1, text("load")), Err(Refusal::BadSignature));
    assert_eq!(dictionary.write(0x1011, 1, text("load")), Err(Refusal::NoStorage));
    let mut dictionary = dictionary.with_store(vec![0; 2]);
    assert_eq!(dictionary.save(1), Err(Refusal::StoreFull));
    assert_eq!(dictionary.write(0x1011, 1, text("save")), Err(Refusal::BadSignature));
    assert_eq!(dictionary.write(0x1011, 0, text("load")), Err(Refusal::BadSignature));
    let before = dictionary.parts().clone();
    assert_eq!(dictionary.write(0x1011, 1, text("load")), Ok(Written::RestoreRequested));
    assert_eq!((dictionary.parts(), dictionary.store()), (&before, &[0, 0][..]));
    Ok(())
}

#[test]
fn a_restored_value_has_the_saved_type_and_its_own_room() -> Result<(), Refusal> {
    let mut store = [0; 64];
    storable()?.save_to(3, &mut store)?;
    let number = || variable(ObjectValue::Unsigned8(7));
    let mut roomy = dictionary([(0x6001, number().with_rooms([5]))])?;
    roomy.restore_from(0x6000, 0x6FFF, &store)?;
    assert_eq!(roomy.read(0x6001, 0)?, text("Act I"));
    let mut tight = dictionary([(0x6000, number()), (0x6001, number())])?;
    assert_eq!(tight.restore_from(0x6000, 0x6FFF, &store), Err(Refusal::TooLong));
    assert_eq!(tight.read_u8(0x6000, 0)?, 7);
    assert_eq!(tight.restore_from(0x6FFF, 0x6000, &store), Ok(()));
    Ok(())
}

#[test]
fn a_store_without_an_image_keeps_nothing() -> Result<(), Refusal> {
    let mut dictionary = storable()?;
    let before = dictionary.read_u16(0x6000, 0)?;
    for store in [&[][..], &[1, 0], &[0xFF; 64]] {
        dictionary.restore_from(0x0000, 0xFFFF, store)?;
        assert_eq!(dictionary.read_u16(0x6000, 0)?, before);
        assert_eq!(dictionary.read_str(0x6002, 1)?, "!");
    }
    Ok(())
}
