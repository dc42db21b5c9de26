//! Dictionaries over many calls, and in other threads.

use crate::rig::{rig, text, variable, NODE, VERSION};
use loomfinch::{Capacity, Checked, Dictionary, Events, ObjectValue, Refusal};
use std::thread;

#[test]
fn a_dictionary_outlives_many_calls() -> Result<(), Refusal> {
    let mut rig = rig(16)?;
    rig.insert(0x2100, variable(ObjectValue::Unsigned32(0)))?;
    for time in 0..500_u16 {
        let [low, high] = time.to_le_bytes();
        let payload = [low, high, low, high, 0, 0];
        assert_eq!(rig.consume_pdo_payload(NODE, &payload, VERSION, true)?.len(), 0);
        rig.increment_counter(0x2100, 0)?;
        assert_eq!(rig.read_u16(0x6000, 0)?, time);
        assert_eq!(rig.read_u32(0x6200, 3)?, u32::from(time));
    }
    assert_eq!(rig.read_u32(0x2100, 0)?, 500);
    assert_eq!(rig.check(0)?, Checked::Pass);
    Ok(())
}

#[test]
fn a_dictionary_grows_to_its_bounds() -> Result<(), Refusal> {
    let mut dictionary = Dictionary::new(Capacity { objects: 300, values: 300, bytes: 3_000 });
    for index in (0..300).rev() {
        let name = format!("{index}");
        dictionary.insert(index, variable(text(&name)).with_rooms([4]).with_name(&name))?;
    }
    assert_eq!(dictionary.insert(300, variable(text(""))), Err(Refusal::Full));
    for index in 0..300 {
        assert_eq!(dictionary.read_str(index, 0)?, index.to_string());
    }
    assert_eq!(dictionary.find_by_name("299")?, 299);
    Ok(())
}

#[test]
fn a_clone_is_a_dictionary_of_its_own() -> Result<(), Refusal> {
    let mut rig = rig(16)?;
    let before = rig.clone();
    rig.write(0x6000, 0, ObjectValue::Unsigned16(1))?;
    assert_eq!((before.read_u16(0x6000, 0)?, rig.read_u16(0x6000, 0)?), (0, 1));
    let again = Dictionary::from_parts(rig.into_parts());
    assert_eq!(again.read_u16(0x6000, 0)?, 1);
    Ok(())
}

#[test]
fn dictionaries_are_used_in_threads() -> Result<(), Refusal> {
    fn is_send_and_sync<T: Send + Sync>() {}
    is_send_and_sync::<Dictionary>();
    is_send_and_sync::<Events>();
    let threads: Vec<_> = (0..4_u16)
        .map(|number| {
            let mut rig = rig(16)?;
            Ok(thread::spawn(move || {
                for round in 0..25 {
                    rig.write(0x6000, 0, ObjectValue::Unsigned16(100 * number + round))?;
                }
                rig.read_u16(0x6000, 0)
            }))
        })
        .collect::<Result<_, Refusal>>()?;
    for (number, thread) in threads.into_iter().enumerate() {
        assert_eq!(thread.join().expect("no panic"), Ok(100 * number as u16 + 24));
    }
    Ok(())
}

#[test]
fn a_dictionary_shows_what_it_uses() -> Result<(), Refusal> {
    let shown = format!("{:?}", rig(16)?);
    assert!(shown.starts_with("Dictionary { used: Capacity { objects: 6,"), "{shown}");
    Ok(())
}
