//! Explaining an element.

use crate::rig::{channel, maps, rig, text, variable};
use loomfinch::{Fault, ObjectValue, Refusal, Target, ValueType};

#[test]
fn an_element_in_order_is_explained_too() -> Result<(), Refusal> {
    let explanation = rig(16)?.explain(0, 2)?;
    let (entry, target) = explanation.mapped.expect("a mapping word");
    assert_eq!((explanation.element, explanation.fault), (2, None));
    let wanted = "element 2 maps 4 bytes onto 6200h/3, an Unsigned32 of 4 bytes";
    assert_eq!(explanation.to_string(), wanted);
    assert_eq!(explanation.element_type, ValueType::Unsigned64);
    assert_eq!((entry.index, entry.sub_index, entry.field()), (0x6200, 3, Some(2..6)));
    assert_eq!(target, Target::Fixed { value_type: ValueType::Unsigned32, size: 4 });
    Ok(())
}

#[test]
fn each_element_has_its_sentence() -> Result<(), Refusal> {
    let mut dictionary = channel([
        maps(32, 0, 0, 0x6000),
        ObjectValue::Unsigned32(0),
        maps(1, 4, 0, 0x6000),
        maps(24, 8, 0, 0x1200),
        maps(16, 0, 1, 0x6000),
        maps(16, 0, 0, 0x7000),
        maps(8, 0, 0, 0x6200),
        maps(40, 0, 0, 0x2000),
        maps(24, 0, 0, 0x2001),
    ])?;
    dictionary.insert(0x2000, variable(text("")).with_rooms([4]))?;
    let units = ObjectValue::UnicodeString(vec![0x41; 2]);
    dictionary.insert(0x2001, variable(units))?;
    for (element, (fault, sentence)) in (1..).zip([
        (Fault::WrongLength, "maps 4 bytes onto 6000h/0, an Unsigned16 of 2 bytes"),
        (Fault::NotMapping, "is an Unsigned32 and no mapping word"),
        (Fault::Misaligned, "maps 1 bit from bit 4 on onto 6000h/0, an Unsigned16 of 2 bytes"),
        (Fault::HandOff, "maps 3 bytes onto 1200h/0, which is handed to SDO"),
        (Fault::NoTarget, "maps 2 bytes onto 6000h/1, a sub-index that the object does not have"),
        (Fault::NoTarget, "maps 2 bytes onto 7000h/0, where there is no object"),
        (Fault::CountTarget, "maps 1 byte onto 6200h/0, a list's count"),
        (Fault::WrongLength, "maps 5 bytes onto 2000h/0, a VisibleString with room for 4 bytes"),
        (Fault::WrongLength, "maps 3 bytes onto 2001h/0, a UnicodeString with room for 4 bytes"),
    ]) {
        let explanation = dictionary.explain(0, element)?;
        assert_eq!(explanation.fault, Some(fault));
        assert_eq!(explanation.to_string(), format!("element {element} {sentence}: {fault}"));
    }
    Ok(())
}

#[test]
fn what_is_no_element_is_refused() -> Result<(), Refusal> {
    let rig = rig(16)?;
    assert_eq!(rig.explain(1, 1), Err(Refusal::ObjectNotFound));
    assert_eq!(rig.explain(0, 0), Err(Refusal::SubObjectNotFound));
    assert_eq!(rig.explain(0, 3), Err(Refusal::SubObjectNotFound));
    Ok(())
}
