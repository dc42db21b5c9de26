//! The editions of the mapping rules.

/// The edition of the mapping rules that a dictionary follows, for good. It says what becomes of a count that is written to sub-index 0
/// of a mapping, which is an Array or a Record at 1600h to 16FFh or 1A00h to 1AFFh.
///
/// ```
/// use loomfinch::{
///     Capacity, Checked, Dictionary, Edition, NodeId, Object, ObjectEntry, ObjectValue, PDOVersion, PdoMappingEntry,
/// };
///
/// let mut rig = Dictionary::with_edition(Capacity::MOST, Edition::Two);
/// // Channel 0 takes two times from node 5, of which the second has no object here.
/// rig.insert(0x1400, ObjectEntry::new(Object::Record(vec![ObjectValue::Unsigned8(5)])))?;
/// let time = |index, offset_bits| PdoMappingEntry { index, sub_index: 0, offset_bits, length_bits: 16 };
/// let mapping = [time(0x6000, 0), time(0x6001, 16)].map(|entry| entry.to_u64().into());
/// rig.insert(0x1600, ObjectEntry::new(Object::Array(mapping.into())))?;
/// rig.insert(0x6000, ObjectEntry::new(Object::Variable(0_u16.into())))?;
/// assert_eq!(rig.check(0)?.to_string(), "NoTarget at element 2");
///
/// // With a count of 1 the second is not in use; a count of 0 turns the channel off.
/// rig.write(0x1600, 0, 1_u8.into())?;
/// assert_eq!((rig.read_u8(0x1600, 0)?, rig.check(0)?), (1, Checked::Pass));
/// assert!(rig.consume_pdo_payload(NodeId(5), &[0xC4, 0x09], PDOVersion(0), true)?.is_empty());
/// assert_eq!(rig.read_u16(0x6000, 0)?, 2_500);
/// rig.write(0x1600, 0, 0_u8.into())?;
/// assert_eq!(rig.check(0)?, Checked::NoList);
/// # Ok::<(), loomfinch::Refusal>(())
/// ```
#[derive(Debug, Clone, Copy, Default, PartialEq, Eq, Hash)]
#[non_exhaustive]
#[repr(u8)]
pub enum Edition {
    /// The count is judged and not kept: all elements are in use, as powerlink-rs has it.
    #[default]
    One = 1,
    /// The count is kept and read back, as new drives expect it: the first elements, so many, are in use, and 0 turns the mapping
    /// off. The others stay values that are read, written, saved and restored. Only a write sets the count: payloads and restores
    /// leave it. A field that is too short for its value sets the sender's bit in 1C81h.
    Two = 2,
}

impl Edition {
    /// The number of the edition, 1 or 2.
    pub fn number(self) -> u8 {
        self as u8
    }

    /// The edition of a number, or none.
    pub fn from_number(number: u8) -> Option<Self> {
        match number {
            1 => Some(Edition::One),
            2 => Some(Edition::Two),
            _ => None,
        }
    }
}
