//! Doors to what the dictionary opens to its own crate only.

use crate::PowerlinkError;
use crate::od::{Object, ObjectDictionary, ObjectValue};

// The dictionary keeps this module to itself, so that the unchanged file is
// compiled once more; what it takes from `super` is imported above.
#[path = "od/pdo_validator.rs"]
mod pdo_validator;

pub use pdo_validator::validate_pdo_mapping;

pub fn write_internal(
    od: &mut ObjectDictionary,
    index: u16,
    sub_index: u8,
    value: ObjectValue,
    check_access: bool,
) -> Result<(), PowerlinkError> {
    od.write_internal(index, sub_index, value, check_access)
}

pub fn increment_counter(od: &mut ObjectDictionary, index: u16, sub_index: u8) {
    od.increment_counter(index, sub_index);
}
