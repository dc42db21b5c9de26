//! Which elements of a mapping are in use, by the edition of the mapping rules (RULES.md R5.15).
//! Written from the rules alone.

use super::layout::{Object, VARIABLE, Value, element, is_mapping};
use super::running::row;

pub const FIRST: u64 = 1;
pub const SECOND: u64 = 2;

/// Whether the object's kept count is looked at.
pub fn is_counted(edition: u64, object: &Object) -> bool {
    edition == SECOND && object.shape != VARIABLE && is_mapping(object.index as u16)
}

/// A Variable's value, or a list's elements up to its kept count where that is looked at.
pub fn in_use(edition: u64, object: &Object) -> &[Value] {
    match is_counted(edition, object) {
        true => &object.values[..object.kept_count() as usize],
        false => &object.values,
    }
}

/// The object without the elements that are not in use, as the Rust is given it.
pub fn cut(edition: u64, object: &Object) -> Object {
    let values = in_use(edition, object).to_vec();
    Object { values, kept: None, ..object.clone() }
}

/// The row and the place of the element at an index and sub-index, where it is not in use.
pub fn unused(
    edition: u64,
    objects: &[Object],
    index: u16,
    sub_index: u8,
) -> Option<(usize, usize)> {
    let row = row(objects, index)?;
    let place = element(&objects[row], sub_index)?;
    (place >= in_use(edition, &objects[row]).len()).then_some((row, place))
}
