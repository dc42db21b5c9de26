//! Which part of its rule gave an answer of `write` or of the count check: RULES.md 8 to 10 on the
//! plain objects, as they are before the call. It says only what is counted, and decides nothing.

use super::layout::{
    ARRAY, LARGEST_ROOM, Object, RESTORE_DEFAULTS, STORE_PARAMETERS, VARIABLE, Value, element,
    is_mapping, is_string,
};
use super::step::Write;
use crate::fault::Fault;
use crate::original::VISIBLE_STRING;
use crate::sorts;

const DONE: u64 = 0;
const OBJECT_NOT_FOUND: u64 = 3;
const SUB_OBJECT_NOT_FOUND: u64 = 4;
const TYPE_MISMATCH: u64 = 5;
const READ_ONLY: u64 = 6;
const BAD_SIGNATURE: u64 = 7;
const NO_STORAGE: u64 = 8;
const COUNT_NOT_WRITABLE: u64 = 9;
const MISSING_ENTRIES: u64 = 10;
const PDO_MAP_OVERRUN: u64 = 11;

const UNSIGNED8: u64 = 5;
const UNSIGNED16: u64 = 6;

/// The access that is ReadOnly; the other that forbids writing is Constant.
const READ_ONLY_ACCESS: u64 = 0;

const LIMITS: u64 = 0x1F98;

fn find(objects: &[Object], index: u64) -> Option<&Object> {
    objects.iter().find(|object| object.index == index)
}

/// Of BadValue, by what decoding makes of the data and the part of R3.4 that it breaks.
pub fn of_bad_value(given: &Write, fault: Option<Fault>, rule: &'static str) -> &'static str {
    match fault {
        Some(fault) => sorts::name(fault, &given.data),
        None if rule == "byte count" => "too many bytes",
        None => rule,
    }
}

/// Where BadValue came with numbers: it is judged before the place.
pub fn of_numbers(objects: &[Object], given: &Write) -> &'static str {
    let object = find(objects, given.index.into());
    let is_there = object.is_some_and(|object| element(object, given.sub_index).is_some());
    match given.index {
        STORE_PARAMETERS => "numbers at 1010h",
        RESTORE_DEFAULTS => "numbers at 1011h",
        index if is_mapping(index) && given.sub_index == 0 => "numbers for a mapping's count",
        _ if given.data.len() > LARGEST_ROOM => "numbers for what no room holds",
        _ if is_there => "numbers where a value is",
        _ => "numbers where no value is",
    }
}

/// Of a refusal by the Rust, of a value that keeps R3.4.
pub fn of_refusal(objects: &[Object], given: &Write, refusal: u64) -> Option<&'static str> {
    let object = find(objects, given.index.into());
    let is_variable = object.is_some_and(|object| object.shape == VARIABLE);
    Some(match refusal {
        BAD_SIGNATURE => signature(given),
        NO_STORAGE if given.index == STORE_PARAMETERS => "1010h",
        NO_STORAGE => "1011h",
        _ if is_mapping(given.index) && given.sub_index == 0 => {
            return of_count_refusal(objects, given, refusal);
        }
        OBJECT_NOT_FOUND => "a value",
        READ_ONLY if object?.access == READ_ONLY_ACCESS => "ReadOnly",
        READ_ONLY => "Constant",
        SUB_OBJECT_NOT_FOUND if is_variable => "a Variable's",
        SUB_OBJECT_NOT_FOUND => "behind a list's end",
        COUNT_NOT_WRITABLE if given.kind == UNSIGNED8 => "an Unsigned8",
        COUNT_NOT_WRITABLE => "another type",
        TYPE_MISMATCH if is_variable => "a Variable's",
        TYPE_MISMATCH => "an element's",
        _ => return None,
    })
}

/// R8.2.
fn signature(given: &Write) -> &'static str {
    let is_save = given.index == STORE_PARAMETERS;
    let right: &[u8] = if is_save { b"save" } else { b"load" };
    match (is_save, given.kind == VISIBLE_STRING, given.data == right) {
        (true, false, _) => "1010h, no VisibleString",
        (true, true, false) => "1010h, another text",
        (true, true, true) => "1010h, sub-index 0",
        (false, false, _) => "1011h, no VisibleString",
        (false, true, false) => "1011h, another text",
        (false, true, true) => "1011h, sub-index 0",
    }
}

/// Of a write to a mapping's sub-index 0.
fn of_count_refusal(objects: &[Object], given: &Write, refusal: u64) -> Option<&'static str> {
    Some(match refusal {
        TYPE_MISMATCH if given.kind != UNSIGNED8 => "a count of another type",
        TYPE_MISMATCH => "a Variable's count",
        READ_ONLY => "a mapping's count",
        OBJECT_NOT_FOUND if given.data == [0] => "a count of 0",
        _ => return of_count(objects, given.index, given.data[0], refusal),
    })
}

/// Of the count check, also within a write.
pub fn of_count(objects: &[Object], index: u16, count: u8, answer: u64) -> Option<&'static str> {
    let mapping = find(objects, index.into());
    let elements = mapping.map_or(0, |mapping| mapping.values.len());
    Some(match answer {
        DONE if !is_mapping(index) => "no mapping",
        DONE if count == 0 => "a count of 0",
        OBJECT_NOT_FOUND => match mapping.map(|mapping| mapping.shape) {
            None => "a count of what is not there",
            Some(VARIABLE) => "a count of a Variable",
            Some(_) => "a count of a Record",
        },
        MISSING_ENTRIES if usize::from(count) > elements => "too few elements",
        MISSING_ENTRIES => "an element of another type",
        DONE | PDO_MAP_OVERRUN => limit(objects, index),
        _ => return None,
    })
}

/// R9.3: which limit a mapping is held against.
fn limit(objects: &[Object], index: u16) -> &'static str {
    let is_sent = index >= 0x1A00;
    let element = if is_sent { 0 } else { 1 };
    let limits = find(objects, LIMITS).filter(|limits| limits.shape != VARIABLE);
    let there = limits.and_then(|limits| limits.values.get(element));
    match there {
        Some(Value { kind: UNSIGNED16, .. }) if is_sent => "the limit 1F98h/1",
        Some(Value { kind: UNSIGNED16, .. }) => "the limit 1F98h/2",
        _ => "the limit of 1,490 bytes",
    }
}

/// Of a value that was put, or a count that was accepted and not kept (R9.5).
pub fn of_put(object: &Object, given: &Write) -> &'static str {
    let is_count = is_mapping(given.index) && given.sub_index == 0;
    match object.shape {
        VARIABLE if is_count => "a Variable's count put",
        ARRAY if is_count => "an Array's count accepted",
        _ if is_count => "a Record's count accepted",
        _ if is_string(given.kind) => "a string put",
        _ => "a number put",
    }
}

/// Of a save of the list that the sub-index names (R10.1).
pub fn of_save(list: u8, is_empty: bool) -> &'static str {
    match list {
        1..=3 if is_empty => "a list without a value saved",
        1 => "list 1 saved",
        2 => "list 2 saved",
        3 => "list 3 saved",
        _ => "another list saved",
    }
}
