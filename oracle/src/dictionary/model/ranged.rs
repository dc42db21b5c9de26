//! Which writes an object's range refuses, and which values lie outside theirs. The Rust has no such
//! refusal, and is not given such a write; no other call looks at a range.

use super::layout::{
    Object, RESTORE_DEFAULTS, STORE_PARAMETERS, VARIABLE, Value, element, is_mapping,
};
use super::range::{Lies, Range};
use super::sound::{Dictionary, Refused};
use super::step::Write;

const OUT_OF_RANGE: u64 = 21;
const UNSIGNED8: u64 = 5;

/// ReadOnly and Constant.
const UNWRITABLE: [u64; 2] = [0, 5];

/// Why a write was refused, by the type of the range.
pub const BELOW: [&str; 8] = [
    "below, Integer8",
    "below, Integer16",
    "below, Integer32",
    "below, Integer64",
    "below, Unsigned8",
    "below, Unsigned16",
    "below, Unsigned32",
    "below, Unsigned64",
];
pub const ABOVE: [&str; 8] = [
    "above, Integer8",
    "above, Integer16",
    "above, Integer32",
    "above, Integer64",
    "above, Unsigned8",
    "above, Unsigned16",
    "above, Unsigned32",
    "above, Unsigned64",
];

/// What a call notes that leaves a value outside its range.
pub const LEFT_OUTSIDE: &str = "a value left outside its range";

/// A value outside its range: its index, its place and its word.
pub type Outside = (u64, usize, u64);

impl Dictionary {
    /// The refusal of a write whose value keeps R3.4, where its object's range forbids it.
    pub fn out_of_range(&self, given: &Write, notes: &mut Vec<&'static str>) -> Option<Refused> {
        let object = self.objects.iter().find(|object| object.index == given.index.into())?;
        if object.range == Range::NONE {
            return None;
        }
        let word = Value::new(given.kind, given.data.len(), &given.data).word;
        let lies = object.range.where_lies(given.kind, word);
        if let Some(reason) = unasked(object, given) {
            // Only where the range would have refused it does the order of the two tell.
            notes.extend(lies.filter(|lies| lies.is_outside()).map(|_| reason));
            return None;
        }
        let place = element(object, given.sub_index)?;
        if self.retyped.contains(&(object.index, place)) {
            notes.push(of_retyped(lies));
        }
        let Some(lies) = lies else {
            notes.push("a range of another type");
            return None;
        };
        notes.push(lies.name());
        if object.shape != VARIABLE {
            notes.push(if lies.is_outside() { "an element outside" } else { "an element within" });
        }
        if is_mapping(given.index) && given.sub_index == 0 && lies.is_outside() {
            notes.push("a Variable's count of 0 outside");
        }
        let causes = if lies == Lies::Below { BELOW } else { ABOVE };
        lies.is_outside().then(|| (OUT_OF_RANGE, Some(causes[given.kind as usize - 1])))
    }

    /// Every value that lies outside its object's range.
    pub fn outside(&self) -> Vec<Outside> {
        let ranged = self.objects.iter().filter(|object| object.range != Range::NONE);
        let values = ranged.flat_map(|object| {
            let places = object.values.iter().enumerate();
            places.map(move |(place, value)| (object, place, value))
        });
        let outside = values.filter(|(object, _, value)| {
            object.range.where_lies(value.kind, value.word).is_some_and(Lies::is_outside)
        });
        outside.map(|(object, place, value)| (object.index, place, value.word)).collect()
    }
}

/// What comes before the range in judging a write at an object that is there.
fn unasked(object: &Object, given: &Write) -> Option<&'static str> {
    let is_count = is_mapping(given.index) && given.sub_index == 0;
    let there = element(object, given.sub_index).map(|place| object.values[place].kind);
    match there {
        _ if matches!(given.index, STORE_PARAMETERS | RESTORE_DEFAULTS) => {
            Some("not asked at 1010h and 1011h")
        }
        _ if is_count && given.kind != UNSIGNED8 => Some("not asked before a count's type"),
        _ if is_count && given.data != [0] => Some("not asked before the count check"),
        _ if UNWRITABLE.contains(&object.access) => Some("not asked before ReadOnly"),
        None if given.sub_index == 0 => Some("not asked of a list's count"),
        None => Some("not asked of what is not there"),
        Some(kind) if kind != given.kind => Some("not asked before TypeMismatch"),
        Some(_) => None,
    }
}

fn of_retyped(lies: Option<Lies>) -> &'static str {
    match lies {
        None => "a range of the type before a restore",
        Some(lies) if lies.is_outside() => "outside, the type a restore's",
        Some(_) => "within, the type a restore's",
    }
}

/// Every note of a write that a run must reach.
pub const NOTES: [&str; 22] = [
    "not asked at 1010h and 1011h",
    "not asked before a count's type",
    "not asked before the count check",
    "not asked before ReadOnly",
    "not asked of a list's count",
    "not asked of what is not there",
    "not asked before TypeMismatch",
    "a range of another type",
    "a range of the type before a restore",
    "outside, the type a restore's",
    "within, the type a restore's",
    "an element outside",
    "an element within",
    "a Variable's count of 0 outside",
    "below the range",
    "above the range",
    "at the range's only number",
    "at the range's lower end",
    "at the range's upper end",
    "just above the lower end",
    "just below the upper end",
    "amid the range",
];
