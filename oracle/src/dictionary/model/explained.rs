//! What explaining an element must give: RULES.md R12.14 and R12.15 on the plain objects, written
//! from the rules alone. What the check says of the element is told from the other numbers, and
//! only the faults' numbers are those of checked.rs.

use super::answers::answer_name;
use super::checked::{COUNT_TARGET, HAND_OFF, MISALIGNED, NO_TARGET, NOT_MAPPING, WRONG_LENGTH};
use super::layout::{Object, VARIABLE, Value, element, is_string};
use super::running::{Word, row};
use super::sound::{Dictionary, Done, Refused};
use super::step::{Call, Outcome};
use crate::original::{BUFFER_TOO_SHORT, UNICODE_STRING, size};

/// The numbers of an explanation.
pub const NUMBERS: usize = 11;

const OBJECT_NOT_FOUND: u64 = 3;
const SUB_OBJECT_NOT_FOUND: u64 = 4;

const UNSIGNED8: u64 = 5;
const UNSIGNED64: u64 = 8;

/// What is at an element's place, and the names of these for the tally.
const NO_OBJECT: u64 = 0;
const NO_SUB_OBJECT: u64 = 1;
const A_COUNT: u64 = 2;
const A_VALUE: u64 = 3;
pub const THERE: [&str; 4] =
    ["no object there", "no sub-index there", "a count there", "a value there"];

/// What is noted of elements that are not in use.
pub const UNUSED: [&str; 2] = ["a right element behind the count", "a fault behind the count"];

/// Numbers of the faults that name an element, and 0 for none.
pub const VERDICTS: [u64; 7] =
    [0, NOT_MAPPING, MISALIGNED, HAND_OFF, NO_TARGET, COUNT_TARGET, WRONG_LENGTH];

impl Dictionary {
    pub fn explain(
        &self,
        channel: u8,
        element: u8,
        room: usize,
        notes: &mut Vec<&'static str>,
    ) -> Result<Done, Refused> {
        let value = listed(&self.objects, channel, element)?;
        if room < NUMBERS {
            return Err((BUFFER_TOO_SHORT, Some(if room == 0 { "none" } else { "too few" })));
        }
        let numbers = match value.kind {
            UNSIGNED64 => of_word(&self.objects, value.word),
            kind => [NOT_MAPPING, kind, 0, 0, 0, 0, 0, 0, 0, 0, 0],
        };
        if value.kind == UNSIGNED64 {
            notes.push(THERE[numbers[8] as usize]);
        }
        notes.push(if room == NUMBERS { "just enough lent" } else { "more lent" });
        let unused = self.unused(0x1600 + u16::from(channel), element);
        notes.extend(unused.map(|_| if numbers[0] == 0 { UNUSED[0] } else { UNUSED[1] }));
        let cause = Some(verdict_name(numbers[0]));
        Ok(Done { numbers: numbers.into(), cause, ..Done::default() })
    }
}

/// An element of a channel's list.
fn listed(objects: &[Object], channel: u8, element: u8) -> Result<&Value, Refused> {
    let list = row(objects, 0x1600 + u16::from(channel)).map(|row| &objects[row]);
    let list = list.ok_or((OBJECT_NOT_FOUND, Some("no mapping")))?;
    if list.shape == VARIABLE {
        return Err((OBJECT_NOT_FOUND, Some("a Variable")));
    }
    let place = usize::from(element).checked_sub(1);
    let place = place.ok_or((SUB_OBJECT_NOT_FOUND, Some("element 0")))?;
    let behind = if element == u8::MAX { "element 255" } else { "behind the last" };
    list.values.get(place).ok_or((SUB_OBJECT_NOT_FOUND, Some(behind)))
}

fn of_word(objects: &[Object], word: u64) -> [u64; NUMBERS] {
    let word = Word::of(0, word);
    let [offset, length] = [word.start as u64, word.length as u64];
    let [first, bytes] = if word.is_aligned() { [offset / 8, length / 8] } else { [0, 0] };
    let [there, kind, holds] = target(objects, word.index, word.sub_index);
    let said = match word.index {
        _ if !word.is_aligned() => MISALIGNED,
        0x1200..=0x12FF => HAND_OFF,
        _ => match there {
            NO_OBJECT | NO_SUB_OBJECT => NO_TARGET,
            A_COUNT => COUNT_TARGET,
            _ if fits(kind, holds, bytes) => 0,
            _ => WRONG_LENGTH,
        },
    };
    let (index, sub_index) = (word.index.into(), word.sub_index.into());
    [said, UNSIGNED64, index, sub_index, offset, length, first, bytes, there, kind, holds]
}

/// What is there, its type, and how many bytes it holds.
fn target(objects: &[Object], index: u16, sub_index: u8) -> [u64; 3] {
    let Some(row) = row(objects, index) else {
        return [NO_OBJECT, 0, 0];
    };
    let object = &objects[row];
    if object.shape != VARIABLE && sub_index == 0 {
        return [A_COUNT, UNSIGNED8, 1];
    }
    match element(object, sub_index).map(|place| &object.values[place]) {
        Some(Value { kind, room, .. }) => {
            [A_VALUE, *kind, size(*kind).unwrap_or(room.len()) as u64]
        }
        None => [NO_SUB_OBJECT, 0, 0],
    }
}

/// Whether a field of so many bytes is right for what holds so many.
fn fits(kind: u64, holds: u64, bytes: u64) -> bool {
    match is_string(kind) {
        true => bytes <= holds && (kind != UNICODE_STRING || bytes.is_multiple_of(2)),
        false => bytes == holds,
    }
}

pub fn verdict_name(verdict: u64) -> &'static str {
    if verdict == 0 { "no fault" } else { answer_name(verdict) }
}

/// The channel that was checked last, the element that this named, and its fault; none once
/// memory may have changed.
#[derive(Default)]
pub struct Named(Option<(u8, u8, u64)>);

impl Named {
    pub fn element(&self) -> Option<u8> {
        self.0.map(|(_, element, _)| element)
    }

    /// After each call. Explaining the element that a check named must say the check's fault, which
    /// is noted.
    pub fn follow(&mut self, call: &Call, outcome: &Outcome, notes: &mut Vec<&'static str>) {
        let Outcome { answer, numbers, .. } = outcome;
        match (call, self.0) {
            (Call::Check(channel), _) => {
                let names = VERDICTS[1..].contains(answer);
                self.0 = names.then(|| (*channel, numbers[0] as u8, *answer));
            }
            (Call::Explain { channel, element, .. }, Some((checked, named, fault)))
                if *answer == 0 && (*channel, *element) == (checked, named) =>
            {
                assert_eq!(numbers[0], fault, "the check and the explanation say the same");
                notes.push(answer_name(fault));
            }
            _ if call.writes() => self.0 = None,
            _ => {}
        }
    }
}
