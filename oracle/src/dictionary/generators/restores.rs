//! Random ranges to restore.

use crate::dictionary::model::layout::Object;
use crate::dictionary::model::step::Call;
use crate::random::Random;

/// What ResetCommunication and ResetApplication restore, and the ends.
const RANGES: [(u16, u16); 6] = [
    (0x1000, 0x1FFF),
    (0x6000, 0x9FFF),
    (0x0000, 0x0FFF),
    (0x2000, 0x5FFF),
    (0, 0),
    (0xFFFF, 0xFFFF),
];

const AROUND_THE_ERROR_HISTORY: [(u16, u16); 7] = [
    (0x1003, 0x1003),
    (0x1000, 0x1003),
    (0x1003, 0x1FFF),
    (0x1002, 0x1004),
    (0x1004, 0xFFFF),
    (0, 0x1002),
    (0x1004, 0x1002),
];

pub fn range(first: u16, last: u16) -> Call {
    Call::RestorePowerOnValues { first, last }
}

pub fn everything() -> Call {
    range(0, 0xFFFF)
}

/// Everything, one object, from one object to another, just beside one, or any range.
pub fn any(random: &mut Random, objects: &[Object]) -> Call {
    let mut index = || match objects.len() {
        0 => random.word() as u16,
        count => objects[random.below(count)].index as u16,
    };
    let [one, other] = [index(), index()];
    let (low, high) = (one.min(other), one.max(other));
    let (first, last) = match random.below(16) {
        0..=4 => (0, 0xFFFF),
        5 => (one, one),
        6 => (low, high),
        7 => (low.saturating_add(1), high),
        8 => (low, high.saturating_sub(1)),
        9 => (0, one),
        10 => (one, 0xFFFF),
        // Nothing, most times.
        11 => (high, low),
        12 => random.pick(&AROUND_THE_ERROR_HISTORY),
        13 | 14 => random.pick(&RANGES),
        _ => (random.word() as u16, random.word() as u16),
    };
    range(first, last)
}
