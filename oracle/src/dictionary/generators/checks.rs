//! Random checks, and explanations of elements, on objects that have channels, or have none.

use crate::dictionary::model::checked::{LEAST_NUMBERS, named};
use crate::dictionary::model::explained::NUMBERS;
use crate::dictionary::model::layout::Object;
use crate::dictionary::model::step::Call;
use crate::random::Random;

/// A check, most times, or an explanation.
pub fn any(random: &mut Random, objects: &[Object]) -> Call {
    match random.below(3) {
        0 => {
            let channel = channel(random, objects);
            let elements = elements(random, objects, channel);
            let element = random.pick(&elements);
            explain(random, channel, element)
        }
        _ => check(random, objects),
    }
}

/// Of one channel, most times, or of all.
pub fn check(random: &mut Random, objects: &[Object]) -> Call {
    match random.below(16) {
        0..=2 => Call::CheckAll(LEAST_NUMBERS),
        3 => Call::CheckAll(random.pick(&[LEAST_NUMBERS + 1, 1000, LEAST_NUMBERS - 1, 0, 1])),
        _ => Call::Check(channel(random, objects)),
    }
}

/// One that has a record or a list, most times.
fn channel(random: &mut Random, objects: &[Object]) -> u8 {
    let of_channels = |index: u64| matches!(index, 0x1400..=0x14FF | 0x1600..=0x16FF);
    let channels = objects.iter().filter(|object| of_channels(object.index));
    let channels: Vec<u8> = channels.map(|object| object.index as u8).collect();
    let any = random.word() as u8;
    match random.below(8) {
        0 => random.pick(&[0, 1, 255, any]),
        _ if channels.is_empty() => any,
        _ => random.pick(&channels),
    }
}

/// With just enough numbers, more, or too few.
fn explain(random: &mut Random, channel: u8, element: u8) -> Call {
    let few = random.below(NUMBERS);
    let room = random.pick(&[NUMBERS, NUMBERS, NUMBERS, NUMBERS + 1, 40, NUMBERS - 1, few, 0]);
    Call::Explain { channel, element, room }
}

/// The one that a check names, the first ones, the last, the one behind it, those that no list has,
/// and any.
fn elements(random: &mut Random, objects: &[Object], channel: u8) -> Vec<u8> {
    let index = 0x1600 + u64::from(channel);
    let list = objects.iter().find(|object| object.index == index);
    let count = list.map_or(0, |list| list.values.len()) as u8;
    let any = random.below(usize::from(count) + 1) as u8;
    let named = named(objects, channel);
    named.into_iter().chain([1, 2, count, count.saturating_add(1), 0, u8::MAX, any]).collect()
}

/// Explanations of a channel's elements, the named one first.
pub fn explain_all(random: &mut Random, objects: &[Object], channel: u8) -> Vec<Call> {
    let elements = elements(random, objects, channel);
    elements.into_iter().map(|element| explain(random, channel, element)).collect()
}

/// Each call once.
pub fn each(random: &mut Random, objects: &[Object]) -> [Call; 3] {
    let room = random.pick(&[LEAST_NUMBERS, LEAST_NUMBERS, LEAST_NUMBERS - 1]);
    let channel = channel(random, objects);
    let element = elements(random, objects, channel)[0];
    [Call::Check(channel), Call::CheckAll(room), explain(random, channel, element)]
}
