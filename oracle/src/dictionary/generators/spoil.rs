//! Insertions with one thing wrong.

use super::objects;
use crate::dictionary::model::insertion::Insertion;
use crate::dictionary::model::layout::*;
use crate::inputs::{damaged, text};
use crate::random::Random;

/// Numbers past a bound, some of which would be within it if they were cut to fewer bits.
fn past(random: &mut Random, bound: u64) -> u64 {
    let far = [bound + 1, bound + 2, 255, 1 << 16, 1 << 32, (1 << 32) + bound, 1 << 63, u64::MAX];
    random.pick(&far).max(bound + 1)
}

const WAYS: usize = 18;

/// Most ways break a rule; where one does not apply the insertion may stay right.
pub fn spoil(random: &mut Random, given: &mut Insertion) {
    let values = given.numbers.len() / 3;
    match random.below(WAYS) {
        0 => given.shape = past(random, LAST_SHAPE),
        1 => given.access = past(random, NO_ACCESS),
        2 => given.has_default = past(random, 1),
        3 => given.has_default ^= 1,
        4 => given.name = text(random, LONGEST_NAME + 1),
        5 => given.name = damaged(random, &given.name),
        6 => drop(given.numbers.pop()),
        7 => given.numbers.push(0),
        8 => given.encodings.push(0),
        9 => drop(given.encodings.pop()),
        10 => given.shape = random.word() % (LAST_SHAPE + 1),
        11 => elements(random, given),
        12 if values >= 2 => wrap(random, given),
        way if values > 0 => {
            let place = 3 * random.below(values);
            number(random, given, place, way);
        }
        _ => given.numbers.push(3),
    }
}

/// One of the numbers of one value.
fn number(random: &mut Random, given: &mut Insertion, place: usize, way: usize) {
    match way {
        13 => given.numbers[place] = past(random, LAST_KIND),
        14 => given.numbers[place] = random.word() % (LAST_KIND + 1),
        15 => {
            let room = given.numbers[place + 1];
            let past = past(random, LARGEST_ROOM as u64);
            given.numbers[place + 1] = random.pick(&[past, room.wrapping_sub(1), room + 1]);
        }
        // Another count alone, so that the bytes behind are taken for other values'.
        16 => {
            let count = given.numbers[place + 2];
            let all = given.encodings.len() as u64;
            given.numbers[place + 2] = random.pick(&[count.wrapping_sub(1), count + 1, all]);
        }
        _ => bytes(random, given, place),
    }
}

/// The bytes of one value: damaged, shorter or longer, with the count that belongs to them.
fn bytes(random: &mut Random, given: &mut Insertion, place: usize) {
    let before = given.numbers[..place].chunks(3).map(|value| value[2] as usize).sum::<usize>();
    let count = given.numbers[place + 2] as usize;
    let old = &given.encodings[before..before + count];
    let new = match random.below(4) {
        0 => text(random, LARGEST_ROOM + 1),
        1 => old[..count / 2].to_vec(),
        _ => damaged(random, old),
    };
    given.numbers[place + 2] = new.len() as u64;
    if random.below(2) == 0 {
        // A room that would do, so that the bytes alone decide.
        given.numbers[place + 1] = given.numbers[place + 1].max(new.len() as u64);
    }
    given.encodings.splice(before..before + count, new);
}

/// Byte counts whose sum is right only where it is cut to 64 bits.
fn wrap(random: &mut Random, given: &mut Insertion) {
    let far = random.pick(&[1 << 63, u64::MAX, 1 << 32]);
    given.numbers[2] = given.numbers[2].wrapping_add(far);
    given.numbers[5] = given.numbers[5].wrapping_sub(far);
}

/// Another number of elements: all of them numbers without a room.
fn elements(random: &mut Random, given: &mut Insertion) {
    let count = random.pick(&[0, 2, MOST_ELEMENTS, MOST_ELEMENTS + 1, MOST_ELEMENTS + 2, 1000]);
    given.shape = random.word() % (LAST_SHAPE + 1);
    given.has_default = 0;
    given.numbers = [objects::UNSIGNED32, 0, 4].repeat(count);
    given.encodings = random.bytes(4 * count);
}
