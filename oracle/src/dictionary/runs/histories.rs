//! Histories of insertions and other calls, from small dictionaries to the largest.

use super::trial::Trial;
use crate::dictionary::generators::calls;
use crate::dictionary::generators::objects::{self, Pool, Sizes};
use crate::dictionary::generators::spoil::spoil;
use crate::dictionary::model::edition::FIRST;
use crate::dictionary::model::insertion::Insertion;
use crate::dictionary::model::layout::*;
use crate::dictionary::model::memory::Lent;
use crate::dictionary::model::step::{Call, History, Step};
use crate::original::{KINDS, size};
use crate::random::Random;

/// Memory beyond this is not needed by any of these.
const MOST_LENT: [usize; 4] = [12 * 1026, 3 * 6150, 6150, 32_800];

pub fn compare(trial: &mut Trial, random: &mut Random) {
    for _ in 0..10_000 {
        trial.compare(small(random, Sizes { longest: 12, elements: 5 }));
    }
    for _ in 0..400 {
        let sizes = random.pick(&LARGER);
        trial.compare(small(random, sizes));
    }
    for elements in [1, 2, 253, MOST_ELEMENTS] {
        trial.compare(all_nodes(elements));
    }
    for kind in 0..KINDS {
        trial.compare(wrong_encodings(random, kind));
    }
}

/// Long strings, or long lists, up to the most that one object may have.
const LARGER: [Sizes; 4] = [
    Sizes { longest: LARGEST_ROOM, elements: 3 },
    Sizes { longest: 300, elements: 20 },
    Sizes { longest: 4, elements: MOST_ELEMENTS - 1 },
    Sizes { longest: 1, elements: MOST_ELEMENTS },
];

fn call(call: Call) -> Step {
    Step::Call(call)
}

fn insert(given: Insertion) -> Step {
    call(Call::Insert(given))
}

/// Insertions in random order, right and wrong ones, with other calls between them.
fn small(random: &mut Random, sizes: Sizes) -> History {
    let pool = Pool::new(random, 10);
    let count = 1 + random.below(12);
    let objects: Vec<Object> = (0..count).map(|_| objects::object(random, &pool, sizes)).collect();
    let first = lent_for(random, &objects);
    let mut steps = Vec::new();
    if random.below(8) == 0 {
        steps.push(call(calls::any(random, &objects)));
    }
    steps.push(call(Call::New(FIRST)));
    for (inserted, object) in objects.iter().enumerate() {
        if random.below(3) == 0 {
            let mut given = Insertion::of(object);
            spoil(random, &mut given);
            steps.push(insert(given));
        }
        steps.push(insert(Insertion::of(object)));
        for _ in 0..random.below(5) {
            steps.push(call(calls::any(random, &objects[..=inserted])));
        }
        if random.below(40) == 0 {
            steps.push(call(Call::New(FIRST)));
        }
        if random.below(12) == 0 {
            steps.push(Step::Lend(lent_again(random, first)));
        }
    }
    steps.extend((0..10).map(|_| call(calls::any(random, &objects))));
    History { first, steps }
}

/// A list of nodes that are all configured, into just enough bytes, more and fewer.
fn all_nodes(elements: usize) -> History {
    let node = Value::new(objects::UNSIGNED32, 0, &[1, 0, 0, 0]);
    let list = bare(objects::CONFIGURED_NODES.into(), ARRAY, vec![node; elements]);
    let mut steps = vec![call(Call::New(FIRST)), insert(Insertion::of(&list))];
    for lent in [0, 1, elements - 1, elements, elements + 1, 300] {
        steps.push(call(Call::GetConfiguredCns(lent)));
    }
    let lengths = list.used().lengths();
    History { first: Lent { at_start: false, lengths, store: 0 }, steps }
}

/// Bytes that are no encoding of a type, as a value and as a default; for most strings there are none.
fn wrong_encodings(random: &mut Random, kind: u64) -> History {
    let lengths = match size(kind) {
        Some(size) => vec![0, size - 1, size + 1],
        None => vec![1, 3, 9],
    };
    let mut steps = vec![call(Call::New(FIRST))];
    for (index, length) in (0..).zip(lengths) {
        // No text begins with such a byte.
        let encodings = [vec![0xFF], random.bytes(length)].concat()[..length].to_vec();
        let room = if is_string(kind) { length as u64 } else { 0 };
        for (shape, has_default) in [(VARIABLE, 0), (ARRAY, 0), (ARRAY, 1)] {
            let (numbers, encodings) = (vec![kind, room, length as u64], encodings.clone());
            let given =
                Insertion { index, shape, has_default, numbers, encodings, ..Insertion::default() };
            steps.push(insert(given));
        }
    }
    let lengths = Used { objects: 3, values: 3, bytes: 13 }.lengths();
    History { first: Lent { at_start: random.below(2) == 0, lengths, store: 0 }, steps }
}

/// Room for just the first few objects: each slice exact, one short, or longer.
fn lent_for(random: &mut Random, objects: &[Object]) -> Lent {
    let mut fitting = objects[..1 + random.below(objects.len())].to_vec();
    fitting.sort_by_key(|object| object.index);
    fitting.dedup_by_key(|object| object.index);
    let exact = Used::of(&fitting).lengths();
    let lengths = match random.below(2) {
        // Enough for all of them, most times; memory that is lent costs time at each call.
        0 => Used::of(objects).lengths().map(|all| all + random.below(200)),
        _ => exact.map(|exact| match random.below(8) {
            0 => exact.saturating_sub(1),
            1 => exact + 1 + random.below(20),
            2 | 3 => exact + 400,
            _ => exact,
        }),
    };
    let lengths = std::array::from_fn(|slice| lengths[slice].min(MOST_LENT[slice]));
    Lent { at_start: random.below(2) == 0, lengths, store: 0 }
}

/// The same lengths on the other side of the guard, or a little more.
fn lent_again(random: &mut Random, first: Lent) -> Lent {
    let more = random.pick(&[0, 0, 12, 40]);
    let lengths = first.lengths.map(|length| length + more);
    Lent { at_start: !first.at_start, lengths, ..first }
}
