//! Histories of objects that have ranges, outside the domain of equality with the Rust: it is given
//! the same objects without their ranges, and each write that no range refuses.

use super::consumed;
use super::malice;
use super::trial::Trial;
use crate::dictionary::generators::breakage;
use crate::dictionary::generators::calls;
use crate::dictionary::generators::channels;
use crate::dictionary::generators::checks;
use crate::dictionary::generators::dictionaries::{image_length, mixed, saved, varied};
use crate::dictionary::generators::fields;
use crate::dictionary::generators::objects::{Sizes, rising, using};
use crate::dictionary::generators::payloads;
use crate::dictionary::generators::ranges::{self, largest};
use crate::dictionary::generators::restores;
use crate::dictionary::generators::writes::{self, write};
use crate::dictionary::model::edition::FIRST;
use crate::dictionary::model::insertion::Insertion;
use crate::dictionary::model::layout::*;
use crate::dictionary::model::memory::Lent;
use crate::dictionary::model::step::{Call, History, Step};
use crate::original::size;
use crate::random::Random;

const INTEGERS: std::ops::RangeInclusive<u64> = 1..=8;
const UNSIGNED8: u64 = 5;
const UNSIGNED16: u64 = 6;

const SMALL: Sizes = Sizes { longest: 8, elements: 4 };

pub fn compare(trial: &mut Trial, random: &mut Random) {
    for kind in INTEGERS {
        for shape in VARIABLE..=LAST_SHAPE {
            about_ends(kind).into_iter().for_each(|range| trial.compare(every_place(shape, range)));
        }
        for other in INTEGERS {
            trial.compare(retyped(random, kind, other));
        }
    }
    trial.compare(before_ranges());
    for _ in 0..6_000 {
        trial.compare(let_in(random));
        trial.compare(restored(random));
    }
    for _ in 0..6_000 {
        let mut objects = consuming(random);
        ranges::give(random, &mut objects);
        let calls = (0..16).map(|_| any(random, &objects)).collect();
        trial.compare(consumed::history(random, objects, calls));
    }
    for _ in 0..6 {
        trial.compare(largest_of_all(random));
    }
    damaged(trial, random);
}

/// One whose channels are right, or nearly right.
fn consuming(random: &mut Random) -> Vec<Object> {
    match random.below(3) {
        0 => fields::dictionary(random, 4),
        _ => channels::dictionary(random, 5),
    }
}

fn any(random: &mut Random, objects: &[Object]) -> Call {
    match random.below(16) {
        0 | 1 => calls::any(random, objects),
        2 => checks::any(random, objects),
        3 => restores::any(random, objects),
        4 | 5 => writes::any(random, objects),
        6..=8 => payloads::any(random, objects),
        9 | 10 => payloads::cycle(random, objects, 6),
        11 if random.below(4) == 0 => payloads::error_bit(random),
        _ => ranges::write(random, objects),
    }
}

/// Ranges of a type at its own ends, at zero and of one number.
fn about_ends(kind: u64) -> Vec<Range> {
    let all = largest(kind);
    let (least, most) = if kind <= 4 { (all / 2 + 1, all / 2) } else { (0, all) };
    let middle = all / 3;
    let ends = [
        (least, most),
        (least, least),
        (most, most),
        (0, 0),
        (least + 1, most - 1),
        (0, most),
        (1, 2),
        (least, 1),
        (least + 1, least + 3),
        (middle, middle + 1),
    ];
    ends.map(|(low, high)| Range { kind, low, high }).to_vec()
}

/// Words about the ends of the range and of its type: each of them, where they are few.
fn words(Range { kind, low, high }: Range) -> Vec<u64> {
    let all = largest(kind);
    if all == 0xFF {
        return (0..=all).collect();
    }
    let at = [low, high, 0, all, all / 2, all / 2 + 1];
    let near = at.iter().flat_map(|end| [end.wrapping_sub(1), *end, end.wrapping_add(1)]);
    near.map(|word| word & all).collect()
}

fn value(kind: u64, word: u64) -> Value {
    Value::new(kind, 0, &encoding(kind, word))
}

fn encoding(kind: u64, word: u64) -> Vec<u8> {
    word.to_le_bytes()[..size(kind).expect("an integer has a size")].to_vec()
}

fn insert(object: &Object) -> Step {
    Step::Call(Call::Insert(Insertion::of(object)))
}

fn let_all_in(objects: &[Object]) -> Vec<Step> {
    let new = std::iter::once(Step::Call(Call::New(FIRST)));
    new.chain(objects.iter().map(insert)).collect()
}

fn on(objects: &[Object], store: usize, steps: Vec<Step>) -> History {
    let lengths = Used::of(objects).lengths();
    History { first: Lent { at_start: false, lengths, store }, steps }
}

/// Each word at a value of the range's type, each with a value of another type beside it in a list.
fn every_place(shape: u64, range: Range) -> History {
    let kind = range.kind;
    let other = kind % 8 + 1;
    let values = match shape {
        VARIABLE => vec![value(kind, 0)],
        _ => vec![value(kind, 0), value(other, 0)],
    };
    let object = Object { range, ..bare(0x2000, shape, values) };
    let mut steps = let_all_in(std::slice::from_ref(&object));
    for word in words(range) {
        let sub_index = u8::from(shape != VARIABLE);
        steps.push(Step::Call(write(0x2000, sub_index, kind, &encoding(kind, word))));
        if shape != VARIABLE {
            steps.push(Step::Call(write(0x2000, 2, other, &encoding(other, word))));
            steps.push(Step::Call(write(0x2000, 0, UNSIGNED8, &encoding(UNSIGNED8, word))));
        }
    }
    on(&[object], 0, steps)
}

/// Variables that a restore gives the type of their default: one has a range of that type, one of the
/// type before it.
fn retyped(random: &mut Random, kind: u64, other: u64) -> History {
    let default = Some(value(other, random.word() & largest(other)));
    let variable = |index: u64, of: u64| {
        let object = bare(index, VARIABLE, vec![value(kind, 1)]);
        let range = Range { kind: of, low: 1, high: 9 };
        Object { default: default.clone(), range, ..object }
    };
    let objects = [variable(0x2000, kind), variable(0x2001, other)];
    let mut writes = Vec::new();
    for index in [0x2000, 0x2001] {
        for kind in [kind, other] {
            let words = [0, 1, 5, 9, 10, 0x7F, 0x80];
            writes.extend(words.map(|word| write(index, 0, kind, &encoding(kind, word))));
        }
    }
    let writes: Vec<Step> = writes.into_iter().map(Step::Call).collect();
    let restore = Step::Call(Call::RestorePowerOnValues { first: 0, last: 0xFFFF });
    let mut steps = let_all_in(&objects);
    steps.extend([writes.clone(), vec![restore], writes].concat());
    on(&objects, 0, steps)
}

/// What is judged before a range: commands, a count's check, an access, a list's count, a type.
fn before_ranges() -> History {
    let range = Range { kind: UNSIGNED8, low: 1, high: 9 };
    let number = || vec![value(UNSIGNED8, 5)];
    let mut objects: Vec<Object> = [0x1010, 0x1011, 0x1600, 0x16FF, 0x1A00, 0x1AFF, 0x2FFF]
        .map(|index| Object { range, ..bare(index, VARIABLE, number()) })
        .to_vec();
    let accesses =
        (0..=NO_ACCESS).flat_map(|access| (0..=LAST_SHAPE).map(move |shape| (access, shape)));
    objects.extend(accesses.map(|(access, shape)| {
        let index = 0x3000 + 16 * access + shape;
        Object { access, range, ..bare(index, shape, number()) }
    }));
    let wide = Range { kind: UNSIGNED16, low: 300, high: 400 };
    objects.push(Object { range: wide, ..bare(0x1601, VARIABLE, number()) });
    objects.push(Object { range: wide, ..bare(0x4000, VARIABLE, number()) });
    objects.push(Object { range, ..bare(0x4001, VARIABLE, vec![value(UNSIGNED16, 5)]) });
    let objects = rising(objects);
    let mut steps = let_all_in(&objects);
    for object in &objects {
        for sub_index in 0..3 {
            for word in [0, 1, 9, 10, 255] {
                for kind in [UNSIGNED8, UNSIGNED16] {
                    let data = encoding(kind, word);
                    steps.push(Step::Call(write(object.index as u16, sub_index, kind, &data)));
                }
            }
        }
    }
    on(&objects, 40, steps)
}

/// All objects let in, each behind wrong ends most times, with calls between and behind them; then
/// wrong ends where the index is taken, and where no room is left.
fn let_in(random: &mut Random) -> History {
    let mut objects = mixed(random, SMALL);
    ranges::give(random, &mut objects);
    let mut steps = vec![Step::Call(Call::New(FIRST))];
    for object in &objects {
        let count = random.below(3);
        steps.extend((0..count).map(|_| wrong(random, object, object.index as u16)));
        steps.push(insert(object));
        steps.push(Step::Call(any(random, &objects)));
    }
    for _ in 0..16 {
        steps.push(Step::Call(any(random, &objects)));
    }
    steps.extend(objects.first().map(|object| wrong(random, object, object.index as u16)));
    steps.extend(objects.first().map(|object| wrong(random, object, 0x7FFF)));
    let store = image_length(&objects, 1) + random.pick(&[0, 0, 30]);
    on(&objects, store, steps)
}

fn wrong(random: &mut Random, object: &Object, index: u16) -> Step {
    let mut given = Insertion { index, ..Insertion::of(object) };
    ranges::spoil(random, &mut given.ends);
    Step::Call(Call::Insert(given))
}

/// A dictionary that is saved, and restored in another version of it with other types and ranges.
fn restored(random: &mut Random) -> History {
    let mut old = saved(random, SMALL);
    let mut new = varied(random, &old, SMALL);
    ranges::give(random, &mut old);
    ranges::give(random, &mut new);
    let both = [&old, &new].map(|objects| Used::of(objects).lengths());
    let lengths = std::array::from_fn(|slice| both[0][slice].max(both[1][slice]));
    let store = image_length(&old, 1).max(image_length(&new, 1));
    let mut steps = vec![Step::Lay(old), Step::Call(writes::save(1)), Step::Lay(new.clone())];
    for _ in 0..4 {
        steps.extend((0..3).map(|_| Step::Call(ranges::write(random, &new))));
        steps.push(Step::Call(restores::any(random, &new)));
        steps.push(Step::Call(any(random, &new)));
    }
    History { first: Lent { at_start: random.below(2) == 0, lengths, store }, steps }
}

/// The largest dictionary, every object with a range.
fn largest_of_all(random: &mut Random) -> History {
    let used = Used { objects: MOST_OBJECTS, values: MOST_VALUES, bytes: MOST_BYTES };
    let mut objects = using(random, used);
    for object in &mut objects {
        object.range = ranges::any(random, object);
    }
    let mut steps = vec![Step::Lay(objects.clone())];
    steps.extend((0..60).map(|_| Step::Call(any(random, &objects))));
    on(&objects, 100, steps)
}

/// Each cell of objects with ranges changed, and ranges laid that break one rule.
fn damaged(trial: &mut Trial, random: &mut Random) {
    for _ in 0..12 {
        let mut objects = malice::good(random);
        ranges::give(random, &mut objects);
        malice::every_cell(trial, random, &objects);
    }
    for _ in 0..6_000 {
        let mut objects = malice::good(random);
        ranges::give(random, &mut objects);
        let place = random.below(objects.len());
        match random.below(4) {
            0 => breakage::any(random, &mut objects),
            _ => ranges::damage(random, &mut objects[place]),
        }
        trial.compare(malice::history(random, &objects, Vec::new()));
    }
}
