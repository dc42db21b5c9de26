//! Random histories of edition 2: those of the other runs with kept counts and writes of them. The
//! Rust has each mapping cut to what is in use; what it cannot say is the model's.

use super::consumed;
use super::malice;
use super::trial::Trial;
use crate::dictionary::generators::breakage;
use crate::dictionary::generators::calls;
use crate::dictionary::generators::channels;
use crate::dictionary::generators::checks;
use crate::dictionary::generators::counts;
use crate::dictionary::generators::dictionaries::{image_length, mapped, mixed, saved, varied};
use crate::dictionary::generators::fields;
use crate::dictionary::generators::objects::{Sizes, rising};
use crate::dictionary::generators::payloads;
use crate::dictionary::generators::ranges;
use crate::dictionary::generators::restores;
use crate::dictionary::generators::writes;
use crate::dictionary::model::edition::{FIRST, SECOND};
use crate::dictionary::model::image;
use crate::dictionary::model::insertion::Insertion;
use crate::dictionary::model::layout::*;
use crate::dictionary::model::memory::Lent;
use crate::dictionary::model::step::{Call, History, Step};
use crate::random::Random;

const SMALL: Sizes = Sizes { longest: 8, elements: 4 };

pub fn compare(trial: &mut Trial, random: &mut Random) {
    for _ in 0..4_000 {
        trial.compare(let_in(random));
        trial.compare(restored(random));
    }
    for _ in 0..20_000 {
        let objects = consuming(random, 5);
        let calls = (0..20).map(|_| any(random, &objects)).collect();
        // Edition 1 looks at no kept count.
        let edition = if random.below(8) == 0 { FIRST } else { SECOND };
        trial.compare(in_edition(edition, consumed::history(random, objects, calls)));
    }
    for _ in 0..2_000 {
        trial.compare(retyped(random));
    }
    for _ in 0..100 {
        let objects = consuming(random, MOST_ELEMENTS);
        let calls = (0..12).map(|_| any(random, &objects)).collect();
        trial.compare(in_edition(SECOND, consumed::history(random, objects, calls)));
    }
    for _ in 0..8 {
        let mut objects = consumed::all_channels(random);
        counts::give(random, &mut objects);
        let calls = (0..40).map(|_| any(random, &objects)).collect();
        trial.compare(in_edition(SECOND, consumed::history(random, objects, calls)));
    }
    damaged(trial, random);
    trial.compare(in_edition(SECOND, consumed::far_text(random)));
}

/// The same with what is laid in another edition.
fn in_edition(edition: u64, history: History) -> History {
    let steps = history.steps.into_iter().flat_map(|step| match step {
        Step::Lay(objects) => Step::laying(edition, &objects),
        other => vec![other],
    });
    History { first: history.first, steps: steps.collect() }
}

/// One whose channels are right, or nearly right, with lists that are sent; a quarter have ranges.
fn consuming(random: &mut Random, most: usize) -> Vec<Object> {
    let objects = match random.below(3) {
        0 => fields::dictionary(random, most),
        _ => channels::dictionary(random, most),
    };
    let mut objects = counts::sent(random, objects);
    if random.below(4) == 0 {
        ranges::give(random, &mut objects);
    }
    for list in objects.iter_mut().filter(|object| is_mapping(object.index as u16)) {
        list.access = random.pick(&[NO_ACCESS, 3, 3, 4, 4, 2, 0, 5]);
    }
    counts::give(random, &mut objects);
    objects
}

/// A payload or a count, most times.
fn any(random: &mut Random, objects: &[Object]) -> Call {
    match random.below(24) {
        0..=2 => calls::any(random, objects),
        3 | 4 => checks::any(random, objects),
        5 => restores::any(random, objects),
        6 | 7 => writes::any(random, objects),
        8 => writes::save(random.pick(&[1, 1, 2, 3, 4])),
        9 => payloads::cycle(random, objects, 6),
        10 if random.below(4) == 0 => payloads::error_bit(random),
        11..=14 => counts::write(random, objects),
        15 => ranges::write(random, objects),
        _ => payloads::any(random, objects),
    }
}

/// All objects let in, in any order, with counts written between the insertions, which move the rows.
fn let_in(random: &mut Random) -> History {
    let objects = match random.below(3) {
        0 => mixed(random, SMALL),
        1 => rising(mapped(random, 4)),
        _ => consuming(random, 4),
    };
    let mut order: Vec<usize> = (0..objects.len()).collect();
    (1..order.len()).for_each(|place| order.swap(place, random.below(place + 1)));
    let mut steps = vec![Step::Call(Call::New(SECOND))];
    for row in order {
        steps.push(Step::Call(Call::Insert(Insertion::of(&objects[row]))));
        let between = random.below(4);
        steps.extend((0..between).map(|_| Step::Call(between_insertions(random, &objects))));
    }
    steps.extend((0..14).map(|_| Step::Call(any(random, &objects))));
    let lengths = Used::of(&objects).lengths();
    let store = image_length(&objects, 1) + random.pick(&[0, 0, 30]);
    History { first: Lent { at_start: random.below(2) == 0, lengths, store }, steps }
}

fn between_insertions(random: &mut Random, objects: &[Object]) -> Call {
    match random.below(2) {
        0 => counts::write(random, objects),
        _ => any(random, objects),
    }
}

/// A dictionary that is saved, and restored in another version of it, both with kept counts.
fn restored(random: &mut Random) -> History {
    let mut old = saved(random, SMALL);
    let mut new = varied(random, &old, SMALL);
    counts::give(random, &mut old);
    counts::give(random, &mut new);
    let both = [&old, &new].map(|objects| Used::of(objects).lengths());
    let lengths = std::array::from_fn(|slice| both[0][slice].max(both[1][slice]));
    let store = image_length(&old, 1).max(image_length(&new, 1));
    let mut steps = Step::laying(SECOND, &old);
    steps.extend([counts::write(random, &old), writes::save(1)].map(Step::Call));
    steps.extend(Step::laying(SECOND, &new));
    for _ in 0..4 {
        steps.extend((0..3).map(|_| Step::Call(between_insertions(random, &new))));
        steps.push(Step::Call(restores::any(random, &new)));
    }
    History { first: Lent { at_start: random.below(2) == 0, lengths, store }, steps }
}

/// Restores from an image of other types, of elements in use and behind the count, between payloads
/// and counts.
fn retyped(random: &mut Random) -> History {
    let objects = consuming(random, 4);
    let image = image::of(&channels::retyping(random, &objects));
    let lengths = Used::of(&objects).lengths();
    let first = Lent { at_start: random.below(2) == 0, lengths, store: image.len() };
    let mut steps = Step::laying(SECOND, &objects);
    steps.push(Step::Store(image));
    let ranges = [(0x1400, 0x14FF), (0x1600, 0x1AFF), (0x1400, 0x16FF), (0, 0xFFFF)];
    for _ in 0..3 {
        steps.extend((0..4).map(|_| Step::Call(any(random, &objects))));
        let (first, last) = random.pick(&ranges);
        steps.push(Step::Call(restores::range(first, last)));
    }
    steps.extend((0..6).map(|_| Step::Call(any(random, &objects))));
    History { first, steps }
}

/// Each cell of objects with kept counts changed, kept counts laid that break their rule, and other
/// rules broken beside them.
fn damaged(trial: &mut Trial, random: &mut Random) {
    for _ in 0..4 {
        let mut objects = malice::good(random);
        counts::give(random, &mut objects);
        malice::every_cell(trial, random, &objects);
    }
    for _ in 0..4_000 {
        let mut objects = match random.below(2) {
            0 => consuming(random, 3),
            _ => malice::good(random),
        };
        counts::give(random, &mut objects);
        let place = random.below(objects.len());
        match random.below(4) {
            0 => breakage::any(random, &mut objects),
            _ => counts::damage(random, &mut objects[place]),
        }
        let edition = random.pick(&[FIRST, SECOND, SECOND]);
        let edits = vec![Step::edition(edition)];
        trial.compare(malice::history(random, &objects, edits));
    }
}
