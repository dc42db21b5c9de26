//! Dictionaries at the ends of their totals.

use super::trial::Trial;
use crate::dictionary::generators::calls;
use crate::dictionary::generators::checks;
use crate::dictionary::generators::objects::using;
use crate::dictionary::generators::payloads;
use crate::dictionary::generators::restores;
use crate::dictionary::generators::writes;
use crate::dictionary::model::edition::FIRST;
use crate::dictionary::model::insertion::Insertion;
use crate::dictionary::model::layout::*;
use crate::dictionary::model::memory::Lent;
use crate::dictionary::model::step::{Call, History, Step};
use crate::random::Random;

/// Some bytes: what is saved here is little.
const STORE: usize = 40;

/// Memory for the largest dictionary and a little more.
const AMPLE: [usize; 4] = [12 * 1027, 3 * 6400, 6400, 34_500];

pub fn compare(trial: &mut Trial, random: &mut Random) {
    for (used, extra) in GROWN {
        trial.compare(grown(random, used, extra));
    }
    for _ in 0..24 {
        for total in [Total::Objects, Total::Values, Total::Bytes] {
            trial.compare(near(random, total));
        }
    }
    for used in PAST {
        for lengths in [used.lengths(), AMPLE] {
            trial.compare(laid(random, used, lengths));
        }
    }
}

/// An empty list.
const SMALLEST: Used = used(1, 0, 0);

const fn used(objects: usize, values: usize, bytes: usize) -> Used {
    Used { objects, values, bytes }
}

/// At each total, and one past it: these are laid, so that nothing else is wrong with them.
const PAST: [Used; 7] = [
    used(MOST_OBJECTS, MOST_VALUES, MOST_BYTES),
    used(MOST_OBJECTS + 1, 0, 0),
    used(MOST_OBJECTS + 1, MOST_VALUES, MOST_BYTES),
    used(30, MOST_VALUES + 1, 0),
    used(MOST_OBJECTS, MOST_VALUES + 1, MOST_BYTES),
    used(30, 100, MOST_BYTES + 1),
    used(MOST_OBJECTS, MOST_VALUES, MOST_BYTES + 1),
];

fn laid(random: &mut Random, used: Used, lengths: [usize; 4]) -> History {
    let objects = using(random, used);
    let mut steps = vec![Step::Lay(objects.clone())];
    steps.extend(calls::each(random, &objects).into_iter().map(Step::Call));
    steps.extend(writes::each(random, &objects).map(Step::Call));
    steps.push(Step::Call(restores::any(random, &objects)));
    steps.extend(payloads::each(random, &objects).map(Step::Call));
    steps.extend(checks::each(random, &objects).map(Step::Call));
    steps.push(insert(&one_more(random, SMALLEST)));
    History { first: Lent { at_start: random.below(2) == 0, lengths, store: STORE }, steps }
}

fn insert(object: &Object) -> Step {
    Step::Call(Call::Insert(Insertion::of(object)))
}

/// Dictionaries that insertion alone makes up to a total, and then one object more.
const GROWN: [(Used, Used); 4] = [
    (used(MOST_OBJECTS, 1500, 9000), SMALLEST),
    (used(40, MOST_VALUES, 500), used(1, 1, 0)),
    (used(60, 200, MOST_BYTES), used(1, 1, 1)),
    (used(300, MOST_VALUES, MOST_BYTES), SMALLEST),
];

fn grown(random: &mut Random, used: Used, extra: Used) -> History {
    let mut objects = using(random, used);
    for place in (1..objects.len()).rev() {
        objects.swap(place, random.below(place + 1));
    }
    objects.push(one_more(random, extra));
    let mut steps = vec![Step::Call(Call::New(FIRST))];
    steps.extend(objects.iter().map(insert));
    steps.extend((0..20).map(|_| Step::Call(calls::any(random, &objects))));
    steps.extend((0..10).map(|_| Step::Call(writes::any(random, &objects))));
    let lengths = if random.below(2) == 0 { AMPLE } else { used.lengths() };
    History { first: Lent { at_start: random.below(2) == 0, lengths, store: STORE }, steps }
}

/// One object at an index that `using` leaves free: before, between or behind the others.
fn one_more(random: &mut Random, used: Used) -> Object {
    let mut object = using(random, used).remove(0);
    object.index = random.pick(&[0, 0x1001, 0x1001 + 300, 0xFFFF]);
    object
}

#[derive(Clone, Copy)]
enum Total {
    Objects,
    Values,
    Bytes,
}

/// A dictionary just below a total, an object that reaches it, and one that passes it.
fn about(random: &mut Random, total: Total) -> [Used; 3] {
    let left = random.below(40);
    let objects = 1 + random.below(600);
    let values = random.below(4000).min(200 * objects);
    let bytes = random.below(20_000);
    match total {
        Total::Objects => [used(MOST_OBJECTS - 1, values, bytes), used(1, 1, 3), used(1, 1, 3)],
        Total::Values => {
            let before = used(30 + objects, MOST_VALUES - left, bytes);
            [before, used(1, left, 2), used(1, left + 1, 2)]
        }
        // The rooms of 24 values can take all bytes.
        Total::Bytes => {
            let before = used(objects, 24 + values, MOST_BYTES - left);
            [before, used(1, 1, left), used(1, 1, left + 1)]
        }
    }
}

fn near(random: &mut Random, total: Total) -> History {
    let [before, exact, over] = about(random, total);
    let objects = using(random, before);
    let mut steps = vec![Step::Lay(objects.clone())];
    for used in [over, exact, SMALLEST, over] {
        steps.push(insert(&one_more(random, used)));
    }
    steps.extend(calls::each(random, &objects).into_iter().map(Step::Call));
    steps.extend(writes::each(random, &objects).map(Step::Call));
    steps.push(Step::Call(restores::any(random, &objects)));
    let lengths = match random.below(3) {
        0 => before.plus(exact).lengths(),
        1 => before.plus(over).plus(SMALLEST).lengths(),
        _ => AMPLE,
    };
    History { first: Lent { at_start: random.below(2) == 0, lengths, store: STORE }, steps }
}
