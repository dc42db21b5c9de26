//! Histories of writes, saves, restores and count checks, with all other calls between them.

use super::trial::Trial;
use crate::dictionary::generators::calls;
use crate::dictionary::generators::checks;
use crate::dictionary::generators::dictionaries::{LARGER, image_length, mapped, mixed};
use crate::dictionary::generators::objects::{Sizes, rising};
use crate::dictionary::generators::restores;
use crate::dictionary::generators::writes;
use crate::dictionary::model::edition::FIRST;
use crate::dictionary::model::insertion::Insertion;
use crate::dictionary::model::layout::*;
use crate::dictionary::model::memory::Lent;
use crate::dictionary::model::step::{Call, History, Step};
use crate::random::Random;

pub fn compare(trial: &mut Trial, random: &mut Random) {
    for _ in 0..6_000 {
        let objects = mixed(random, Sizes { longest: 10, elements: 4 });
        trial.compare(history(random, objects));
    }
    for _ in 0..2_000 {
        let most = random.pick(&[3, 3, 3, 6, MOST_ELEMENTS]);
        let objects = mapped(random, most);
        trial.compare(history(random, rising(objects)));
    }
    for _ in 0..200 {
        let sizes = random.pick(&LARGER);
        let objects = mixed(random, sizes);
        trial.compare(history(random, objects));
    }
}

/// None, the least, just enough for a list, one byte less or more, or ample.
fn store(random: &mut Random, objects: &[Object]) -> usize {
    let exact = image_length(objects, random.pick(&[1, 1, 2, 3]));
    match random.below(12) {
        0 => 0,
        1 => 1,
        2 => 2,
        3 | 4 => exact,
        5 => exact - 1,
        6 => exact + 1,
        7 => random.below(exact + 1),
        8 => random.pick(&[32_769, 32_770, 32_771, 40_000]),
        _ => exact + random.below(40),
    }
}

/// All objects are let in, in any order; calls stand between the insertions and
/// behind them, and a save of each list before the first write behind them.
fn history(random: &mut Random, objects: Vec<Object>) -> History {
    let lengths = Used::of(&objects).lengths();
    let more = random.pick(&[0, 0, 12, 40]);
    let mut lent = Lent {
        at_start: random.below(2) == 0,
        lengths: lengths.map(|length| length + more),
        store: store(random, &objects),
    };
    let first = lent;
    let mut steps = vec![Step::Call(Call::New(FIRST))];
    let mut order: Vec<usize> = (0..objects.len()).collect();
    (1..order.len()).for_each(|place| order.swap(place, random.below(place + 1)));
    for row in order {
        if random.below(4) == 0 {
            steps.push(Step::Call(any(random, &objects)));
        }
        steps.push(Step::Call(Call::Insert(Insertion::of(&objects[row]))));
    }
    steps.extend([1, 2, 3].map(|list| Step::Call(writes::save(list))));
    for _ in 0..20 {
        if random.below(20) == 0 {
            lent = Lent { at_start: !lent.at_start, store: store(random, &objects), ..lent };
            steps.push(Step::Lend(lent));
        }
        if random.below(200) == 0 {
            steps.push(Step::Call(Call::New(FIRST)));
        }
        steps.push(Step::Call(any(random, &objects)));
    }
    History { first, steps }
}

fn any(random: &mut Random, objects: &[Object]) -> Call {
    match random.below(16) {
        0..=2 => calls::any(random, objects),
        3 => checks::any(random, objects),
        4 | 5 => restores::any(random, objects),
        _ => writes::any(random, objects),
    }
}
