//! Restores into dictionaries that are not those of the save: of other types, rooms, kinds, lists
//! and defaults, with writes, saves and all other calls between them.

use super::trial::Trial;
use crate::dictionary::generators::calls;
use crate::dictionary::generators::checks;
use crate::dictionary::generators::dictionaries::{LARGER, image_length, saved, varied};
use crate::dictionary::generators::objects::Sizes;
use crate::dictionary::generators::restores;
use crate::dictionary::generators::writes;
use crate::dictionary::model::edition::FIRST;
use crate::dictionary::model::insertion::Insertion;
use crate::dictionary::model::layout::*;
use crate::dictionary::model::memory::Lent;
use crate::dictionary::model::step::{Call, History, Step};
use crate::random::Random;

pub fn compare(trial: &mut Trial, random: &mut Random) {
    for _ in 0..8_000 {
        trial.compare(history(random, Sizes { longest: 8, elements: 4 }));
    }
    for _ in 0..200 {
        let sizes = random.pick(&LARGER);
        trial.compare(history(random, sizes));
    }
}

/// Two sets of objects, of which now the one and now the other is the dictionary, laid or let in.
fn history(random: &mut Random, sizes: Sizes) -> History {
    let old = saved(random, sizes);
    let new = varied(random, &old, sizes);
    let both = [&old, &new].map(|objects| Used::of(objects).lengths());
    let lengths = std::array::from_fn(|slice| both[0][slice].max(both[1][slice]));
    let store = [&old, &new].map(|objects| image_length(objects, 1)).into_iter().max();
    let store = store.unwrap_or(0) + random.pick(&[0, 0, 9, 60]);
    let mut lent = Lent { at_start: random.below(2) == 0, lengths, store };
    let first = lent;
    let mut steps = vec![Step::Lay(old.clone())];
    steps.push(Step::Call(writes::save(random.pick(&[1, 1, 1, 2, 3]))));
    for _ in 0..6 {
        let objects = if random.below(3) == 0 { &old } else { &new };
        match random.below(4) {
            0 => {}
            1 => steps.extend(let_in(objects)),
            _ => steps.push(Step::Lay(objects.clone())),
        }
        if random.below(12) == 0 {
            let store = random.pick(&[0, 1, 2, store.saturating_sub(1), store, store + 1]);
            lent = Lent { at_start: !lent.at_start, store, ..lent };
            steps.push(Step::Lend(lent));
        }
        steps.push(Step::Call(restores::any(random, objects)));
        for _ in 0..random.below(4) {
            steps.push(Step::Call(any(random, objects)));
        }
    }
    History { first, steps }
}

fn let_in(objects: &[Object]) -> impl Iterator<Item = Step> {
    let inserted = objects.iter().map(|object| Call::Insert(Insertion::of(object)));
    std::iter::once(Call::New(FIRST)).chain(inserted).map(Step::Call)
}

/// A list that saves nothing leaves a table of nothing, so that defaults alone count.
fn any(random: &mut Random, objects: &[Object]) -> Call {
    match random.below(9) {
        0 => writes::save(random.pick(&[1, 1, 2, 3])),
        1 => writes::save(random.pick(&[4, 255])),
        2 => calls::any(random, objects),
        3 | 4 => restores::any(random, objects),
        5 => checks::any(random, objects),
        _ => writes::any(random, objects),
    }
}
