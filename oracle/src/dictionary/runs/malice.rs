//! Memory that no call has made: good dictionaries with cells changed, laid
//! objects that break a rule, and slices of other lengths.

use super::trial::Trial;
use crate::dictionary::generators::breakage;
use crate::dictionary::generators::calls;
use crate::dictionary::generators::cells::{Cell, any_edit, cells, edit};
use crate::dictionary::generators::channels;
use crate::dictionary::generators::checks;
use crate::dictionary::generators::objects::{self, Pool, Sizes, using};
use crate::dictionary::generators::payloads;
use crate::dictionary::generators::restores;
use crate::dictionary::generators::writes;
use crate::dictionary::model::edition::FIRST;
use crate::dictionary::model::insertion::Insertion;
use crate::dictionary::model::layout::*;
use crate::dictionary::model::memory::{BYTES, Lent};
use crate::dictionary::model::step::{Call, History, Step};
use crate::random::Random;

pub fn compare(trial: &mut Trial, random: &mut Random) {
    for _ in 0..24 {
        let objects = good(random);
        every_cell(trial, random, &objects);
        every_length(trial, random, &objects);
    }
    for _ in 0..4 {
        let objects = channels::dictionary(random, 3);
        every_cell(trial, random, &objects);
        every_length(trial, random, &objects);
    }
    for _ in 0..10_000 {
        let objects = any_good(random);
        let cells = cells(&objects);
        let edits = (0..2 + random.below(3)).map(|_| any_edit(random, &cells)).collect();
        trial.compare(history(random, &objects, edits));
    }
    for _ in 0..20_000 {
        let mut objects = any_good(random);
        breakage::any(random, &mut objects);
        trial.compare(history(random, &objects, Vec::new()));
    }
    for _ in 0..40 {
        large(trial, random);
    }
}

/// A few objects, rising by index. Rooms have stale bytes behind their values.
pub fn good(random: &mut Random) -> Vec<Object> {
    let pool = Pool::new(random, 6);
    let sizes = Sizes { longest: 6, elements: 3 };
    let mut objects: Vec<Object> =
        (0..1 + random.below(5)).map(|_| objects::object(random, &pool, sizes)).collect();
    objects.sort_by_key(|object| object.index);
    objects.dedup_by_key(|object| object.index);
    for value in objects.iter_mut().flat_map(|object| &mut object.values) {
        let used = if is_string(value.kind) { value.word as usize } else { 0 };
        value.room[used..].fill_with(|| random.pick(&[0x80, 0xFF, 0x00, 0xC3]));
    }
    objects
}

/// Also one that consumes.
fn any_good(random: &mut Random) -> Vec<Object> {
    match random.below(4) {
        0 => channels::dictionary(random, 3),
        _ => good(random),
    }
}

/// Each cell changed by itself, several times.
pub fn every_cell(trial: &mut Trial, random: &mut Random, objects: &[Object]) {
    for cell in cells(objects) {
        for _ in 0..if cell.slice == BYTES { 3 } else { 8 } {
            let edits = vec![edit(random, &cell)];
            trial.compare(history(random, objects, edits));
        }
    }
}

/// Each slice cut at each length, and longer; all of them empty.
fn every_length(trial: &mut Trial, random: &mut Random, objects: &[Object]) {
    let exact = Used::of(objects).lengths();
    let mut all = vec![[0; 4], exact.map(|length| length + 1), exact.map(|length| length + 500)];
    for slice in 0..=BYTES {
        for length in 0..exact[slice] {
            let mut lengths = exact;
            lengths[slice] = length;
            all.push(lengths);
        }
    }
    for lengths in all {
        let lent = Lent { at_start: random.below(2) == 0, lengths, store: store(random) };
        trial.compare(history(random, objects, vec![Step::Lend(lent)]));
    }
}

/// The objects laid, then the edits, then every call.
pub fn history(random: &mut Random, objects: &[Object], edits: Vec<Step>) -> History {
    let more = random.pick(&[0, 0, 0, 30]);
    let lengths = Used::of(objects).lengths().map(|length| length + more);
    let first = Lent { at_start: random.below(2) == 0, lengths, store: store(random) };
    let mut steps = vec![Step::Lay(objects.to_vec())];
    steps.extend(edits);
    steps.extend(calls::each(random, objects).into_iter().map(Step::Call));
    steps.extend(writes::each(random, objects).map(Step::Call));
    steps.push(Step::Call(restores::any(random, objects)));
    steps.extend(payloads::each(random, objects).map(Step::Call));
    steps.extend(checks::each(random, objects).map(Step::Call));
    steps.push(Step::Call(Call::Insert(insertion(random, objects))));
    if random.below(8) == 0 {
        steps.push(Step::Call(Call::New(FIRST)));
        steps.push(Step::Call(calls::any(random, objects)));
    }
    History { first, steps }
}

/// None, the least one, too little for most saves here, or enough.
fn store(random: &mut Random) -> usize {
    random.pick(&[0, 1, 2, 20, 300])
}

/// One that fits where 30 cells are free, or one that is there.
fn insertion(random: &mut Random, objects: &[Object]) -> Insertion {
    let index = match random.below(3) {
        0 => objects.first().map_or(0, |object| object.index as u16),
        _ => random.word() as u16,
    };
    let name = if random.below(8) == 0 { vec![0xFF] } else { b"n".to_vec() };
    let numbers = vec![objects::UNSIGNED32, 2, 4];
    Insertion { index, access: 3, name, numbers, encodings: vec![1; 4], ..Insertion::default() }
}

/// A few cells of a dictionary of any size up to the largest.
fn large(trial: &mut Trial, random: &mut Random) {
    let most = random.below(2) == 0;
    let used = match most {
        true => Used { objects: MOST_OBJECTS, values: MOST_VALUES, bytes: MOST_BYTES },
        false => Used { objects: 400, values: random.below(3000), bytes: random.below(9000) },
    };
    let objects = using(random, used);
    let cells = cells(&objects);
    let lengths = used.lengths();
    let mut steps = vec![Step::Lay(objects.clone())];
    for _ in 0..10 {
        let place = random.below(cells.len());
        let Cell { slice, at, old } = cells[place];
        steps.push(edit(random, &cells[place]));
        steps.push(Step::Call(calls::any(random, &objects)));
        steps.push(Step::Call(writes::any(random, &objects)));
        steps.push(Step::Call(restores::any(random, &objects)));
        steps.extend(payloads::each(random, &objects).map(Step::Call));
        steps.extend(checks::each(random, &objects).map(Step::Call));
        steps.push(Step::Put { slice, at, cell: old });
    }
    steps.push(Step::Call(Call::Insert(insertion(random, &objects))));
    trial.compare(History { first: Lent { at_start: most, lengths, store: 100 }, steps });
}
