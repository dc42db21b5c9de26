//! Histories of checks: every type with every length, every pair of nodes, the ends of each range,
//! and all other calls between checks.

use super::consumed;
use super::goals;
use super::trial::Trial;
use crate::dictionary::generators::calls;
use crate::dictionary::generators::cells;
use crate::dictionary::generators::checks;
use crate::dictionary::generators::fields;
use crate::dictionary::generators::literals::{RECORD, u8s, w};
use crate::dictionary::generators::objects::{self, rising};
use crate::dictionary::generators::payloads;
use crate::dictionary::generators::restores;
use crate::dictionary::generators::writes;
use crate::dictionary::model::checked::LEAST_NUMBERS;
use crate::dictionary::model::image::{self, Record};
use crate::dictionary::model::layout::*;
use crate::dictionary::model::memory::Lent;
use crate::dictionary::model::step::{Call, History, Step};
use crate::dictionary::shown::tally::{Goal, Tally};
use crate::original::{KINDS, size};
use crate::random::Random;

const OCTET_STRING: u64 = 12;

pub fn compare(trial: &mut Trial, random: &mut Random) {
    for dictionaries in [every_length(), every_node(), every_index(), every_end(), every_pair()] {
        for some in dictionaries.chunks(50) {
            trial.compare(in_turn(random, some));
        }
    }
    for _ in 0..12_000 {
        let objects = fields::dictionary(random, 4);
        let calls = (0..10).map(|_| any(random, &objects)).collect();
        trial.compare(consumed::history(random, objects, calls));
    }
    for _ in 0..400 {
        let objects = fields::dictionary(random, MOST_ELEMENTS);
        let calls = (0..8).map(|_| checks::any(random, &objects)).collect();
        trial.compare(consumed::history(random, objects, calls));
    }
    for _ in 0..12 {
        let objects = consumed::all_channels(random);
        let calls = (0..30).map(|_| checks::any(random, &objects)).collect();
        trial.compare(consumed::history(random, objects, calls));
    }
    for _ in 0..1_000 {
        trial.compare(retyped(random));
        trial.compare(damaged(random));
    }
    trial.demand(lacking);
    trial.demand(goals::explanations_lacking);
}

/// A check or an explanation, most times.
fn any(random: &mut Random, objects: &[Object]) -> Call {
    match random.below(10) {
        0 => calls::any(random, objects),
        1 => writes::any(random, objects),
        2 => payloads::any(random, objects),
        3 if random.below(3) == 0 => restores::any(random, objects),
        _ => checks::any(random, objects),
    }
}

/// One dictionary after another in the same memory, each with the checks of two channels and of
/// all, and the elements of one explained.
fn in_turn(random: &mut Random, dictionaries: &[Vec<Object>]) -> History {
    let needed = dictionaries.iter().map(|objects| Used::of(objects).lengths());
    let most = |a: [usize; 4], b: [usize; 4]| std::array::from_fn(|slice| a[slice].max(b[slice]));
    let lengths = needed.fold([0; 4], most);
    let mut steps = Vec::new();
    for objects in dictionaries {
        steps.push(Step::Lay(objects.clone()));
        let checks = [Call::Check(1), Call::CheckAll(LEAST_NUMBERS), Call::Check(0)];
        steps.extend(checks.map(Step::Call));
        steps.extend(checks::explain_all(random, objects, 0).into_iter().map(Step::Call));
    }
    History { first: Lent { at_start: random.below(2) == 0, lengths, store: 0 }, steps }
}

/// Channel 0 of node 5 with these words, and their targets.
pub fn mapped(words: Vec<Value>, targets: Vec<Object>) -> Vec<Object> {
    let channel = [bare(0x1400, RECORD, u8s([5, 0])), bare(0x1600, ARRAY, words)];
    rising([channel.to_vec(), targets].concat())
}

fn variable(kind: u64, room: usize, encoding: &[u8]) -> Object {
    bare(0x6000, VARIABLE, vec![Value::new(kind, room, encoding)])
}

/// Fields of 0 to 10 bytes for a value of each type, in rooms that are just enough, and not.
fn every_length() -> Vec<Vec<Object>> {
    let mut all = Vec::new();
    for kind in 0..KINDS {
        for room in [0, 1, 3, 8, 9] {
            let encoding = vec![0; size(kind).unwrap_or(room / 4 * 2)];
            for length in 0..=10 {
                let word = w(8 * length, 0, 0, 0x6000);
                all.push(mapped(vec![word], vec![variable(kind, room, &encoding)]));
            }
        }
    }
    all
}

/// Channel 1 of each node, beside one of several nodes.
fn every_node() -> Vec<Vec<Object>> {
    let mut all = Vec::new();
    for first in [0, 5, 240, 241, 255] {
        for second in 0..=u8::MAX {
            let word = || vec![w(8, 0, 0, 0x6000)];
            all.push(vec![
                bare(0x1400, RECORD, u8s([first, 0])),
                bare(0x1401, RECORD, u8s([second, 0])),
                bare(0x1600, ARRAY, word()),
                bare(0x1601, ARRAY, word()),
                variable(5, 0, &[0]),
            ]);
        }
    }
    all
}

/// Targets about what is handed off, there and missing; each sub-index of lists and of a Variable.
fn every_index() -> Vec<Vec<Object>> {
    let mut all = Vec::new();
    for index in 0x11F0..0x1310 {
        let word = || vec![w(8, 0, 0, index)];
        all.push(mapped(word(), vec![]));
        all.push(mapped(word(), vec![bare(index, VARIABLE, u8s([0]))]));
    }
    for sub_index in 0..=255 {
        let word = || vec![w(8, 0, sub_index, 0x6000)];
        for count in [0, 1, MOST_ELEMENTS] {
            all.push(mapped(word(), vec![bare(0x6000, ARRAY, vec![u8s([0])[0].clone(); count])]));
        }
        all.push(mapped(word(), vec![variable(5, 0, &[0])]));
    }
    all
}

/// Fields about the longest payload's end, as the first and as the last of two; then far ones.
fn every_end() -> Vec<Vec<Object>> {
    let targets = || vec![variable(OCTET_STRING, 12, b"abc")];
    let near = || w(16, 0, 0, 0x6000);
    let mut all = Vec::new();
    for start in 1476..=1494 {
        for length in 0..=13 {
            let word = w(8 * length, 8 * start, 0, 0x6000);
            all.push(mapped(vec![word.clone(), near()], targets()));
            all.push(mapped(vec![near(), word], targets()));
        }
    }
    for bits in [0, 1, 7, 8, 9, 96, 97, 104, 0xFFF8, 0xFFFF] {
        all.push(mapped(vec![near(), w(bits, 0xFFF8, 0, 0x6000)], targets()));
        all.push(mapped(vec![w(bits, 0xFFFF, 0, 0x6000), near()], targets()));
        all.push(mapped(vec![w(0xFFF8, bits, 0, 0x6000), near()], targets()));
    }
    all
}

/// One element of each fault, the last one right; 6000h is an Unsigned8 and 6001h an empty list.
pub fn elements() -> Vec<Value> {
    vec![
        u8s([1])[0].clone(),
        w(8, 4, 0, 0x6000),
        w(8, 0, 0, 0x1280),
        w(8, 0, 0, 0x6009),
        w(8, 0, 0, 0x6001),
        w(16, 0, 0, 0x6000),
        w(8, 8 * 1490, 0, 0x6000),
        w(8, 0, 0, 0x6000),
    ]
}

/// Every fault before every other: all tests of one element come before those of the next.
fn every_pair() -> Vec<Vec<Object>> {
    let pairs = elements()
        .into_iter()
        .flat_map(|first| elements().into_iter().map(move |second| vec![first.clone(), second]));
    pairs
        .map(|words| mapped(words, vec![variable(5, 0, &[0]), bare(0x6001, ARRAY, vec![])]))
        .collect()
}

/// A restore from an image of other types at the places of records, lists and targets.
fn retyped(random: &mut Random) -> History {
    let objects = fields::dictionary(random, 4);
    let mut records = Vec::new();
    for object in &objects {
        let first = u8::from(object.shape != VARIABLE);
        for sub_index in (first..).take(object.values.len()) {
            if random.below(4) == 0 {
                let value = objects::value(random, 2);
                let (index, body) = (object.index as u16, value.encoding());
                records.push(Record { index, sub_index, kind: value.kind as u8, body });
            }
        }
    }
    let image = image::of(&records);
    let lengths = Used::of(&objects).lengths();
    let first = Lent { at_start: random.below(2) == 0, lengths, store: image.len() };
    let mut steps = vec![Step::Lay(objects.clone()), Step::Store(image)];
    for restore in [None, Some(restores::any(random, &objects)), Some(restores::everything())] {
        steps.extend(restore.map(Step::Call));
        steps.extend((0..3).map(|_| Step::Call(checks::any(random, &objects))));
    }
    History { first, steps }
}

/// A cell changed, after which most are no dictionary, and some another one.
fn damaged(random: &mut Random) -> History {
    let objects = fields::dictionary(random, 3);
    let cells = cells::cells(&objects);
    let mut steps = vec![Step::Lay(objects.clone()), cells::any_edit(random, &cells)];
    steps.extend(checks::each(random, &objects).map(Step::Call));
    let lengths = Used::of(&objects).lengths();
    History { first: Lent { at_start: random.below(2) == 0, lengths, store: 0 }, steps }
}

/// What of the check was not reached; the stored histories are held against it too.
pub fn lacking(tally: &Tally) -> Vec<String> {
    // The call for all channels passes over those without a record.
    let causes = ANSWERS.iter().filter_map(|(_, _, cause)| *cause);
    let notes: Vec<&str> = causes.filter(|cause| *cause != "no record").chain(["a pass"]).collect();
    [tally.missed(&ANSWERS), tally.not_noted(CHECK_ALL, &notes)].concat()
}

const CHECK: &str = "check";
const CHECK_ALL: &str = "check_all";

/// Each answer, and each way to come to it.
const ANSWERS: [Goal; 23] = [
    (CHECK, 0, None),
    (CHECK, 1, None),
    (CHECK, 31, Some("no record")),
    (CHECK, 31, Some("no node")),
    (CHECK, 31, Some("taken by an earlier channel")),
    (CHECK, 32, Some("no mapping")),
    (CHECK, 32, Some("a Variable")),
    (CHECK, 32, Some("no element")),
    (CHECK, 33, Some("another type")),
    (CHECK, 34, Some("not whole bytes")),
    (CHECK, 35, Some("to the server")),
    (CHECK, 35, Some("to the client")),
    (CHECK, 36, Some("no object")),
    (CHECK, 36, Some("no such element")),
    (CHECK, 37, Some("a list's")),
    (CHECK, 37, Some("an empty list's")),
    (CHECK, 38, Some("below its size")),
    (CHECK, 38, Some("above its size")),
    (CHECK, 38, Some("over its room")),
    (CHECK, 38, Some("odd")),
    (CHECK, 39, Some("past 1,490 bytes")),
    (CHECK_ALL, 1, None),
    (CHECK_ALL, 12, None),
];
