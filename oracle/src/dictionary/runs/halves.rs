//! An index looked up among no, few and the most objects, with gaps between their indices: at each of them, and beside each.

use super::trial::Trial;
use crate::dictionary::model::layout::*;
use crate::dictionary::model::memory::Lent;
use crate::dictionary::model::step::{Call, History, Step};
use crate::random::Random;
use std::collections::BTreeSet;

const UNSIGNED16: u64 = 6;

/// Halving ends early or late, and in one row or between two, around powers of two.
const COUNTS: [usize; 6] = [0, 1, 2, 3, MOST_OBJECTS - 1, MOST_OBJECTS];

/// The first index, and how far behind it the last one is.
const SPREADS: [(u64, u64); 3] = [(0, 0xFFFF), (1, 0xFFFD), (0x1000, 0x0C00)];

pub fn compare(trial: &mut Trial, random: &mut Random) {
    for count in COUNTS {
        for (first, width) in SPREADS {
            trial.compare(looked_up(random, evenly(count, first, width)));
        }
        let objects = anywhere(random, count);
        trial.compare(looked_up(random, objects));
    }
}

/// A Variable that says which row it is.
fn variable(index: u64, row: usize) -> Object {
    bare(index, VARIABLE, vec![Value::new(UNSIGNED16, 0, &(row as u16).to_le_bytes())])
}

fn evenly(count: usize, first: u64, width: u64) -> Vec<Object> {
    let behind = count.saturating_sub(1).max(1) as u64;
    (0..count).map(|row| variable(first + row as u64 * width / behind, row)).collect()
}

/// Both ends among them, where there are two.
fn anywhere(random: &mut Random, count: usize) -> Vec<Object> {
    let mut indices = BTreeSet::from([0, 0xFFFF]);
    while indices.len() < count {
        indices.insert(random.below(0x1_0000) as u64);
    }
    indices.into_iter().take(count).enumerate().map(|(row, index)| variable(index, row)).collect()
}

fn read(index: u64) -> Step {
    Step::Call(Call::Read { index: index as u16, sub_index: 0, numbers: 3 })
}

fn looked_up(random: &mut Random, objects: Vec<Object>) -> History {
    let mut places = BTreeSet::from([0, 0x1000, 0xFFFF]);
    for Object { index, .. } in &objects {
        places.extend(index.saturating_sub(1)..=(index + 1).min(0xFFFF));
    }
    let lengths = Used::of(&objects).lengths();
    let mut steps = vec![Step::Lay(objects)];
    steps.extend(places.into_iter().map(read));
    History { first: Lent { at_start: random.below(2) == 0, lengths, store: 0 }, steps }
}
