//! Random reads, names to find, lists of nodes and counters, on objects that are, or are not, in the
//! dictionary.

use super::objects::{CONFIGURED_NODES, UNSIGNED32};
use crate::dictionary::model::layout::{LONGEST_NAME, Object, VARIABLE};
use crate::dictionary::model::step::{Call, WIDTHS, Width};
use crate::inputs::{damaged, text};
use crate::random::Random;

/// A place that is there, one just beside it, or any.
pub fn place(random: &mut Random, objects: &[Object]) -> (u16, u8) {
    if objects.is_empty() || random.below(8) == 0 {
        return (random.word() as u16, random.word() as u8);
    }
    let object = &objects[random.below(objects.len())];
    let count = object.values.len();
    let index = match random.below(24) {
        0 => (object.index as u16).wrapping_add(1),
        1 => (object.index as u16).wrapping_sub(1),
        _ => object.index as u16,
    };
    let sub_index = match random.below(10) {
        0 | 1 => 0,
        2 => count as u8,
        3 => count.wrapping_add(1) as u8,
        4 => random.pick(&[1, 254, 255]),
        _ if object.shape == VARIABLE => 0,
        _ => random.below(count + 1) as u8,
    };
    (index, sub_index)
}

/// The place of a value of such a type, half the times, where there is one; else any.
pub fn place_of_kind(
    random: &mut Random,
    objects: &[Object],
    is_kind: impl Fn(u64) -> bool,
) -> (u16, u8) {
    let is_kind = &is_kind;
    let places = objects.iter().flat_map(|object| {
        let first = u8::from(object.shape != VARIABLE);
        let values = object.values.iter().zip(first..=u8::MAX);
        let same = values.filter(move |(value, _)| is_kind(value.kind));
        same.map(|(_, sub_index)| (object.index as u16, sub_index))
    });
    let places: Vec<(u16, u8)> = places.collect();
    match random.below(2) {
        0 if !places.is_empty() => random.pick(&places),
        _ => place(random, objects),
    }
}

fn read_number(random: &mut Random, objects: &[Object], width: Width) -> Call {
    let (index, sub_index) = place_of_kind(random, objects, |kind| kind == width.kind());
    Call::ReadNumber { width, index, sub_index }
}

fn increment_counter(random: &mut Random, objects: &[Object]) -> Call {
    let (index, sub_index) = place_of_kind(random, objects, |kind| kind == UNSIGNED32);
    Call::IncrementCounter { index, sub_index }
}

fn name(random: &mut Random, objects: &[Object]) -> Vec<u8> {
    let known = match objects.len() {
        0 => Vec::new(),
        count => objects[random.below(count)].name.clone(),
    };
    match random.below(10) {
        0 => damaged(random, &known),
        1 => {
            let length = random.pick(&[0, 1, LONGEST_NAME - 1, LONGEST_NAME, LONGEST_NAME + 1, 80]);
            text(random, length)
        }
        2 => known[..known.len() / 2].to_vec(),
        3 => [known, b"x".to_vec()].concat(),
        _ => known,
    }
}

/// How many nodes a list of them has configured.
pub fn nodes(list: &Object) -> usize {
    let is_node = |word: u64| word & 0x101 == 1;
    list.values.iter().filter(|value| value.kind == UNSIGNED32 && is_node(value.word)).count()
}

/// Just as many bytes as there are nodes, one less or more, or any number.
fn room_for_nodes(random: &mut Random, objects: &[Object]) -> usize {
    let list = objects.iter().find(|object| object.index == CONFIGURED_NODES.into());
    let nodes = list.map_or(0, nodes);
    match random.below(6) {
        0 => nodes.saturating_sub(1),
        1 => nodes + 1,
        2 => random.pick(&[0, 1, 253, 254, 255, 300]),
        _ => nodes,
    }
}

/// A read, a read of a number, a name to find, the configured nodes, or a counter.
pub fn any(random: &mut Random, objects: &[Object]) -> Call {
    match random.below(10) {
        0..=2 => {
            let (index, sub_index) = place(random, objects);
            let numbers = random.pick(&[3, 3, 3, 3, 4, 9, 2, 1, 0]);
            Call::Read { index, sub_index, numbers }
        }
        3..=5 => {
            let width = random.pick(&WIDTHS);
            read_number(random, objects, width)
        }
        6 => Call::FindByName(name(random, objects)),
        7 => Call::GetConfiguredCns(room_for_nodes(random, objects)),
        _ => increment_counter(random, objects),
    }
}

/// Each of these once, most at places that are there.
pub fn each(random: &mut Random, objects: &[Object]) -> Vec<Call> {
    let (index, sub_index) = place(random, objects);
    let mut calls = vec![Call::Read { index, sub_index, numbers: 3 }];
    calls.extend(WIDTHS.map(|width| read_number(random, objects, width)));
    calls.push(Call::FindByName(name(random, objects)));
    calls.push(Call::GetConfiguredCns(room_for_nodes(random, objects)));
    calls.push(increment_counter(random, objects));
    calls
}
