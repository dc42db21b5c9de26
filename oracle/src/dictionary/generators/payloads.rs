//! Random payloads and cycles for objects that have channels, or have none.

use super::channels::{self, LISTS, VERSIONS};
use crate::dictionary::model::consuming::{A_PAYLOAD, LEAST_ROOM, LONGEST_PAYLOAD};
use crate::dictionary::model::layout::*;
use crate::dictionary::model::running::{channel_of, list_u8};
use crate::dictionary::model::step::{Call, Cycle, Received};
use crate::inputs::{EDGE_BYTES, text};
use crate::original::VISIBLE_STRING;
use crate::random::Random;

const UNSIGNED64: u64 = 8;

/// Each class of senders, and its ends.
const SENDERS: [u8; 8] = [0, 1, 5, 20, 239, 240, 241, 255];

/// A payload that arrives: of a sender that has a channel, most times, as its list wants it.
pub struct Arrival {
    pub payload: Vec<u8>,
    pub sender: u8,
    pub version: u8,
    pub ready: u64,
}

pub fn arrival(random: &mut Random, objects: &[Object]) -> Arrival {
    let sender = sender(random, objects);
    let channel = channel_of(objects, sender);
    let find = |index: u16| objects.iter().find(|object| object.index == index.into());
    let record = channel.and_then(|channel| find(LISTS - 0x200 + channel));
    let expected = record.and_then(|record| list_u8(record, 2)).unwrap_or(0);
    let list = channel.and_then(|channel| find(LISTS + channel));
    let payload = match list {
        Some(list) => mapped(random, list, objects),
        None => {
            let length = random.below(9);
            random.bytes(length)
        }
    };
    let ready = random.pick(&[1, 1, 1, 1, 1, 1, 1, 1, 1, 1, 1, 2, 256, 1 << 32, u64::MAX, 0]);
    Arrival { payload, sender, version: version(random, expected), ready }
}

fn sender(random: &mut Random, objects: &[Object]) -> u8 {
    let records = objects.iter().filter(|object| matches!(object.index, 0x1400..=0x14FF));
    let nodes: Vec<u8> = records.filter_map(|record| list_u8(record, 1)).collect();
    match random.below(32) {
        0 => random.pick(&SENDERS),
        1 => random.word() as u8,
        _ if nodes.is_empty() => random.pick(&SENDERS),
        _ => match random.pick(&nodes) {
            0 if random.below(8) > 0 => 240,
            node => node,
        },
    }
}

/// Most times a right one: in the low nibble as much as expected, or more.
fn version(random: &mut Random, expected: u8) -> u8 {
    match random.below(48) {
        0 => expected.wrapping_sub(1),
        1 => expected ^ 0x10,
        2 => random.pick(&VERSIONS),
        3 => random.word() as u8,
        4..=9 if expected > 0 => expected | random.below(16) as u8,
        _ => expected,
    }
}

/// Words of a list that have a field.
fn aligned(list: &Object) -> impl Iterator<Item = (u16, u8, usize, usize)> {
    let words = list.values.iter().filter(|value| value.kind == UNSIGNED64).map(|value| value.word);
    words.filter_map(|word| {
        let bits = |from: u32| usize::from((word >> from) as u16);
        let (start, length) = (bits(32), bits(48));
        let aligned = start.is_multiple_of(8) && length.is_multiple_of(8);
        aligned.then(|| (bits(0) as u16, bits(16) as u8, start / 8, length / 8))
    })
}

/// As long as the list's largest end, one byte less or more, or any; the bytes are most times such
/// as the targets take.
fn mapped(random: &mut Random, list: &Object, objects: &[Object]) -> Vec<u8> {
    let ends = aligned(list).map(|(_, _, start, length)| start + length);
    let near = ends.filter(|end| *end <= LONGEST_PAYLOAD).max().unwrap_or(0);
    let far = random.pick(&[LONGEST_PAYLOAD - 1, LONGEST_PAYLOAD, LONGEST_PAYLOAD + 1]);
    let length = match random.below(24) {
        0 | 1 => near.saturating_sub(1),
        2 => near + 1,
        3 => random.below(near + 1),
        4 => random.below(2),
        5 if random.below(4) == 0 => far,
        _ => near,
    };
    let mut payload = match random.below(4) {
        0 => random.bytes(length),
        1 => text(random, length),
        _ => (0..length).map(|_| random.below(0x80) as u8).collect(),
    };
    for (index, sub_index, start, length) in aligned(list) {
        if let Some(field) = payload.get_mut(start..start + length) {
            suit(random, objects, index, sub_index, field);
        }
    }
    payload
}

/// A text for a text, damaged now and then; a word that is nearly right for a mapping; a node for a
/// record.
fn suit(random: &mut Random, objects: &[Object], index: u16, sub_index: u8, field: &mut [u8]) {
    let object = objects.iter().find(|object| object.index == index.into());
    let there = object.and_then(|object| Some(&object.values[element(object, sub_index)?]));
    let Some(value) = there else { return };
    match index {
        0x1400..=0x14FF if field.len() == 1 && random.below(4) > 0 => {
            field[0] = random.pick(&SENDERS);
        }
        0x1600..=0x16FF if value.kind == UNSIGNED64 && field.len() == 8 => {
            let word = channels::word(random, objects, &mut 0);
            field.copy_from_slice(&word.to_le_bytes());
        }
        _ if value.kind == VISIBLE_STRING => {
            field.copy_from_slice(&text(random, field.len()));
            if !field.is_empty() && random.below(8) == 0 {
                field[random.below(field.len())] = random.pick(&EDGE_BYTES);
            }
        }
        _ => {}
    }
}

pub fn any(random: &mut Random, objects: &[Object]) -> Call {
    let Arrival { payload, sender, version, ready } = arrival(random, objects);
    let room = match random.below(48) {
        0 => random.pick(&[0, 1, 253]),
        1 => random.pick(&[255, 256, 300, 1000]),
        _ => LEAST_ROOM,
    };
    Call::ConsumePdoPayload(Received { payload, sender, version, ready, room })
}

/// The payloads lie in any order and share bytes now and then.
pub fn cycle_of(random: &mut Random, arrivals: &[Arrival], room: usize) -> Cycle {
    let before = random.below(3);
    let mut data = random.bytes(before);
    let mut payloads = Vec::new();
    for Arrival { payload, sender, version, ready } in arrivals {
        let start = match random.below(12) {
            0 if data.len() > payload.len() => random.below(data.len() - payload.len()),
            _ => {
                data.extend(payload);
                data.len() - payload.len()
            }
        };
        payloads.extend([start as u64, payload.len() as u64]);
        payloads.extend([u64::from(*sender), u64::from(*version), *ready]);
    }
    Cycle { data, payloads, room }
}

pub fn cycle(random: &mut Random, objects: &[Object], most: usize) -> Call {
    let count = random.below(most + 1);
    let mut arrivals: Vec<Arrival> = (0..count).map(|_| arrival(random, objects)).collect();
    // Most times the call is not refused for one of them.
    if random.below(16) > 0 {
        arrivals.iter_mut().for_each(|arrival| arrival.payload.truncate(LONGEST_PAYLOAD));
    }
    let room = match random.below(8) {
        0 => random.pick(&[0, 1, 253, 254, 255]),
        1 | 2 => LEAST_ROOM + random.below(20),
        3 => LEAST_ROOM * random.below(4),
        _ => LEAST_ROOM + 2 * count,
    };
    let mut cycle = cycle_of(random, &arrivals, room);
    if random.below(12) == 0 {
        // Of several rules the order decides.
        (0..random.pick(&[1, 1, 2, 3])).for_each(|_| spoil(random, &mut cycle));
    }
    Call::ConsumeCycle(cycle)
}

/// Breaks a rule of R11.12, or stands just at it.
fn spoil(random: &mut Random, cycle: &mut Cycle) {
    let length = cycle.data.len() as u64;
    let numbers = &mut cycle.payloads;
    if random.below(6) == 0 || numbers.len() < A_PAYLOAD {
        numbers.resize((numbers.len() + random.below(7)).saturating_sub(3), 0);
        return;
    }
    let at = A_PAYLOAD * random.below(numbers.len() / A_PAYLOAD);
    match random.below(8) {
        0 => [numbers[at], numbers[at + 1]] = [length + 1, 0],
        1 => [numbers[at], numbers[at + 1]] = [length, random.word() % 2],
        2 => numbers[at + 1] = length + 1 - numbers[at].min(length),
        // The sum is small again where it is cut to 64 bits.
        3 => [numbers[at], numbers[at + 1]] = [u64::MAX, 1 + random.word() % 9],
        4 => [numbers[at], numbers[at + 1]] = [random.word() % (length + 1), u64::MAX],
        5 => numbers[at + 2] = random.pick(&[256, 255, 1 << 32, u64::MAX]),
        6 => numbers[at + 3] = random.pick(&[256, 255, 1 << 32, u64::MAX]),
        _ => {
            cycle.data.resize(cycle.data.len().max(2000), 0);
            [numbers[at], numbers[at + 1]] = [7, random.pick(&[1490, 1491, 1491])];
        }
    }
}

pub fn error_bit(random: &mut Random) -> Call {
    let index = random.pick(&[0x1C80, 0x1C80, 0x1C81, 0x1C81, 0x6000, 0x6001, 0x1400]);
    let any = random.word() as u8;
    let node = random.pick(&[0, 1, 8, 9, 239, 240, 255, any, any]);
    Call::UpdatePdoErrorObject { index, node }
}

/// Each call once.
pub fn each(random: &mut Random, objects: &[Object]) -> [Call; 3] {
    [any(random, objects), cycle(random, objects, 3), error_bit(random)]
}
