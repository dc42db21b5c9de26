//! The stored histories of checks; like those of received.rs.

use super::lines::{LENT, Lines, STORE_BYTES, sayable};
use super::said::{insert_all, until};
use super::settled::{self, Arrival, Question};
use crate::dictionary::generators::checks;
use crate::dictionary::generators::fields;
use crate::dictionary::generators::literals::{RECORD, u8s, u32s, w};
use crate::dictionary::generators::payloads;
use crate::dictionary::generators::restores;
use crate::dictionary::generators::writes::save;
use crate::dictionary::model::checked::LEAST_NUMBERS;
use crate::dictionary::model::consuming::LEAST_ROOM;
use crate::dictionary::model::layout::*;
use crate::dictionary::model::step::{Call, Received};
use crate::dictionary::runs::faults::{lacking, mapped};
use crate::dictionary::runs::goals::lacking_named;
use crate::random::Random;

/// Never changed: the printed list is the same at every run.
const SEED: u64 = 305;

/// Longer payloads would make a line long and say nothing more.
const LONGEST: usize = 40;

pub fn print() {
    let random = &mut Random::new(SEED);
    let mut lines = Lines::new(STORE_BYTES);
    // Zeros are no dictionary.
    each_check(&mut lines, &[]);
    settled::all().iter().for_each(|question| ask(&mut lines, question));
    retyped(&mut lines);
    many_channels(&mut lines);
    for _ in 0..10 {
        mixture(&mut lines, random);
    }
    damage(&mut lines);
    let lacking = [lacking(&lines.tally), lacking_named(&lines.tally)].concat();
    assert!(lacking.is_empty(), "the lines lack {lacking:?}");
    print!("{}", lines.finish());
}

/// Of every channel that has an object, each with the element that it names, and of all.
fn each_check(lines: &mut Lines, objects: &[Object]) {
    let of_channels = |index: u64| matches!(index, 0x1400..=0x14FF | 0x1600..=0x16FF);
    let channels = objects.iter().filter(|object| of_channels(object.index));
    let mut channels: Vec<u8> = channels.map(|object| object.index as u8).collect();
    channels.sort();
    channels.dedup();
    if channels.is_empty() {
        channels.push(0);
    }
    channels.into_iter().for_each(|channel| lines.check(channel));
    lines.call(Call::CheckAll(LEAST_NUMBERS));
}

/// The checks; then what arrives, what it leaves, and the checks again.
fn ask(lines: &mut Lines, Question { objects, payloads }: &Question) {
    insert_all(lines, objects);
    each_check(lines, objects);
    for Arrival { payload, sender, version } in payloads {
        let (payload, room) = (payload.clone(), LEAST_ROOM);
        let given = Received { payload, sender: *sender, version: *version, ready: 1, room };
        lines.call(Call::ConsumePdoPayload(given));
        for object in objects.iter().filter(|object| object.index > 0x16FF) {
            let last = if object.shape == VARIABLE { 0 } else { object.values.len() };
            lines.read(object.index as u16, last as u8);
        }
        each_check(lines, objects);
    }
}

/// An element, a node and a target of another type after a restore: the image is that of another
/// dictionary.
fn retyped(lines: &mut Lines) {
    let saved = |object: Object| Object { access: 4, ..object };
    let places = [(0x1600, 2, u32s([1])), (0x1400, 1, u32s([5])), (0x6000, 1, u32s([7]))];
    for (index, sub_index, other) in places {
        let word = || w(8, 0, 1, 0x6000);
        let target = bare(0x6000, ARRAY, u8s([0]));
        let objects = mapped(vec![word(), word()], vec![target]);
        let mut old = objects.clone();
        let object = old.iter_mut().find(|object| object.index == index);
        let object = object.expect("it is one of them");
        object.values[sub_index - 1] = other[0].clone();
        *object = saved(object.clone());
        insert_all(lines, &old);
        each_check(lines, &old);
        lines.call(save(1));
        insert_all(lines, &objects);
        each_check(lines, &objects);
        lines.call(restores::everything());
        each_check(lines, &objects);
    }
}

/// The first and the last channel, one between them, and numbers for fewer channels than there may
/// be.
fn many_channels(lines: &mut Lines) {
    let record = |channel: u64, node: u8| bare(0x1400 + channel, RECORD, u8s([node, 0]));
    let list = |channel: u64, index: u64| bare(0x1600 + channel, ARRAY, vec![w(8, 0, 0, index)]);
    let objects = vec![
        record(0, 1),
        record(0x80, 240),
        record(0xFE, 0),
        record(0xFF, 239),
        list(0, 0x6000),
        list(0x80, 0x6009),
        list(0xFF, 0x6000),
        bare(0x6000, VARIABLE, u8s([0])),
    ];
    insert_all(lines, &objects);
    each_check(lines, &objects);
    for room in [0, 1, 12, LEAST_NUMBERS - 1, LEAST_NUMBERS, LEAST_NUMBERS + 1, 1024] {
        lines.call(Call::CheckAll(room));
    }
}

fn is_short(call: &Call) -> bool {
    let length = match call {
        Call::ConsumePdoPayload(given) => given.payload.len(),
        _ => 0,
    };
    sayable(call) && length <= LONGEST
}

/// Random channels that fit, checks of them, and payloads between these.
fn mixture(lines: &mut Lines, random: &mut Random) {
    let objects = until(|| {
        let objects = fields::dictionary(random, 4);
        let needed = Used::of(&objects).lengths();
        let fits = needed.iter().zip(LENT).all(|(needed, lent)| *needed <= lent);
        (fits && needed[3] < 200).then_some(objects)
    });
    insert_all(lines, &objects);
    for _ in 0..10 {
        let call = until(|| {
            let call = match random.below(3) {
                0 => payloads::any(random, &objects),
                _ => checks::check(random, &objects),
            };
            Some(call).filter(is_short)
        });
        lines.call(call);
    }
}

/// A dictionary is judged before too few numbers are.
fn damage(lines: &mut Lines) {
    let objects = lines.objects();
    for (slice, at, new, old) in [(0, 3, 3, 1), (0, 4, 1, 0)] {
        lines.put(slice, at, new);
        each_check(lines, &objects);
        lines.call(Call::CheckAll(0));
        lines.put(slice, at, old);
        each_check(lines, &objects);
    }
}
