//! The stored histories of payloads, cycles and error bits; like those of stores.rs.

use super::lines::{LENT, Lines, sayable};
use super::said::{any_call, insert_all, until};
use super::traps::{self, Trap};
use crate::dictionary::generators::channels;
use crate::dictionary::generators::literals::{RECORD, u8s, u16s, w};
use crate::dictionary::generators::payloads;
use crate::dictionary::model::consuming::{LEAST_ROOM, LONGEST_PAYLOAD};
use crate::dictionary::model::layout::*;
use crate::dictionary::model::step::{Call, Cycle, Received};
use crate::dictionary::runs::consumed::not_reached;
use crate::original::VISIBLE_STRING;
use crate::random::Random;

/// Never changed: the printed list is the same at every run.
const SEED: u64 = 304;

/// Longer payloads would make a line long and say nothing more, but for those about the longest.
const LONGEST: usize = 40;

pub fn print() {
    let random = &mut Random::new(SEED);
    let mut lines = Lines::new(0);
    // Zeros are no dictionary.
    each_call(&mut lines, random, &[]);
    for trap in traps::cases().iter().chain(&traps::all()) {
        spring(&mut lines, trap);
    }
    versions(&mut lines);
    bits(&mut lines);
    bounds(&mut lines, random);
    most_events(&mut lines);
    cycles(&mut lines);
    for _ in 0..8 {
        mixture(&mut lines, random);
    }
    damage(&mut lines, random);
    bad_texts(&mut lines);
    caption(&mut lines);
    let lacking = not_reached(&lines.tally);
    assert!(lacking.is_empty(), "the lines lack {lacking:?}");
    print!("{}", lines.finish());
}

fn payload(bytes: &[u8], sender: u8, version: u8, ready: u64, room: usize) -> Call {
    Call::ConsumePdoPayload(Received { payload: bytes.to_vec(), sender, version, ready, room })
}

fn cycle(data: &[u8], payloads: &[[u64; 5]], room: usize) -> Call {
    Call::ConsumeCycle(Cycle { data: data.to_vec(), payloads: payloads.concat(), room })
}

/// The payload arrives; the targets are read; it arrives again, as the only one of a cycle.
fn spring(lines: &mut Lines, trap: &Trap) {
    let Trap { objects, payload: bytes, sender, version } = trap;
    insert_all(lines, objects);
    lines.call(payload(bytes, *sender, *version, 1, LEAST_ROOM));
    for object in objects {
        let index = object.index as u16;
        match index {
            0x1400..=0x16FF => {}
            _ if object.shape == VARIABLE => lines.read(index, 0),
            _ => lines.read(index, object.values.len() as u8),
        }
    }
    let numbers = [0, bytes.len() as u64, (*sender).into(), (*version).into(), 1];
    lines.call(cycle(bytes, &[numbers], LEAST_ROOM));
}

/// A byte and a text of so many bytes for node 5, and the targets.
fn byte_and_text(lines: &mut Lines, length: usize) {
    lines.begin();
    lines.insert(&bare(0x1400, RECORD, u8s([5, 0])));
    let text = w(8 * length as u64, 8, 0, 0x6001);
    lines.insert(&bare(0x1600, ARRAY, vec![w(8, 0, 0, 0x6000), text]));
    lines.insert(&bare(0x6000, VARIABLE, u8s([0])));
    lines.insert(&bare(0x6001, VARIABLE, vec![Value::new(VISIBLE_STRING, length, b"")]));
}

/// Texts that something breaks, each by itself and then all as a cycle: the place is that in the text.
fn bad_texts(lines: &mut Lines) {
    const PAYLOADS: [&[u8; 6]; 9] = [
        b"0ab\xFFcd",
        b"1\xC0abcd",
        b"2\xED\xA0\x80ab",
        b"3a\xE2\x82bc",
        b"4\xF0\x9F\x98ab",
        b"5abcd\xC3",
        b"6abc\xE2\x82",
        b"7ab\xF4\x8F\xBF",
        b"8a\xE2\x82\xACb",
    ];
    byte_and_text(lines, 5);
    let mut numbers = Vec::new();
    for (number, bytes) in (0..).zip(PAYLOADS) {
        lines.call(payload(bytes, 5, 0, 1, LEAST_ROOM));
        numbers.push([6 * number, 6, 5, 0, 1]);
    }
    lines.read(0x6001, 0);
    lines.call(cycle(&PAYLOADS.map(|bytes| *bytes).concat(), &numbers, 2 * LEAST_ROOM));
}

/// A text of 300 bytes of which the last is bad.
fn caption(lines: &mut Lines) {
    byte_and_text(lines, 300);
    let bytes = [vec![b'a'; 300], vec![0xFF]].concat();
    lines.call(payload(&bytes, 5, 0, 1, LEAST_ROOM));
    lines.call(cycle(&bytes, &[[0, 301, 5, 0, 1]], LEAST_ROOM));
}

/// Expected and received: cases 5 and 6, and the ends of both nibbles.
fn versions(lines: &mut Lines) {
    const PAIRS: [(u8, u8); 14] = [
        (0, 0),
        (0x10, 0x12),
        (0x12, 0x11),
        (0x12, 0x22),
        (0, 1),
        (0, 0x10),
        (0x10, 0),
        (0x10, 0x10),
        (0x0F, 0x0F),
        (0x0F, 0x0E),
        (0x01, 0x0F),
        (0xF0, 0xFF),
        (0xFF, 0xFE),
        (0xFF, 0x0F),
    ];
    for (expected, received) in PAIRS {
        lines.begin();
        lines.insert(&bare(0x1400, RECORD, u8s([9, expected])));
        lines.insert(&bare(0x1600, ARRAY, vec![w(8, 0, 0, 0x6000)]));
        lines.insert(&bare(0x6000, VARIABLE, u8s([0])));
        lines.call(payload(&[7], 9, received, 1, LEAST_ROOM));
        lines.read(0x6000, 0);
    }
}

/// Bits of nodes at the ends of bytes and of what has a bit, case 7 among them; then in an object
/// that is shorter, is no OctetString, is a list, or is not there.
fn bits(lines: &mut Lines) {
    lines.begin();
    let octets = |length: usize| Value::new(12, 32, &vec![0; length]);
    lines.insert(&bare(0x1C80, VARIABLE, vec![octets(30)]));
    lines.insert(&bare(0x1C81, VARIABLE, vec![octets(29)]));
    lines.insert(&bare(0x1C82, VARIABLE, vec![Value::new(14, 32, &[0; 32])]));
    lines.insert(&bare(0x1C83, ARRAY, vec![octets(32)]));
    lines.insert(&bare(0x1C84, VARIABLE, u8s([0])));
    for index in 0x1C80..0x1C86 {
        for node in [0, 1, 8, 9, 232, 233, 239, 240, 255] {
            lines.call(Call::UpdatePdoErrorObject { index, node });
        }
        lines.read(index, 0);
    }
}

/// The longest payload, one byte more and less; event lists that are just long enough, and not.
fn bounds(lines: &mut Lines, random: &mut Random) {
    lines.begin();
    lines.insert(&bare(0x14FF, RECORD, u8s([240, 0])));
    let word = w(16, 8 * 1488, 1, 0x6000);
    lines.insert(&bare(0x16FF, ARRAY, vec![word, w(0, 8 * 1490, 0, 0x6001)]));
    lines.insert(&bare(0x6000, ARRAY, u16s([0])));
    lines.insert(&bare(0x6001, VARIABLE, vec![Value::new(12, 2, b"ab")]));
    let bytes = random.bytes(LONGEST_PAYLOAD + 1);
    for length in [1490, 1491] {
        lines.call(payload(&bytes[..length], 240, 0, 1, LEAST_ROOM));
        lines.read(0x6000, 1);
    }
    for (room, ready) in [(253, 1), (253, 0), (0, 1), (255, 1), (255, 0)] {
        lines.call(payload(&bytes[..3], 240, 0, ready, room));
    }
    let numbers = |length: u64| [0, length, 240, 0, 1];
    lines.call(cycle(&bytes, &[numbers(3), numbers(1491)], LEAST_ROOM));
    lines.call(cycle(&bytes, &[numbers(1491), [0, 3, 256, 0, 1]], LEAST_ROOM));
}

/// A list of the most elements, each of which gives an event.
fn most_events(lines: &mut Lines) {
    lines.begin();
    lines.insert(&bare(0x1400, RECORD, u8s([5, 0])));
    lines.insert(&bare(0x1600, ARRAY, vec![w(8, 0, 0, 0x1400); MOST_ELEMENTS]));
    lines.call(payload(&[1], 5, 0, 1, LEAST_ROOM));
    lines.call(payload(&[], 5, 0, 1, LEAST_ROOM));
}

/// Two events a payload: as many payloads as find 254 free numbers, and none that is not ready
/// without.
fn cycles(lines: &mut Lines) {
    lines.begin();
    lines.insert(&bare(0x1400, RECORD, u8s([5, 0])));
    let list = vec![w(8, 0, 0, 0x1280), w(8, 8, 1, 0x6000), w(8, 0, 0, 0x1400)];
    lines.insert(&bare(0x1600, ARRAY, list));
    lines.insert(&bare(0x6000, ARRAY, u8s([0])));
    let data = [1, 2, 3, 4, 5, 6];
    let ready = |start: u64| [start, 2, 5, 0, 1];
    let not_ready = [0, 2, 5, 0, 0];
    let payloads = [ready(0), not_ready, ready(2), ready(4)];
    for room in [0, 253, 254, 255, 256, 257, 258, 259, 260, 300] {
        lines.call(cycle(&data, &payloads, room));
        lines.read(0x6000, 1);
    }
    lines.call(cycle(&data, &[], 0));
    let most = u64::MAX;
    for bad in [[5, 2, 5, 0, 1], [7, 0, 5, 0, 1], [6, 0, 5, 0, 1], [most, 2, 5, 0, 1]] {
        lines.call(cycle(&data, &[ready(0), bad], LEAST_ROOM));
    }
    for bad in [[0, most, 5, 0, 1], [0, 2, 256, 0, 1], [0, 2, 5, 256, 1], [0, 2, 5, 0, most]] {
        lines.call(cycle(&data, &[ready(0), bad], LEAST_ROOM + 2));
    }
    for numbers in [1, 4, 6, 9] {
        let payloads = [0, 2, 5, 0, 1, 2, 2, 5, 0, 1][..numbers].to_vec();
        lines.call(Call::ConsumeCycle(Cycle { data: data.to_vec(), payloads, room: LEAST_ROOM }));
    }
}

fn is_short(call: &Call) -> bool {
    let length = match call {
        Call::ConsumePdoPayload(given) => given.payload.len(),
        Call::ConsumeCycle(given) => given.data.len() / 2,
        _ => 0,
    };
    sayable(call) && length <= LONGEST
}

fn short(mut make: impl FnMut() -> Call) -> Call {
    until(|| Some(make()).filter(is_short))
}

/// Random channels and targets that fit, and what arrives for them.
fn mixture(lines: &mut Lines, random: &mut Random) {
    let objects = until(|| {
        let objects = channels::dictionary(random, 5);
        let needed = Used::of(&objects).lengths();
        needed.iter().zip(LENT).all(|(needed, lent)| *needed <= lent).then_some(objects)
    });
    insert_all(lines, &objects);
    for _ in 0..12 {
        match random.below(12) {
            0 => any_call(lines, random, &objects),
            1 => lines.call(payloads::error_bit(random)),
            2 => lines.call(short(|| payloads::cycle(random, &objects, 4))),
            _ => lines.call(short(|| payloads::any(random, &objects))),
        }
    }
}

fn each_call(lines: &mut Lines, random: &mut Random, objects: &[Object]) {
    lines.call(short(|| payloads::any(random, objects)));
    lines.call(short(|| payloads::cycle(random, objects, 2)));
    lines.call(payloads::error_bit(random));
}

/// A dictionary is judged before anything is consumed, also where a payload would be refused.
fn damage(lines: &mut Lines, random: &mut Random) {
    let objects = lines.objects();
    for (slice, at, new, old) in [(0, 3, 3, 1), (0, 4, 1, 0)] {
        lines.put(slice, at, new);
        each_call(lines, random, &objects);
        lines.call(payload(&[], 5, 0, 1, 0));
        lines.call(cycle(&[], &[[1, 0, 0, 0, 0]], 0));
        lines.put(slice, at, old);
        each_call(lines, random, &objects);
    }
}
