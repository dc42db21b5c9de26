//! Writes and fields that are no values of a type, of every length and at every sort of place: what
//! is said of them.

use super::trial::Trial;
use crate::decoded::{FAR, MOST_ASCII};
use crate::dictionary::generators::literals::{RECORD, u8s, w};
use crate::dictionary::generators::writes::write;
use crate::dictionary::model::consuming::{LEAST_ROOM, LONGEST_PAYLOAD};
use crate::dictionary::model::layout::*;
use crate::dictionary::model::memory::Lent;
use crate::dictionary::model::step::{Call, Cycle, History, Received, Step};
use crate::inputs::{EDGE_BYTES, damaged, text};
use crate::original::{VISIBLE_STRING, size};
use crate::random::Random;

/// Longer than the largest room by far.
const LONG_TEXTS: [usize; 4] = [300, LARGEST_ROOM, 5000, 30_000];

/// Places to write to: values that are there, one of them ReadOnly, and none; counts of a list and of
/// mappings; commands.
const PLACES: [(u16, u8); 12] = [
    (0x2000, 0),
    (0x2000, 1),
    (0x2001, 0),
    (0x2001, 1),
    (0x2002, 0),
    (0x3000, 0),
    (0x1010, 0),
    (0x1010, 1),
    (0x1011, 1),
    (0x1600, 0),
    (0x1600, 1),
    (0x1A00, 0),
];

/// Numbers that are no types, of which some would be one if they were cut to fewer bits.
const NO_KINDS: [u64; 4] = [21, 256 + 6, (1 << 32) + 11, u64::MAX];

pub fn compare(trial: &mut Trial, random: &mut Random) {
    for kind in (0..=LAST_KIND).chain(NO_KINDS) {
        trial.compare(every_length_written(random, kind));
    }
    for kind in 0..=LAST_KIND {
        trial.compare(every_length_received(random, kind));
    }
    short_texts(trial, random);
    broken_characters(trial, random);
    for _ in 0..60 {
        trial.compare(long_texts_written(random));
        trial.compare(long_texts_received(random));
    }
}

/// Of a type's encoding: none, one byte short, whole, one byte more; of strings some of each.
fn lengths(kind: u64) -> std::ops::RangeInclusive<usize> {
    0..=size(kind).unwrap_or(8) + 1
}

fn history(random: &mut Random, objects: Vec<Object>, calls: Vec<Call>) -> History {
    let lengths = Used::of(&objects).lengths();
    let first = Lent { at_start: random.below(2) == 0, lengths, store: 40 };
    let calls = calls.into_iter().map(Step::Call);
    History { first, steps: std::iter::once(Step::Lay(objects)).chain(calls).collect() }
}

/// A value of a type at its least, in a room for some text.
fn least(kind: u64) -> Value {
    Value::new(kind, 20, &vec![0; size(kind).unwrap_or(0)])
}

/// What stands at the places; no value can be of what is no type.
fn targets(kind: u64) -> Vec<Object> {
    let kind = if kind > LAST_KIND { VISIBLE_STRING } else { kind };
    vec![
        bare(0x1600, ARRAY, vec![w(8, 0, 0, 0x2000)]),
        bare(0x2000, VARIABLE, vec![least(kind)]),
        bare(0x2001, ARRAY, vec![least(kind)]),
        Object { access: 0, ..bare(0x2002, VARIABLE, vec![least(kind)]) },
    ]
}

fn every_length_written(random: &mut Random, kind: u64) -> History {
    let mut calls = Vec::new();
    for length in lengths(kind) {
        for (index, sub_index) in PLACES {
            calls.push(write(index, sub_index, kind, &random.bytes(length)));
        }
    }
    history(random, targets(kind), calls)
}

/// A channel for each sender from 1 on, with one word, and the targets of the words.
fn channels(words: Vec<Value>, targets: Vec<Object>) -> Vec<Object> {
    let senders = (1..).zip(0x1400..).take(words.len());
    let records = senders.map(|(sender, index)| bare(index, RECORD, u8s([sender, 0])));
    let records: Vec<Object> = records.collect();
    let lists = words.into_iter().zip(0x1600..).map(|(word, index)| bare(index, ARRAY, vec![word]));
    [records, lists.collect(), targets].concat()
}

fn received(payload: Vec<u8>, sender: u8) -> Call {
    Call::ConsumePdoPayload(Received { payload, sender, version: 0, ready: 1, room: LEAST_ROOM })
}

/// All of them as one cycle.
fn cycle(payloads: &[(Vec<u8>, u8)]) -> Call {
    let mut data = Vec::new();
    let mut numbers = Vec::new();
    for (payload, sender) in payloads {
        numbers.extend([data.len() as u64, payload.len() as u64, (*sender).into(), 0, 1]);
        data.extend(payload);
    }
    let room = LEAST_ROOM + payloads.len();
    Call::ConsumeCycle(Cycle { data, payloads: numbers, room })
}

/// Fields of every length at several offsets, for a value, an element and a list's count; the payload
/// ends with them, or has other bytes behind them.
fn every_length_received(random: &mut Random, kind: u64) -> History {
    let mut fields = Vec::new();
    for length in lengths(kind) {
        for offset in [0, 3, 1480] {
            fields.extend([(0x6000, 0), (0x6001, 1), (0x6001, 0)].map(|to| (to, offset, length)));
        }
    }
    let word = |((index, sub_index), offset, length): &((u64, u64), usize, usize)| {
        w(8 * *length as u64, 8 * *offset as u64, *sub_index, *index)
    };
    let targets =
        vec![bare(0x6000, VARIABLE, vec![least(kind)]), bare(0x6001, ARRAY, vec![least(kind)])];
    let objects = channels(fields.iter().map(word).collect(), targets);
    let mut calls = Vec::new();
    for (sender, (_, offset, length)) in (1..).zip(fields) {
        for end in [offset + length, LONGEST_PAYLOAD] {
            let payload = random.bytes(end.min(LONGEST_PAYLOAD));
            calls.push(received(payload.clone(), sender));
            calls.push(cycle(&[(payload.clone(), 0), (payload, sender)]));
        }
    }
    history(random, objects, calls)
}

/// Every text of one and two bytes is written.
fn short_texts(trial: &mut Trial, random: &mut Random) {
    for first in 0..=u8::MAX {
        let (index, sub_index) = random.pick(&PLACES);
        let mut calls = vec![write(index, sub_index, VISIBLE_STRING, &[first])];
        for second in 0..=u8::MAX {
            calls.push(write(index, sub_index, VISIBLE_STRING, &[first, second]));
        }
        trial.compare(history(random, targets(VISIBLE_STRING), calls));
    }
}

/// Three and four bytes at the edges of what stands in a character.
fn characters() -> Vec<Vec<u8>> {
    let mut all = Vec::new();
    for first in EDGE_BYTES {
        for second in [0x41, 0x7F, 0x80, 0x8F, 0x90, 0x9F, 0xA0, 0xBF, 0xC0] {
            for third in [0x7F, 0x80, 0xBF, 0xC2] {
                all.push(vec![first, second, third]);
                if first >= 0xF0 {
                    all.extend(
                        [0x7F, 0x80, 0xBF, 0xFF].map(|last| vec![first, second, third, last]),
                    );
                }
            }
        }
    }
    all
}

/// These behind 0 to 17 bytes of ASCII, written and as fields of a payload.
fn broken_characters(trial: &mut Trial, random: &mut Random) {
    for before in 0..=MOST_ASCII {
        let texts =
            characters().into_iter().map(|character| [vec![b'a'; before], character].concat());
        let texts: Vec<Vec<u8>> = texts.collect();
        let words = [3, 4].map(|bytes| w(8 * (before as u64 + bytes), 8, 0, 0x6000));
        let objects =
            channels(words.to_vec(), vec![bare(0x6000, VARIABLE, vec![least(VISIBLE_STRING)])]);
        for some in texts.chunks(40) {
            let (index, sub_index) = random.pick(&PLACES);
            let writes = some.iter().map(|text| write(index, sub_index, VISIBLE_STRING, text));
            let writes = writes.collect();
            trial.compare(history(random, targets(VISIBLE_STRING), writes));
            let payload = |text: &Vec<u8>| {
                let sender = if text.len() - before == 3 { 1 } else { 2 };
                ([&[0xC2], text.as_slice()].concat(), sender)
            };
            let payloads: Vec<(Vec<u8>, u8)> = some.iter().map(payload).collect();
            let mut calls = vec![cycle(&payloads)];
            calls.extend(payloads.into_iter().map(|(payload, sender)| received(payload, sender)));
            trial.compare(history(random, objects.clone(), calls));
        }
    }
}

fn long_texts_written(random: &mut Random) -> History {
    let longest = random.pick(&LONG_TEXTS);
    let mut calls = Vec::new();
    for _ in 0..4 {
        let length = random.below(longest + 1);
        let whole = text(random, length);
        let (index, sub_index) = random.pick(&PLACES);
        calls.push(write(index, sub_index, VISIBLE_STRING, &damaged(random, &whole)));
        calls.push(write(index, sub_index, VISIBLE_STRING, &whole[..random.below(length + 1)]));
    }
    calls.push(write(0x2000, 0, VISIBLE_STRING, &[vec![b'a'; FAR], vec![0xFF]].concat()));
    history(random, targets(VISIBLE_STRING), calls)
}

/// In a field that ends with the longest payload.
fn long_texts_received(random: &mut Random) -> History {
    let length = random.pick(&[FAR + 1, 1000, LONGEST_PAYLOAD - 1, LONGEST_PAYLOAD]);
    let start = LONGEST_PAYLOAD - length;
    let word = w(8 * length as u64, 8 * start as u64, 0, 0x6000);
    let target = Value::new(VISIBLE_STRING, LARGEST_ROOM, b"");
    let objects = channels(vec![word], vec![bare(0x6000, VARIABLE, vec![target])]);
    let mut payloads = Vec::new();
    for _ in 0..6 {
        let whole = text(random, length);
        let mut field = damaged(random, &whole);
        field.resize(length, b'a');
        payloads.push(([vec![0xFF; start], field].concat(), 1));
    }
    let mut calls = vec![cycle(&payloads)];
    calls.extend(payloads.into_iter().map(|(payload, sender)| received(payload, sender)));
    history(random, objects, calls)
}
