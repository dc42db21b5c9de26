//! Histories of edition 2 at its bounds: every count of small lists and of the longest, elements behind
//! a count, the bit for too few bytes, editions and kept counts that are damaged.

use super::faults::{elements, mapped};
use super::malice;
use super::trial::Trial;
use crate::dictionary::generators::literals::{RECORD, u8s, u16s, u32s, w};
use crate::dictionary::generators::objects::rising;
use crate::dictionary::generators::restores;
use crate::dictionary::generators::writes::{save, write};
use crate::dictionary::model::checked::LEAST_NUMBERS;
use crate::dictionary::model::consuming::LEAST_ROOM;
use crate::dictionary::model::edition::{FIRST, SECOND};
use crate::dictionary::model::explained::NUMBERS;
use crate::dictionary::model::insertion::Insertion;
use crate::dictionary::model::layout::*;
use crate::dictionary::model::memory::Lent;
use crate::dictionary::model::step::{Call, Cycle, History, Received, Step, WIDTHS};
use crate::original::{KINDS, size};
use crate::random::Random;

const UNSIGNED8: u64 = 5;
const UNSIGNED32: u64 = 7;
const UNSIGNED64: u64 = 8;
const OCTET_STRING: u64 = 12;
const READ_WRITE: u64 = 3;
const READ_WRITE_STORE: u64 = 4;

/// Where mappings begin and end, and what is just none.
const INDICES: [u16; 8] = [0x1600, 0x16FF, 0x1A00, 0x1AFF, 0x15FF, 0x1700, 0x19FF, 0x1B00];

/// Numbers that are no edition; some would be one if they were cut to fewer bits.
const NO_EDITIONS: [u64; 9] = [0, 3, 4, 257, 258, (1 << 32) + 1, (1 << 32) + 2, 1 << 63, u64::MAX];

pub fn compare(trial: &mut Trial, random: &mut Random) {
    for index in INDICES {
        for shape in VARIABLE..=LAST_SHAPE {
            (0..=NO_ACCESS).for_each(|access| trial.compare(every_count(index, shape, access)));
        }
    }
    for length in [0, 1, 2, 253, MOST_ELEMENTS] {
        trial.compare(of_length(length));
    }
    elements().into_iter().for_each(|element| trial.compare(before_a_fault(element)));
    for kind in 0..KINDS {
        for access in [0, READ_WRITE, READ_WRITE_STORE] {
            trial.compare(behind(kind, access));
        }
        trial.compare(marked(kind));
    }
    for history in [limits(), rewritten(), counters(), off(), arriving(), ranged()] {
        trial.compare(history);
    }
    for length in [0, 11, 12, 24] {
        trial.compare(editions(length));
    }
    damaged(trial, random);
}

/// All objects let into a new dictionary of edition 2, then these calls.
fn history(objects: &[Object], store: usize, calls: Vec<Call>) -> History {
    let objects = rising(objects.to_vec());
    let lengths = Used::of(&objects).lengths();
    let insertions = objects.iter().map(|object| Call::Insert(Insertion::of(object)));
    let calls = std::iter::once(Call::New(SECOND)).chain(insertions).chain(calls);
    let first = Lent { at_start: false, lengths, store };
    History { first, steps: calls.map(Step::Call).collect() }
}

fn count(index: u16, count: u8) -> Call {
    write(index, 0, UNSIGNED8, &[count])
}

fn read(index: u16, sub_index: u8) -> Call {
    Call::Read { index, sub_index, numbers: 3 }
}

fn received(sender: u8, payload: &[u8]) -> Call {
    let (payload, version) = (payload.to_vec(), 0);
    Call::ConsumePdoPayload(Received { payload, sender, version, ready: 1, room: LEAST_ROOM })
}

fn explain(channel: u8, element: u8) -> Call {
    Call::Explain { channel, element, room: NUMBERS }
}

fn error_object(length: usize) -> Object {
    bare(0x1C81, VARIABLE, vec![Value::new(OCTET_STRING, length, &vec![0; length])])
}

fn number(index: u64) -> Object {
    bare(index, VARIABLE, u8s([0]))
}

/// What shows a list's count, in every call that looks at it.
fn looks(index: u16, count: u8) -> Vec<Call> {
    let channel = index as u8;
    let behind = count.saturating_add(1);
    vec![
        read(index, 0),
        Call::ReadNumber { width: WIDTHS[0], index, sub_index: 0 },
        read(index, count),
        read(index, behind),
        Call::ValidatePdoMapping { index, count },
        Call::Check(channel),
        Call::CheckAll(LEAST_NUMBERS),
        explain(channel, count),
        explain(channel, behind),
        received(5, &[count, behind, 7]),
        read(0x6001, 0),
    ]
}

/// Counts up to one past the end and the largest, up and down; as other types too.
fn every_count(index: u16, shape: u64, access: u64) -> History {
    let values = match shape {
        VARIABLE => u8s([1]),
        _ => vec![w(8, 0, 0, 0x6000), w(8, 8, 0, 0x6001), w(8, 16, 0, 0x6002)],
    };
    let list = Object { access, ..bare(index.into(), shape, values) };
    let record = bare(0x1400 + u64::from(index & 0xFF), RECORD, u8s([5, 0]));
    let objects = [vec![record, list], (0x6000..0x6003).map(number).collect()].concat();
    let mut calls = looks(index, 3);
    for n in [0, 1, 1, 2, 3, 4, 254, 255, 3, 2, 0, 0, 1] {
        calls.push(count(index, n));
        calls.extend(looks(index, n));
    }
    for (kind, data) in [(0, vec![1]), (1, vec![0]), (6, vec![2, 0]), (OCTET_STRING, vec![2])] {
        calls.push(write(index, 0, kind, &data));
        calls.extend(looks(index, 1));
    }
    history(&objects, 0, calls)
}

/// A list of so many right words, each count about its ends.
fn of_length(length: usize) -> History {
    let words = (0..length).map(|place| w(8, 8 * place as u64, 0, 0x6000 + place as u64 % 2));
    let objects = mapped(words.collect(), vec![number(0x6000), number(0x6001), error_object(32)]);
    let mut calls = Vec::new();
    for n in [length, 0, 1, length.saturating_sub(1), length, length + 1, 2, 0] {
        calls.push(count(0x1600, n as u8));
        calls.extend(looks(0x1600, n.min(254) as u8));
        calls.extend([0, n.saturating_sub(1), n].map(|bytes| received(5, &vec![1; bytes])));
    }
    history(&objects, 0, calls)
}

/// A right word, then one that has a fault or none, then a right one.
fn before_a_fault(element: Value) -> History {
    let right = || w(8, 0, 0, 0x6000);
    let targets = vec![number(0x6000), bare(0x6001, ARRAY, vec![])];
    let objects = mapped(vec![right(), element, right()], targets);
    let mut calls = Vec::new();
    for n in [3, 2, 1, 0, 1, 2, 3] {
        calls.push(count(0x1600, n));
        calls.extend(looks(0x1600, n));
        calls.extend([received(5, &[9]), received(5, &vec![8; 1490]), read(0x6000, 0)]);
    }
    history(&objects, 0, calls)
}

/// An element of each type behind a count of 1: read, written, saved, restored by a record and by a
/// default, explained, and as the target of another channel.
fn behind(kind: u64, access: u64) -> History {
    let length = size(kind).unwrap_or(4);
    let value = |byte: u8| Value::new(kind, size(kind).map_or(6, |_| 0), &vec![byte; length]);
    let room = if is_string(kind) { length } else { 0 };
    let default = Some(Value::new(kind, room, &vec![3; length]));
    let list = bare(0x1600, ARRAY, vec![w(8, 0, 0, 0x6000), value(1)]);
    let objects = [
        bare(0x1400, RECORD, u8s([5, 0])),
        bare(0x1401, RECORD, u8s([6, 0])),
        Object { access, default, ..list },
        bare(0x1601, ARRAY, vec![w(8 * length as u64, 0, 2, 0x1600), w(8, 0, 0, 0x6000)]),
        number(0x6000),
        error_object(32),
    ];
    let place = |data: &[u8]| write(0x1600, 2, kind, data);
    let mut calls = vec![count(0x1600, 1), read(0x1600, 2), count(0x1601, 1), save(1)];
    calls.extend(WIDTHS.map(|width| Call::ReadNumber { width, index: 0x1600, sub_index: 2 }));
    let written = [vec![2; length], vec![], vec![4; length + 1], vec![4; 8]];
    calls.extend(written.map(|data| place(&data)));
    calls.extend([write(0x1600, 2, (kind + 1) % KINDS, &[1]), read(0x1600, 2), save(2), save(3)]);
    let payloads = [vec![7; length], vec![7; length + 3], vec![], vec![0xFF; length]];
    calls.extend(payloads.map(|payload| received(6, &payload)));
    calls.extend([read(0x1600, 2), restores::everything(), read(0x1600, 2), read(0x1600, 0)]);
    // An empty table, so that the default is taken.
    calls.extend([place(&vec![9; length]), save(4), restores::range(0x1600, 0x1600)]);
    calls.extend([read(0x1600, 2), explain(0, 2), explain(0, 3), Call::Check(0), Call::Check(1)]);
    calls.extend([count(0x1600, 2), read(0x1600, 0), Call::Check(0), received(5, &[1; 9])]);
    history(&objects, 60, calls)
}

/// Fields of every length for a value of each type, and what is no text; the bits are cleared between.
fn marked(kind: u64) -> History {
    let (length, room) = (size(kind).unwrap_or(5), if is_string(kind) { 8 } else { 0 });
    let value = Value::new(kind, room, &vec![0; size(kind).unwrap_or(0)]);
    let target = bare(0x6000, VARIABLE, vec![value]);
    let targets = [target, error_object(32), bare(0x6001, ARRAY, vec![])];
    let mut calls = Vec::new();
    let clear = || write(0x1C81, 0, OCTET_STRING, &[0; 32]);
    for (index, sub_index) in [(0x6000, 0), (0x6001, 0), (0x1400, 0), (0x1600, 0), (0x1600, 9)] {
        for bytes in 0..=length as u64 {
            let word = w(8 * bytes, 8, sub_index, index);
            calls.push(write(0x1600, 1, UNSIGNED64, &word.encoding()));
            for data in [vec![0x41; 9], vec![0xFF; 9], vec![0; 1]] {
                calls.extend([received(5, &data), read(0x1C81, 0), clear()]);
                let payloads = [0, data.len() as u64, 5, 0, 1].repeat(2);
                calls.push(Call::ConsumeCycle(Cycle { data, payloads, room: 300 }));
                calls.push(clear());
            }
        }
    }
    history(&mapped(vec![w(8, 0, 0, 0x6000)], targets.to_vec()), 0, calls)
}

/// Limits below, at and above the end of each element, of what is received and what is sent.
fn limits() -> History {
    let words = || (1..4).map(|place| w(8, 8 * (4 * place - 1), 0, 0x6000)).collect();
    let mut objects = mapped(words(), vec![number(0x6000), bare(0x1A00, ARRAY, words())]);
    objects.push(Object { access: READ_WRITE, ..bare(0x1F98, RECORD, u16s([0, 0])) });
    let mut calls = Vec::new();
    for limit in [0, 3, 4, 5, 7, 8, 9, 11, 12, 13, 1490, 1491, 0xFFFF] {
        let limit: u16 = limit;
        calls.extend([1, 2].map(|sub_index| write(0x1F98, sub_index, 6, &limit.to_le_bytes())));
        for index in [0x1600, 0x1A00] {
            for n in [0, 3, 1, 2, 3, 1, 4] {
                calls.push(count(index, n));
                calls.extend(looks(index, n));
            }
        }
    }
    history(&objects, 0, calls)
}

/// A payload that rewrites words of its own list, behind the count and before it; then another count.
fn rewritten() -> History {
    let words = vec![w(64, 0, 2, 0x1600), w(8, 0, 0, 0x6000), w(64, 0, 1, 0x1600)];
    let objects = mapped(words, vec![number(0x6000), number(0x6001)]);
    let mut calls = Vec::new();
    for n in [1, 2, 3, 1, 0, 2] {
        calls.push(count(0x1600, n));
        for word in [w(8, 8, 0, 0x6001), w(8, 0, 0, 0x6000), w(64, 0, 3, 0x1600)] {
            calls.extend([received(5, &word.encoding()), Call::Check(0)]);
            calls.extend((0..5).map(|sub_index| read(0x1600, sub_index)));
            calls.extend([read(0x6000, 0), read(0x6001, 0)]);
        }
    }
    history(&objects, 0, calls)
}

/// Counters in a Record and in an Array, before the count and behind it.
fn counters() -> History {
    let values = || u32s([0, u32::MAX, 7]);
    let objects = [bare(0x1600, RECORD, values()), bare(0x1601, ARRAY, values())];
    let mut calls = Vec::new();
    for index in [0x1600, 0x1601] {
        for n in [3, 0] {
            calls.push(count(index, n));
            for sub_index in 0..5 {
                calls.push(Call::IncrementCounter { index, sub_index });
                calls.push(read(index, sub_index));
            }
        }
    }
    history(&objects, 0, calls)
}

/// Lists that are turned off: one whose record has no sender, one of an earlier channel's, a Record,
/// and each with versions that are wrong.
fn off() -> History {
    let list = |index: u64, shape: u64| bare(index, shape, vec![w(8, 0, 0, 0x6000)]);
    let objects = [
        bare(0x1400, RECORD, u8s([5, 0])),
        bare(0x1401, RECORD, u8s([5, 0])),
        bare(0x1402, RECORD, u8s([6, 0x12])),
        list(0x1600, ARRAY),
        list(0x1601, ARRAY),
        list(0x1602, RECORD),
        list(0x1603, ARRAY),
        number(0x6000),
        bare(0x1C80, VARIABLE, vec![Value::new(OCTET_STRING, 32, &[0; 32])]),
        error_object(32),
    ];
    let mut calls = Vec::new();
    let arrival = |sender: u8, version: u8, payload: &[u8]| {
        let payload = payload.to_vec();
        Call::ConsumePdoPayload(Received { payload, sender, version, ready: 1, room: LEAST_ROOM })
    };
    for n in [1, 0, 1] {
        for channel in 0..4 {
            calls.extend([count(0x1600 + channel, n), Call::Check(channel as u8)]);
        }
        calls.push(Call::CheckAll(LEAST_NUMBERS));
        for version in [0, 0x12, 0x13, 0x11] {
            calls.extend([5, 6].map(|sender| arrival(sender, version, &[n])));
            calls.extend([5, 6].map(|sender| arrival(sender, version, &[])));
        }
        calls.extend([restores::everything(), read(0x1600, 0), read(0x1602, 0)]);
    }
    history(&objects, 40, calls)
}

/// Counts that arrive in payloads, with every byte; the kept one is looked at behind each.
fn arriving() -> History {
    let words = vec![w(8, 0, 0, 0x1600), w(8, 0, 0, 0x1A00), w(8, 0, 0, 0x6000)];
    let sent = bare(0x1A00, ARRAY, vec![w(8, 0, 0, 0x6000)]);
    let objects = mapped(words, vec![number(0x6000), sent]);
    let mut calls = Vec::new();
    for n in [3, 2, 1, 0] {
        calls.push(count(0x1600, n));
        for byte in (0..5).chain([254, 255]) {
            calls.extend([received(5, &[byte]), read(0x1600, 0), read(0x1A00, 0), read(0x6000, 0)]);
        }
    }
    history(&objects, 0, calls)
}

/// A range of a count's type, which no count is held against, and whose elements are.
fn ranged() -> History {
    let range = Range { kind: UNSIGNED8, low: 2, high: 2 };
    let words = || vec![w(8, 0, 0, 0x6000), w(8, 0, 0, 0x6000), w(8, 0, 0, 0x6000)];
    let numbers = Object { range, ..bare(0x1A00, RECORD, u8s([1, 2, 3])) };
    let list = Object { range, ..bare(0x1600, ARRAY, words()) };
    let mut calls = Vec::new();
    for n in [0, 1, 2, 3, 4] {
        for index in [0x1600, 0x1A00] {
            calls.extend([count(index, n), read(index, 0)]);
            calls.extend([1, 2, 3].map(|sub_index| write(index, sub_index, UNSIGNED8, &[n])));
        }
    }
    history(&[list, numbers, number(0x6000)], 0, calls)
}

/// Each edition that a new dictionary may and may not have, in memory of this length and with calls
/// behind it.
fn editions(length: usize) -> History {
    let given = [FIRST, SECOND].into_iter().chain(NO_EDITIONS).chain([SECOND, FIRST]);
    let steps = given.flat_map(|edition| {
        let calls = [Call::New(edition), read(0x1600, 0), count(0x1600, 0), Call::Check(0)];
        calls.map(Step::Call)
    });
    let lengths = [length, 3, 1, 1];
    History { first: Lent { at_start: false, lengths, store: 0 }, steps: steps.collect() }
}

/// Editions and kept counts that are none, in each edition and each kind of row, at a mapping and
/// elsewhere; and those that just are.
fn damaged(trial: &mut Trial, random: &mut Random) {
    for edition in [FIRST, SECOND] {
        for shape in VARIABLE..=LAST_SHAPE {
            for index in [0x1600, 0x1AFF, 0x2000] {
                let length: u64 = if shape == VARIABLE { 1 } else { 2 };
                for kept in [0, 1, length, length + 1, 254, 255, 256, 1 << 32, 1 << 63, u64::MAX] {
                    let mut object = bare(index, shape, vec![w(8, 0, 0, 0x6000); length as usize]);
                    object.keep(kept);
                    let objects = mapped(vec![w(8, 0, 0, 0x6000)], vec![number(0x6000)]);
                    let objects = rising([vec![object], objects].concat());
                    let edits = vec![Step::edition(edition)];
                    trial.compare(malice::history(random, &objects, edits));
                }
            }
        }
    }
    for edition in NO_EDITIONS {
        let objects = mapped(vec![w(8, 0, 0, 0x6000)], vec![number(0x6000)]);
        trial.compare(malice::history(random, &objects, vec![Step::edition(edition)]));
    }
    // A count of U32 elements is no mapping's that may be written, and may be laid.
    let mut list = bare(0x1600, ARRAY, u32s([1, 2]));
    list.keep(1);
    for edition in [FIRST, SECOND] {
        let edits = vec![Step::edition(edition), Step::Call(write(0x1600, 2, UNSIGNED32, &[9; 4]))];
        trial.compare(malice::history(random, &[list.clone()], edits));
    }
}
