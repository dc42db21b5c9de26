//! Dictionaries in which a check errs easily, each with payloads that show why its answer is right.

use super::traps::{self, Trap, nodes, string};
use crate::dictionary::generators::literals::{RECORD, u8s, u16s, u32s, w};
use crate::dictionary::model::layout::*;
use crate::dictionary::runs::faults::{elements, mapped};

const VISIBLE_STRING: u64 = 11;
const OCTET_STRING: u64 = 12;
const UNICODE_STRING: u64 = 13;

/// A dictionary and what arrives in it, one after the other.
pub struct Question {
    pub objects: Vec<Object>,
    pub payloads: Vec<Arrival>,
}

pub struct Arrival {
    pub payload: Vec<u8>,
    pub sender: u8,
    pub version: u8,
}

/// Channel 0 of node 5 with these words; the payloads are of version 0.
fn asked(words: Vec<Value>, targets: Vec<Object>, payloads: &[&[u8]]) -> Question {
    with(mapped(words, targets), payloads, 5)
}

fn with(objects: Vec<Object>, payloads: &[&[u8]], sender: u8) -> Question {
    let arrival = |payload: &&[u8]| Arrival { payload: payload.to_vec(), sender, version: 0 };
    Question { objects, payloads: payloads.iter().map(arrival).collect() }
}

fn u8_at(index: u64) -> Object {
    bare(index, VARIABLE, u8s([0]))
}

fn text(index: u64, room: usize, bytes: &[u8]) -> Object {
    string(index, VISIBLE_STRING, room, bytes)
}

pub fn all() -> Vec<Question> {
    [cases(), overlapping(), own_records(), targets(), lengths(), senders(), lists(), ends()]
        .into_iter()
        .flatten()
        .collect()
}

/// Document 01's set-up of cases 8 to 12: the channels of 8 and 9 pass, that of 10 maps too few
/// bytes, and that of 11, which case 12 checks, too many.
fn cases() -> Vec<Question> {
    let question = |Trap { objects, payload, sender, version }| Question {
        objects,
        payloads: vec![Arrival { payload, sender, version }],
    };
    traps::cases().into_iter().map(question).collect()
}

/// Fields that share bytes, and one target twice: the later field stands, and of a longer one
/// before it the bytes behind the value.
fn overlapping() -> Vec<Question> {
    let texts = vec![text(0x6000, 4, b""), text(0x6001, 2, b"")];
    let text_and_number = vec![text(0x6000, 4, b""), bare(0x6001, VARIABLE, u32s([0]))];
    let two = vec![bare(0x6000, VARIABLE, u16s([0])), bare(0x6001, VARIABLE, u16s([0]))];
    vec![
        asked(
            vec![w(32, 0, 0, 0x6000), w(16, 8, 0, 0x6001)],
            texts,
            &[&[0; 4], "aé b".as_bytes(), "éab".as_bytes()],
        ),
        asked(
            vec![w(32, 0, 0, 0x6000), w(32, 0, 0, 0x6001)],
            text_and_number,
            &[b"abcd", &[0xFF; 4]],
        ),
        asked(vec![w(16, 0, 0, 0x6000), w(16, 0, 0, 0x6001)], two, &[&[1, 2]]),
        asked(
            vec![w(32, 0, 0, 0x6000), w(16, 16, 0, 0x6000)],
            vec![text(0x6000, 5, b"")],
            &[b"abcd"],
        ),
    ]
}

/// The channel's own records: this payload is run by the words as they were, and the next check
/// sees the new ones. A list's count is never written.
fn own_records() -> Vec<Question> {
    let word = |index: u16| [index.to_le_bytes().as_slice(), &[0, 0, 0, 0, 8, 0]].concat();
    let list = || vec![w(64, 0, 2, 0x1600), w(8, 8, 0, 0x6000)];
    vec![
        asked(list(), vec![u8_at(0x6000)], &[&word(0x6000), &word(0x6009)]),
        asked(
            vec![w(8, 0, 1, 0x1400), w(8, 8, 0, 0x6000)],
            vec![u8_at(0x6000)],
            &[&[5, 7], &[6, 8], &[5, 9]],
        ),
        asked(vec![w(8, 0, 0, 0x1600), w(8, 8, 0, 0x6000)], vec![u8_at(0x6000)], &[&[9, 7]]),
        asked(vec![w(8, 0, 0, 0x1AFF)], vec![bare(0x1AFF, ARRAY, vec![])], &[&[0]]),
    ]
}

/// Objects with a meaning elsewhere, whatever their access; a list's count, also of an empty one;
/// the ends of what is handed off, there or not.
fn targets() -> Vec<Question> {
    let access = |access: u64, object: Object| Object { access, ..object };
    let handed = |index: u64| asked(vec![w(8, 0, 0, index)], vec![u8_at(index)], &[&[7]]);
    let list = |shape: u64, values: Vec<Value>| bare(0x6000, shape, values);
    let mut all = vec![
        asked(
            vec![w(16, 0, 0, 0x1C80), w(16, 16, 0, 0x1C81)],
            vec![nodes(0x1C80, 2), nodes(0x1C81, 2)],
            &[&[1, 2, 3, 4], &[1, 2, 3]],
        ),
        asked(
            vec![w(32, 0, 0, 0x1010), w(8, 32, 1, 0x1003), w(8, 0, 0, 0x6000), w(8, 8, 0, 0x6001)],
            vec![
                text(0x1010, 4, b""),
                bare(0x1003, ARRAY, u8s([0])),
                access(0, u8_at(0x6000)),
                access(5, u8_at(0x6001)),
            ],
            &[b"save!"],
        ),
        asked(vec![w(8, 0, 0, 0x6000)], vec![list(ARRAY, vec![])], &[&[0]]),
        asked(vec![w(8, 0, 0, 0x6000)], vec![list(RECORD, u8s([1, 2]))], &[&[2]]),
        asked(vec![w(8, 0, 3, 0x6000)], vec![list(RECORD, u8s([1, 2]))], &[&[2]]),
        asked(vec![w(8, 0, 1, 0x6000)], vec![u8_at(0x6000)], &[&[2]]),
        asked(vec![w(8, 0, 0, 0x1280)], vec![], &[&[7]]),
    ];
    all.extend([0x11FF, 0x1200, 0x127F, 0x1280, 0x12FF, 0x1300].map(handed));
    all
}

/// Lengths about a type's size and a string's room, which is not its current length.
fn lengths() -> Vec<Question> {
    let units = |bits: u64| {
        let target = string(0x6000, UNICODE_STRING, 3, &[1, 2]);
        asked(vec![w(bits, 0, 0, 0x6000)], vec![target], &[b"abcd"])
    };
    let octets = |bits: u64| {
        let target = string(0x6000, OCTET_STRING, 3, b"x");
        asked(vec![w(bits, 0, 0, 0x6000)], vec![target], &[b"abcd"])
    };
    let number = |bits: u64| {
        let target = bare(0x6000, VARIABLE, u32s([0]));
        asked(vec![w(bits, 0, 0, 0x6000)], vec![target], &[b"abcde"])
    };
    let empty = asked(vec![w(0, 0, 0, 0x6000)], vec![text(0x6000, 2, b"ab")], &[b"", b"abc"]);
    let mut all = vec![empty];
    all.extend([0, 16, 24, 32].map(units));
    all.extend([0, 8, 24, 32].map(octets));
    all.extend([0, 24, 32, 40].map(number));
    all
}

/// Channels 0 and 1 of these nodes, each with a list of its own.
fn pair(first: u8, second: u8) -> Vec<Object> {
    vec![
        bare(0x1400, RECORD, u8s([first, 0])),
        bare(0x1401, ARRAY, u8s([second, 0])),
        bare(0x1600, ARRAY, vec![w(8, 0, 0, 0x6000)]),
        bare(0x1601, ARRAY, vec![w(8, 0, 0, 0x6001)]),
        u8_at(0x6000),
        u8_at(0x6001),
    ]
}

/// An earlier channel takes the sender, 0 and 240 are one; versions of another type; no node.
fn senders() -> Vec<Question> {
    let record = |shape: u64, values: Vec<Value>| {
        let mut objects = mapped(vec![w(8, 0, 0, 0x6000)], vec![u8_at(0x6000)]);
        objects[0] = bare(0x1400, shape, values);
        objects
    };
    let wide = record(RECORD, [u8s([5]), u16s([0x10])].concat());
    let versions = [0, 0x10].map(|version| Arrival { payload: vec![7], sender: 5, version });
    vec![
        with(pair(5, 5), &[&[7]], 5),
        with(pair(240, 0), &[&[7]], 240),
        with(pair(0, 240), &[&[7]], 240),
        with(pair(0, 5), &[&[7]], 240),
        with(pair(241, 255), &[&[7]], 255),
        Question { objects: wide, payloads: versions.into() },
        with(record(RECORD, u8s([5])), &[&[7]], 5),
        with(record(RECORD, vec![]), &[&[7]], 5),
        with(record(ARRAY, u16s([5])), &[&[7]], 5),
        with(record(VARIABLE, u8s([5])), &[&[7]], 5),
    ]
}

/// What stands at 1600h; then each fault before and behind every other, and a right element, and at
/// the end of the longest list.
fn lists() -> Vec<Question> {
    let targets = || vec![u8_at(0x6000), bare(0x6001, ARRAY, vec![])];
    let list = |shape: u64, values: Vec<Value>| {
        let mut objects = mapped(vec![], targets());
        objects[1] = bare(0x1600, shape, values);
        with(objects, &[&[7]], 5)
    };
    let right = || w(8, 0, 0, 0x6000);
    let mut all = vec![
        list(RECORD, vec![right()]),
        list(VARIABLE, vec![right()]),
        list(ARRAY, vec![]),
        with(vec![bare(0x1400, RECORD, u8s([5, 0]))], &[&[7]], 5),
        with(vec![bare(0x1600, ARRAY, vec![right()])], &[&[7]], 5),
    ];
    for first in elements() {
        for second in elements() {
            all.push(asked(vec![first.clone(), second], targets(), &[]));
        }
    }
    all.push(asked(
        [vec![right(); 253], vec![w(16, 0, 0, 0x6000)]].concat(),
        targets(),
        &[&[7, 8]],
    ));
    all
}

/// Ends at 1,490 bytes and one past it; a fault behind comes first.
fn ends() -> Vec<Question> {
    let text = || text(0x6000, 2, b"ab");
    let last = [0; 1490];
    vec![
        asked(vec![w(0, 8 * 1491, 0, 0x6000)], vec![text()], &[]),
        asked(vec![w(8, 8 * 1490, 0, 0x6000)], vec![text()], &[]),
        asked(vec![w(8, 8 * 1490, 0, 0x6000), w(8, 0, 0, 0x6009)], vec![text()], &[]),
        asked(vec![w(8, 8 * 1490, 0, 0x6000), w(8, 0, 0, 0x6000)], vec![text()], &[]),
        asked(vec![w(8, 0xFFF8, 0, 0x6000)], vec![text()], &[]),
        asked(vec![w(0, 8 * 1490, 0, 0x6000)], vec![text()], &[&last[..1489], &last]),
    ]
}
