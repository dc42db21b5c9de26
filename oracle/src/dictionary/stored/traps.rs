//! Dictionaries and payloads in which a consumer errs easily, each with what it is about, and
//! document 01's cases 5 to 11.

use crate::dictionary::generators::literals::{RECORD, u8s, u16s, u32s, w};
use crate::dictionary::model::layout::*;

const VISIBLE_STRING: u64 = 11;
const OCTET_STRING: u64 = 12;
const UNICODE_STRING: u64 = 13;

/// A dictionary and what arrives in it.
pub struct Trap {
    pub objects: Vec<Object>,
    pub payload: Vec<u8>,
    pub sender: u8,
    pub version: u8,
}

pub fn string(index: u64, kind: u64, room: usize, bytes: &[u8]) -> Object {
    bare(index, VARIABLE, vec![Value::new(kind, room, bytes)])
}

fn text(room: usize, bytes: &[u8]) -> Object {
    string(0x6003, VISIBLE_STRING, room, bytes)
}

/// 32 bytes have a bit for each node, two one for node 5.
pub fn nodes(index: u64, length: usize) -> Object {
    string(index, OCTET_STRING, length, &vec![0; length])
}

/// 1400h for node 5 and version 0, this list at 1600h, the two error objects, and the targets.
fn trap(list: Object, targets: Vec<Object>, payload: &[u8]) -> Trap {
    let channel = bare(0x1400, RECORD, u8s([5, 0]));
    let mut objects = vec![channel, list, nodes(0x1C80, 2), nodes(0x1C81, 2)];
    // A target at one of these places stands instead.
    objects.retain(|object| targets.iter().all(|target| target.index != object.index));
    Trap { objects: [objects, targets].concat(), payload: payload.to_vec(), sender: 5, version: 0 }
}

fn words<const N: usize>(words: [Value; N]) -> Object {
    bare(0x1600, ARRAY, words.to_vec())
}

/// A good word, for the payload's first byte.
fn good() -> Value {
    w(8, 0, 0, 0x6000)
}

fn target() -> Object {
    bare(0x6000, VARIABLE, u8s([0]))
}

pub fn all() -> Vec<Trap> {
    [lists(), counts(), ends(), error_objects(), own_records(), strings(), senders()]
        .into_iter()
        .flatten()
        .collect()
}

/// What stands at 1600h: a Variable, a Record, and words with other values between them.
fn lists() -> Vec<Trap> {
    let between = [u32s([1]), vec![good()], u8s([2]), vec![w(8, 80, 0, 0x6000)]].concat();
    vec![
        trap(bare(0x1600, VARIABLE, u8s([3])), vec![target()], &[7]),
        trap(bare(0x1600, VARIABLE, vec![good()]), vec![target()], &[7]),
        trap(bare(0x1600, RECORD, vec![good()]), vec![target()], &[7]),
        trap(bare(0x1600, ARRAY, between), vec![target()], &[7]),
        trap(bare(0x1600, ARRAY, vec![]), vec![target()], &[7]),
    ]
}

/// A list's sub-index 0 as target: too few bytes for it stop, a byte is refused, at a mapping
/// silently.
fn counts() -> Vec<Trap> {
    let list = || bare(0x6002, ARRAY, u8s([1, 2]));
    let empty = || bare(0x6002, RECORD, vec![]);
    vec![
        trap(words([w(0, 0, 0, 0x6002), good()]), vec![target(), list()], &[7]),
        trap(words([w(8, 0, 0, 0x6002), good()]), vec![target(), list()], &[7]),
        trap(words([w(8, 0, 0, 0x6002), good()]), vec![target(), empty()], &[7]),
        trap(words([w(8, 0, 0, 0x1600), good()]), vec![target()], &[7]),
        trap(words([w(0, 0, 0, 0x1600), good()]), vec![target()], &[7]),
        trap(
            words([w(8, 0, 0, 0x1AFF), good()]),
            vec![target(), bare(0x1AFF, ARRAY, vec![])],
            &[7],
        ),
        trap(words([w(0, 0, 0, 0)]), vec![bare(0, VARIABLE, u8s([9]))], &[]),
    ]
}

/// Fields past the payload's end, whatever they point at; misaligned ones have no end.
fn ends() -> Vec<Trap> {
    let far = |index: u64| words([w(8, 80, 0, index), good()]);
    vec![
        trap(far(0x6009), vec![target()], &[7]),
        trap(far(0x1200), vec![target()], &[7]),
        trap(far(0x1280), vec![target()], &[7]),
        trap(words([w(7, 80, 0, 0x6000), w(8, 81, 0, 0x6000), good()]), vec![target()], &[7]),
        trap(words([w(8, 0, 0, 0x6009), w(8, 0, 1, 0x6000), good()]), vec![target()], &[7]),
        trap(words([w(8, 8, 0, 0x11FF), w(8, 8, 9, 0x1200), good()]), vec![target()], &[7, 8]),
        trap(words([w(8, 8, 0, 0x127F), w(0, 16, 9, 0x1280), good()]), vec![target()], &[7, 8]),
        trap(words([w(16, 0, 0, 0x12FF), w(8, 8, 0, 0x1300), good()]), vec![target()], &[7, 8]),
    ]
}

/// The error objects as targets, too short for the node, or no Variables.
fn error_objects() -> Vec<Trap> {
    let list = || words([w(8, 0, 0, 0x1C81), w(8, 80, 0, 0x6000)]);
    let array = bare(0x1C81, ARRAY, vec![Value::new(OCTET_STRING, 32, &[0; 32])]);
    let far = || words([w(8, 80, 0, 0x6000)]);
    let of_node_20 = || bare(0x1400, RECORD, u8s([20, 0]));
    vec![
        trap(list(), vec![nodes(0x1C81, 32)], &[1]),
        Trap { sender: 20, ..trap(list(), vec![of_node_20(), nodes(0x1C81, 32)], &[1]) },
        trap(far(), vec![array], &[1]),
        trap(far(), vec![string(0x1C81, VISIBLE_STRING, 32, &[0; 32])], &[1]),
        trap(far(), vec![string(0x1C81, OCTET_STRING, 32, &[])], &[1]),
    ]
}

/// The channel's own records as targets: this run goes on with the words and the channel it had.
fn own_records() -> Vec<Trap> {
    let later = bare(0x6001, VARIABLE, u8s([0]));
    let list = words([w(64, 0, 2, 0x1600), w(8, 0, 0, 0x6001)]);
    let channel = words([w(8, 0, 1, 0x1400), w(8, 8, 2, 0x1400), good()]);
    vec![
        trap(list, vec![target(), later], &[0x00, 0x60, 0, 0, 0, 0, 8, 0]),
        trap(channel, vec![target()], &[6, 0x10]),
    ]
}

/// Strings of length 0, over their rooms, that are none; a command's place; a ReadOnly target.
fn strings() -> Vec<Trap> {
    let at = |offset: u64| words([w(0, offset, 0, 0x6003)]);
    let whole = |bits: u64, index: u64| words([w(bits, 0, 0, index), good()]);
    let octets = |room: usize| string(0x6004, OCTET_STRING, room, b"x");
    let units = string(0x6005, UNICODE_STRING, 4, &[1, 2]);
    let command = string(0x1010, VISIBLE_STRING, 4, b"");
    let twice = words([w(16, 0, 0, 0x6003), w(8, 8, 0, 0x6003)]);
    vec![
        trap(at(8), vec![text(3, b"abc")], b"d"),
        trap(at(16), vec![text(3, b"abc")], b"d"),
        trap(at(0), vec![text(3, b"abc")], b""),
        trap(whole(32, 0x1010), vec![command, target()], b"save"),
        trap(words([good()]), vec![Object { access: 0, ..target() }], &[7]),
        trap(whole(24, 0x6003), vec![text(1, b"a"), target()], b"ab\xFF"),
        trap(whole(24, 0x6004), vec![octets(2), target()], b"abc"),
        trap(whole(24, 0x6004), vec![octets(3), target()], b"abc"),
        trap(whole(24, 0x6005), vec![units.clone(), target()], b"abc"),
        trap(whole(32, 0x6005), vec![units, target()], b"abcd"),
        trap(twice, vec![text(3, b"abc")], b"de"),
    ]
}

/// Senders 0, 240 and 241, versions, and a second channel of the same sender, also where only that
/// has a list.
fn senders() -> Vec<Trap> {
    let with = |node: u8, expected: u8, sender: u8| {
        let channel = bare(0x1400, RECORD, u8s([node, expected]));
        let list = words([good(), w(8, 80, 0, 0x6000)]);
        Trap { sender, ..trap(list, vec![channel, target()], &[7]) }
    };
    let first = bare(0x1400, RECORD, u8s([5, 0x10]));
    let second = [bare(0x1401, RECORD, u8s([5, 0])), bare(0x1601, ARRAY, vec![good()])];
    let listed_later = bare(0x1601, ARRAY, vec![good()]);
    let wide = bare(0x1400, RECORD, [u8s([5]), u16s([0x10])].concat());
    let no_list = bare(0x1400, VARIABLE, u8s([5]));
    vec![
        with(0, 0, 0),
        with(0, 0, 240),
        with(240, 0, 240),
        with(0, 0x10, 240),
        with(241, 0, 241),
        with(255, 0, 255),
        trap(words([good()]), [vec![first, target()], second.to_vec()].concat(), &[7]),
        trap(listed_later, vec![bare(0x1401, RECORD, u8s([5, 0])), target()], &[7]),
        trap(words([good()]), vec![wide, target()], &[7]),
        trap(words([good()]), vec![no_list, target()], &[7]),
        Trap { version: 0x12, ..with(5, 0x10, 5) },
        Trap { version: 0x11, ..with(5, 0x12, 5) },
        Trap { version: 0x22, ..with(5, 0x12, 5) },
        Trap { version: 0x01, ..with(5, 0, 5) },
    ]
}

/// Cases 8 to 11. Case 10 and 11 have another length of the first word.
pub fn cases() -> Vec<Trap> {
    let case = |bits: u64, payload: &[u8]| Trap {
        objects: vec![
            bare(0x1400, RECORD, u8s([5, 0x10])),
            bare(0x1600, ARRAY, vec![w(bits, 0, 0, 0x6000), w(32, 16, 3, 0x6200)]),
            bare(0x6000, VARIABLE, u16s([0])),
            bare(0x6200, ARRAY, u32s([0, 0, 0])),
            nodes(0x1C81, 32),
        ],
        payload: payload.to_vec(),
        sender: 5,
        version: 0x12,
    };
    let payload = [0xC4, 0x09, 0x10, 0x27, 0x00, 0x00];
    vec![
        case(16, &payload),
        case(16, &payload[..5]),
        case(8, &payload),
        case(32, &[0x90, 0x5F, 0x01, 0x00, 0x00, 0x00]),
    ]
}
