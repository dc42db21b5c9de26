//! Decoding of texts that something breaks: at every place, behind any number of plain bytes.

use crate::call::Call;
use crate::decoded::{FAR, MOST_ASCII};
use crate::fault;
use crate::inputs::{EDGE_BYTES, damaged, text};
use crate::original::{NUMBERS, VISIBLE_STRING};
use crate::random::Random;
use crate::report::Report;
use crate::sweep::Sweep;

/// Longer than any field, for texts that come by themselves.
const LONGEST: usize = 4000;

/// Bad texts and the place of each, as the request for it has them: not the start of the character,
/// as Rust's own `valid_up_to`, but the byte that breaks it.
const EXAMPLES: [(&[u8], usize); 14] = [
    (b"\xE2\x82\x41", 2),
    (b"\xE0\x80", 1),
    (b"\xED\xA0", 1),
    (b"\xF4\x90", 1),
    (b"\xC0", 0),
    (b"\x80", 0),
    (b"\xF5", 0),
    (b"\xE2\x82", 2),
    (b"\xC2\x41", 1),
    (b"\xF0\x8F", 1),
    (b"\xF0\x90\x80\x41", 3),
    (b"\xF0\x90\x80", 3),
    (b"A\xC3", 2),
    (b"abcdefgh\xE2\x82\xC2", 10),
];

pub fn compare(report: &mut Report, random: &mut Random) {
    examples(report);
    short_texts(report);
    behind_ascii(report);
    long_texts(report, random);
}

fn decode(report: &mut Report, data: &[u8]) {
    report.compare(Call::decode(VISIBLE_STRING, data, NUMBERS));
}

fn examples(report: &mut Report) {
    let caption = [vec![b'a'; FAR], vec![0xFF]].concat();
    for (data, place) in EXAMPLES.into_iter().chain([(caption.as_slice(), FAR)]) {
        assert_eq!(fault::place(data), place, "the place in {data:X?}");
        decode(report, data);
    }
}

/// All texts of three bytes; values.rs has the shorter ones.
fn short_texts(report: &mut Report) {
    let all: Vec<u8> = (0..=u8::MAX).collect();
    let three = Sweep { start: vec![], set: all, count: 3 };
    report.sweep(&three.parts().collect::<Vec<Sweep>>());
}

/// All texts of two bytes, and those of four bytes at the edges of the byte classes.
fn behind_ascii(report: &mut Report) {
    for length in 0..=MOST_ASCII {
        let start: Vec<u8> = (0..length).map(|place| b'a' + place as u8).collect();
        let all = (0..=u8::MAX).collect();
        let four = Sweep { start: start.clone(), set: EDGE_BYTES.to_vec(), count: 4 };
        report.sweep(&four.parts().collect::<Vec<Sweep>>());
        report.sweep(&[Sweep { start, set: all, count: 2 }]);
    }
}

/// Damaged once or more, and cut; the first of several bad places counts.
fn long_texts(report: &mut Report, random: &mut Random) {
    for _ in 0..4000 {
        let length = match random.below(4) {
            0 => 1 + random.below(LONGEST),
            1 => 280 + random.below(40),
            _ => 1 + random.below(1490),
        };
        let mut bytes = text(random, length);
        for _ in 0..1 + random.below(2) {
            bytes = damaged(random, &bytes);
            decode(report, &bytes);
        }
        let end = random.below(bytes.len() + 1);
        decode(report, &bytes[..end]);
    }
}
