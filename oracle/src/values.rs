//! Decoding and encoding of values.

use crate::call::Call;
use crate::inputs::{EDGE_BYTES, damaged, patterns, text};
use crate::original::{self, KINDS, UNICODE_STRING, VISIBLE_STRING, size};
use crate::random::Random;
use crate::report::Report;

/// A payload's largest field is 1,490 bytes long.
const LONG: std::ops::RangeInclusive<usize> = 1488..=1492;

/// Numbers that are no types, some of which would be one if they were cut to fewer bits.
const NO_KINDS: [u64; 9] = [21, 22, 255, 256, 256 + 11, 1 << 16, (1 << 32) + 7, 1 << 63, u64::MAX];

pub fn compare(report: &mut Report, random: &mut Random) {
    lengths(report, random);
    short_texts(report);
    blocks(report);
    texts(report, random);
    long_values(report, random);
    words(report, random);
    no_kinds(report, random);
}

/// Decodes data and encodes what it gave, with lent memory of the exact size.
fn value(report: &mut Report, kind: u64, data: &[u8]) {
    decode(report, kind, data, 7);
    match original::decode(kind, data) {
        Ok(value) => {
            let word = original::numbers(&value)[0];
            encode(report, kind, word, data, value.serialize().len(), 1);
        }
        // The Rust has no such text, so encoding must refuse it; a number cut short has no word.
        Err(_) if size(kind).is_none() => {
            encode(report, kind, data.len() as u64, data, data.len(), 1)
        }
        Err(_) => {}
    }
}

/// The same with lent memory of other sizes, and with words that do not fit the text.
fn value_in_all_rooms(report: &mut Report, kind: u64, data: &[u8]) {
    value(report, kind, data);
    for room in [0, 6, 8, 11] {
        decode(report, kind, data, room);
    }
    let length = data.len() as u64;
    let (word, needed) = match original::decode(kind, data) {
        Ok(value) => (original::numbers(&value)[0], value.serialize().len()),
        Err(_) => (length, data.len()),
    };
    for (out, room) in [(needed + 5, 3), (0, 1)] {
        encode(report, kind, word, data, out, room);
    }
    if needed > 0 {
        encode(report, kind, word, data, needed - 1, 1);
    }
    if size(kind).is_none() {
        encode(report, kind, length + 1, data, data.len() + 1, 1);
        encode(report, kind, length.wrapping_sub(1), data, data.len(), 1);
        encode(report, kind, length + (1 << 32), data, data.len(), 1);
    }
}

fn decode(report: &mut Report, kind: u64, data: &[u8], room: usize) {
    report.compare(Call::decode(kind, data, room));
}

fn encode(report: &mut Report, kind: u64, word: u64, part: &[u8], out: usize, room: usize) {
    report.compare(Call::encode(kind, word, part, out, room));
}

/// Every type with every short length.
fn lengths(report: &mut Report, random: &mut Random) {
    for length in 0..=12 {
        for kind in 0..KINDS {
            for data in patterns(length) {
                value_in_all_rooms(report, kind, &data);
            }
            // So short that random data would only repeat itself.
            match length {
                0 => {}
                1 => (0..=255).for_each(|byte| value(report, kind, &[byte])),
                _ => random_data(report, random, kind, length),
            }
        }
    }
}

fn random_data(report: &mut Report, random: &mut Random, kind: u64, length: usize) {
    for _ in 0..300 {
        value_in_all_rooms(report, kind, &random.bytes(length));
        let edges: Vec<u8> = (0..length).map(|_| random.pick(&EDGE_BYTES)).collect();
        value(report, kind, &edges);
    }
}

/// Every text of one and two bytes, and three and four bytes at the edges of the byte classes.
fn short_texts(report: &mut Report) {
    for first in 0..=255 {
        value_in_all_rooms(report, VISIBLE_STRING, &[first]);
        for second in 0..=255 {
            value(report, VISIBLE_STRING, &[first, second]);
        }
    }
    for first in EDGE_BYTES {
        for second in EDGE_BYTES {
            for third in EDGE_BYTES {
                value_in_all_rooms(report, VISIBLE_STRING, &[first, second, third]);
                for fourth in EDGE_BYTES {
                    value(report, VISIBLE_STRING, &[first, second, third, fourth]);
                }
            }
        }
    }
}

/// A byte at each place of plain ASCII: a text test that looks at several bytes
/// at once must not miss one.
fn blocks(report: &mut Report) {
    for length in 1..=72 {
        let plain: Vec<u8> = (0..length).map(|place| b'!' + place as u8).collect();
        for place in 0..length {
            for byte in [0x00, 0x7F, 0x80, 0xC2, 0xE0, 0xF4, 0xFF] {
                let mut data = plain.clone();
                data[place] = byte;
                value(report, VISIBLE_STRING, &data);
            }
            let mut data = plain.clone();
            data.splice(place..=place, "\u{20AC}".bytes());
            value(report, VISIBLE_STRING, &data);
        }
    }
}

/// Valid texts, the same damaged, and cut at each length.
fn texts(report: &mut Report, random: &mut Random) {
    for _ in 0..6000 {
        let length = 1 + random.below(48);
        let whole = text(random, length);
        value_in_all_rooms(report, VISIBLE_STRING, &whole);
        for end in 1..length {
            value(report, VISIBLE_STRING, &whole[..end]);
        }
        for _ in 0..12 {
            let bytes = damaged(random, &whole);
            value(report, VISIBLE_STRING, &bytes);
            let end = random.below(bytes.len() + 1);
            value(report, VISIBLE_STRING, &bytes[..end]);
        }
    }
}

/// Every type around the longest field.
fn long_values(report: &mut Report, random: &mut Random) {
    for length in LONG {
        for kind in 0..KINDS {
            for data in patterns(length) {
                value_in_all_rooms(report, kind, &data);
            }
            value_in_all_rooms(report, kind, &random.bytes(length));
        }
        for _ in 0..100 {
            let whole = text(random, length);
            value_in_all_rooms(report, VISIBLE_STRING, &whole);
            value_in_all_rooms(report, UNICODE_STRING, &whole);
            value(report, VISIBLE_STRING, &damaged(random, &whole));
        }
    }
}

/// The words of every fixed type: each power of two and its neighbours, so the
/// type's largest word and the one past it too, and random ones.
fn words(report: &mut Report, random: &mut Random) {
    for (kind, size) in (0..KINDS).filter_map(|kind| Some((kind, size(kind)?))) {
        for bit in 0..64 {
            for word in [(1 << bit) - 1, 1 << bit, (1 << bit) + 1, u64::MAX << bit] {
                word_in_all_rooms(report, random, (kind, size), word);
            }
        }
        for _ in 0..2000 {
            let word = random.word() >> random.below(64);
            word_in_all_rooms(report, random, (kind, size), word);
        }
    }
}

/// `part` means nothing to a fixed type, whatever it holds.
fn word_in_all_rooms(
    report: &mut Report,
    random: &mut Random,
    (kind, size): (u64, usize),
    word: u64,
) {
    let length = random.below(4);
    let part = random.bytes(length);
    for (out, room) in [(size, 1), (size - 1, 1), (size + 6, 2)] {
        encode(report, kind, word, &part, out, room);
    }
}

fn no_kinds(report: &mut Report, random: &mut Random) {
    for kind in NO_KINDS {
        for length in (0..=12).chain(LONG) {
            let data = random.bytes(length);
            for room in [1, 7, 9] {
                decode(report, kind, &data, room);
                encode(report, kind, length as u64, &data, length, room);
                encode(report, kind, random.word(), &data, length + 8, room);
            }
        }
    }
}
