//! Bytes and texts at the edges of the rules.

use crate::random::Random;

/// First and last bytes of each class of UTF-8 bytes.
pub const EDGE_BYTES: [u8; 24] = [
    0x00, 0x7F, 0x80, 0x8F, 0x90, 0x9F, 0xA0, 0xBF, 0xC0, 0xC1, 0xC2, 0xDF, 0xE0, 0xE1, 0xEC, 0xED,
    0xEE, 0xEF, 0xF0, 0xF1, 0xF3, 0xF4, 0xF5, 0xFF,
];

/// First and last characters of each row of UTF-8 forms.
const EDGE_CHARS: [char; 18] = [
    '\u{0}',
    '\u{7F}',
    '\u{80}',
    '\u{7FF}',
    '\u{800}',
    '\u{FFF}',
    '\u{1000}',
    '\u{CFFF}',
    '\u{D000}',
    '\u{D7FF}',
    '\u{E000}',
    '\u{FFFF}',
    '\u{10000}',
    '\u{3FFFF}',
    '\u{40000}',
    '\u{FFFFF}',
    '\u{100000}',
    '\u{10FFFF}',
];

/// Where signs, carries and byte orders show.
pub fn patterns(length: usize) -> Vec<Vec<u8>> {
    let mut patterns: Vec<Vec<u8>> = [0x00, 0xFF, 0x80, 0x7F].map(|byte| vec![byte; length]).into();
    patterns.push((1..=length).map(|place| place as u8).collect());
    for (inner, last) in [(0x00, 0x80), (0xFF, 0x7F), (0x00, 0x01)] {
        let mut bytes = vec![inner; length];
        if let Some(byte) = bytes.last_mut() {
            *byte = last;
        }
        patterns.push(bytes);
    }
    patterns.sort();
    patterns.dedup();
    patterns
}

/// A valid text of exactly `length` bytes.
pub fn text(random: &mut Random, length: usize) -> Vec<u8> {
    let mut text = String::new();
    while text.len() < length {
        let next = match random.below(4) {
            0 => random.pick(&EDGE_CHARS),
            1 => char::from_u32(random.below(0x11_0000) as u32).unwrap_or('\u{FFFD}'),
            _ => char::from(random.below(0x80) as u8),
        };
        if text.len() + next.len_utf8() <= length {
            text.push(next);
        }
    }
    text.into_bytes()
}

/// The text with one byte changed, dropped or put in.
pub fn damaged(random: &mut Random, text: &[u8]) -> Vec<u8> {
    let mut bytes = text.to_vec();
    let place = random.below(bytes.len() + 1);
    let byte = random.pick(&EDGE_BYTES);
    if place == bytes.len() {
        bytes.push(byte);
        return bytes;
    }
    match random.below(4) {
        0 => bytes.insert(place, byte),
        1 => drop(bytes.remove(place)),
        2 => bytes[place] ^= 1 << random.below(8),
        _ => bytes[place] = byte,
    }
    bytes
}
