//! Prints a fixed list of the unchanged Rust's answers, for replay without Rust:
//! mapping words (w), decoded data (d) and encoded values (e). What is said of data that it does not
//! decode is fault.rs's.

mod fault;
mod hex;
mod inputs;
mod original;
mod random;

use fault::Fault;
use hex::hex;
use inputs::{EDGE_BYTES, damaged, patterns, text};
use original::{KINDS, UNICODE_STRING, VISIBLE_STRING, size};
use powerlink_rs::pdo::PdoMappingEntry;
use random::Random;

/// Never changed: the printed list is the same at every run.
const SEED: u64 = 301;

const LONGEST: usize = 1490;

fn main() {
    let mut random = Random::new(SEED);
    words(&mut random);
    decodings(&mut random);
    short_texts();
    texts(&mut random);
    long_texts(&mut random);
    encodings(&mut random);
}

fn word_line(word: u64) {
    let entry = PdoMappingEntry::from_u64(word);
    let PdoMappingEntry { index, sub_index, offset_bits, length_bits } = entry;
    let encoded = entry.to_u64();
    println!("w {word:X} {index:X} {sub_index:X} {offset_bits:X} {length_bits:X} {encoded:X}");
}

fn decode_line(kind: u64, data: &[u8]) {
    print!("d {kind:X} {}", hex(data));
    match original::decode(kind, data) {
        Ok(value) => {
            print!(" 0");
            original::numbers(&value).iter().for_each(|number| print!(" {number:X}"));
        }
        Err(refusal) => {
            print!(" {refusal:X}");
            let numbers = Fault::of(kind, data).map_or(Vec::new(), Fault::numbers);
            numbers.iter().for_each(|number| print!(" {number:X}"));
        }
    }
    println!();
}

/// What cannot be encoded has no line: the Rust has no value for it.
fn encode_line(kind: u64, word: u64, part: &[u8]) {
    if let Ok(bytes) = original::encode(kind, word, part) {
        println!("e {kind:X} {word:X} {} {}", hex(part), hex(&bytes));
    }
}

fn words(random: &mut Random) {
    for word in [0, u64::MAX, 0x0020_0010_AB03_6200] {
        word_line(word);
    }
    for bit in 0..64 {
        word_line(1 << bit);
        word_line(!(1 << bit));
    }
    for _ in 0..120 {
        word_line(random.word());
    }
}

/// Every type: too short, exact and longer than its size.
fn decodings(random: &mut Random) {
    for kind in 0..KINDS {
        for length in 0..=9 {
            decode_line(kind, &random.bytes(length));
        }
        for data in patterns(size(kind).unwrap_or(4)) {
            decode_line(kind, &data);
        }
    }
}

/// Each row of UTF-8 forms with bytes on both sides of its edges.
fn short_texts() {
    for first in EDGE_BYTES {
        decode_line(VISIBLE_STRING, &[first]);
    }
    for first in [0x7F, 0x80, 0xC0, 0xC1, 0xC2, 0xDF, 0xE0, 0xED, 0xF0, 0xF4, 0xF5] {
        for second in [0x7F, 0x80, 0xBF, 0xC0] {
            decode_line(VISIBLE_STRING, &[first, second]);
        }
    }
    for first in [0xE0, 0xE1, 0xEC, 0xED, 0xEE, 0xEF] {
        for second in [0x7F, 0x80, 0x9F, 0xA0, 0xBF, 0xC0] {
            for third in [0x7F, 0x80, 0xBF, 0xC0] {
                decode_line(VISIBLE_STRING, &[first, second, third]);
            }
        }
    }
    for first in [0xF0, 0xF1, 0xF3, 0xF4, 0xF5] {
        for second in [0x7F, 0x80, 0x8F, 0x90, 0xBF, 0xC0] {
            for [third, fourth] in
                [[0x80, 0x80], [0xBF, 0xBF], [0x7F, 0x80], [0x80, 0x7F], [0x80, 0xC0]]
            {
                decode_line(VISIBLE_STRING, &[first, second, third, fourth]);
            }
        }
    }
}

/// Texts with a piece missing or a byte damaged.
fn texts(random: &mut Random) {
    let whole = text(random, 24);
    for end in 1..=whole.len() {
        decode_line(VISIBLE_STRING, &whole[..end]);
    }
    for _ in 0..80 {
        let length = 1 + random.below(20);
        let whole = text(random, length);
        decode_line(VISIBLE_STRING, &whole);
        decode_line(VISIBLE_STRING, &damaged(random, &whole));
    }
}

/// Few, since each line is long.
fn long_texts(random: &mut Random) {
    let whole = text(random, LONGEST);
    decode_line(VISIBLE_STRING, &whole);
    decode_line(VISIBLE_STRING, &damaged(random, &whole));
    decode_line(UNICODE_STRING, &whole[1..]);
}

fn encodings(random: &mut Random) {
    for kind in 0..KINDS {
        match size(kind) {
            Some(size) => {
                for bytes in patterns(size).into_iter().chain((0..6).map(|_| random.bytes(size))) {
                    let word =
                        bytes.iter().rev().fold(0, |word, byte| word << 8 | u64::from(*byte));
                    encode_line(kind, word, &[]);
                }
            }
            None => {
                for length in 0..=16 {
                    encode_line(kind, length as u64, &text(random, length));
                }
            }
        }
    }
}
