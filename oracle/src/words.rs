//! Mapping words.

use crate::call::{Call, Function};
use crate::random::Random;
use crate::report::Report;
use powerlink_rs::pdo::PdoMappingEntry;

/// Bits that decoding drops.
const RESERVED: u64 = 0xFF00_0000;

/// Keeps all of a word but what makes its offset and length break into a byte.
const WHOLE_BYTES: u64 = 0xFFF8_FFF8_FFFF_FFFF;

/// Fields at the edges of their widths and of whole bytes.
const EDGE_FIELDS: [u16; 14] =
    [0, 1, 7, 8, 9, 15, 16, 0xFF, 0x100, 0x7FFF, 0x8000, 0xFFF7, 0xFFF8, 0xFFFF];

pub fn compare(report: &mut Report, random: &mut Random) {
    for bit in 0..64 {
        for word in [(1 << bit) - 1, 1 << bit, !(1 << bit), u64::MAX << bit] {
            word_in_all_rooms(report, word);
        }
    }
    edges(report, random);
    for _ in 0..60_000 {
        let any = random.word();
        word(report, any);
        word(report, any & WHOLE_BYTES);
        report.compare(Call::mapping(Function::ToU64, random.word(), 0));
    }
}

fn edges(report: &mut Report, random: &mut Random) {
    for offset_bits in EDGE_FIELDS {
        for length_bits in EDGE_FIELDS {
            for index in EDGE_FIELDS {
                let sub_index = random.pick(&[0, 1, 0x7F, 0x80, 0xFF]);
                let entry = PdoMappingEntry { index, sub_index, offset_bits, length_bits };
                report.compare(Call::mapping(Function::ToU64, entry.to_u64(), 0));
                word_in_all_rooms(report, entry.to_u64() | random.word() & RESERVED);
            }
        }
    }
}

fn word(report: &mut Report, word: u64) {
    report.compare(Call::mapping(Function::FromU64, word, 9));
    report.compare(Call::mapping(Function::Again, word, 9));
}

fn word_in_all_rooms(report: &mut Report, bits: u64) {
    word(report, bits);
    for room in [0, 8, 12] {
        report.compare(Call::mapping(Function::FromU64, bits, room));
    }
}
