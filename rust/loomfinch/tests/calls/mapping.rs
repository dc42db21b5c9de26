//! Mapping words.

use loomfinch::PdoMappingEntry;

#[test]
fn a_word_is_taken_apart_and_put_together() {
    let entry = PdoMappingEntry::from_u64(0x0020_0010_AB03_6200);
    let wanted = PdoMappingEntry { index: 0x6200, sub_index: 3, offset_bits: 16, length_bits: 32 };
    assert_eq!(entry, wanted);
    assert_eq!(entry.to_u64(), 0x0020_0010_0003_6200);
    assert_eq!(PdoMappingEntry::from_u64(u64::MAX).to_u64(), 0xFFFF_FFFF_00FF_FFFF);
}

#[test]
fn whole_bytes_have_a_field() {
    let entry = PdoMappingEntry { index: 0x6000, sub_index: 0, offset_bits: 24, length_bits: 16 };
    assert_eq!((entry.byte_offset(), entry.byte_length()), (Some(3), Some(2)));
    assert_eq!((entry.field(), entry.end()), (Some(3..5), 5));
}

#[test]
fn other_words_have_an_end_alone() {
    let entry = PdoMappingEntry { index: 0x6000, sub_index: 0, offset_bits: 1, length_bits: 8 };
    assert_eq!((entry.byte_offset(), entry.byte_length()), (None, Some(1)));
    assert_eq!((entry.field(), entry.end()), (None, 2));
    let entry = PdoMappingEntry { offset_bits: 8, length_bits: 4, ..entry };
    assert_eq!((entry.byte_offset(), entry.byte_length()), (Some(1), None));
    assert_eq!((entry.field(), entry.end()), (None, 2));
    let entry = PdoMappingEntry { offset_bits: u16::MAX, length_bits: u16::MAX, ..entry };
    assert_eq!(entry.end(), 16_384);
}
