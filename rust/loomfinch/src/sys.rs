//! The calls of the library, linked: a function for each of include/loomfinch.h, with slices for pointers and lengths.
//! The only file with `unsafe`; emulated.rs has the same functions for processors that the library is not for.

#![allow(unsafe_code)]

use crate::answer::Said;
use crate::entry::Description;
use crate::parts::Parts;

extern "C" {
    fn loomfinch_decode(
        type_number: u64,
        data: *const u8,
        data_len: usize,
        numbers: *mut u64,
        numbers_len: usize,
        place: *mut u64,
        had: *mut u64,
    ) -> u64;
    fn loomfinch_encode(
        type_number: u64,
        word: u64,
        part: *const u8,
        part_len: usize,
        out: *mut u8,
        out_len: usize,
        written: *mut u64,
    ) -> u64;
    fn loomfinch_from_u64(word: u64, numbers: *mut u64, numbers_len: usize) -> u64;
    fn loomfinch_to_u64(index: u16, sub_index: u8, offset_bits: u16, length_bits: u16) -> u64;
    fn loomfinch_new(objects: *mut u64, objects_len: usize, edition: u64) -> u64;
}

/// Declares calls on a dictionary, whose four slices are the first eight arguments. `const` calls change none of them;
/// what a `mut` call changes of them is said by the header.
macro_rules! declare {
    ($change:tt: $($name:ident($($argument:ident: $kind:ty),*);)*) => {
        extern "C" {
            $(fn $name(
                objects: *$change u64, objects_len: usize, slots: *$change u64, slots_len: usize,
                words: *$change u64, words_len: usize, bytes: *$change u8, bytes_len: usize,
                $($argument: $kind),*
            ) -> u64;)*
        }
    };
}

declare! { const:
    loomfinch_read(index: u16, sub_index: u8, numbers: *mut u64, numbers_len: usize);
    loomfinch_read_u8(index: u16, sub_index: u8, number: *mut u64);
    loomfinch_read_u16(index: u16, sub_index: u8, number: *mut u64);
    loomfinch_read_u32(index: u16, sub_index: u8, number: *mut u64);
    loomfinch_read_u64(index: u16, sub_index: u8, number: *mut u64);
    loomfinch_find_by_name(name: *const u8, name_len: usize, index: *mut u64);
    loomfinch_get_configured_cns(out: *mut u8, out_len: usize, count: *mut u64);
    loomfinch_validate_pdo_mapping(index: u16, count: u8);
    loomfinch_check(channel: u8, element: *mut u64);
    loomfinch_check_all(numbers: *mut u64, numbers_len: usize, count: *mut u64);
    loomfinch_explain(channel: u8, element: u8, numbers: *mut u64, numbers_len: usize);
}

declare! { mut:
    loomfinch_insert(index: u16, kind: u64, access: u64, has_default: u64, low_type: u64, low: u64, high_type: u64,
        high: u64, name: *const u8, name_len: usize, vals: *const u64, vals_len: usize, encodings: *const u8,
        encodings_len: usize);
    loomfinch_increment_counter(index: u16, sub_index: u8);
    loomfinch_write(store: *mut u8, store_len: usize, index: u16, sub_index: u8, type_number: u64,
        data: *const u8, data_len: usize, place: *mut u64, had: *mut u64);
    loomfinch_restore_power_on_values(store: *const u8, store_len: usize, first: u16, last: u16);
    loomfinch_consume_pdo_payload(payload: *const u8, payload_len: usize, sender: u8, version: u8, ready: u64,
        events: *mut u64, events_len: usize, count: *mut u64);
    loomfinch_consume_cycle(delivered: *const u8, delivered_len: usize, payloads: *const u64, payloads_len: usize,
        events: *mut u64, events_len: usize, consumed: *mut u64, count: *mut u64);
    loomfinch_update_pdo_error_object(index: u16, node: u8);
}

/// Makes a call on a dictionary, with pointers from `as_ptr` where it changes nothing and else from `as_mut_ptr`.
macro_rules! call {
    ($name:ident($parts:ident.$pointer:ident $(, $argument:expr)*)) => {
        // SAFETY: the header asks for pointers that are not null, valid for the length beside them and apart from each
        // other. Each is made here from a reference or a slice, which are valid and not null, with the slice's own
        // length; those that the call may change come from `&mut`, so that nothing else overlaps them. The library
        // answers for every content, is proved to stay within what is lent, and keeps no pointer.
        unsafe {
            $name(
                $parts.objects.$pointer(), $parts.objects.len(), $parts.slots.$pointer(), $parts.slots.len(),
                $parts.words.$pointer(), $parts.words.len(), $parts.bytes.$pointer(), $parts.bytes.len(),
                $($argument),*
            )
        }
    };
}

pub fn decode(type_number: u64, data: &[u8], numbers: &mut [u64], said: &mut Said) -> u64 {
    // SAFETY: as in `call`.
    unsafe {
        loomfinch_decode(
            type_number,
            data.as_ptr(),
            data.len(),
            numbers.as_mut_ptr(),
            numbers.len(),
            &mut said.place,
            &mut said.had,
        )
    }
}

pub fn encode(type_number: u64, word: u64, part: &[u8], out: &mut [u8], written: &mut u64) -> u64 {
    let (part_len, out_len) = (part.len(), out.len());
    // SAFETY: as in `call`.
    unsafe {
        loomfinch_encode(
            type_number,
            word,
            part.as_ptr(),
            part_len,
            out.as_mut_ptr(),
            out_len,
            written,
        )
    }
}

pub fn from_u64(word: u64, numbers: &mut [u64]) -> u64 {
    // SAFETY: as in `call`.
    unsafe { loomfinch_from_u64(word, numbers.as_mut_ptr(), numbers.len()) }
}

pub fn to_u64(index: u16, sub_index: u8, offset_bits: u16, length_bits: u16) -> u64 {
    // SAFETY: the call takes numbers alone, and answers for each.
    unsafe { loomfinch_to_u64(index, sub_index, offset_bits, length_bits) }
}

pub fn new(objects: &mut [u64], edition: u64) -> u64 {
    // SAFETY: as in `call`.
    unsafe { loomfinch_new(objects.as_mut_ptr(), objects.len(), edition) }
}

pub fn insert(parts: &mut Parts, index: u16, name: &[u8], given: &Description) -> u64 {
    let [low_type, low, high_type, high] = given.range;
    call!(loomfinch_insert(
        parts.as_mut_ptr,
        index,
        given.kind,
        given.access,
        given.has_default,
        low_type,
        low,
        high_type,
        high,
        name.as_ptr(),
        name.len(),
        given.values.as_ptr(),
        given.values.len(),
        given.encodings.as_ptr(),
        given.encodings.len()
    ))
}

pub fn read(parts: &Parts, index: u16, sub_index: u8, numbers: &mut [u64]) -> u64 {
    let (to, len) = (numbers.as_mut_ptr(), numbers.len());
    call!(loomfinch_read(parts.as_ptr, index, sub_index, to, len))
}

pub fn read_u8(parts: &Parts, index: u16, sub_index: u8, number: &mut u64) -> u64 {
    call!(loomfinch_read_u8(parts.as_ptr, index, sub_index, number))
}

pub fn read_u16(parts: &Parts, index: u16, sub_index: u8, number: &mut u64) -> u64 {
    call!(loomfinch_read_u16(parts.as_ptr, index, sub_index, number))
}

pub fn read_u32(parts: &Parts, index: u16, sub_index: u8, number: &mut u64) -> u64 {
    call!(loomfinch_read_u32(parts.as_ptr, index, sub_index, number))
}

pub fn read_u64(parts: &Parts, index: u16, sub_index: u8, number: &mut u64) -> u64 {
    call!(loomfinch_read_u64(parts.as_ptr, index, sub_index, number))
}

pub fn find_by_name(parts: &Parts, name: &[u8], index: &mut u64) -> u64 {
    call!(loomfinch_find_by_name(parts.as_ptr, name.as_ptr(), name.len(), index))
}

pub fn get_configured_cns(parts: &Parts, out: &mut [u8], count: &mut u64) -> u64 {
    let (to, len) = (out.as_mut_ptr(), out.len());
    call!(loomfinch_get_configured_cns(parts.as_ptr, to, len, count))
}

pub fn increment_counter(parts: &mut Parts, index: u16, sub_index: u8) -> u64 {
    call!(loomfinch_increment_counter(parts.as_mut_ptr, index, sub_index))
}

pub fn validate_pdo_mapping(parts: &Parts, index: u16, count: u8) -> u64 {
    call!(loomfinch_validate_pdo_mapping(parts.as_ptr, index, count))
}

pub fn write(
    parts: &mut Parts,
    store: &mut [u8],
    index: u16,
    sub_index: u8,
    type_number: u64,
    data: &[u8],
    said: &mut Said,
) -> u64 {
    let (store, store_len) = (store.as_mut_ptr(), store.len());
    let (data, data_len) = (data.as_ptr(), data.len());
    call!(loomfinch_write(
        parts.as_mut_ptr,
        store,
        store_len,
        index,
        sub_index,
        type_number,
        data,
        data_len,
        &mut said.place,
        &mut said.had
    ))
}

pub fn restore_power_on_values(parts: &mut Parts, store: &[u8], first: u16, last: u16) -> u64 {
    let (store, store_len) = (store.as_ptr(), store.len());
    call!(loomfinch_restore_power_on_values(parts.as_mut_ptr, store, store_len, first, last))
}

pub fn consume_pdo_payload(
    parts: &mut Parts,
    payload: &[u8],
    sender: u8,
    version: u8,
    ready: bool,
    events: &mut [u64],
    count: &mut u64,
) -> u64 {
    call!(loomfinch_consume_pdo_payload(
        parts.as_mut_ptr,
        payload.as_ptr(),
        payload.len(),
        sender,
        version,
        u64::from(ready),
        events.as_mut_ptr(),
        events.len(),
        count
    ))
}

pub fn consume_cycle(
    parts: &mut Parts,
    delivered: &[u8],
    payloads: &[u64],
    events: &mut [u64],
    consumed: &mut u64,
    count: &mut u64,
) -> u64 {
    call!(loomfinch_consume_cycle(
        parts.as_mut_ptr,
        delivered.as_ptr(),
        delivered.len(),
        payloads.as_ptr(),
        payloads.len(),
        events.as_mut_ptr(),
        events.len(),
        consumed,
        count
    ))
}

pub fn update_pdo_error_object(parts: &mut Parts, index: u16, node: u8) -> u64 {
    call!(loomfinch_update_pdo_error_object(parts.as_mut_ptr, index, node))
}

pub fn check(parts: &Parts, channel: u8, element: &mut u64) -> u64 {
    call!(loomfinch_check(parts.as_ptr, channel, element))
}

pub fn check_all(parts: &Parts, numbers: &mut [u64], count: &mut u64) -> u64 {
    let (to, len) = (numbers.as_mut_ptr(), numbers.len());
    call!(loomfinch_check_all(parts.as_ptr, to, len, count))
}

pub fn explain(parts: &Parts, channel: u8, element: u8, numbers: &mut [u64]) -> u64 {
    let (to, len) = (numbers.as_mut_ptr(), numbers.len());
    call!(loomfinch_explain(parts.as_ptr, channel, element, to, len))
}
