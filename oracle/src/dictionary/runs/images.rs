//! Restores from images that no save made: damaged, cut, at the bounds of R10.7, and random.

use super::trial::Trial;
use crate::dictionary::generators::objects;
use crate::dictionary::generators::restores;
use crate::dictionary::model::image::{self, Record};
use crate::dictionary::model::layout::*;
use crate::dictionary::model::memory::Lent;
use crate::dictionary::model::step::{History, Step};
use crate::inputs::{damaged, text};
use crate::original::{KINDS, UNICODE_STRING, VISIBLE_STRING, size};
use crate::random::Random;
use std::collections::BTreeMap;

const OCTET_STRING: u64 = 12;
const RECORD: u64 = LAST_SHAPE;

/// So many restores are one history.
const TOGETHER: usize = 12;

pub fn compare(trial: &mut Trial, random: &mut Random) {
    for _ in 0..12 {
        let objects = small(random);
        let records = table(random, &objects);
        let stores = [
            every_byte(random, &image::of(&records)),
            every_length(random, &image::of(&records)),
            columns_changed(random, &records),
            bodies_changed(random, &records),
            elsewhere(random, &records),
            noise(random),
        ];
        restore_all(trial, random, &objects, stores.concat());
    }
    // Several times, since a range may leave out the one record that would show.
    for _ in 0..4 {
        let objects = small(random);
        let stores = [counts(random, &objects), totals(random, &objects)];
        restore_all(trial, random, &objects, stores.concat());
    }
}

/// Strings and numbers, with and without defaults, alone and in lists; the error history; a list
/// of none. Rooms have bytes behind their values.
fn small(random: &mut Random) -> Vec<Object> {
    let mut object = |index, shape, kinds: &[u64], default: Option<u64>| {
        let mut values: Vec<Value> =
            kinds.iter().map(|kind| objects::value_of(random, *kind, 5)).collect();
        for value in &mut values {
            value.room.resize(8, 0xC3);
        }
        let default = default.map(|kind| objects::default_of(random, kind, 8));
        let access = random.word() % (NO_ACCESS + 1);
        Object { access, name: b"n".to_vec(), default, ..bare(index, shape, values) }
    };
    vec![
        object(0x0FFF, VARIABLE, &[6], Some(7)),
        object(0x1000, RECORD, &[VISIBLE_STRING, UNICODE_STRING, 7], None),
        object(0x1003, ARRAY, &[OCTET_STRING, 8], Some(OCTET_STRING)),
        object(0x1004, ARRAY, &[OCTET_STRING, VISIBLE_STRING, 14, 5], Some(VISIBLE_STRING)),
        object(0x2000, ARRAY, &[], Some(5)),
        object(0x6000, VARIABLE, &[VISIBLE_STRING], Some(19)),
        object(0xFFFF, VARIABLE, &[10], None),
    ]
}

fn body(random: &mut Random, kind: u64, length: usize) -> Vec<u8> {
    match kind {
        VISIBLE_STRING => text(random, length),
        UNICODE_STRING => random.bytes(length / 2 * 2),
        _ => random.bytes(size(kind).unwrap_or(length)),
    }
}

/// Records for most places, of the type there or another, and for places that are none.
fn table(random: &mut Random, objects: &[Object]) -> Vec<Record> {
    let mut places: Vec<(u16, u8)> = objects
        .iter()
        .flat_map(|object| (0..=object.values.len()).map(|sub| (object.index as u16, sub as u8)))
        .collect();
    places.extend([(0x1000, 255), (0x2000, 0), (0x2000, 1), (0x3000, 0), (0x6000, 1)]);
    let mut table = BTreeMap::new();
    for place in places {
        if random.below(3) == 0 {
            continue;
        }
        let kind = match random.below(2) {
            0 => random.pick(&[VISIBLE_STRING, UNICODE_STRING, OCTET_STRING, 5, 20]),
            _ => random.word() % KINDS,
        };
        let length = random.below(9);
        table.insert(place, (kind, body(random, kind, length)));
    }
    let record =
        |((index, sub_index), (kind, body))| Record { index, sub_index, kind: kind as u8, body };
    table.into_iter().map(record).collect()
}

/// Each store by itself, on the dictionary as it was.
fn restore_all(
    trial: &mut Trial,
    random: &mut Random,
    objects: &[Object],
    mut stores: Vec<Vec<u8>>,
) {
    let lengths = Used::of(objects).lengths();
    while !stores.is_empty() {
        let mut steps = Vec::new();
        for store in stores.drain(..TOGETHER.min(stores.len())) {
            let at_start = random.below(2) == 0;
            steps.push(Step::Lend(Lent { at_start, lengths, store: store.len() }));
            steps.push(Step::Lay(objects.to_vec()));
            steps.push(Step::Store(store));
            let call = match random.below(4) {
                0 => restores::any(random, objects),
                _ => restores::everything(),
            };
            steps.push(Step::Call(call));
        }
        trial.compare(History { first: Lent { at_start: false, lengths, store: 0 }, steps });
    }
}

fn every_byte(random: &mut Random, image: &[u8]) -> Vec<Vec<u8>> {
    let mut stores = vec![image.to_vec()];
    for (at, old) in image.iter().enumerate() {
        let near = [old ^ 1, old ^ 0x80, old.wrapping_add(1), old.wrapping_sub(1)];
        let any = [0, 0x7F, 0x80, 0xC2, 0xFF, random.word() as u8, 21, 20];
        for byte in near.into_iter().chain(any).filter(|byte| byte != old) {
            let mut store = image.to_vec();
            store[at] = byte;
            stores.push(store);
        }
    }
    stores
}

/// Cut at every length; with bytes behind, whatever they are.
fn every_length(random: &mut Random, image: &[u8]) -> Vec<Vec<u8>> {
    let mut stores: Vec<Vec<u8>> =
        (0..image.len()).map(|length| image[..length].to_vec()).collect();
    for more in [1, 2, 7, 8, 9, 40_000] {
        stores.push([image, &random.bytes(more)].concat());
    }
    stores.extend([0, 1, 2].map(|count| vec![0; count]));
    stores.extend([[1, 0], [0, 1], [255, 255]].map(|count| count.to_vec()));
    stores
}

/// Each column of each record set to others, all else left: starts that overlap or leave gaps,
/// places that are equal or fall, types that are none, lengths off by one.
fn columns_changed(random: &mut Random, records: &[Record]) -> Vec<Vec<u8>> {
    let image = image::of(records);
    let mut stores = Vec::new();
    for at in (2..2 + 8 * records.len()).step_by(8) {
        let before = if at == 2 { at } else { at - 8 };
        for column in [0, 4, 6] {
            let old = u16::from_le_bytes([image[at + column], image[at + column + 1]]);
            let other = u16::from_le_bytes([image[before + column], image[before + column + 1]]);
            let any = random.word() as u16;
            for new in [old.wrapping_add(1), old.wrapping_sub(1), other, 0, 0xFFFF, 16_384, any] {
                let mut store = image.clone();
                store[at + column..][..2].copy_from_slice(&new.to_le_bytes());
                stores.push(store);
            }
        }
        // The place before it again, and one just below that.
        for below in [0, 1] {
            let mut store = image.clone();
            store.copy_within(before..before + 3, at);
            store[at + 2] = store[at + 2].wrapping_sub(below);
            stores.push(store);
        }
        for kind in [20, 21, 22, 127, 128, 255] {
            let mut store = image.clone();
            store[at + 3] = kind;
            stores.push(store);
        }
    }
    stores
}

/// One record's type and body changed and the image otherwise right: lengths off by one, texts that
/// are none, odd lengths, strings over every bound but that of the bodies.
fn bodies_changed(random: &mut Random, records: &[Record]) -> Vec<Vec<u8>> {
    let mut stores = Vec::new();
    for place in 0..records.len() {
        let mut with = |kind: u64, body: Vec<u8>| {
            let mut records = records.to_vec();
            records[place] = Record { kind: kind as u8, body, ..records[place] };
            stores.push(image::of(&records));
        };
        for kind in 0..KINDS {
            let length = size(kind).unwrap_or(4);
            for length in [length - 1, length, length + 1, 0] {
                with(kind, random.bytes(length));
            }
        }
        for _ in 0..4 {
            let right = text(random, 6);
            with(VISIBLE_STRING, damaged(random, &right));
            with(VISIBLE_STRING, right);
        }
        for length in [8, 9, 1490, 1491, 15_000] {
            with(random.pick(&[OCTET_STRING, 14]), random.bytes(length));
        }
        with(VISIBLE_STRING, text(random, 2000));
        with(UNICODE_STRING, random.bytes(8));
        with(UNICODE_STRING, random.bytes(7));
    }
    stores
}

/// One record more, somewhere: at each place that the dictionary lacks it is ignored.
fn elsewhere(random: &mut Random, records: &[Record]) -> Vec<Vec<u8>> {
    let mut stores = Vec::new();
    for index in [0, 0x0FFE, 0x0FFF, 0x1000, 0x1001, 0x1003, 0x2000, 0x6000, 0x6001, 0xFFFF] {
        for sub_index in [0, 1, 2, 3, 4, 5, 254, 255] {
            let place = (index, sub_index);
            let row = records.partition_point(|r| (r.index, r.sub_index) < place);
            if records.get(row).is_some_and(|r| (r.index, r.sub_index) == place) {
                continue;
            }
            let length = random.pick(&[3, 8, 9, 1491]);
            let body = random.bytes(length);
            let mut records = records.to_vec();
            records.insert(row, Record { index, sub_index, kind: OCTET_STRING as u8, body });
            stores.push(image::of(&records));
        }
    }
    stores
}

/// Few records of anything, or of anything that is nearly right.
fn noise(random: &mut Random) -> Vec<Vec<u8>> {
    let mut stores = Vec::new();
    for _ in 0..60 {
        let length = random.below(60);
        let mut store = random.bytes(length);
        stores.push(store.clone());
        if length > 2 {
            store[..2].copy_from_slice(&[random.below(4) as u8, 0]);
            stores.push(store);
        }
    }
    stores
}

/// Right records, the most and one more; and counts of more than there are.
fn counts(random: &mut Random, objects: &[Object]) -> Vec<Vec<u8>> {
    let mut stores = Vec::new();
    for count in [1, 2047, 2048, 2049, 4097] {
        let mut lengths = vec![0; count];
        // The one that the dictionary has a place for is to be seen where it is put.
        lengths[0] = 8;
        let image = image::of(&many(random, objects, &lengths));
        stores.push([image.as_slice(), &[0; 9]].concat());
        stores.push(image[..image.len() - 1].to_vec());
        stores.push(image);
    }
    let image = image::of(&table(random, objects));
    for count in [0, 1, 2047, 2048, 2049, 8192, 8193, 0x8000, 0xFFFF_u16] {
        for store in [image.len(), 40_000] {
            let mut store = [image.clone(), vec![0; store - image.len()]].concat();
            store[..2].copy_from_slice(&count.to_le_bytes());
            stores.push(store);
        }
    }
    stores
}

/// Right records with just the most bytes, one less and more; and with so many that 16 bits hold
/// only the rest.
fn totals(random: &mut Random, objects: &[Object]) -> Vec<Vec<u8>> {
    let mut stores = Vec::new();
    for lengths in [
        vec![8, 16_376],
        vec![8, 16_375],
        vec![8, 16_377],
        vec![16_384],
        vec![16_385],
        vec![5; 3276],
        vec![8; 2048],
        vec![9; 2048],
        vec![8, 30_000, 30_000],
    ] {
        let image = image::of(&many(random, objects, &lengths));
        stores.push(image[..image.len() - 1].to_vec());
        stores.push([image.as_slice(), &[0x80]].concat());
        stores.push(image);
    }
    // Two lengths that add up to 65,536 and a little more; all bytes that 16 bits can say are there.
    let mut wrapped = image::of(&many(random, objects, &[0, 0, 8]));
    for (record, start, length) in [(0, 0, 40_000), (1, 40_000, 25_536), (2, 0, 8_u16)] {
        let row = 2 + 8 * record + 4;
        wrapped[row..][..4].copy_from_slice(&[start, length].map(u16::to_le_bytes).concat());
    }
    wrapped.resize(65_536, 0);
    stores.push(wrapped);
    stores
}

/// OctetStrings of these lengths. The first is at a place that the dictionary has, the others at
/// places behind it that it lacks.
fn many(random: &mut Random, objects: &[Object], lengths: &[usize]) -> Vec<Record> {
    let first = objects.iter().find(|object| object.shape == ARRAY && object.index != 0x1003);
    let index = first.map_or(0, |object| object.index as u16);
    let record = |(place, length): (usize, &usize)| Record {
        index: index + (place / 100) as u16,
        sub_index: if place == 0 { 1 } else { 100 + (place % 100) as u8 },
        kind: OCTET_STRING as u8,
        body: random.bytes(*length),
    };
    lengths.iter().enumerate().map(record).collect()
}
