//! Saves at the bounds of the image: 2,048 records and 16,384 bytes of bodies.

use super::trial::Trial;
use crate::dictionary::generators::calls;
use crate::dictionary::generators::dictionaries::image_length;
use crate::dictionary::generators::restores;
use crate::dictionary::generators::writes;
use crate::dictionary::model::layout::*;
use crate::dictionary::model::memory::Lent;
use crate::dictionary::model::step::{Call, History, Step};
use crate::random::Random;

const OCTET_STRING: u64 = 12;
const UNSIGNED64: u64 = 8;

pub const RECORDS: usize = 2048;
pub const BODIES: usize = 16_384;

/// Records, bytes of bodies, and how many of the records are 64-bit numbers. At each bound, and
/// one more; the most of a dictionary; and bodies that are few only where they are cut to 16 bits.
const SIZES: [(usize, usize, usize); 14] = [
    (RECORDS, BODIES, RECORDS),
    (RECORDS, BODIES, 700),
    (RECORDS, BODIES - 1, 0),
    (RECORDS, BODIES + 1, RECORDS - 1),
    (RECORDS, BODIES + 1, 0),
    (RECORDS + 1, BODIES, 1000),
    (RECORDS + 1, 0, 0),
    (RECORDS, 0, 0),
    (RECORDS - 1, BODIES, 0),
    (11, BODIES, 0),
    (14, BODIES + 1, 2),
    (MOST_VALUES, BODIES, 100),
    (MOST_VALUES, 8 * MOST_VALUES, MOST_VALUES),
    (6100, (1 << 16) + 300, 6000),
];

pub fn compare(trial: &mut Trial, random: &mut Random) {
    for _ in 0..4 {
        for (records, bodies, numbers) in SIZES {
            let objects = saved(random, records, bodies, numbers);
            trial.compare(history(random, &objects));
        }
    }
    for _ in 0..20 {
        let records = 20 + random.below(RECORDS);
        let numbers = random.below(records - 12);
        let bodies = 8 * numbers + random.below(BODIES);
        let objects = saved(random, records, bodies, numbers);
        trial.compare(history(random, &objects));
    }
}

/// Lists that are saved and together have just so many values, numbers and strings, of so many
/// bytes. Every string's room has one byte more, as long as there is room for it.
pub fn saved(random: &mut Random, records: usize, bodies: usize, numbers: usize) -> Vec<Object> {
    let mut lengths = vec![0; records - numbers];
    let mut left = bodies - 8 * numbers;
    while left > 0 {
        let place = random.below(lengths.len());
        let most = left.min(LARGEST_ROOM - lengths[place]);
        let more = if most > 0 { 1 + random.below(most) } else { 0 };
        lengths[place] += more;
        left -= more;
    }
    let mut spare = MOST_BYTES - (bodies - 8 * numbers);
    let mut values: Vec<Value> = Vec::new();
    for length in lengths {
        let more = usize::from(spare > 0 && length < LARGEST_ROOM);
        spare -= more;
        values.push(Value::new(OCTET_STRING, length + more, &random.bytes(length)));
    }
    values.extend((0..numbers).map(|_| Value::new(UNSIGNED64, 0, &random.bytes(8))));
    for place in (1..values.len()).rev() {
        values.swap(place, random.below(place + 1));
    }
    in_lists(random, values)
}

/// In objects that the lists 2 and 3 both save a part of.
fn in_lists(random: &mut Random, values: Vec<Value>) -> Vec<Object> {
    let mut index = 0xFF0;
    let mut objects = Vec::new();
    let mut rest = values.as_slice();
    while !rest.is_empty() {
        let count = (1 + random.below(MOST_ELEMENTS)).max(rest.len() / 20).min(MOST_ELEMENTS);
        let (values, behind) = rest.split_at(count.min(rest.len()));
        rest = behind;
        let (shape, access) = (random.pick(&[ARRAY, LAST_SHAPE]), random.pick(&[2, 4]));
        objects.push(Object { access, ..bare(index, shape, values.to_vec()) });
        index += random.pick(&[1, 7, 0x500, 0x1000]);
    }
    objects
}

/// Saves into stores about as long as each list's image, and the longest; then strings that
/// become one byte longer and shorter, with a save after each.
fn history(random: &mut Random, objects: &[Object]) -> History {
    let lengths = Used::of(objects).lengths();
    let mut lent = Lent { at_start: random.below(2) == 0, lengths, store: 0 };
    let first = lent;
    let mut steps = vec![Step::Lay(objects.to_vec())];
    let mut stores = vec![1, 2, 9, 32_769, 32_770, 32_771, 50_000];
    for list in 1..=3 {
        let exact = image_length(objects, list);
        stores.extend([exact - 1, exact, exact + 1].map(|length| length.min(60_000)));
    }
    for store in stores {
        lent = Lent { at_start: !lent.at_start, store, ..lent };
        steps.push(Step::Lend(lent));
        let list = random.pick(&[2, 3, 4, 255]);
        steps.extend([1, list].map(|list| Step::Call(writes::save(list))));
    }
    steps.push(Step::Call(restores::any(random, objects)));
    steps.push(Step::Lend(Lent { store: random.pick(&[32_770, 40_000]), ..lent }));
    for _ in 0..6 {
        steps.push(Step::Call(longer_or_shorter(random, objects)));
        steps.push(Step::Call(writes::save(random.pick(&[1, 1, 1, 2, 3]))));
        steps.push(Step::Call(longer_or_shorter(random, objects)));
        steps.push(Step::Call(restores::any(random, objects)));
    }
    steps.push(Step::Call(calls::any(random, objects)));
    History { first, steps }
}

fn longer_or_shorter(random: &mut Random, objects: &[Object]) -> Call {
    let object = &objects[random.below(objects.len())];
    let place = random.below(object.values.len());
    let value = &object.values[place];
    let length = value.word as usize;
    let length = random.pick(&[length + 1, length.saturating_sub(1)]);
    let data = random.bytes(if value.kind == UNSIGNED64 { 8 } else { length });
    writes::write(object.index as u16, place as u8 + 1, value.kind, &data)
}
