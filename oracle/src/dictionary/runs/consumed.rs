//! Histories of payloads, cycles and error bits, with all other calls between them.

use super::trial::Trial;
use crate::dictionary::generators::calls;
use crate::dictionary::generators::channels;
use crate::dictionary::generators::checks;
use crate::dictionary::generators::objects::{self, rising};
use crate::dictionary::generators::payloads::{self, Arrival};
use crate::dictionary::generators::restores;
use crate::dictionary::generators::spoil::spoil;
use crate::dictionary::generators::writes;
use crate::dictionary::model::consuming::{LEAST_ROOM, MOST_PAYLOADS};
use crate::dictionary::model::image;
use crate::dictionary::model::insertion::Insertion;
use crate::dictionary::model::layout::*;
use crate::dictionary::model::memory::Lent;
use crate::dictionary::model::step::{Call, Cycle, History, Received, Step};
use crate::dictionary::shown::tally::{Goal, Tally};
use crate::random::Random;
use crate::sorts::BAD_TEXTS;

const UNSIGNED8: u64 = 5;
const UNSIGNED64: u64 = 8;
const VISIBLE_STRING: u64 = 11;
const OCTET_STRING: u64 = 12;

/// Bytes of a store, for the saves and restores between payloads.
const STORE: usize = 60;

pub fn compare(trial: &mut Trial, random: &mut Random) {
    for _ in 0..26_000 {
        let objects = channels::dictionary(random, 6);
        let calls = (0..24).map(|_| any(random, &objects)).collect();
        trial.compare(history(random, objects, calls));
    }
    for _ in 0..4_000 {
        let objects = channels::dictionary(random, 5);
        let calls = (0..14).map(|_| any_cycle(random, &objects)).collect();
        trial.compare(history(random, objects, calls));
    }
    for _ in 0..200 {
        let objects = channels::dictionary(random, MOST_ELEMENTS);
        let calls = (0..12).map(|_| any(random, &objects)).collect();
        trial.compare(history(random, objects, calls));
    }
    for _ in 0..2_000 {
        trial.compare(let_in(random));
        trial.compare(retyped(random));
    }
    for _ in 0..12 {
        trial.compare(many_payloads(random));
        trial.compare(many_events(random));
        trial.compare(many_channels(random));
    }
    for object in error_objects(random) {
        trial.compare(every_node(object));
    }
    trial.compare(far_text(random));
    trial.demand(lacking);
}

const CONSUME: &str = "consume_pdo_payload";
const CYCLE: &str = "consume_cycle";

/// Of both calls together.
const LEAST_PAYLOADS: u64 = 1_000_000;

/// What a run did not reach of all that it must.
fn lacking(tally: &Tally) -> Vec<String> {
    let mut lacking = not_reached(tally);
    let payloads = tally.noted(CONSUME, "payloads") + tally.noted(CYCLE, "payloads");
    if payloads < LEAST_PAYLOADS {
        lacking.push(format!("{payloads} payloads are too few"));
    }
    lacking.extend(tally.missed(&[(CYCLE, 2, Some("too many payloads"))]));
    lacking.extend([CONSUME, CYCLE].map(|call| tally.not_noted(call, &BETWEEN)).concat());
    lacking
}

/// What of consuming was not reached; the stored histories are held against it too.
pub fn not_reached(tally: &Tally) -> Vec<String> {
    let texts = [CONSUME, CYCLE].map(|call| tally.not_noted(call, &BAD_TEXTS)).concat();
    [outcomes_not_reached(tally), texts].concat()
}

/// The same, but for the ways in which a text breaks.
pub fn outcomes_not_reached(tally: &Tally) -> Vec<String> {
    let notes = [CONSUME, CYCLE].map(|call| tally.not_noted(call, &NOTES)).concat();
    [notes, tally.missed(&ANSWERS)].concat()
}

const BIT: &str = "update_pdo_error_object";

const ANSWERS: [Goal; 16] = [
    (CONSUME, 1, None),
    (CONSUME, 14, None),
    (CONSUME, 15, None),
    (CYCLE, 0, Some("no payload")),
    (CYCLE, 0, Some("all payloads")),
    (CYCLE, 0, Some("ended for event room")),
    (CYCLE, 1, None),
    (CYCLE, 2, Some("numbers not by five")),
    (CYCLE, 2, Some("a payload ends past 64 bits")),
    (CYCLE, 2, Some("a payload not within the data")),
    (CYCLE, 2, Some("sender")),
    (CYCLE, 2, Some("version")),
    (CYCLE, 14, None),
    (BIT, 0, Some("a bit set")),
    (BIT, 0, Some("nothing")),
    (BIT, 1, None),
];

/// What payloads must come upon, in both calls: what happens before the first word, each outcome of
/// R11.5, and fields whose numbers are easily mistaken for others.
const NOTES: [&str; 22] = [
    "not ready",
    "no channel",
    "wrong version",
    "no list",
    "misaligned",
    "past the payload",
    "to the server",
    "to the client",
    "no target",
    "too few bytes",
    "too few bytes, with others behind them",
    "no byte for a list's count",
    "a bad text behind other bytes",
    "a place above 255",
    "odd",
    "a list's count",
    "a mapping's count",
    "over its room",
    "a number put",
    "a string put",
    "to the end",
    "a bit set",
];

/// What must happen between two of them.
const BETWEEN: [&str; 3] =
    ["after an insertion", "after a record of another type", "after a list of another type"];

pub fn history(random: &mut Random, objects: Vec<Object>, calls: Vec<Call>) -> History {
    let more = random.pick(&[0, 0, 0, 30]);
    let lengths = Used::of(&objects).lengths().map(|length| length + more);
    let mut lent = Lent { at_start: random.below(2) == 0, lengths, store: STORE };
    let first = lent;
    let mut steps = vec![Step::Lay(objects)];
    for call in calls {
        if random.below(40) == 0 {
            lent.at_start = !lent.at_start;
            steps.push(Step::Lend(lent));
        }
        steps.push(Step::Call(call));
    }
    History { first, steps }
}

/// A payload, most times.
fn any(random: &mut Random, objects: &[Object]) -> Call {
    match random.below(32) {
        0 => calls::any(random, objects),
        1 => writes::any(random, objects),
        2 if random.below(4) == 0 => restores::any(random, objects),
        3 => payloads::error_bit(random),
        4 => checks::any(random, objects),
        _ => payloads::any(random, objects),
    }
}

fn any_cycle(random: &mut Random, objects: &[Object]) -> Call {
    match random.below(16) {
        0 => any(random, objects),
        1 => payloads::cycle(random, objects, 2),
        _ => payloads::cycle(random, objects, 40),
    }
}

fn any_arrivals(random: &mut Random, objects: &[Object], most: usize) -> Vec<Step> {
    let calls = (0..1 + random.below(most)).map(|_| match random.below(4) {
        0 => any_cycle(random, objects),
        _ => any(random, objects),
    });
    calls.map(Step::Call).collect()
}

/// Some of the objects are let in between the payloads for all of them, in any order: a channel, its
/// list, a target or an error object comes to be. Others are refused, now and then the last one.
fn let_in(random: &mut Random) -> History {
    let objects = channels::dictionary(random, 5);
    let (mut later, first): (Vec<Object>, Vec<Object>) =
        objects.iter().cloned().partition(|_| random.below(3) == 0);
    (1..later.len()).for_each(|place| later.swap(place, random.below(place + 1)));
    let fitting = later.len().saturating_sub(usize::from(random.below(8) == 0));
    let lengths = Used::of(&[&first, &later[..fitting]].concat()).lengths();
    let mut steps = vec![Step::Lay(first)];
    for object in &later {
        steps.extend(any_arrivals(random, &objects, 3));
        let given = Insertion::of(object);
        if random.below(4) == 0 {
            let mut spoiled = given.clone();
            spoil(random, &mut spoiled);
            steps.push(Step::Call(Call::Insert(spoiled)));
        }
        let times = if random.below(8) == 0 { 2 } else { 1 };
        steps.extend(vec![Step::Call(Call::Insert(given)); times]);
    }
    steps.extend(any_arrivals(random, &objects, 6));
    History { first: Lent { at_start: random.below(2) == 0, lengths, store: STORE }, steps }
}

/// Restores from an image of other types, between payloads for the objects as they were.
fn retyped(random: &mut Random) -> History {
    let objects = channels::dictionary(random, 4);
    let image = image::of(&channels::retyping(random, &objects));
    let lengths = Used::of(&objects).lengths();
    let first = Lent { at_start: random.below(2) == 0, lengths, store: image.len() };
    let mut steps = vec![Step::Lay(objects.clone()), Step::Store(image)];
    let ranges = [(0x1400, 0x14FF), (0x1600, 0x16FF), (0x1400, 0x16FF), (0, 0xFFFF)];
    for _ in 0..3 {
        steps.extend(any_arrivals(random, &objects, 4));
        let (first, last) = random.pick(&ranges);
        steps.push(Step::Call(restores::range(first, last)));
    }
    steps.extend(any_arrivals(random, &objects, 6));
    History { first, steps }
}

/// As many payloads as a cycle may have, and one more; some of them end for event room.
fn many_payloads(random: &mut Random) -> History {
    let objects = channels::dictionary(random, 3);
    let short = |arrival: &Arrival| arrival.payload.len() < 40;
    let arrivals: Vec<Arrival> = std::iter::repeat_with(|| payloads::arrival(random, &objects))
        .filter(short)
        .take(MOST_PAYLOADS + 1)
        .collect();
    let rooms = [LEAST_ROOM + 100, LEAST_ROOM + 3000, LEAST_ROOM + 3000];
    let counts = [MOST_PAYLOADS, MOST_PAYLOADS, MOST_PAYLOADS + 1];
    let calls = rooms.into_iter().zip(counts).map(|(room, count)| {
        Call::ConsumeCycle(payloads::cycle_of(random, &arrivals[..count], room))
    });
    let calls = calls.collect();
    history(random, objects, calls)
}

/// A list whose every word gives an event: 254 a payload, in rooms for just so many payloads,
/// one number less and more.
fn many_events(random: &mut Random) -> History {
    let number = |byte: u8| Value::new(UNSIGNED8, 0, &[byte]);
    // To the client, and with the count of a list as target.
    let words: [u64; 2] = [0x0008_0000_0000_12FF, 0x0008_0000_0000_1400];
    let count = random.pick(&[253, MOST_ELEMENTS]);
    let values = (0..count).map(|_| Value::new(UNSIGNED64, 0, &random.pick(&words).to_le_bytes()));
    let objects = vec![list(0x1400, vec![number(5), number(0)]), list(0x1600, values.collect())];
    let mut calls = Vec::new();
    for payloads in 1..4 {
        for room in [-1, 0, 1, count as isize - 1, count as isize] {
            let room = (LEAST_ROOM + count * (payloads - 1)).wrapping_add_signed(room);
            let numbers = [0, 1, 5, 0, 1].repeat(payloads + 1);
            let data = random.bytes(1);
            calls.push(Call::ConsumeCycle(Cycle { data, payloads: numbers, room }));
        }
    }
    history(random, objects, calls)
}

/// A text that something breaks behind its first 256 bytes, for both calls.
pub fn far_text(random: &mut Random) -> History {
    const LENGTH: usize = 300;
    let number = |byte: u8| Value::new(UNSIGNED8, 0, &[byte]);
    let word = ((8 * LENGTH as u64) << 48) | 0x6000;
    let text = Value::new(VISIBLE_STRING, LENGTH, b"as it was");
    let objects = vec![
        list(0x1400, vec![number(5), number(0)]),
        list(0x1600, vec![Value::new(UNSIGNED64, 0, &word.to_le_bytes())]),
        Object { shape: VARIABLE, ..list(0x6000, vec![text]) },
    ];
    let mut broken = || {
        let mut payload = vec![b'a'; LENGTH];
        payload[256 + random.below(LENGTH - 256)] = 0xFF;
        payload
    };
    let (alone, in_cycle) = (broken(), broken());
    let arrival = Arrival { payload: in_cycle, sender: 5, version: 0, ready: 1 };
    let received = Received { payload: alone, sender: 5, version: 0, ready: 1, room: LEAST_ROOM };
    let cycle = payloads::cycle_of(random, &[arrival], LEAST_ROOM);
    let calls = vec![Call::ConsumePdoPayload(received), Call::ConsumeCycle(cycle)];
    history(random, objects, calls)
}

fn list(index: u64, values: Vec<Value>) -> Object {
    bare(index, ARRAY, values)
}

/// Records at all 256 channels, of which several have the same node, and the largest dictionary
/// around them.
pub fn all_channels(random: &mut Random) -> Vec<Object> {
    let number = |byte: u8| Value::new(UNSIGNED8, 0, &[byte]);
    let mut objects = channels::dictionary(random, 8);
    for channel in 0..256 {
        let node = if random.below(8) == 0 { random.word() as u8 } else { channel as u8 };
        objects.push(list(0x1400 + channel, vec![number(node), number(0)]));
        let word = channels::word(random, &objects, &mut 0).to_le_bytes();
        objects.push(list(0x1600 + channel, vec![Value::new(UNSIGNED64, 0, &word)]));
    }
    let mut objects = rising(objects);
    let filling = MOST_OBJECTS - objects.len();
    objects.extend((0..filling as u64).map(|row| list(0x7000 + row, vec![number(1)])));
    rising(objects)
}

fn many_channels(random: &mut Random) -> History {
    let objects = all_channels(random);
    let calls = (0..40).map(|_| any(random, &objects)).collect();
    history(random, objects, calls)
}

/// What may stand at an error object's index: of each length, each type and each kind.
fn error_objects(random: &mut Random) -> Vec<Object> {
    let variable = |value: Value| Object { shape: VARIABLE, ..list(0x1C81, vec![value]) };
    let bytes = |length: usize, room: usize| Value::new(OCTET_STRING, room, &vec![0; length]);
    let mut all: Vec<Object> = (0..34).map(|length| variable(bytes(length, 34))).collect();
    all.extend([bytes(32, 32), bytes(1490, 1490), bytes(0, 0)].map(variable));
    all.extend((0..=LAST_KIND).map(|kind| {
        variable(Value {
            room: vec![0x41; 34],
            ..Value::new(kind, 34, &objects::encoding(random, kind, 32))
        })
    }));
    all.push(list(0x1C81, vec![bytes(32, 32)]));
    all.push(Object { shape: LAST_SHAPE, ..list(0x1C81, vec![bytes(32, 32)]) });
    all.push(list(0x1C81, vec![]));
    all.push(Object { index: 0x1C80, ..variable(bytes(32, 32)) });
    all
}

/// Each node's bit, in the object and at an index beside it.
fn every_node(object: Object) -> History {
    let lengths = object.used().lengths();
    let mut steps = vec![Step::Lay(vec![object])];
    for node in 0..=u8::MAX {
        for index in [0x1C81, 0x1C82] {
            steps.push(Step::Call(Call::UpdatePdoErrorObject { index, node }));
        }
    }
    History { first: Lent { at_start: false, lengths, store: 0 }, steps }
}
