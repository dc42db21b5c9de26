//! Times calls of the port and of the Rust on the same dictionaries.

mod judging;

use super::payload_times;
use super::times::{Table, count};
use crate::dictionary::generators::objects::using;
use crate::dictionary::generators::restores;
use crate::dictionary::generators::writes;
use crate::dictionary::link;
use crate::dictionary::model::consuming::A_PAYLOAD;
use crate::dictionary::model::image::{self, Record};
use crate::dictionary::model::insertion::Insertion;
use crate::dictionary::model::layout::{Object, Used};
use crate::dictionary::model::memory::{Lent, ROW, SLOT};
use crate::dictionary::model::rust::Rust;
use crate::dictionary::model::step::{Call, Cycle, History, Received, Step, Write};
use crate::dictionary::runs::rooms;
use crate::original;
use crate::port::Port;
use crate::random::Random;
use judging::Judging;
use std::hint::black_box;
use std::time::Instant;

/// Nanoseconds that all repeats of one call should take about.
const LONG_ENOUGH: f64 = 2e7;

/// So often all calls are timed, one after another: other work slows the machine for seconds on end.
const ROUNDS: usize = 20;

/// Indices that no dictionary of `using` has, and one that each has.
const MISSING: u16 = 0x0FFF;
const BETWEEN: u16 = 0x1001 + 3 * 8;
const PRESENT: u16 = 0x1000 + 3 * 9;

const UNSIGNED32: u64 = 7;
const READ_WRITE_STORE: u64 = 4;

/// The longest image.
const STORE: usize = 32_770;

/// A dictionary, and the table that its store has the image of.
pub struct Setting {
    pub objects: Vec<Object>,
    pub records: Vec<Record>,
}

/// The most of each that a dictionary has.
const LARGEST: Used = Used { objects: 1024, values: 6144, bytes: 32_768 };

pub fn print(port: &mut Port, random: &Random) {
    let mut table = Table::default();
    let mut judging = Judging::default();
    for _ in 0..ROUNDS {
        // The same dictionaries in each.
        let mut random = random.clone();
        round(port, &mut random, &mut table);
        judging.round(port, &mut random);
    }
    table.print();
    println!();
    judging.print();
}

fn round(port: &mut Port, random: &mut Random, table: &mut Table) {
    for objects in [20, 200, 1000] {
        let used = Used { objects, values: 4 * objects, bytes: 20 * objects };
        let setting = saved(random, used, 3);
        row(port, table, &setting, "insert", &insertion(&setting.objects));
        rows(port, table, &setting);
    }
    // A fourth is saved: a third would be over 2,048 records.
    rows(port, table, &saved(random, LARGEST, 4));
    for records in [0, 512, 1024, 2048] {
        let setting = evenly_saved(random, records);
        let name = format!("restore_power_on_values, {} records", count(records));
        row(port, table, &setting, &name, &restores::everything());
    }
    payload_times::round(port, random, table);
}

fn rows(port: &mut Port, table: &mut Table, setting: &Setting) {
    for (name, call) in calls() {
        row(port, table, setting, name, &call);
    }
}

fn row(port: &mut Port, table: &mut Table, setting: &Setting, name: &str, call: &Call) {
    let port_time = port_time(port, setting, call);
    let rust_time = rust_time(setting, call);
    let Used { objects, values, bytes } = Used::of(&setting.objects);
    let [objects, values, bytes] = [objects, values, bytes].map(count);
    let dictionary = format!("{objects} objects, {values} values, {bytes} bytes");
    table.row(dictionary, name, port_time, Some(rust_time));
}

/// Every so manyth object is saved.
fn saved(random: &mut Random, used: Used, every: usize) -> Setting {
    let mut objects = using(random, used);
    objects.iter_mut().step_by(every).for_each(|object| object.access = READ_WRITE_STORE);
    let saved = objects.iter().filter(|object| object.access == READ_WRITE_STORE);
    let records = rooms::table(&saved.cloned().collect::<Vec<Object>>());
    Setting { objects, records }
}

/// The most values, and so many records, which lie evenly among them.
fn evenly_saved(random: &mut Random, records: usize) -> Setting {
    let objects = using(random, Used { objects: 1000, values: 6144, bytes: 0 });
    let all = rooms::table(&objects);
    let records = (0..records).map(|k| all[k * all.len() / records].clone()).collect();
    Setting { objects, records }
}

fn insertion(dictionary: &[Object]) -> Call {
    let mut inserted = dictionary[9].clone();
    inserted.index = BETWEEN.into();
    Call::Insert(Insertion::of(&inserted))
}

fn calls() -> [(&'static str, Call); 7] {
    let sub_index = 1;
    [
        ("read", Call::Read { index: PRESENT, sub_index, numbers: 3 }),
        ("read, no such object", missing()),
        ("find_by_name, no such name", Call::FindByName(b"no such name".to_vec())),
        ("increment_counter", Call::IncrementCounter { index: PRESENT, sub_index }),
        ("write", writes::write(PRESENT, sub_index, UNSIGNED32, &[1, 2, 3, 4])),
        ("write, a save of everything", writes::save(1)),
        ("restore_power_on_values", restores::everything()),
    ]
}

/// How often a call can be repeated that takes so long.
fn repeats(time: f64) -> f64 {
    (LONG_ENOUGH / time.max(1.0)).clamp(3.0, 200_000.0)
}

/// Nanoseconds a call: first a few, to see how often it can be repeated.
pub fn port_time(port: &mut Port, setting: &Setting, call: &Call) -> f64 {
    let few = port_repeats(port, setting, call, 3);
    let repeats = repeats(few) as u64;
    port_repeats(port, setting, call, repeats)
}

fn port_repeats(port: &mut Port, setting: &Setting, call: &Call, repeats: u64) -> f64 {
    let timed = link::timed(port, &history(setting), call, repeats, call.writes());
    let (answer, time) = timed.expect("it answers");
    let wanted = if matches!(call, Call::FindByName(_)) || *call == missing() { 3 } else { 0 };
    assert_eq!(answer, wanted, "a timed call is answered as it must be");
    time as f64 / repeats as f64
}

/// What lays the dictionary and its store.
fn history(setting: &Setting) -> History {
    let mut lengths = Used::of(&setting.objects).lengths();
    // Room for the object that is inserted.
    let room = [ROW, 100 * SLOT, 100, 2000];
    lengths.iter_mut().zip(room).for_each(|(length, room)| *length += room);
    let first = Lent { at_start: false, lengths, store: STORE };
    let image = image::of(&setting.records);
    History { first, steps: vec![Step::Lay(setting.objects.clone()), Step::Store(image)] }
}

/// A call that does little else than judge: a read of what is not there.
pub fn missing() -> Call {
    Call::Read { index: MISSING, sub_index: 1, numbers: 3 }
}

/// The same for the Rust, whose storage copies each table that it takes or gives.
pub fn rust_time(setting: &Setting, call: &Call) -> f64 {
    if let Call::Insert(given) = call {
        return rust_insert_time(&setting.objects, given);
    }
    let mut rust = Rust::of(&setting.objects, true);
    rust.keep(Some(&setting.records));
    let mut time = |repeats: usize| {
        let start = Instant::now();
        for _ in 0..repeats {
            make(&mut rust, black_box(call));
        }
        start.elapsed().as_nanos() as f64 / repeats as f64
    };
    let few = time(3);
    time(repeats(few) as usize)
}

/// An insertion has a fresh dictionary each time; what makes it, and the entry, is not timed.
fn rust_insert_time(dictionary: &[Object], given: &Insertion) -> f64 {
    let object = given.object().expect("it is a right one");
    let repeats = 100;
    let time: u128 = (0..repeats)
        .map(|_| {
            let mut rust = Rust::of(dictionary, false);
            let entry = Rust::entry(&object);
            let start = Instant::now();
            rust.insert_entry(black_box(BETWEEN), entry);
            let time = start.elapsed().as_nanos();
            black_box(rust);
            time
        })
        .sum();
    time as f64 / f64::from(repeats)
}

fn make(rust: &mut Rust, call: &Call) {
    match call {
        Call::Read { index, sub_index, .. } => drop(black_box(rust.peek(*index, *sub_index))),
        Call::FindByName(name) => {
            let name = std::str::from_utf8(name).expect("it is a text");
            let _ = black_box(rust.find_by_name(name));
        }
        Call::IncrementCounter { index, sub_index } => rust.increment_counter(*index, *sub_index),
        Call::Write(Write { index, sub_index, kind, data }) => {
            let value = original::decode(*kind, data).expect("it is a right one");
            rust.poke(*index, *sub_index, value);
        }
        Call::RestorePowerOnValues { first, last } => rust.restore_power_on_values(*first, *last),
        Call::ConsumePdoPayload(Received { payload, sender, version, .. }) => {
            rust.receive(*sender, payload, *version, true);
        }
        Call::ConsumeCycle(Cycle { data, payloads, .. }) => {
            for payload in payloads.chunks(A_PAYLOAD) {
                let bytes = &data[payload[0] as usize..][..payload[1] as usize];
                rust.receive(payload[2] as u8, bytes, payload[3] as u8, true);
            }
        }
        _ => unreachable!("it is not timed"),
    }
}
