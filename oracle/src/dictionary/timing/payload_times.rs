//! Times consuming, by the port and by the Rust: a payload of eight numbers, and a cycle of such
//! payloads, with the channel first and last, alone and among records for all channels.

use super::bench::{self, Setting};
use super::times::{Table, count};
use crate::dictionary::model::consuming::LEAST_ROOM;
use crate::dictionary::model::layout::*;
use crate::dictionary::model::step::{Call, Cycle, Received};
use crate::port::Port;
use crate::random::Random;

const UNSIGNED8: u64 = 5;
const UNSIGNED32: u64 = 7;
const UNSIGNED64: u64 = 8;

const SENDER: u8 = 5;
const OTHER: u8 = 200;
const FIELDS: u64 = 8;
const TARGET: u64 = 0x6000;

/// Payloads of a cycle, and bytes of each.
const PAYLOADS: u64 = 32;
const LENGTH: u64 = 4 * FIELDS;

/// Numbers that are lent to a check of all channels, and to an explanation.
const CHECK_ALL: usize = 768;
const EXPLAIN: usize = 11;

pub fn round(port: &mut Port, random: &mut Random, table: &mut Table) {
    for objects in [20, 200, 1000] {
        for records in [1, 256] {
            for channel in [0, 255] {
                let setting = setting(objects, records, channel);
                rows(port, random, table, &setting, records, channel);
            }
        }
    }
}

/// The Rust has no check. Judging is the time of a call that does nothing else: a read of what is
/// not there.
fn rows(
    port: &mut Port,
    random: &mut Random,
    table: &mut Table,
    setting: &Setting,
    records: u64,
    channel: u64,
) {
    let objects = count(setting.objects.len());
    let dictionary =
        format!("{objects} objects, channel {channel}, records of channels: {records}");
    let consumed = [("a payload", payload(random)), ("a cycle of 32 payloads", cycle(random))];
    for (name, call) in consumed {
        let port_time = bench::port_time(port, setting, &call);
        let rust_time = bench::rust_time(setting, &call);
        table.row(dictionary.clone(), name, port_time, Some(rust_time));
    }
    let channel = channel as u8;
    let added = [
        ("check", Call::Check(channel)),
        ("check_all", Call::CheckAll(CHECK_ALL)),
        ("explain", Call::Explain { channel, element: 1, room: EXPLAIN }),
        ("judging alone", bench::missing()),
    ];
    for (name, call) in added {
        table.row(dictionary.clone(), name, bench::port_time(port, setting, &call), None);
    }
}

fn list(index: u64, values: Vec<Value>) -> Object {
    bare(index, LAST_SHAPE, values)
}

/// So many objects of four numbers each around the channel; records beyond the first come on top,
/// as far as a dictionary goes.
fn setting(objects: usize, records: u64, channel: u64) -> Setting {
    let number = |byte: u8| Value::new(UNSIGNED8, 0, &[byte]);
    let zero = || Value::new(UNSIGNED32, 0, &[0; 4]);
    let record = |at: u64| {
        let node = if at == channel { SENDER } else { OTHER };
        list(0x1400 + at, vec![number(node), number(0)])
    };
    let others = (0..256).filter(|at| *at == channel || records > 1);
    let mut all: Vec<Object> = others.map(record).collect();
    let words = (0..FIELDS).map(|k| TARGET | (k + 1) << 16 | 32 * k << 32 | 32 << 48);
    let words = words.map(|word| Value::new(UNSIGNED64, 0, &word.to_le_bytes())).collect();
    all.push(list(0x1600 + channel, words));
    let filling = (objects - 3).min(MOST_OBJECTS - all.len() - 1) as u64;
    all.extend(
        (0..filling).map(|row| list(0x2000 + 3 * row, vec![zero(), zero(), zero(), zero()])),
    );
    all.push(list(TARGET, (0..FIELDS).map(|_| zero()).collect()));
    Setting { objects: all, records: Vec::new() }
}

fn payload(random: &mut Random) -> Call {
    let payload = random.bytes(LENGTH as usize);
    Call::ConsumePdoPayload(Received {
        payload,
        sender: SENDER,
        version: 0,
        ready: 1,
        room: LEAST_ROOM,
    })
}

fn cycle(random: &mut Random) -> Call {
    let payloads = (0..PAYLOADS).flat_map(|k| [LENGTH * k, LENGTH, SENDER.into(), 0, 1]).collect();
    let data = random.bytes((LENGTH * PAYLOADS) as usize);
    Call::ConsumeCycle(Cycle { data, payloads, room: LEAST_ROOM })
}
