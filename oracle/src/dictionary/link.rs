//! Histories as commands of dictionary.c, and its replies.

use crate::call::number_fill;
use crate::dictionary::model::edition::FIRST;
use crate::dictionary::model::insertion::Insertion;
use crate::dictionary::model::layout::{self, Object, Used};
use crate::dictionary::model::memory::{BYTES, Lent, Memory, SLICES, STORE};
use crate::dictionary::model::step::{Call, Cycle, History, Outcome, Received, Step, Width, Write};
use crate::port::{Batch, Port, whole_words};
use std::io::Result;

/// As in dictionary.c.
const BEGIN: u64 = 0;
const LEND: u64 = 1;
const PUT: u64 = 2;
const FETCH: u64 = 3;
const TIME: u64 = 4;
const NEW: u64 = 8;
const INSERT: u64 = 9;
const READ: u64 = 10;
const READ_U8: u64 = 11;
const FIND: u64 = 15;
const CNS: u64 = 16;
const COUNTER: u64 = 17;
const WRITE: u64 = 18;
const VALIDATE: u64 = 19;
const RESTORE: u64 = 20;
const CONSUME: u64 = 21;
const CYCLE: u64 = 22;
const ERROR_BIT: u64 = 23;
const CHECK: u64 = 24;
const CHECK_ALL: u64 = 25;
const EXPLAIN: u64 = 26;

/// Cells of one slice that a call changed, from the first one on.
#[derive(Clone)]
pub struct Change {
    pub slice: usize,
    pub first: usize,
    pub cells: Vec<u64>,
}

/// What the port gives for one call. `strays` is not 0 where memory was
/// touched that no call may touch: what it only reads, cells around what is lent.
#[derive(Clone)]
pub struct Given {
    pub outcome: Outcome,
    pub strays: u64,
    pub changes: Vec<Change>,
}

/// A history's commands; at its end all memory is asked for.
pub fn commands(history: &History) -> Vec<u64> {
    let mut words = lending(BEGIN, history.first);
    let mut lent = history.first;
    for step in history.steps.iter() {
        if !step.fits(&lent) {
            continue;
        }
        match step {
            Step::Lend(other) => {
                lent = *other;
                words.extend(lending(LEND, lent));
            }
            Step::Lay(objects) => words.extend(laying(objects)),
            Step::Put { slice, at, cell } => {
                words.extend([PUT, *slice as u64, *at as u64, 1, *cell]);
            }
            Step::Store(bytes) => {
                words.extend([PUT, STORE as u64, 0, bytes.len() as u64]);
                words.extend(whole_words(bytes.clone()));
            }
            Step::Call(call) => words.extend(calling(call)),
        }
    }
    words.push(FETCH);
    words
}

fn lending(command: u64, Lent { at_start, lengths, store }: Lent) -> Vec<u64> {
    let mut words = vec![command, at_start.into()];
    words.extend(lengths.map(|length| length as u64));
    words.push(store as u64);
    words
}

fn laying(objects: &[Object]) -> Vec<u64> {
    let mut memory = Memory::filled(Used::of(objects).lengths(), 0);
    layout::lay(FIRST, objects, &mut memory);
    let mut words = Vec::new();
    for (slice, cells) in memory.word_slices().into_iter().enumerate() {
        words.extend([PUT, slice as u64, 0, cells.len() as u64]);
        words.append(cells);
    }
    words.extend([PUT, BYTES as u64, 0, memory.bytes.len() as u64]);
    words.extend(whole_words(memory.bytes));
    words
}

/// A command's number, and the index and sub-index that it takes.
fn place(call: &Call) -> (u64, u64, u64) {
    let at = |command, index: &u16, sub: &u8| (command, u64::from(*index), u64::from(*sub));
    match call {
        Call::New(_) => (NEW, 0, 0),
        Call::Insert(given) => (INSERT, given.index.into(), 0),
        Call::Read { index, sub_index, .. } => at(READ, index, sub_index),
        Call::ReadNumber { width, index, sub_index } => {
            let width = match width {
                Width::U8 => 0,
                Width::U16 => 1,
                Width::U32 => 2,
                Width::U64 => 3,
            };
            at(READ_U8 + width, index, sub_index)
        }
        Call::FindByName(_) => (FIND, 0, 0),
        Call::GetConfiguredCns(_) => (CNS, 0, 0),
        Call::IncrementCounter { index, sub_index } => at(COUNTER, index, sub_index),
        Call::Write(given) => at(WRITE, &given.index, &given.sub_index),
        Call::ValidatePdoMapping { index, count } => at(VALIDATE, index, count),
        Call::RestorePowerOnValues { first, .. } => at(RESTORE, first, &0),
        Call::ConsumePdoPayload(given) => (CONSUME, 0, given.sender.into()),
        Call::ConsumeCycle(_) => (CYCLE, 0, 0),
        Call::UpdatePdoErrorObject { index, node } => at(ERROR_BIT, index, node),
        Call::Check(channel) => at(CHECK, &0, channel),
        Call::CheckAll(_) => (CHECK_ALL, 0, 0),
        Call::Explain { channel, .. } => at(EXPLAIN, &0, channel),
    }
}

fn calling(call: &Call) -> Vec<u64> {
    let given = match call {
        Call::New(edition) => Insertion { shape: *edition, ..Insertion::default() },
        Call::Insert(given) => given.clone(),
        Call::FindByName(name) => Insertion { name: name.clone(), ..Insertion::default() },
        Call::Write(Write { kind, data, .. }) => {
            Insertion { shape: *kind, encodings: data.clone(), ..Insertion::default() }
        }
        Call::RestorePowerOnValues { last, .. } => {
            Insertion { shape: u64::from(*last), ..Insertion::default() }
        }
        Call::Explain { element, .. } => {
            Insertion { shape: u64::from(*element), ..Insertion::default() }
        }
        Call::ConsumePdoPayload(Received { payload, version, ready, .. }) => Insertion {
            shape: u64::from(*version),
            access: *ready,
            encodings: payload.clone(),
            ..Insertion::default()
        },
        Call::ConsumeCycle(Cycle { data, payloads, .. }) => {
            Insertion { numbers: payloads.clone(), encodings: data.clone(), ..Insertion::default() }
        }
        _ => Insertion::default(),
    };
    let (command, index, sub_index) = place(call);
    let (numbers, out) = call.results();
    let Insertion { shape, access, has_default, ends, .. } = given;
    let mut words = vec![command, index, sub_index, shape, access, has_default];
    words.extend(ends);
    let lengths = [given.name.len(), given.numbers.len(), given.encodings.len(), numbers, out];
    words.extend(lengths.map(|length| length as u64));
    words.push(call.event_room() as u64);
    words.extend(whole_words(given.name));
    words.extend(given.numbers);
    words.extend(whole_words(given.encodings));
    words
}

pub fn given(port: &mut Port, call: &Call) -> Result<Given> {
    let (numbers, out) = call.results();
    let head = port.words(2)?;
    let numbers = port.words(numbers)?;
    let out = port.bytes(out)?;
    let events = events(port, call.event_room())?;
    let outcome = Outcome { answer: head[0], numbers, out, events };
    let mut changes = Vec::new();
    for slice in 0..SLICES.len() {
        let (first, count) = changed_range(port)?;
        let cells = cells(port, slice, count)?;
        if count > 0 {
            changes.push(Change { slice, first, cells });
        }
    }
    Ok(Given { outcome, strays: head[1], changes })
}

/// The whole event list: most of it is as it was lent, and is not sent.
fn events(port: &mut Port, room: usize) -> Result<Vec<u64>> {
    let mut events: Vec<u64> = (0..room).map(number_fill).collect();
    let (first, count) = changed_range(port)?;
    events[first..first + count].copy_from_slice(&port.words(count)?);
    Ok(events)
}

/// The first and the count of the cells that changed.
fn changed_range(port: &mut Port) -> Result<(usize, usize)> {
    let range = port.words(2)?;
    Ok((range[0] as usize, range[1] as usize))
}

fn cells(port: &mut Port, slice: usize, count: usize) -> Result<Vec<u64>> {
    match slice {
        BYTES | STORE => Ok(port.bytes(count)?.into_iter().map(u64::from).collect()),
        _ => port.words(count),
    }
}

/// All slices, as a history's last command asks for them.
pub fn fetched(port: &mut Port, Lent { lengths, store, .. }: Lent) -> Result<Memory> {
    Ok(Memory {
        objects: port.words(lengths[0])?,
        slots: port.words(lengths[1])?,
        words: port.words(lengths[2])?,
        bytes: port.bytes(lengths[BYTES])?,
        store: port.bytes(store)?,
    })
}

/// The answer of a call that is made several times after a history, and the
/// nanoseconds of all of them.
pub fn timed(
    port: &mut Port,
    history: &History,
    call: &Call,
    repeats: u64,
    writes: bool,
) -> Result<(u64, u64)> {
    let mut words = commands(history);
    words.extend([TIME, repeats, writes.into()]);
    words.extend(calling(call));
    port.send(Batch::Dictionary, &words)?;
    fetched(port, history.first)?;
    let times = port.words(2)?;
    Ok((times[0], times[1]))
}
