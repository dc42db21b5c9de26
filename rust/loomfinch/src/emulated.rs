//! The calls of the library for processors that it is not for: the functions of sys.rs, with each call made by a program
//! of the library's processor (worker/worker.c) that runs on an emulator and is reached through a pipe.

use crate::answer::Said;
use crate::entry::Description;
use crate::parts::Parts;
use std::io::{self, Read, Write};
use std::process::{Child, Command, Stdio};
use std::slice::from_mut;
use std::sync::{Mutex, PoisonError};

/// The functions; worker.c has the same numbers.
#[derive(Clone, Copy)]
enum Function {
    Decode,
    Encode,
    FromU64,
    ToU64,
    New,
    Insert,
    Read,
    ReadU8,
    ReadU16,
    ReadU32,
    ReadU64,
    FindByName,
    GetConfiguredCns,
    IncrementCounter,
    ValidatePdoMapping,
    Write,
    RestorePowerOnValues,
    ConsumePdoPayload,
    ConsumeCycle,
    UpdatePdoErrorObject,
    Check,
    CheckAll,
    Explain,
}

/// What a call is given; the changed ones come back as the call left them.
enum Given<'a> {
    Number(u64),
    Words(&'a [u64]),
    Bytes(&'a [u8]),
    ChangedWords(&'a mut [u64]),
    ChangedBytes(&'a mut [u8]),
}

use Given::{Bytes, ChangedBytes, ChangedWords, Number, Words};

impl Given<'_> {
    /// Adds the argument to a request: its form, its number or length, and what it holds, filled up to whole words.
    fn lay(&self, request: &mut Vec<u8>) {
        let (form, number) = match self {
            Number(number) => (0, *number),
            Words(words) => (1, words.len() as u64),
            Bytes(bytes) => (2, bytes.len() as u64),
            ChangedWords(words) => (3, words.len() as u64),
            ChangedBytes(bytes) => (4, bytes.len() as u64),
        };
        lay_words(&[form, number], request);
        match self {
            Number(_) => {}
            Words(words) => lay_words(words, request),
            Bytes(bytes) => request.extend_from_slice(bytes),
            ChangedWords(words) => lay_words(words, request),
            ChangedBytes(bytes) => request.extend_from_slice(bytes),
        }
        request.resize(padded(request.len()), 0);
    }

    /// Takes back what the call left.
    fn take_back(&mut self, reply: &mut impl Read) -> io::Result<()> {
        match self {
            ChangedWords(words) => {
                let mut bytes = vec![0; 8 * words.len()];
                reply.read_exact(&mut bytes)?;
                for (word, bytes) in words.iter_mut().zip(bytes.chunks_exact(8)) {
                    *word = u64::from_le_bytes(bytes.try_into().expect("eight bytes"));
                }
                Ok(())
            }
            ChangedBytes(bytes) => {
                reply.read_exact(bytes)?;
                let mut filling = [0; 8];
                reply.read_exact(&mut filling[..padded(bytes.len()) - bytes.len()])
            }
            Number(_) | Words(_) | Bytes(_) => Ok(()),
        }
    }
}

fn padded(len: usize) -> usize {
    (len + 7) / 8 * 8
}

fn lay_words(words: &[u64], request: &mut Vec<u8>) {
    request.extend(words.iter().flat_map(|word| word.to_le_bytes()));
}

/// The program, started by the first call and kept for the next ones.
static WORKER: Mutex<Option<Child>> = Mutex::new(None);

fn start() -> Child {
    let emulator = env!("LOOMFINCH_EMULATOR");
    Command::new(emulator)
        .arg(concat!(env!("LOOMFINCH_C_LIBRARY"), "/ld-linux-x86-64.so.2"))
        .args(["--library-path", env!("LOOMFINCH_C_LIBRARY"), env!("LOOMFINCH_WORKER")])
        .stdin(Stdio::piped())
        .stdout(Stdio::piped())
        .spawn()
        .unwrap_or_else(|error| {
            panic!("loomfinch: the emulator {emulator} does not start: {error}")
        })
}

/// Sends a request and takes back the answer and what the call left.
fn exchange(worker: &mut Child, request: &[u8], given: &mut [Given<'_>]) -> io::Result<u64> {
    let to = worker.stdin.as_mut().expect("its pipe");
    to.write_all(&(request.len() as u64 / 8).to_le_bytes())?;
    to.write_all(request)?;
    to.flush()?;
    let from = worker.stdout.as_mut().expect("its pipe");
    let mut answer = [0; 8];
    from.read_exact(&mut answer)?;
    given.iter_mut().try_for_each(|given| given.take_back(from))?;
    Ok(u64::from_le_bytes(answer))
}

fn call(function: Function, given: &mut [Given<'_>]) -> u64 {
    let mut request = Vec::new();
    lay_words(&[function as u64], &mut request);
    given.iter().for_each(|given| given.lay(&mut request));
    let mut place = WORKER.lock().unwrap_or_else(PoisonError::into_inner);
    // Taken out, so that a program that failed is not called again.
    let mut worker = place.take().unwrap_or_else(start);
    match exchange(&mut worker, &request, given) {
        Ok(answer) => {
            *place = Some(worker);
            answer
        }
        Err(error) => {
            // It has ended, or what it says is of no use; either way its status is the better reason.
            let status = worker.kill().and_then(|()| worker.wait());
            panic!("loomfinch: {} has failed: {error}, {status:?}", env!("LOOMFINCH_WORKER"))
        }
    }
}

/// A call that leaves the dictionary as it is.
fn ask<const N: usize>(function: Function, parts: &Parts, given: [Given<'_>; N]) -> u64 {
    let mut all =
        vec![Words(&parts.objects), Words(&parts.slots), Words(&parts.words), Bytes(&parts.bytes)];
    all.extend(given);
    call(function, &mut all)
}

/// A call that may change the dictionary.
fn change<const N: usize>(function: Function, parts: &mut Parts, given: [Given<'_>; N]) -> u64 {
    let mut all = vec![
        ChangedWords(&mut parts.objects),
        ChangedWords(&mut parts.slots),
        ChangedWords(&mut parts.words),
        ChangedBytes(&mut parts.bytes),
    ];
    all.extend(given);
    call(function, &mut all)
}

/// An index and a sub-index.
fn place<'a>(index: u16, sub_index: u8) -> [Given<'a>; 2] {
    [Number(index.into()), Number(sub_index.into())]
}

/// The place and the count that an answer may have beside its number.
fn lent(said: &mut Said) -> [Given<'_>; 2] {
    [ChangedWords(from_mut(&mut said.place)), ChangedWords(from_mut(&mut said.had))]
}

pub fn decode(type_number: u64, data: &[u8], numbers: &mut [u64], said: &mut Said) -> u64 {
    let [place, had] = lent(said);
    let numbers = ChangedWords(numbers);
    call(Function::Decode, &mut [Number(type_number), Bytes(data), numbers, place, had])
}

pub fn encode(type_number: u64, word: u64, part: &[u8], out: &mut [u8], written: &mut u64) -> u64 {
    let written = ChangedWords(from_mut(written));
    let out = ChangedBytes(out);
    call(Function::Encode, &mut [Number(type_number), Number(word), Bytes(part), out, written])
}

pub fn from_u64(word: u64, numbers: &mut [u64]) -> u64 {
    call(Function::FromU64, &mut [Number(word), ChangedWords(numbers)])
}

pub fn to_u64(index: u16, sub_index: u8, offset_bits: u16, length_bits: u16) -> u64 {
    let [index, sub_index] = place(index, sub_index);
    let (offset, length) = (Number(offset_bits.into()), Number(length_bits.into()));
    call(Function::ToU64, &mut [index, sub_index, offset, length])
}

pub fn new(objects: &mut [u64], edition: u64) -> u64 {
    call(Function::New, &mut [ChangedWords(objects), Number(edition)])
}

pub fn insert(parts: &mut Parts, index: u16, name: &[u8], given: &Description) -> u64 {
    let index = Number(index.into());
    let (kind, access) = (Number(given.kind), Number(given.access));
    let has_default = Number(given.has_default);
    let [low_type, low, high_type, high] = given.range.map(Number);
    let (name, values, encodings) = (Bytes(name), Words(&given.values), Bytes(&given.encodings));
    let given =
        [index, kind, access, has_default, low_type, low, high_type, high, name, values, encodings];
    change(Function::Insert, parts, given)
}

pub fn read(parts: &Parts, index: u16, sub_index: u8, numbers: &mut [u64]) -> u64 {
    let [index, sub_index] = place(index, sub_index);
    ask(Function::Read, parts, [index, sub_index, ChangedWords(numbers)])
}

fn read_number(function: Function, parts: &Parts, place: [Given<'_>; 2], number: &mut u64) -> u64 {
    let [index, sub_index] = place;
    ask(function, parts, [index, sub_index, ChangedWords(from_mut(number))])
}

pub fn read_u8(parts: &Parts, index: u16, sub_index: u8, number: &mut u64) -> u64 {
    read_number(Function::ReadU8, parts, place(index, sub_index), number)
}

pub fn read_u16(parts: &Parts, index: u16, sub_index: u8, number: &mut u64) -> u64 {
    read_number(Function::ReadU16, parts, place(index, sub_index), number)
}

pub fn read_u32(parts: &Parts, index: u16, sub_index: u8, number: &mut u64) -> u64 {
    read_number(Function::ReadU32, parts, place(index, sub_index), number)
}

pub fn read_u64(parts: &Parts, index: u16, sub_index: u8, number: &mut u64) -> u64 {
    read_number(Function::ReadU64, parts, place(index, sub_index), number)
}

pub fn find_by_name(parts: &Parts, name: &[u8], index: &mut u64) -> u64 {
    ask(Function::FindByName, parts, [Bytes(name), ChangedWords(from_mut(index))])
}

pub fn get_configured_cns(parts: &Parts, out: &mut [u8], count: &mut u64) -> u64 {
    let given = [ChangedBytes(out), ChangedWords(from_mut(count))];
    ask(Function::GetConfiguredCns, parts, given)
}

pub fn increment_counter(parts: &mut Parts, index: u16, sub_index: u8) -> u64 {
    change(Function::IncrementCounter, parts, place(index, sub_index))
}

pub fn validate_pdo_mapping(parts: &Parts, index: u16, count: u8) -> u64 {
    ask(Function::ValidatePdoMapping, parts, place(index, count))
}

pub fn write(
    parts: &mut Parts,
    store: &mut [u8],
    index: u16,
    sub_index: u8,
    type_number: u64,
    data: &[u8],
    said: &mut Said,
) -> u64 {
    let ([index, sub_index], [place, had]) = (place(index, sub_index), lent(said));
    let (store, type_number) = (ChangedBytes(store), Number(type_number));
    let given = [store, index, sub_index, type_number, Bytes(data), place, had];
    change(Function::Write, parts, given)
}

pub fn restore_power_on_values(parts: &mut Parts, store: &[u8], first: u16, last: u16) -> u64 {
    let given = [Bytes(store), Number(first.into()), Number(last.into())];
    change(Function::RestorePowerOnValues, parts, given)
}

pub fn consume_pdo_payload(
    parts: &mut Parts,
    payload: &[u8],
    sender: u8,
    version: u8,
    ready: bool,
    events: &mut [u64],
    count: &mut u64,
) -> u64 {
    let (sender, version) = (Number(sender.into()), Number(version.into()));
    let (ready, count) = (Number(ready.into()), ChangedWords(from_mut(count)));
    let given = [Bytes(payload), sender, version, ready, ChangedWords(events), count];
    change(Function::ConsumePdoPayload, parts, given)
}

pub fn consume_cycle(
    parts: &mut Parts,
    delivered: &[u8],
    payloads: &[u64],
    events: &mut [u64],
    consumed: &mut u64,
    count: &mut u64,
) -> u64 {
    let (consumed, count) = (ChangedWords(from_mut(consumed)), ChangedWords(from_mut(count)));
    let given = [Bytes(delivered), Words(payloads), ChangedWords(events), consumed, count];
    change(Function::ConsumeCycle, parts, given)
}

pub fn update_pdo_error_object(parts: &mut Parts, index: u16, node: u8) -> u64 {
    change(Function::UpdatePdoErrorObject, parts, place(index, node))
}

pub fn check(parts: &Parts, channel: u8, element: &mut u64) -> u64 {
    ask(Function::Check, parts, [Number(channel.into()), ChangedWords(from_mut(element))])
}

pub fn check_all(parts: &Parts, numbers: &mut [u64], count: &mut u64) -> u64 {
    ask(Function::CheckAll, parts, [ChangedWords(numbers), ChangedWords(from_mut(count))])
}

pub fn explain(parts: &Parts, channel: u8, element: u8, numbers: &mut [u64]) -> u64 {
    let (channel, element) = (Number(channel.into()), Number(element.into()));
    ask(Function::Explain, parts, [channel, element, ChangedWords(numbers)])
}

#[cfg(test)]
mod tests {
    use super::*;
    use std::panic::catch_unwind;

    #[test]
    fn a_program_that_failed_is_told_and_started_anew() {
        assert_eq!(to_u64(0x6200, 3, 16, 32), 0x0020_0010_0003_6200);
        WORKER.lock().unwrap().as_mut().expect("the call has started it").kill().unwrap();
        let told = catch_unwind(|| to_u64(0, 0, 0, 0)).unwrap_err();
        let told = told.downcast::<String>().expect("a message");
        assert!(told.contains("worker.x86_64 has failed"), "{told}");
        assert_eq!(to_u64(0x6200, 3, 16, 32), 0x0020_0010_0003_6200);
    }
}
