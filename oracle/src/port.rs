//! The port, behind a pipe to the program that port.c makes.

use crate::call::{BEHIND, Call, Outcome, SAID, number_fill};
use crate::original::{NUMBERS, VISIBLE_STRING};
use crate::sweep::Sweep;
use std::io::{BufReader, Read, Result, Write};
use std::process::{Child, ChildStdin, ChildStdout, Command, Stdio};

/// Words before a call's memory, and the most that one batch may have: as in port.c.
const HEADER: usize = 6 + SAID;
pub const LARGEST_BATCH: usize = 1 << 18;

/// The number of a sweep, behind those of the functions: as in port.c.
const DECODE_EACH: u64 = 5;

/// Starting the program takes long, so that one that is stopped so often is not
/// started for further calls.
pub const MOST_STOPS: usize = 100;

/// What a batch holds: as in port.c.
#[derive(Clone, Copy)]
pub enum Batch {
    Codec,
    Dictionary,
}

/// Stands behind lent input: a text cut inside a character must not be
/// completed by what follows it in memory.
const CONTINUATION: [u8; BEHIND] = [0x80; BEHIND];

/// The program ends when its input is closed.
pub struct Port {
    program: String,
    running: Child,
    calls: ChildStdin,
    answers: BufReader<ChildStdout>,
}

impl Port {
    pub fn start(program: &str) -> Result<Self> {
        let mut command = Command::new(program);
        let mut running = command.stdin(Stdio::piped()).stdout(Stdio::piped()).spawn()?;
        let calls = running.stdin.take().expect("its input is a pipe");
        let answers = running.stdout.take().expect("its output is a pipe");
        let answers = BufReader::with_capacity(1 << 16, answers);
        Ok(Self { program: program.to_string(), running, calls, answers })
    }

    /// After a call that stopped the program.
    pub fn restart(&mut self) -> Result<()> {
        let new = Self::start(&self.program)?;
        let mut old = std::mem::replace(self, new);
        drop((old.calls, old.answers));
        old.running.wait().map(drop)
    }

    /// Sends a batch. The program reads it wholly before it answers, so neither
    /// side waits for the other to read.
    pub fn send(&mut self, kind: Batch, batch: &[u64]) -> Result<()> {
        assert!(batch.len() <= LARGEST_BATCH, "the batch is too long for port.c");
        let head = (kind as u64) << 32 | batch.len() as u64;
        let words = std::iter::once(&head).chain(batch);
        let bytes: Vec<u8> = words.flat_map(|word| word.to_le_bytes()).collect();
        self.calls.write_all(&bytes)
    }

    pub fn words(&mut self, count: usize) -> Result<Vec<u64>> {
        let bytes = self.bytes(8 * count)?;
        Ok(bytes.as_chunks().0.iter().map(|word| u64::from_le_bytes(*word)).collect())
    }

    /// Bytes are filled up to whole words.
    pub fn bytes(&mut self, count: usize) -> Result<Vec<u8>> {
        let mut bytes = vec![0; count.next_multiple_of(8)];
        self.answers.read_exact(&mut bytes)?;
        bytes.truncate(count);
        Ok(bytes)
    }

    /// What the port leaves after each call; an error where one stopped the program.
    pub fn outcomes(&mut self, calls: &[Call]) -> Result<Vec<Outcome>> {
        let batch: Vec<u64> = calls.iter().flat_map(layout).collect();
        self.send(Batch::Codec, &batch)?;
        let mut words = self.words(batch.len())?.into_iter();
        Ok(calls.iter().map(|call| outcome(call, &mut words)).collect())
    }

    /// Begins the calls of sweeps; their sums are read in the same order.
    pub fn send_sweeps(&mut self, sweeps: &[Sweep]) -> Result<()> {
        let batch: Vec<u64> = sweeps.iter().flat_map(sweep_layout).collect();
        self.send(Batch::Codec, &batch)
    }

    /// The sum over what the calls of a sweep leave; none where one touched what it may not.
    pub fn swept(&mut self, sweep: &Sweep) -> Result<Option<u64>> {
        let words = self.words(sweep_layout(sweep).len())?;
        Ok((words[1] == 0).then_some(words[0]))
    }
}

fn layout(call: &Call) -> Vec<u64> {
    let head = [call.function as u64, call.kind, call.word];
    laid(head, call.room, call.lent().out, &call.input)
}

/// The set is given as the output.
fn sweep_layout(Sweep { start, set, count }: &Sweep) -> Vec<u64> {
    let set = [set.as_slice(), &[0; BEHIND]].concat();
    laid([DECODE_EACH, VISIBLE_STRING, *count as u64], NUMBERS, set, start)
}

/// The output has its cells behind what is lent, the rest gets them here.
fn laid(head: [u64; 3], room: usize, out: Vec<u8>, input: &[u8]) -> Vec<u64> {
    let mut words = head.to_vec();
    words.extend([input.len(), out.len() - BEHIND, room].map(|length| length as u64));
    words.extend((0..SAID).map(number_fill));
    words.extend((0..room + BEHIND).map(number_fill));
    words.extend(whole_words(out));
    words.extend(whole_words([input, &CONTINUATION].concat()));
    words
}

pub fn whole_words(mut bytes: Vec<u8>) -> Vec<u64> {
    bytes.resize(bytes.len().next_multiple_of(8), 0);
    bytes.as_chunks().0.iter().map(|word| u64::from_le_bytes(*word)).collect()
}

/// Reads one call of a batch that came back: the answer stands in the
/// function's place, and in the type's place what was touched wrongly.
fn outcome(call: &Call, words: &mut impl Iterator<Item = u64>) -> Outcome {
    let header: Vec<u64> = words.take(HEADER).collect();
    let said = std::array::from_fn(|place| header[HEADER - SAID + place]);
    let numbers = words.take(call.room + BEHIND).collect();
    let mut bytes = |length: usize| {
        let words = words.take((length + BEHIND).div_ceil(8));
        let mut bytes: Vec<u8> = words.flat_map(u64::to_le_bytes).collect();
        bytes.truncate(length + BEHIND);
        bytes
    };
    let out = bytes(call.out);
    bytes(call.input.len());
    Outcome { answer: header[0], touched: header[1] != 0, numbers, said, out }
}
