//! Calls and the answers that they must give, as the lines that
//! crates/tables/src/history.rt reads; its first comment is their format.

use crate::call::number_fill;
use crate::dictionary::model::checked::{NO_SENDER, TOO_FAR};
use crate::dictionary::model::edition::FIRST;
use crate::dictionary::model::explained;
use crate::dictionary::model::insertion::Insertion;
use crate::dictionary::model::layout::{self, Object, is_string};
use crate::dictionary::model::memory::{Lent, Memory};
use crate::dictionary::model::step::{Call, Cycle, Outcome, Received, Step, Write};
use crate::dictionary::model::world::World;
use crate::dictionary::shown::tally::Tally;
use crate::hex::hex;

/// What crates/memory lends whole: room for 8 objects, 300 values and 1,200 bytes.
pub const LENT: [usize; 4] = [108, 900, 300, 1200];

/// Bytes of the store beside it.
pub const STORE_BYTES: usize = 1000;

/// The longest table that is stored. It lies in two files of at most 48 KB each.
const LONGEST: usize = 96_000;

/// The most bytes of a name, of encodings or of a payload, and the most numbers or events, that are
/// taken from a line.
const MOST_BYTES_GIVEN: usize = 4096;
const MOST_NUMBERS_GIVEN: usize = 1024;

/// So many calls, then the sum over all that is lent.
const CALLS_A_SUM: usize = 4;

pub struct Lines {
    world: World,
    /// What of the store is not lent to the next call: its bytes behind the lent ones.
    behind: Vec<u8>,
    text: String,
    calls: usize,
    /// What the lines reach.
    pub tally: Tally,
}

impl Lines {
    /// Memory of zeros, on which nothing was called yet, and a store of so many.
    pub fn new(store: usize) -> Self {
        let [objects, slots, words] = [LENT[0], LENT[1], LENT[2]].map(|length| vec![0; length]);
        let memory =
            Memory { objects, slots, words, bytes: vec![0; LENT[3]], store: vec![0; store] };
        Self {
            world: World::on(memory),
            behind: Vec::new(),
            text: String::new(),
            calls: 0,
            tally: Tally::default(),
        }
    }

    pub fn memory(&self) -> &Memory {
        &self.world.memory
    }

    /// What lies in memory, which is one that is not Malformed.
    pub fn objects(&self) -> Vec<Object> {
        layout::read_off(self.memory())
    }

    /// Lends so many bytes of the store from now on; what lies behind them stays.
    pub fn lend(&mut self, store: usize) {
        let mut all = self.store();
        self.behind = all.split_off(store);
        let lengths = self.memory().lengths();
        self.world.change(&Step::Lend(Lent { at_start: false, lengths, store }));
        self.world.change(&Step::Store(all));
    }

    /// All of it.
    fn store(&self) -> Vec<u8> {
        [self.memory().store.as_slice(), &self.behind].concat()
    }

    pub fn call(&mut self, call: Call) {
        let wanted = self.world.call(&call);
        self.tally.count(call.name(), &wanted);
        let outcome = wanted.outcome;
        let Outcome { answer, .. } = outcome;
        let is_refused = answer != 0 && !matches!(answer, NO_SENDER..=TOO_FAR);
        // Of a write only a refusal has numbers.
        let found = match is_refused && !matches!(call, Call::Write(_)) {
            true => String::new(),
            false => found(&call, &outcome, self.memory()),
        };
        let given = given(&call, self.memory().store.len());
        self.line(&format!("{given} {answer:X}{found}"));
        // An explanation belongs to its check, and has no turn of its own: the file has little room.
        if !matches!(call, Call::Explain { .. }) {
            self.calls += 1;
            if self.calls.is_multiple_of(CALLS_A_SUM) {
                self.sum();
            }
        }
    }

    /// The check of a channel, and the explanation of the element that it names.
    pub fn check(&mut self, channel: u8) {
        self.call(Call::Check(channel));
        if let Some(element) = self.world.named.element() {
            self.call(Call::Explain { channel, element, room: MOST_NUMBERS_GIVEN });
        }
    }

    pub fn insert(&mut self, object: &Object) {
        self.call(Call::Insert(Insertion::of(object)));
    }

    pub fn read(&mut self, index: u16, sub_index: u8) {
        self.call(Call::Read { index, sub_index, numbers: 3 });
    }

    pub fn put(&mut self, slice: usize, at: usize, cell: u64) {
        self.world.change(&Step::Put { slice, at, cell });
        self.line(&format!("D {slice:X} {at:X} {cell:X}"));
    }

    pub fn finish(mut self) -> String {
        self.world.assert_equal();
        self.sum();
        assert!(self.text.len() < LONGEST, "{} bytes are too many", self.text.len());
        self.text
    }

    /// Ends a history: another begins, on the memory that this one leaves.
    pub fn begin(&mut self) {
        self.world.assert_equal();
        self.call(Call::New(FIRST));
    }

    fn sum(&mut self) {
        let sum = sum(self.memory(), &self.behind);
        let over = if self.store().is_empty() { "S" } else { "T" };
        self.line(&format!("{over} {sum:X}"));
    }

    fn line(&mut self, line: &str) {
        self.text += line;
        self.text.push('\n');
    }
}

/// Whether a line can say the call: it has 16 bits for a number of a value, no count of the numbers
/// that a read has room for, and a ready that is a truth value.
pub fn sayable(call: &Call) -> bool {
    match call {
        Call::Insert(given) => {
            given.numbers.len() <= MOST_NUMBERS_GIVEN
                && given.numbers.iter().all(|number| *number <= 0xFFFF)
                && given.name.len().max(given.encodings.len()) <= MOST_BYTES_GIVEN
        }
        Call::Read { numbers, .. } => *numbers == 3,
        Call::FindByName(name) => name.len() <= MOST_BYTES_GIVEN,
        Call::GetConfiguredCns(out) => *out <= 0xFF,
        Call::New(_) | Call::ReadNumber { .. } | Call::IncrementCounter { .. } => true,
        Call::Write(given) => given.data.len() <= MOST_BYTES_GIVEN,
        Call::ValidatePdoMapping { .. } | Call::RestorePowerOnValues { .. } => true,
        Call::ConsumePdoPayload(given) => {
            given.payload.len() <= MOST_BYTES_GIVEN
                && given.room <= MOST_NUMBERS_GIVEN
                && given.ready <= 1
        }
        Call::ConsumeCycle(given) => {
            given.data.len() <= MOST_BYTES_GIVEN
                && given.payloads.len().max(given.room) <= MOST_NUMBERS_GIVEN
        }
        Call::CheckAll(room) => *room <= MOST_NUMBERS_GIVEN,
        Call::Explain { room, .. } => *room == MOST_NUMBERS_GIVEN,
        Call::UpdatePdoErrorObject { .. } | Call::Check(_) => true,
    }
}

/// The call, with so many bytes of the store lent.
fn given(call: &Call, store: usize) -> String {
    assert!(sayable(call), "a line can say the call");
    match call {
        Call::New(FIRST) => "N".to_string(),
        Call::New(edition) => format!("E {edition:X}"),
        Call::Insert(given) => {
            let Insertion { index, shape, access, has_default, .. } = given;
            let pairs = given.numbers.iter().flat_map(|number| (*number as u16).to_be_bytes());
            let numbers = hex(&pairs.collect::<Vec<u8>>());
            let [name, encodings] = [&given.name, &given.encodings].map(|bytes| hex(bytes));
            format!("I {index:X} {shape:X} {access:X} {has_default:X} {name} {numbers} {encodings}")
        }
        Call::Read { index, sub_index, .. } => format!("R {index:X} {sub_index:X}"),
        Call::ReadNumber { width, index, sub_index } => {
            format!("U {:X} {index:X} {sub_index:X}", width.kind())
        }
        Call::FindByName(name) => format!("F {}", hex(name)),
        Call::GetConfiguredCns(out) => format!("C {out:X}"),
        Call::IncrementCounter { index, sub_index } => format!("P {index:X} {sub_index:X}"),
        Call::Write(Write { index, sub_index, kind, data }) => {
            format!("W {store:X} {index:X} {sub_index:X} {kind:X} {}", hex(data))
        }
        Call::ValidatePdoMapping { index, count } => format!("V {index:X} {count:X}"),
        Call::RestorePowerOnValues { first, last } => format!("O {store:X} {first:X} {last:X}"),
        Call::ConsumePdoPayload(Received { payload, sender, version, ready, room }) => {
            format!("A {room:X} {sender:X} {version:X} {ready:X} {}", hex(payload))
        }
        Call::ConsumeCycle(Cycle { data, payloads, room }) => {
            format!("Y {room:X} {} {:X}{}", hex(data), payloads.len(), listed(payloads))
        }
        Call::UpdatePdoErrorObject { index, node } => format!("B {index:X} {node:X}"),
        Call::Check(channel) => format!("K {channel:X}"),
        Call::CheckAll(room) => format!("L {room:X}"),
        Call::Explain { channel, element, .. } => format!("X {channel:X} {element:X}"),
    }
}

/// Numbers, each behind a space.
fn listed(numbers: &[u64]) -> String {
    numbers.iter().map(|number| format!(" {number:X}")).collect()
}

/// The numbers of a write that were set: those of data that is no value.
fn said(numbers: &[u64]) -> String {
    let set = numbers.iter().enumerate().filter(|(place, number)| **number != number_fill(*place));
    listed(&set.map(|(_, number)| *number).collect::<Vec<u64>>())
}

/// What a call answers besides.
fn found(call: &Call, outcome: &Outcome, memory: &Memory) -> String {
    let Outcome { numbers, out, events, .. } = outcome;
    match call {
        Call::New(_) | Call::Insert(_) | Call::IncrementCounter { .. } => String::new(),
        Call::Write(_) => said(numbers),
        Call::ValidatePdoMapping { .. } | Call::RestorePowerOnValues { .. } => String::new(),
        Call::UpdatePdoErrorObject { .. } => String::new(),
        Call::ConsumePdoPayload(_) | Call::CheckAll(_) => {
            format!(" {:X}{}", numbers[0], listed(&events[..numbers[0] as usize]))
        }
        Call::ConsumeCycle(_) => {
            let [consumed, count] = [numbers[0], numbers[1]];
            format!(" {consumed:X} {count:X}{}", listed(&events[..count as usize]))
        }
        Call::Explain { .. } => listed(&numbers[..explained::NUMBERS]),
        Call::Read { .. } => {
            let (kind, word, start) = (numbers[0], numbers[1], numbers[2] as usize);
            // World has held the string in memory against the Rust's.
            let length = if is_string(kind) { word as usize } else { 0 };
            format!(" {kind:X} {word:X} {}", hex(&memory.bytes[start..][..length]))
        }
        Call::ReadNumber { .. } | Call::FindByName(_) | Call::Check(_) => {
            format!(" {:X}", numbers[0])
        }
        Call::GetConfiguredCns(_) => format!(" {}", hex(&out[..numbers[0] as usize])),
    }
}

/// The sum of crates/tables/src/cells.rt, where bytes of the store that are not lent lie behind it.
fn sum(memory: &Memory, behind: &[u8]) -> u64 {
    const HALF: u64 = 1 << 32;
    let words = memory.objects.iter().chain(&memory.slots).chain(&memory.words).copied();
    let bytes = memory.bytes.iter().chain(&memory.store).chain(behind);
    let cells = words.chain(bytes.map(|byte| u64::from(*byte)));
    cells.fold(0, |sum, cell| sum % HALF * 65599 + cell % HALF + cell / HALF)
}
