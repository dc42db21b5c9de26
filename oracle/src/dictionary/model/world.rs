//! What a history must give, call by call: the memory after it, and the answer
//! that the Rust has for it, or where the Rust has none, document 01.

use super::between::Between;
use super::edition::{FIRST, SECOND, cut};
use super::explained::Named;
use super::layout::{self, Object};
use super::malformed;
use super::memory::{Lent, Memory, ROW};
use super::ranged::{LEFT_OUTSIDE, Outside};
use super::rust::Rust;
use super::sound::{Dictionary, Done, Refused};
use super::step::{Call, Outcome, Step};
use crate::call::{byte_fill, number_fill};

const MALFORMED: u64 = 1;
const FULL: u64 = 17;

/// What the lent memory is known to be.
enum Known {
    /// It was changed without a call.
    Nothing,
    Malformed(&'static str),
    Sound(Box<Dictionary>),
}

pub struct World {
    pub memory: Memory,
    known: Known,
    pub named: Named,
    between: Between,
}

/// The wanted outcome, and which part of its rule gave it.
pub struct Wanted {
    pub outcome: Outcome,
    pub cause: Option<&'static str>,
    /// What else a restore or a payload came upon, for the tally.
    pub notes: Vec<&'static str>,
}

impl World {
    pub fn new(first: Lent) -> Self {
        Self::on(Memory::filled(first.lengths, first.store))
    }

    /// Memory with anything in it.
    pub fn on(memory: Memory) -> Self {
        let (named, between) = (Named::default(), Between::default());
        Self { memory, known: Known::Nothing, named, between }
    }

    /// What is done without a call.
    pub fn change(&mut self, step: &Step) {
        if !step.fits(&self.memory.lent()) {
            return;
        }
        match step {
            Step::Lend(lent) => self.memory.lend(lent.lengths, lent.store),
            Step::Lay(objects) => layout::lay(FIRST, objects, &mut self.memory),
            Step::Put { slice, at, cell } => self.memory.put(*slice, *at, *cell),
            Step::Store(bytes) => self.memory.store[..bytes.len()].copy_from_slice(bytes),
            Step::Call(_) => unreachable!("a call has an answer"),
        }
        self.known = Known::Nothing;
        self.named = Named::default();
        self.between = Between::default();
    }

    pub fn call(&mut self, call: &Call) -> Wanted {
        let (numbers, out) = call.results();
        let mut outcome = Outcome {
            answer: 0,
            numbers: (0..numbers).map(number_fill).collect(),
            out: (0..out).map(byte_fill).collect(),
            events: (0..call.event_room()).map(number_fill).collect(),
        };
        let mut notes = Vec::new();
        let outside = self.outside();
        let cause = match self.done(call, &mut notes) {
            Ok(done) => {
                outcome.answer = done.answer;
                outcome.numbers[..done.numbers.len()].copy_from_slice(&done.numbers);
                outcome.out[..done.out.len()].copy_from_slice(&done.out);
                outcome.events[..done.events.len()].copy_from_slice(&done.events);
                done.cause
            }
            Err((answer, cause)) => {
                outcome.answer = answer;
                cause
            }
        };
        if self.outside_besides(outside) {
            assert!(!matches!(call, Call::Write(_)), "no write puts a value outside its range");
            notes.push(LEFT_OUTSIDE);
        }
        self.named.follow(call, &outcome, &mut notes);
        self.between.follow(call, &outcome, &mut notes);
        Wanted { outcome, cause, notes }
    }

    fn done(&mut self, call: &Call, notes: &mut Vec<&'static str>) -> Result<Done, Refused> {
        if let Call::New(edition) = call {
            return self.make_new(*edition);
        }
        let Self { memory, known, .. } = self;
        let dictionary = judged(memory, known)?;
        match call {
            Call::New(_) => unreachable!("new judges no dictionary"),
            Call::Insert(given) => dictionary.insert(given, memory, notes),
            Call::Read { index, sub_index, numbers } => {
                dictionary.read(memory, *index, *sub_index, *numbers, notes)
            }
            Call::ReadNumber { width, index, sub_index } => {
                dictionary.read_number(*width, *index, *sub_index, notes)
            }
            Call::FindByName(name) => dictionary.find_by_name(name),
            Call::GetConfiguredCns(out) => dictionary.get_configured_cns(*out),
            Call::IncrementCounter { index, sub_index } => {
                Ok(dictionary.increment_counter(memory, *index, *sub_index, notes))
            }
            Call::Write(given) => dictionary.write(given, memory, notes),
            Call::ValidatePdoMapping { index, count } => {
                dictionary.validate_pdo_mapping(*index, *count)
            }
            Call::RestorePowerOnValues { first, last } => {
                dictionary.restore_power_on_values(*first..=*last, memory, notes)
            }
            Call::ConsumePdoPayload(given) => dictionary.consume_pdo_payload(given, memory, notes),
            Call::ConsumeCycle(given) => dictionary.consume_cycle(given, memory, notes),
            Call::UpdatePdoErrorObject { index, node } => {
                Ok(dictionary.update_pdo_error_object(*index, *node, memory))
            }
            Call::Check(channel) => Ok(dictionary.check_channel(*channel, notes)),
            Call::CheckAll(room) => dictionary.check_all(*room, notes),
            Call::Explain { channel, element, room } => {
                dictionary.explain(*channel, *element, *room, notes)
            }
        }
    }

    /// The Rust's `new` is given no edition and lends nothing, so its refusals are the rules' alone.
    fn make_new(&mut self, edition: u64) -> Result<Done, Refused> {
        let cause = match edition {
            FIRST => "edition 1",
            SECOND => "edition 2",
            _ => return Err((MALFORMED, Some("no such edition"))),
        };
        if self.memory.objects.len() < ROW {
            return Err((FULL, Some("objects lent")));
        }
        layout::lay(edition, &[], &mut self.memory);
        let rust = Rust::of(&[], has_store(&self.memory));
        self.known = Known::Sound(Box::new(Dictionary::new(edition, Vec::new(), rust)));
        Ok(Done::because(cause))
    }

    /// The values that lie outside their ranges; none where memory is not known to be a dictionary.
    fn outside(&self) -> Option<Vec<Outside>> {
        match &self.known {
            Known::Sound(dictionary) => Some(dictionary.outside()),
            _ => None,
        }
    }

    /// Whether one lies there that did not before.
    fn outside_besides(&self, before: Option<Vec<Outside>>) -> bool {
        let (Some(before), Some(now)) = (before, self.outside()) else { return false };
        now.iter().any(|value| !before.contains(value))
    }

    /// At a history's end: the model never parted from the Rust.
    pub fn assert_equal(&self) {
        if let Known::Sound(dictionary) = &self.known {
            assert!(dictionary.all_equal(), "the model has the Rust's values");
        }
    }
}

/// Memory that was changed without a call is judged, and where it is a
/// dictionary, the Rust is given the same objects, cut to what is in use.
fn judged<'a>(memory: &Memory, known: &'a mut Known) -> Result<&'a mut Dictionary, Refused> {
    if matches!(known, Known::Nothing) {
        *known = match malformed::judge(memory) {
            Err(rule) => Known::Malformed(rule),
            Ok(()) => {
                let (edition, objects) = (memory.edition(), layout::read_off(memory));
                let in_use: Vec<Object> =
                    objects.iter().map(|object| cut(edition, object)).collect();
                let rust = Rust::of(&in_use, has_store(memory));
                Known::Sound(Box::new(Dictionary::new(edition, objects, rust)))
            }
        };
    }
    match known {
        Known::Sound(dictionary) => Ok(dictionary),
        Known::Malformed(rule) => Err((MALFORMED, Some(rule))),
        Known::Nothing => unreachable!("it was just judged"),
    }
}

/// R10.4. Lending another length makes the Rust's dictionary anew, so it has a storage just then.
fn has_store(memory: &Memory) -> bool {
    memory.store.len() >= 2
}
