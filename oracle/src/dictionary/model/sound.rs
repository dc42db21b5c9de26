//! A dictionary that is not Malformed, as plain objects and as the Rust's, and what insertion,
//! reading and counting must give. Other files have its other calls.

use super::counted::read_notes;
use super::edition::{cut, in_use, is_counted};
use super::insertion::Insertion;
use super::layout::{self, LONGEST_NAME, Object, is_text};
use super::malformed;
use super::memory::Memory;
use super::range::Range;
use super::rust::{Found, Rust, TYPE_MISMATCH};
use super::step::Width;
use crate::original::{BAD_VALUE, BUFFER_TOO_SHORT};
use std::collections::BTreeSet;

const OCCUPIED: u64 = 16;
const FULL: u64 = 17;

/// Objects beyond which the model's own check after each change takes too long.
const FEW: usize = 40;

pub struct Dictionary {
    pub edition: u64,
    pub objects: Vec<Object>,
    pub rust: Rust,
    /// Indices and places of values whose types a restore changed.
    pub retyped: BTreeSet<(u64, usize)>,
}

/// A refusal's number, and which part of its rule gave it.
pub type Refused = (u64, Option<&'static str>);

/// What a call that is done writes into the memory lent for results. The answer is 0 but for a
/// check's faults and for a refusal that has numbers.
#[derive(Default)]
pub struct Done {
    pub answer: u64,
    pub numbers: Vec<u64>,
    pub out: Vec<u8>,
    pub events: Vec<u64>,
    pub cause: Option<&'static str>,
}

fn refused(number: u64) -> Refused {
    (number, None)
}

impl Done {
    fn number(number: u64) -> Self {
        Self { numbers: vec![number], ..Self::default() }
    }

    pub fn because(cause: &'static str) -> Self {
        Self { cause: Some(cause), ..Self::default() }
    }
}

impl Dictionary {
    /// The Rust has the same objects, cut to the elements that are in use.
    pub fn new(edition: u64, objects: Vec<Object>, rust: Rust) -> Self {
        Self { edition, objects, rust, retyped: BTreeSet::new() }
    }

    /// The Rust has no refusal here: it replaces an object, and has no bounds.
    /// So it is given just what document 01 lets in, each index once, and without its range.
    pub fn insert(
        &mut self,
        given: &Insertion,
        memory: &mut Memory,
        notes: &mut Vec<&'static str>,
    ) -> Result<Done, Refused> {
        let object = given.object().map_err(|rule| {
            notes.extend(self.besides_ends(given, memory));
            (BAD_VALUE, Some(rule))
        })?;
        let row = self.objects.partition_point(|other| other.index < object.index);
        if self.objects.get(row).is_some_and(|other| other.index == object.index) {
            return Err(refused(OCCUPIED));
        }
        if let Some(cause) = Insertion::full(&object, &self.objects, memory) {
            return Err((FULL, Some(cause)));
        }
        let place = match row {
            _ if self.objects.is_empty() => "the first object",
            0 => "before all others",
            row if row == self.objects.len() => "behind all others",
            _ => "between others",
        };
        self.rust.insert(&object);
        self.objects.insert(row, object);
        layout::lay(self.edition, &self.objects, memory);
        self.check(memory);
        Ok(Done::because(place))
    }

    /// What comes behind BadValue, where only the ends of the range are wrong and it holds too.
    fn besides_ends(&self, given: &Insertion, memory: &Memory) -> Option<&'static str> {
        let object = Insertion { ends: Range::NONE.ends(), ..given.clone() }.object().ok()?;
        if self.objects.iter().any(|other| other.index == object.index) {
            return Some("wrong ends where the index is taken");
        }
        Insertion::full(&object, &self.objects, memory).map(|_| "wrong ends where no room is left")
    }

    /// The two readings of the rules that this program has must agree.
    pub fn check(&self, memory: &Memory) {
        if self.objects.len() > FEW {
            return;
        }
        assert_eq!(malformed::judge(memory), Ok(()), "a laid dictionary is sound");
        assert!(layout::read_off(memory) == self.objects, "what was laid is read off again");
        assert_eq!(memory.edition(), self.edition, "no call but new changes the edition");
    }

    /// The type, the word and the string's bytes are the Rust's; where they lie is the layout's.
    pub fn read(
        &self,
        memory: &Memory,
        index: u16,
        sub_index: u8,
        numbers: usize,
        notes: &mut Vec<&'static str>,
    ) -> Result<Done, Refused> {
        let unused = self.read_unused(index, sub_index);
        let found = unused.map_or_else(|| self.rust.read(index, sub_index), Ok).map_err(refused)?;
        notes.extend(read_notes(self.edition, &self.objects, index, sub_index));
        if numbers < 3 {
            return Err(refused(BUFFER_TOO_SHORT));
        }
        let object = self.objects.iter().find(|object| object.index == index.into());
        let object = object.expect("the Rust has just these objects");
        let start = match (object.shape, sub_index) {
            (layout::VARIABLE, _) => layout::place_of(&self.objects, index, 0).1,
            // A count is no value, so it lies nowhere.
            (_, 0) => 0,
            (_, k) => layout::place_of(&self.objects, index, usize::from(k) - 1).1,
        };
        let bytes = &memory.bytes[start..][..found.bytes.len()];
        assert_eq!(bytes, found.bytes, "memory has the Rust's string at {index:X}/{sub_index}");
        let numbers = vec![found.kind, found.word, start as u64];
        Ok(Done { numbers, ..Done::default() })
    }

    pub fn read_number(
        &self,
        width: Width,
        index: u16,
        sub_index: u8,
        notes: &mut Vec<&'static str>,
    ) -> Result<Done, Refused> {
        let number = match self.read_unused(index, sub_index) {
            Some(found) if found.kind == width.kind() => Ok(found.word),
            Some(_) => Err(TYPE_MISMATCH),
            None => self.rust.read_number(width, index, sub_index),
        };
        let done = number.map(Done::number).map_err(refused)?;
        notes.extend(read_notes(self.edition, &self.objects, index, sub_index));
        Ok(done)
    }

    /// A name over 32 bytes is outside the domain, and one that is not UTF-8
    /// cannot be said to the Rust.
    pub fn find_by_name(&self, name: &[u8]) -> Result<Done, Refused> {
        if name.len() > LONGEST_NAME {
            return Err((BAD_VALUE, Some("name too long")));
        }
        if !is_text(name) {
            return Err((BAD_VALUE, Some("name not UTF-8")));
        }
        let name = std::str::from_utf8(name).expect("it was just tested");
        self.rust.find_by_name(name).map(Done::number).map_err(refused)
    }

    pub fn get_configured_cns(&self, out: usize) -> Result<Done, Refused> {
        let nodes = self.rust.get_configured_cns();
        if nodes.len() > out {
            return Err(refused(BUFFER_TOO_SHORT));
        }
        let cause = Some(if nodes.is_empty() { "no node" } else { "nodes" });
        Ok(Done { numbers: vec![nodes.len() as u64], out: nodes, cause, ..Done::default() })
    }

    /// What the Rust makes of the value is put where the layout has it.
    pub fn increment_counter(
        &mut self,
        memory: &mut Memory,
        index: u16,
        sub_index: u8,
        notes: &mut Vec<&'static str>,
    ) -> Done {
        if let Some(at) = self.unused(index, sub_index) {
            return self.count_unused(at, memory, notes);
        }
        let before = self.rust.read(index, sub_index);
        self.rust.increment_counter(index, sub_index);
        let after = self.rust.read(index, sub_index);
        if before == after {
            return Done::because("nothing");
        }
        let word = after.map_or_else(|_| unreachable!("it was there before"), |found| found.word);
        let element = usize::from(sub_index.saturating_sub(1));
        let (place, _) = layout::place_of(&self.objects, index, element);
        let object = self.objects.iter_mut().find(|object| object.index == index.into());
        object.expect("the Rust has just these objects").values[element].word = word;
        memory.words[place] = word;
        Done::because("counted")
    }

    /// Every value of the Rust's dictionary is the one that lies in memory.
    pub fn all_equal(&self) -> bool {
        self.objects.iter().all(|object| self.is_equal(object))
    }

    /// Of what is in use; a count that is kept is the Rust's too.
    pub fn is_equal(&self, object: &Object) -> bool {
        let index = object.index as u16;
        let first = if object.shape == layout::VARIABLE { 0 } else { 1 };
        let in_use = in_use(self.edition, object);
        let mut places = in_use.iter().zip(first..);
        let equal = places.all(|(value, sub_index)| {
            self.rust.read(index, sub_index).is_ok_and(|found| found == Found::of(value))
        });
        let count =
            || self.rust.read(index, 0).is_ok_and(|found| found.word == in_use.len() as u64);
        equal && (!is_counted(self.edition, object) || count())
    }

    /// Gives the Rust all objects anew, as they are.
    pub fn give_again(&mut self) {
        let Self { edition, objects, rust, .. } = self;
        objects.iter().for_each(|object| rust.insert(&cut(*edition, object)));
    }
}
