//! A console's object dictionary and its consumption of received POWERLINK process data, over the proved library.
//!
//! A mapping that puts a four-byte move time onto a two-byte object keeps two of the bytes, and nothing is reported. The
//! check says so before the rehearsal:
//!
//! ```
//! use loomfinch::{
//!     Capacity, Checked, Dictionary, Fault, NodeId, Object, ObjectEntry, ObjectValue, PDOVersion, PdoMappingEntry,
//! };
//!
//! let mut rig = Dictionary::new(Capacity::MOST);
//! // Channel 0 takes the payloads of node 5, with mapping version 1.0 ..
//! let sender = [5, 0x10].map(ObjectValue::Unsigned8);
//! rig.insert(0x1400, ObjectEntry::new(Object::Record(sender.into())))?;
//! // .. and puts their first 32 bits onto the move time, which has 16.
//! let time = PdoMappingEntry { index: 0x6000, sub_index: 0, offset_bits: 0, length_bits: 32 };
//! let mapping = vec![ObjectValue::Unsigned64(time.to_u64())];
//! rig.insert(0x1600, ObjectEntry::new(Object::Array(mapping)))?;
//! rig.insert(0x6000, ObjectEntry::new(Object::Variable(ObjectValue::Unsigned16(0))))?;
//!
//! let checked = rig.check(0)?;
//! assert_eq!(checked, Checked::Element { element: 1, fault: Fault::WrongLength });
//!
//! let payload = 90_000_u32.to_le_bytes();
//! let events = rig.consume_pdo_payload(NodeId(5), &payload, PDOVersion(0x10), true)?;
//! assert_eq!(events.len(), 0);
//! assert_eq!(rig.read_u16(0x6000, 0)?, 24_464);
//! # Ok::<(), loomfinch::Refusal>(())
//! ```
//!
//! # Answers
//!
//! A call that does nothing says why by a [`Refusal`], the `Err` of its `Result`; one that judges a text or a length says where
//! as well, by [`Refused`]. What the check says of a channel, [`Checked`], a fault too, is an answer, and so is an [`Event`] of a
//! payload that was consumed.
//!
//! What calls answer will grow: a `match` on an enum of answers has a last arm for what is to come, and [`Refused`],
//! [`ObjectInfo`] and [`Explanation`] are taken apart with `..`. An [`ObjectEntry`] is made by [`new`](ObjectEntry::new) and its
//! `with_` methods. Values, their types and accesses are those of DS 301, and are all there.
//!
//! ```
//! use loomfinch::{Cause, Event};
//!
//! fn mends(event: Event) -> &'static str {
//!     match event {
//!         Event::PayloadShort(Cause::Text { .. }) => "the translator",
//!         Event::MapVersion | Event::PayloadShort(_) => "whoever set up the drive",
//!         _ => "whoever wrote the mapping",
//!     }
//! }
//! assert_eq!(mends(Event::PayloadShort(Cause::Text { at: 8 })), "the translator");
//! ```
//!
//! Each call does what the library's call of its name does, to the numbers: docs/RULES.md has the rules, and
//! include/loomfinch.h the calls for C. docs/MOVING.md shows how code for powerlink-rs changes.
//!
//! # Editions
//!
//! [`Dictionary::new`] follows the mapping rules as powerlink-rs has them. New drives expect the count of a mapping to be kept: a
//! console that speaks to them makes its dictionary by [`Dictionary::with_edition`], of [`Edition::Two`].
//!
//! # What is proved, and what is not
//!
//! The library's functions are proved to be safe, to end and to do what their definitions say. This crate is not proved: it
//! turns values, objects and answers into the library's numbers and back, and is tested.
//!
//! # Processors
//!
//! The library is code for x86-64, and there it is linked. On any other processor its calls are made by a program for x86-64
//! on the emulator of the Rattle kit, which is slow and meant for developing on such a machine, not for a console. If that
//! program fails, the call panics.
//!
//! The library is looked for in the folder that the environment variable `LOOMFINCH_LIB` names by an absolute path, else in
//! the repository's target/staticlib, where `./library` makes it.

// sys.rs alone has unsafe code, and stands in the crate on x86-64 alone.
#![cfg_attr(target_arch = "x86_64", deny(unsafe_code))]
#![cfg_attr(not(target_arch = "x86_64"), forbid(unsafe_code))]
#![deny(missing_docs)]

mod answer;
mod check;
mod codec;
mod convert;
mod dictionary;
mod edition;
mod entry;
mod event;
mod explain;
mod layout;
mod mapping;
mod parts;
mod refusal;
mod refused;
mod types;
mod value;
mod words;

#[cfg(not(target_arch = "x86_64"))]
mod emulated;
#[cfg(target_arch = "x86_64")]
mod sys;

#[cfg(not(target_arch = "x86_64"))]
use emulated as sys;

pub use check::{Checked, Fault};
pub use codec::{decode, decode_exact, encode};
pub use dictionary::{Dictionary, ObjectInfo, Written};
pub use edition::Edition;
pub use entry::{AccessType, Kind, Object, ObjectEntry, ValueRange};
pub use event::{Cause, Event, EventRecord, Events, Payload, ReceivedPayload, Unwritten};
pub use explain::{Explanation, Target};
pub use mapping::PdoMappingEntry;
pub use parts::{Capacity, Parts};
pub use refusal::{NoRefusal, Refusal};
pub use refused::{Place, Refused};
pub use types::{
    IpAddress, MacAddress, NetTime, NodeId, PDOVersion, RelativeTime, TimeDifference, TimeOfDay,
};
pub use value::{ObjectValue, ValueType};

/// The most bytes of a payload.
pub const MOST_PAYLOAD_BYTES: usize = 1_490;

/// The most payloads of a cycle.
pub const MOST_PAYLOADS: usize = 1_024;

/// The most bytes that a save takes: a store of so many is full by the bounds for saves only.
pub const MOST_STORED: usize = 32_770;

/// The samples of docs/MOVING.md, which are run with the examples here.
#[cfg(doctest)]
#[doc = include_str!("../../../docs/MOVING.md")]
struct Moving;
