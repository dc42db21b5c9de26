//! A history: what is done to one dictionary, from fresh memory on.

use super::edition::FIRST;
use super::insertion::Insertion;
use super::layout::{Object, Used};
use super::memory::{EDITION, Lent};
use crate::call::SAID;

#[derive(Clone, PartialEq, Eq)]
pub enum Call {
    /// Of an edition, which may be none.
    New(u64),
    Insert(Insertion),
    Read {
        index: u16,
        sub_index: u8,
        /// How many numbers are lent.
        numbers: usize,
    },
    ReadNumber {
        width: Width,
        index: u16,
        sub_index: u8,
    },
    FindByName(Vec<u8>),
    /// With the number of bytes that are lent.
    GetConfiguredCns(usize),
    IncrementCounter {
        index: u16,
        sub_index: u8,
    },
    Write(Write),
    ValidatePdoMapping {
        index: u16,
        count: u8,
    },
    RestorePowerOnValues {
        first: u16,
        last: u16,
    },
    ConsumePdoPayload(Received),
    ConsumeCycle(Cycle),
    UpdatePdoErrorObject {
        index: u16,
        node: u8,
    },
    /// Of a channel.
    Check(u8),
    /// With how many numbers are lent, which stand among the outcome's events.
    CheckAll(usize),
    /// Of an element of a channel's list, with how many numbers are lent.
    Explain {
        channel: u8,
        element: u8,
        room: usize,
    },
}

/// A place, and the value for it as its type and its encoding.
#[derive(Clone, PartialEq, Eq)]
pub struct Write {
    pub index: u16,
    pub sub_index: u8,
    pub kind: u64,
    pub data: Vec<u8>,
}

/// A payload, and how many numbers the event list has. Every `ready` but 0 means ready.
#[derive(Clone, PartialEq, Eq)]
pub struct Received {
    pub payload: Vec<u8>,
    pub sender: u8,
    pub version: u8,
    pub ready: u64,
    pub room: usize,
}

/// What a cycle delivered: five numbers a payload say where it lies in the data, how long it is,
/// its sender, version and ready. `room` is that of the event list.
#[derive(Clone, PartialEq, Eq)]
pub struct Cycle {
    pub data: Vec<u8>,
    pub payloads: Vec<u64>,
    pub room: usize,
}

#[derive(Clone, Copy, PartialEq, Eq)]
pub enum Width {
    U8,
    U16,
    U32,
    U64,
}

pub const WIDTHS: [Width; 4] = [Width::U8, Width::U16, Width::U32, Width::U64];

impl Width {
    /// The number of the type that is read.
    pub fn kind(self) -> u64 {
        match self {
            Self::U8 => 5,
            Self::U16 => 6,
            Self::U32 => 7,
            Self::U64 => 8,
        }
    }
}

#[derive(Clone, PartialEq, Eq)]
pub enum Step {
    /// Lends other lengths; what is in memory stays.
    Lend(Lent),
    /// Lays objects of edition 1 into memory without a call; they may break rules.
    Lay(Vec<Object>),
    /// Changes one cell without a call.
    Put {
        slice: usize,
        at: usize,
        cell: u64,
    },
    /// Puts bytes at the store's start without a call.
    Store(Vec<u8>),
    Call(Call),
}

#[derive(Clone, PartialEq, Eq)]
pub struct History {
    pub first: Lent,
    pub steps: Vec<Step>,
}

/// The answer of a call and what it leaves in the memory lent for results.
#[derive(Clone, PartialEq, Eq, Debug)]
pub struct Outcome {
    pub answer: u64,
    pub numbers: Vec<u64>,
    pub out: Vec<u8>,
    pub events: Vec<u64>,
}

impl Step {
    /// Makes what lies in memory a dictionary of this edition, without a call.
    pub fn edition(edition: u64) -> Self {
        Self::Put { slice: 0, at: EDITION, cell: edition }
    }

    /// Lays objects of any edition.
    pub fn laying(edition: u64, objects: &[Object]) -> Vec<Self> {
        let other = (edition != FIRST).then(|| Self::edition(edition));
        std::iter::once(Self::Lay(objects.to_vec())).chain(other).collect()
    }

    /// A history that was made smaller may lend too little for a step, which is then left out.
    pub fn fits(&self, Lent { lengths, store, .. }: &Lent) -> bool {
        match self {
            Self::Lend(_) | Self::Call(_) => true,
            Self::Lay(objects) => {
                let needed = Used::of(objects).lengths();
                needed.iter().zip(lengths).all(|(needed, lent)| needed <= lent)
            }
            Self::Put { slice, at, .. } => at < lengths.get(*slice).unwrap_or(store),
            Self::Store(bytes) => bytes.len() <= *store,
        }
    }
}

impl Call {
    pub fn name(&self) -> &'static str {
        match self {
            Self::New(_) => "new",
            Self::Insert(_) => "insert",
            Self::Read { .. } => "read",
            Self::ReadNumber { width: Width::U8, .. } => "read_u8",
            Self::ReadNumber { width: Width::U16, .. } => "read_u16",
            Self::ReadNumber { width: Width::U32, .. } => "read_u32",
            Self::ReadNumber { width: Width::U64, .. } => "read_u64",
            Self::FindByName(_) => "find_by_name",
            Self::GetConfiguredCns(_) => "get_configured_cns",
            Self::IncrementCounter { .. } => "increment_counter",
            Self::Write(_) => "write",
            Self::ValidatePdoMapping { .. } => "validate_pdo_mapping",
            Self::RestorePowerOnValues { .. } => "restore_power_on_values",
            Self::ConsumePdoPayload(_) => "consume_pdo_payload",
            Self::ConsumeCycle(_) => "consume_cycle",
            Self::UpdatePdoErrorObject { .. } => "update_pdo_error_object",
            Self::Check(_) => "check",
            Self::CheckAll(_) => "check_all",
            Self::Explain { .. } => "explain",
        }
    }

    /// How many numbers and how many bytes are lent for results.
    pub fn results(&self) -> (usize, usize) {
        match self {
            Self::Read { numbers, .. } => (*numbers, 0),
            Self::ReadNumber { .. } | Self::FindByName(_) => (1, 0),
            Self::GetConfiguredCns(out) => (1, *out),
            Self::New(_) | Self::Insert(_) | Self::IncrementCounter { .. } => (0, 0),
            // What is said of data that is no value.
            Self::Write(_) => (SAID, 0),
            Self::ValidatePdoMapping { .. } => (0, 0),
            Self::RestorePowerOnValues { .. } | Self::UpdatePdoErrorObject { .. } => (0, 0),
            Self::ConsumePdoPayload(_) | Self::Check(_) | Self::CheckAll(_) => (1, 0),
            Self::ConsumeCycle(_) => (2, 0),
            Self::Explain { room, .. } => (*room, 0),
        }
    }

    /// How many numbers the lent event list has, or the list of all channels' checks.
    pub fn event_room(&self) -> usize {
        match self {
            Self::ConsumePdoPayload(given) => given.room,
            Self::ConsumeCycle(given) => given.room,
            Self::CheckAll(room) => *room,
            _ => 0,
        }
    }

    /// Every other call leaves all memory that stays between calls.
    pub fn writes(&self) -> bool {
        match self {
            Self::New(_) | Self::Insert(_) | Self::IncrementCounter { .. } | Self::Write(_) => true,
            Self::RestorePowerOnValues { .. } | Self::UpdatePdoErrorObject { .. } => true,
            Self::ConsumePdoPayload(_) | Self::ConsumeCycle(_) => true,
            Self::Read { .. } | Self::ReadNumber { .. } | Self::FindByName(_) => false,
            Self::GetConfiguredCns(_) | Self::ValidatePdoMapping { .. } => false,
            Self::Check(_) | Self::CheckAll(_) | Self::Explain { .. } => false,
        }
    }
}
