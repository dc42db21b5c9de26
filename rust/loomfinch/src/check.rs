//! What the check says of a channel.

use crate::answer::fit;
use std::fmt;

/// Why an element of a mapping is written whole by no payload.
#[derive(Debug, Clone, Copy, PartialEq, Eq, Hash)]
#[non_exhaustive]
#[repr(u8)]
pub enum Fault {
    /// The element is no Unsigned64.
    NotMapping = 33,
    /// Its offset or its length is not whole bytes.
    Misaligned,
    /// Its target is 1200h to 12FFh, which are handed to SDO.
    HandOff,
    /// Its target is missing.
    NoTarget,
    /// Its target is a list's count.
    CountTarget,
    /// Its length is not the size of the target's type; of a string: over its room, or odd for a UnicodeString.
    WrongLength,
}

/// What the check says of a channel. A fault is an answer and no refusal. It displays as `Pass`, `NoSender` or
/// `WrongLength at element 1`.
#[derive(Debug, Clone, Copy, PartialEq, Eq, Hash)]
#[non_exhaustive]
#[must_use = "a channel with a fault is an answer and no error"]
pub enum Checked {
    /// Every payload that the channel accepts is written whole.
    Pass,
    /// No sender has this channel.
    NoSender,
    /// The mapping is no list with an element in use.
    NoList,
    /// An element has a fault.
    Element {
        /// The place of the element in the mapping, from 1.
        element: u8,
        /// What is wrong with it.
        fault: Fault,
    },
    /// The elements reach past 1490 bytes.
    TooFar,
}

/// The faults of elements in the order of their numbers, from 33 on, with their names.
const FAULTS: [(Fault, &str); 6] = [
    (Fault::NotMapping, "NotMapping"),
    (Fault::Misaligned, "Misaligned"),
    (Fault::HandOff, "HandOff"),
    (Fault::NoTarget, "NoTarget"),
    (Fault::CountTarget, "CountTarget"),
    (Fault::WrongLength, "WrongLength"),
];

impl Fault {
    /// The number of the fault in docs/RULES.md, 33 to 38.
    pub fn number(self) -> u8 {
        self as u8
    }

    /// The fault of a number, or none.
    pub fn from_number(number: u8) -> Option<Self> {
        let place = number.checked_sub(Fault::NotMapping.number())?;
        FAULTS.get(usize::from(place)).map(|&(fault, _)| fault)
    }

    /// The name of the fault in docs/RULES.md.
    pub fn name(self) -> &'static str {
        FAULTS[usize::from(self.number() - Fault::NotMapping.number())].1
    }
}

impl Checked {
    /// The answer of a number that is no refusal, with the element that it names.
    pub(crate) fn from_numbers(number: u64, element: u64) -> Self {
        match number {
            0 => Checked::Pass,
            31 => Checked::NoSender,
            32 => Checked::NoList,
            39 => Checked::TooFar,
            _ => {
                let fault = Fault::from_number(fit(number));
                let fault =
                    fault.unwrap_or_else(|| panic!("loomfinch: the check has no answer {number}"));
                Checked::Element { element: fit(element), fault }
            }
        }
    }

    /// Whether the channel passes.
    pub fn is_pass(self) -> bool {
        self == Checked::Pass
    }

    /// The place of the element that the check names, or none.
    pub fn element(self) -> Option<u8> {
        match self {
            Checked::Element { element, .. } => Some(element),
            _ => None,
        }
    }

    /// The number of the answer in docs/RULES.md: 0, or 31 to 39.
    pub fn number(self) -> u8 {
        match self {
            Checked::Pass => 0,
            Checked::NoSender => 31,
            Checked::NoList => 32,
            Checked::Element { fault, .. } => fault.number(),
            Checked::TooFar => 39,
        }
    }

    /// The name of the answer in docs/RULES.md.
    pub fn name(self) -> &'static str {
        match self {
            Checked::Pass => "Pass",
            Checked::NoSender => "NoSender",
            Checked::NoList => "NoList",
            Checked::Element { fault, .. } => fault.name(),
            Checked::TooFar => "TooFar",
        }
    }
}

impl fmt::Display for Fault {
    fn fmt(&self, f: &mut fmt::Formatter<'_>) -> fmt::Result {
        f.write_str(self.name())
    }
}

impl fmt::Display for Checked {
    fn fmt(&self, f: &mut fmt::Formatter<'_>) -> fmt::Result {
        f.write_str(self.name())?;
        match self.element() {
            Some(element) => write!(f, " at element {element}"),
            None => Ok(()),
        }
    }
}
