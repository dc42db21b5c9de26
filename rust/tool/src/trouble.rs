//! The kinds of things that go wrong with a payload, and how often each did.

use loomfinch::Cause;
use std::collections::BTreeMap;

/// A kind of trouble; the first is the one that nothing else reports.
#[derive(Clone, Copy, Debug, PartialEq, Eq, PartialOrd, Ord)]
pub enum Trouble {
    /// A field was longer than its target, and the lost bytes belong to the number.
    Cut,
    /// The payload or a field had too few bytes, and the payload stopped there.
    Short,
    /// A field was no text, and the payload stopped there.
    NoText,
    /// The payload had another mapping version than its channel takes.
    Version,
    /// A field, or the payload as a whole, was refused.
    Refused,
    /// An element of the mapping was passed over.
    PassedOver,
    /// The frame could not be consumed.
    Damaged,
}

impl Trouble {
    pub const ALL: [Trouble; 7] = [
        Trouble::Cut,
        Trouble::Short,
        Trouble::NoText,
        Trouble::Version,
        Trouble::Refused,
        Trouble::PassedOver,
        Trouble::Damaged,
    ];

    pub fn name(self) -> &'static str {
        match self {
            Trouble::Cut => "CUT",
            Trouble::Short => "short",
            Trouble::NoText => "no text",
            Trouble::Version => "version",
            Trouble::Refused => "refused",
            Trouble::PassedOver => "passed over",
            Trouble::Damaged => "damaged",
        }
    }
}

/// Something that went wrong with a payload.
#[derive(Clone, Debug)]
pub struct Incident {
    pub kind: Trouble,
    /// The element of the mapping that it is about; none where it is about the payload as a whole.
    pub element: Option<u8>,
    /// Why the element stopped the payload, where it did.
    pub cause: Option<Cause>,
    pub text: String,
}

impl Incident {
    pub fn of_payload(kind: Trouble, text: String) -> Incident {
        Incident { kind, element: None, cause: None, text }
    }

    pub fn of_element(kind: Trouble, element: u8, text: String) -> Incident {
        Incident { kind, element: Some(element), cause: None, text }
    }
}

/// How many frames had each kind of trouble, and the first of them.
#[derive(Debug, Default)]
pub struct Troubles {
    found: BTreeMap<Trouble, Found>,
}

#[derive(Debug)]
struct Found {
    frames: u64,
    /// The number of the first frame's packet, and what went wrong there.
    first: (u64, Incident),
}

impl Troubles {
    /// Counts a frame once for each kind of trouble that it had.
    pub fn count(&mut self, packet: u64, incidents: &[Incident]) {
        for kind in Trouble::ALL {
            if let Some(incident) = incidents.iter().find(|incident| incident.kind == kind) {
                let new = || Found { frames: 0, first: (packet, incident.clone()) };
                self.found.entry(kind).or_insert_with(new).frames += 1;
            }
        }
    }

    pub fn is_empty(&self) -> bool {
        self.found.is_empty()
    }

    pub fn frames(&self, kind: Trouble) -> u64 {
        self.found.get(&kind).map_or(0, |found| found.frames)
    }

    /// The first packet that had a kind of trouble, and what it was.
    pub fn first(&self, kind: Trouble) -> Option<(u64, &Incident)> {
        self.found.get(&kind).map(|found| (found.first.0, &found.first.1))
    }

    /// A line for each kind that was found: how often, and the first of them.
    pub fn lines(&self) -> Vec<String> {
        let line = |(kind, found): (&Trouble, &Found)| {
            let (packet, incident) = &found.first;
            let why = &incident.text;
            match found.frames {
                1 => format!("{} in No. {}: {}", kind.name(), packet, why),
                frames => {
                    format!(
                        "{} in {} frames, first in No. {}: {}",
                        kind.name(),
                        frames,
                        packet,
                        why
                    )
                }
            }
        };
        self.found.iter().map(line).collect()
    }
}
