//! Which answers of decoding a run came to, and which it must come to.

use crate::call::{Call, Function};
use crate::fault::Fault;
use crate::original::{BAD_VALUE, KINDS, size};
use crate::sorts::{self, BAD_TEXTS};
use std::collections::BTreeMap;

/// Bytes of ASCII before a character that is bad: a test may look at eight bytes at once, so that
/// each place among two times eight must come up.
pub const MOST_ASCII: usize = 17;

/// The place of a bad byte that ends a text of 300 bytes.
pub const FAR: usize = 299;

#[derive(Clone, Copy, PartialEq, Eq, PartialOrd, Ord)]
enum Sort {
    Decoded {
        kind: u64,
    },
    NoType,
    TooFewNumbers,
    TooFewBytes {
        kind: u64,
        had: usize,
    },
    Odd,
    /// With the bytes of ASCII before its character; none where other characters are among them.
    BadText {
        name: &'static str,
        behind: Option<usize>,
    },
}

impl Sort {
    fn of(call: &Call, answer: u64) -> Self {
        let kind = call.kind;
        match call.fault() {
            Some(Fault::Value { had, .. }) => Self::TooFewBytes { kind, had },
            Some(fault @ Fault::Text { .. }) => {
                let before = &call.input[..sorts::bad_character(&call.input)];
                let behind = before.is_ascii().then_some(before.len());
                Self::BadText { name: sorts::name(fault, &call.input), behind }
            }
            Some(Fault::Odd) => Self::Odd,
            None => match answer {
                0 => Self::Decoded { kind },
                BAD_VALUE => Self::NoType,
                _ => Self::TooFewNumbers,
            },
        }
    }

    fn name(self) -> &'static str {
        match self {
            Self::Decoded { .. } => "a value",
            Self::NoType => "no such type",
            Self::TooFewNumbers => "too few numbers lent",
            Self::TooFewBytes { .. } => "too few bytes",
            Self::Odd => "odd",
            Self::BadText { name, .. } => name,
        }
    }

    fn told(self) -> String {
        let name = self.name();
        match self {
            Self::Decoded { kind } => format!("{name} of type {kind}"),
            Self::TooFewBytes { kind, had } => format!("{name} for type {kind}: {had}"),
            Self::BadText { behind: Some(behind), .. } => {
                format!("{name} behind ASCII of length {behind}")
            }
            _ => name.to_string(),
        }
    }

    /// What a run must come to.
    fn all() -> Vec<Self> {
        let mut all = vec![Self::NoType, Self::TooFewNumbers, Self::Odd];
        for kind in 0..KINDS {
            all.push(Self::Decoded { kind });
            all.extend((0..size(kind).unwrap_or(0)).map(|had| Self::TooFewBytes { kind, had }));
        }
        for behind in 0..=MOST_ASCII {
            all.extend(BAD_TEXTS.map(|name| Self::BadText { name, behind: Some(behind) }));
        }
        all.push(Self::BadText { name: BAD_TEXTS[0], behind: Some(FAR) });
        all
    }
}

#[derive(Default)]
pub struct Decoded(BTreeMap<Sort, u64>);

impl Decoded {
    /// Other calls are not counted.
    pub fn count(&mut self, call: &Call, answer: u64) {
        if call.function == Function::Decode {
            *self.0.entry(Sort::of(call, answer)).or_default() += 1;
        }
    }

    pub fn print(&self) {
        let mut counts: BTreeMap<&str, u64> = BTreeMap::new();
        for (sort, count) in &self.0 {
            *counts.entry(sort.name()).or_default() += count;
        }
        let counts: Vec<String> =
            counts.iter().map(|(name, count)| format!("{name} {count}")).collect();
        println!("decoding came to:\n    {}", counts.join(", "));
    }

    /// What it did not come to.
    pub fn lacking(&self) -> Vec<String> {
        let missed = Sort::all().into_iter().filter(|sort| !self.0.contains_key(sort));
        missed.map(|sort| format!("no call of decode came to: {}", sort.told())).collect()
    }
}
