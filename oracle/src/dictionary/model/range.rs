//! An object's range: between which numbers a write may put a value of the range's type. Written from
//! the rules alone.

use crate::original::size;

/// As a row has it: the type, 0 for none, and both ends, each the number of the type's bytes.
#[derive(Clone, Copy, PartialEq, Eq, Debug)]
pub struct Range {
    pub kind: u64,
    pub low: u64,
    pub high: u64,
}

/// Where a value of the range's type lies.
#[derive(Clone, Copy, PartialEq, Eq)]
pub enum Lies {
    Below,
    Above,
    AtOnly,
    AtLow,
    AtHigh,
    AboveLow,
    BelowHigh,
    Amid,
}

impl Range {
    pub const NONE: Self = Self { kind: 0, low: 0, high: 0 };

    /// The range that an insertion's four numbers say, or the rule that makes them BadValue.
    pub fn given(ends: [u64; 4]) -> Result<Self, &'static str> {
        let [low_kind, low, high_kind, high] = ends;
        if low_kind != high_kind {
            return Err("ends' types differ");
        }
        let range = Self { kind: low_kind, low, high };
        match range.kind {
            0 if range == Self::NONE => Ok(range),
            0 => Err("ends of no type"),
            1..=8 => match [low, high].map(|end| meaning(range.kind, end)) {
                [Some(low), Some(high)] if low <= high => Ok(range),
                [Some(_), Some(_)] => Err("ends reversed"),
                _ => Err("end over its size"),
            },
            _ => Err("ends of no integer type"),
        }
    }

    /// The four numbers that say it.
    pub fn ends(self) -> [u64; 4] {
        [self.kind, self.low, self.kind, self.high]
    }

    /// None where there is no range, or one of another type than the value's.
    pub fn where_lies(self, kind: u64, word: u64) -> Option<Lies> {
        if self == Self::NONE || self.kind != kind {
            return None;
        }
        let [low, number, high] = [self.low, word, self.high].map(|word| meaning(kind, word));
        let [low, number, high] = [low?, number?, high?];
        Some(match number {
            _ if number < low => Lies::Below,
            _ if number > high => Lies::Above,
            _ if low == high => Lies::AtOnly,
            _ if number == low => Lies::AtLow,
            _ if number == high => Lies::AtHigh,
            _ if number == low + 1 => Lies::AboveLow,
            _ if number == high - 1 => Lies::BelowHigh,
            _ => Lies::Amid,
        })
    }
}

impl Lies {
    pub fn is_outside(self) -> bool {
        matches!(self, Self::Below | Self::Above)
    }

    pub fn name(self) -> &'static str {
        match self {
            Self::Below => "below the range",
            Self::Above => "above the range",
            Self::AtOnly => "at the range's only number",
            Self::AtLow => "at the range's lower end",
            Self::AtHigh => "at the range's upper end",
            Self::AboveLow => "just above the lower end",
            Self::BelowHigh => "just below the upper end",
            Self::Amid => "amid the range",
        }
    }
}

/// The integer that a word of a type 1..8 is; none where it has more bytes than the type.
pub fn meaning(kind: u64, word: u64) -> Option<i128> {
    let values = 1i128 << (8 * size(kind)?);
    let number = i128::from(word);
    let is_signed = kind <= 4;
    match number {
        number if number >= values => None,
        number if is_signed && number >= values / 2 => Some(number - values),
        number => Some(number),
    }
}
