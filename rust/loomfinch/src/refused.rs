//! A refusal with the place of its reason.

use crate::refusal::Refusal;
use crate::words::bytes;
use std::error::Error;
use std::fmt;

/// Why a call did nothing, and where in what it was given the reason lies. Every call that can say where answers so;
/// `?` makes a [`Refusal`] of it for whoever needs the reason alone. Calls that take more at once, as a list of entries or of
/// lines, will say in a further field which of them is meant: the place is then one within it.
///
/// ```
/// use loomfinch::{decode, Place, Refusal, ValueType};
///
/// let refused = decode(ValueType::VisibleString, b"D\xE9cor").unwrap_err();
/// assert_eq!(refused.refusal, Refusal::TypeMismatch);
/// assert_eq!(refused.place, Some(Place::Text { at: 2 }));
/// assert_eq!(
///     refused.to_string(),
///     "TypeMismatch (5): no UTF-8 goes on at byte 2 of the text"
/// );
/// assert_eq!(Refusal::from(refused), Refusal::TypeMismatch);
/// ```
#[derive(Debug, Clone, Copy, PartialEq, Eq, Hash)]
#[non_exhaustive]
pub struct Refused {
    /// Why.
    pub refusal: Refusal,
    /// Where, or none where no place is to blame.
    pub place: Option<Place>,
}

/// Where in what a call was given the reason of a refusal lies.
///
/// ```
/// use loomfinch::{decode, Place, ValueType};
///
/// let shown = |data: &[u8]| match decode(ValueType::VisibleString, data) {
///     Ok(text) => text.to_string(),
///     Err(refused) => match refused.place {
///         Some(Place::Text { at }) if at == data.len() => format!("ends within a character, at {at}"),
///         Some(Place::Text { at }) => format!("{:02X}h at {at}", data[at]),
///         // There will be more kinds of places.
///         _ => refused.to_string(),
///     },
/// };
/// assert_eq!(shown("Décor".as_bytes()), "\"Décor\"");
/// assert_eq!(shown(b"D\xE9cor"), "63h at 2");
/// assert_eq!(shown(b"D\xC3"), "ends within a character, at 2");
/// ```
#[derive(Debug, Clone, Copy, PartialEq, Eq, Hash)]
#[non_exhaustive]
pub enum Place {
    /// A text is no UTF-8.
    Text {
        /// The first byte, from 0, at which no UTF-8 goes on; the text's length where it only ends too early. A character
        /// that began well is not to blame: in E2 82 41 the byte is 41h, at 2.
        at: usize,
    },
    /// A value has fewer bytes than its type.
    Value {
        /// How many bytes its type has.
        needed: usize,
        /// How many bytes were there.
        had: usize,
    },
}

impl Refused {
    /// A refusal with its place, or without one.
    ///
    /// ```
    /// use loomfinch::{decode, Place, Refusal, Refused, ValueType};
    ///
    /// let place = Place::Value { needed: 8, had: 1 };
    /// let refused = Refused::new(Refusal::BufferTooShort, Some(place));
    /// assert_eq!(decode(ValueType::Unsigned64, &[7]), Err(refused));
    /// assert_eq!(Refused::from(Refusal::Full), Refused::new(Refusal::Full, None));
    /// ```
    pub fn new(refusal: Refusal, place: Option<Place>) -> Self {
        Refused { refusal, place }
    }
}

impl From<Refusal> for Refused {
    fn from(refusal: Refusal) -> Self {
        Refused::new(refusal, None)
    }
}

impl From<Refused> for Refusal {
    fn from(refused: Refused) -> Self {
        refused.refusal
    }
}

/// As a [`Refusal`] displays, with what is wrong at the place where there is one: `BufferTooShort (12): the value needs 8
/// bytes and has 1`.
impl fmt::Display for Refused {
    fn fmt(&self, f: &mut fmt::Formatter<'_>) -> fmt::Result {
        match self.place {
            Some(place) => {
                write!(f, "{} ({}): {place}", self.refusal.name(), self.refusal.number())
            }
            None => self.refusal.fmt(f),
        }
    }
}

impl fmt::Display for Place {
    fn fmt(&self, f: &mut fmt::Formatter<'_>) -> fmt::Result {
        match *self {
            Place::Text { at } => write!(f, "no UTF-8 goes on at byte {at} of the text"),
            Place::Value { needed, had } => {
                write!(f, "the value needs {} and has {had}", bytes(needed))
            }
        }
    }
}

impl Error for Refused {}
