//! Why a call did nothing.

use std::error::Error;
use std::fmt;

/// Why a call did nothing: each refusal has a number and a name, and leaves everything as it was.
///
/// The numbers are those of docs/RULES.md, 1 to 18 and 21; there will be more, with gaps between them. 19 stands for
/// [`Written::RestoreRequested`](crate::Written::RestoreRequested), which is no refusal.
///
/// ```
/// use loomfinch::{Capacity, Dictionary, Refusal};
///
/// let dictionary = Dictionary::new(Capacity::MOST);
/// let refusal = dictionary.read(0x6000, 0).unwrap_err();
/// assert_eq!(refusal, Refusal::ObjectNotFound);
/// assert_eq!((refusal.number(), refusal.name()), (3, "ObjectNotFound"));
/// assert_eq!((u8::from(refusal), Refusal::try_from(3)), (3, Ok(refusal)));
/// ```
#[derive(Debug, Clone, Copy, PartialEq, Eq, Hash)]
#[non_exhaustive]
#[repr(u8)]
pub enum Refusal {
    /// The memory is no dictionary.
    Malformed = 1,
    /// A value, name, room, list or default breaks a rule for sizes; a range's ends differ in type, are no integers or are
    /// reversed; bad text or too few bytes in writing an encoding.
    BadValue = 2,
    /// No such index or name.
    ObjectNotFound = 3,
    /// No such sub-index there.
    SubObjectNotFound = 4,
    /// Another type than the one there or asked for; bad text in decoding.
    TypeMismatch = 5,
    /// The object's access is ReadOnly or Constant.
    ReadOnly = 6,
    /// 1010h or 1011h: not its signature, or sub-index 0.
    BadSignature = 7,
    /// 1010h or 1011h: there is no store.
    NoStorage = 8,
    /// Sub-index 0 of a list that is no mapping.
    CountNotWritable = 9,
    /// One of the counted elements of a mapping is missing or no Unsigned64.
    MissingEntries = 10,
    /// The mapping reaches past the limit for payloads.
    PdoMapOverrun = 11,
    /// Data to decode or an output is too short.
    BufferTooShort = 12,
    /// A string is longer than the room of its place.
    TooLong = 13,
    /// A payload has more than 1490 bytes.
    PayloadTooLong = 14,
    /// The event list has fewer than 254 places.
    NoEventRoom = 15,
    /// The index is taken.
    Occupied = 16,
    /// The dictionary has no room for the object.
    Full = 17,
    /// The store cannot hold what is to be saved.
    StoreFull = 18,
    /// A number lies outside the object's range.
    OutOfRange = 21,
}

/// Every refusal.
const ALL: [Refusal; 19] = [
    Refusal::Malformed,
    Refusal::BadValue,
    Refusal::ObjectNotFound,
    Refusal::SubObjectNotFound,
    Refusal::TypeMismatch,
    Refusal::ReadOnly,
    Refusal::BadSignature,
    Refusal::NoStorage,
    Refusal::CountNotWritable,
    Refusal::MissingEntries,
    Refusal::PdoMapOverrun,
    Refusal::BufferTooShort,
    Refusal::TooLong,
    Refusal::PayloadTooLong,
    Refusal::NoEventRoom,
    Refusal::Occupied,
    Refusal::Full,
    Refusal::StoreFull,
    Refusal::OutOfRange,
];

impl Refusal {
    /// The number of the refusal in docs/RULES.md.
    pub fn number(self) -> u8 {
        self as u8
    }

    /// The refusal of a number, or none.
    pub fn from_number(number: u8) -> Option<Self> {
        ALL.into_iter().find(|refusal| refusal.number() == number)
    }

    /// The name of the refusal in docs/RULES.md.
    pub fn name(self) -> &'static str {
        self.words().0
    }

    /// The name, and what it means.
    fn words(self) -> (&'static str, &'static str) {
        match self {
            Refusal::Malformed => ("Malformed", "the memory is no dictionary"),
            Refusal::BadValue => {
                ("BadValue", "a value, name, room, list, default or range breaks a rule")
            }
            Refusal::ObjectNotFound => ("ObjectNotFound", "no such index or name"),
            Refusal::SubObjectNotFound => ("SubObjectNotFound", "no such sub-index there"),
            Refusal::TypeMismatch => {
                ("TypeMismatch", "another type than the one there or asked for, or bad text")
            }
            Refusal::ReadOnly => ("ReadOnly", "the object may not be written"),
            Refusal::BadSignature => ("BadSignature", "not the signature, or sub-index 0"),
            Refusal::NoStorage => ("NoStorage", "there is no store"),
            Refusal::CountNotWritable => ("CountNotWritable", "a list's count may not be written"),
            Refusal::MissingEntries => {
                ("MissingEntries", "an element of the mapping is missing or no Unsigned64")
            }
            Refusal::PdoMapOverrun => {
                ("PdoMapOverrun", "the mapping reaches past the limit for payloads")
            }
            Refusal::BufferTooShort => ("BufferTooShort", "the data or the output is too short"),
            Refusal::TooLong => ("TooLong", "a string is longer than its room"),
            Refusal::PayloadTooLong => ("PayloadTooLong", "the payload has more than 1490 bytes"),
            Refusal::NoEventRoom => ("NoEventRoom", "the event list has fewer than 254 places"),
            Refusal::Occupied => ("Occupied", "the index is taken"),
            Refusal::Full => ("Full", "the dictionary has no room for the object"),
            Refusal::StoreFull => ("StoreFull", "the store cannot hold what is to be saved"),
            Refusal::OutOfRange => ("OutOfRange", "the number lies outside the object's range"),
        }
    }
}

impl fmt::Display for Refusal {
    fn fmt(&self, f: &mut fmt::Formatter<'_>) -> fmt::Result {
        let (name, meaning) = self.words();
        write!(f, "{name} ({}): {meaning}", self.number())
    }
}

impl Error for Refusal {}

impl From<Refusal> for u8 {
    fn from(refusal: Refusal) -> u8 {
        refusal.number()
    }
}

/// A number that no refusal has.
///
/// ```
/// use loomfinch::{NoRefusal, Refusal};
///
/// assert_eq!(Refusal::try_from(0), Err(NoRefusal(0)));
/// let restore_requested = Refusal::try_from(19).unwrap_err();
/// assert_eq!(restore_requested.to_string(), "no refusal has the number 19");
/// ```
#[derive(Debug, Clone, Copy, PartialEq, Eq, Hash)]
pub struct NoRefusal(pub u8);

impl fmt::Display for NoRefusal {
    fn fmt(&self, f: &mut fmt::Formatter<'_>) -> fmt::Result {
        write!(f, "no refusal has the number {}", self.0)
    }
}

impl Error for NoRefusal {}

impl TryFrom<u8> for Refusal {
    type Error = NoRefusal;

    fn try_from(number: u8) -> Result<Self, NoRefusal> {
        Refusal::from_number(number).ok_or(NoRefusal(number))
    }
}
