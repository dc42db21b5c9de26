//! The dictionary, and what is inserted into it; each other file has some of its calls.

mod checking;
mod consuming;
mod listing;
mod reading;
mod writing;

pub use listing::ObjectInfo;
pub use writing::Written;

use crate::answer::done;
use crate::edition::Edition;
use crate::entry::{Description, ObjectEntry};
use crate::parts::{Capacity, Parts};
use crate::refusal::Refusal;
use crate::sys;
use std::fmt;

/// An object dictionary that owns its memory, and a store that saves go to where one was given.
///
/// Every call judges the whole dictionary first; one that was made by [`new`](Dictionary::new) is never
/// [`Malformed`](Refusal::Malformed). A call that refuses changes nothing.
///
/// ```
/// use loomfinch::{Capacity, Dictionary, Object, ObjectEntry, ObjectValue};
///
/// let mut dictionary = Dictionary::new(Capacity { objects: 8, values: 32, bytes: 512 });
/// let speed = Object::Variable(ObjectValue::Unsigned16(2_500));
/// dictionary.insert(0x6000, ObjectEntry::new(speed).with_name("Speed"))?;
/// assert_eq!(dictionary.find_by_name("Speed")?, 0x6000);
/// assert_eq!(dictionary.read_u16(0x6000, 0)?, 2_500);
/// # Ok::<(), loomfinch::Refusal>(())
/// ```
#[derive(Clone)]
pub struct Dictionary {
    parts: Parts,
    /// Empty where there is none.
    store: Vec<u8>,
    /// Room for the events of a call, kept so that consuming need not make it anew.
    events: Vec<u64>,
    /// Is the memory no dictionary? No call makes one of it, or spoils one.
    malformed: bool,
}

impl Dictionary {
    /// Makes an empty dictionary of [edition 1](Edition::One), without a store.
    pub fn new(capacity: Capacity) -> Self {
        Dictionary::with_edition(capacity, Edition::One)
    }

    /// Makes an empty dictionary of an edition, which stays its own for good, without a store.
    ///
    /// ```
    /// use loomfinch::{Capacity, Dictionary, Edition};
    ///
    /// let dictionary = Dictionary::with_edition(Capacity::MOST, Edition::Two);
    /// assert_eq!(dictionary.edition(), Ok(Edition::Two));
    /// assert_eq!(Dictionary::new(Capacity::MOST).edition(), Ok(Edition::One));
    /// ```
    pub fn with_edition(capacity: Capacity, edition: Edition) -> Self {
        let mut parts = Parts::new(capacity);
        let made = done(sys::new(&mut parts.objects, edition.number().into()));
        made.expect("loomfinch: there is such an edition, and room for the header");
        Dictionary::from_parts(parts)
    }

    /// The edition of the mapping rules that the dictionary follows.
    ///
    /// Refuses with [`Malformed`](Refusal::Malformed) memory that is no dictionary.
    pub fn edition(&self) -> Result<Edition, Refusal> {
        let edition = self.parts.edition().filter(|_| !self.malformed);
        edition.ok_or(Refusal::Malformed)
    }

    /// A dictionary of memory that was laid out before, by this crate or by the calls for C. Where it is no dictionary,
    /// every call refuses with [`Malformed`](Refusal::Malformed).
    ///
    /// ```
    /// use loomfinch::{Capacity, Dictionary, Refusal};
    ///
    /// let mut parts = Dictionary::new(Capacity::MOST).into_parts();
    /// parts.objects[0] = 1; // an object that has no row
    /// parts.objects.truncate(12);
    /// assert_eq!(Dictionary::from_parts(parts).check(0), Err(Refusal::Malformed));
    /// ```
    pub fn from_parts(parts: Parts) -> Self {
        let malformed = sys::read(&parts, 0, 0, &mut [0; 3]) == Refusal::Malformed.number().into();
        Dictionary { parts, store: Vec::new(), events: Vec::new(), malformed }
    }

    /// The dictionary's memory.
    pub fn parts(&self) -> &Parts {
        &self.parts
    }

    /// The dictionary's memory, of which the dictionary is made again by [`from_parts`](Dictionary::from_parts).
    pub fn into_parts(self) -> Parts {
        self.parts
    }

    /// Gives the dictionary a store, in which saves are kept. Fewer than 2 bytes are no store, and
    /// [`MOST_STORED`](crate::MOST_STORED) bytes are always enough.
    pub fn with_store(self, store: Vec<u8>) -> Self {
        Dictionary { store, ..self }
    }

    /// The dictionary's store, empty where it has none.
    pub fn store(&self) -> &[u8] {
        &self.store
    }

    /// The dictionary's store, to be changed: zeros keep nothing, and an empty one is none.
    pub fn store_mut(&mut self) -> &mut Vec<u8> {
        &mut self.store
    }

    /// How much of its capacity the dictionary uses.
    pub fn used(&self) -> Capacity {
        self.parts.used()
    }

    /// Inserts an object at an index, with all its elements in use. Every other object keeps its name, values and rooms.
    ///
    /// Refuses, in this order, with [`BadValue`](Refusal::BadValue) an object that breaks a rule for sizes: a name over 32
    /// bytes, more than 254 elements, a room over 1490 bytes, a string longer than its room; or whose range has ends of two
    /// types, of no integer type or in the wrong order; with
    /// [`Occupied`](Refusal::Occupied) an index that is taken; with [`Full`](Refusal::Full) an object that the dictionary
    /// has no room for.
    ///
    /// ```
    /// use loomfinch::{Capacity, Dictionary, Object, ObjectEntry, ObjectValue, Refusal};
    ///
    /// let mut dictionary = Dictionary::new(Capacity { objects: 1, values: 4, bytes: 64 });
    /// let entry = ObjectEntry::new(Object::Variable(ObjectValue::Unsigned8(1)));
    /// assert_eq!(dictionary.insert(0x6000, entry.clone()), Ok(()));
    /// assert_eq!(dictionary.insert(0x6000, entry.clone()), Err(Refusal::Occupied));
    /// assert_eq!(dictionary.insert(0x6001, entry), Err(Refusal::Full));
    /// ```
    pub fn insert(&mut self, index: u16, entry: ObjectEntry<'_>) -> Result<(), Refusal> {
        let given = Description::of(&entry);
        done(sys::insert(&mut self.parts, index, entry.name.as_bytes(), &given))
    }
}

impl fmt::Debug for Dictionary {
    fn fmt(&self, f: &mut fmt::Formatter<'_>) -> fmt::Result {
        f.debug_struct("Dictionary").field("used", &self.used()).finish_non_exhaustive()
    }
}
