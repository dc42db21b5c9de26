//! The library's numbers as Rust has them.

use crate::refusal::Refusal;
use crate::refused::{Place, Refused};

/// Nothing for 0, the refusal for its number.
pub fn done(answer: u64) -> Result<(), Refusal> {
    if answer == 0 {
        return Ok(());
    }
    let refusal = u8::try_from(answer).ok().and_then(Refusal::from_number);
    Err(refusal.unwrap_or_else(|| panic!("loomfinch: the library has no answer {answer}")))
}

/// What an answer says beside its number: a place in a text, or the bytes needed; and the bytes had.
pub struct Said {
    pub place: u64,
    pub had: u64,
}

/// No place and no count: the library sets just the numbers that its answer has.
const NOT_SET: u64 = u64::MAX;

impl Said {
    pub fn nothing() -> Self {
        Said { place: NOT_SET, had: NOT_SET }
    }

    fn place(&self) -> Option<Place> {
        match (self.place, self.had) {
            (NOT_SET, _) => None,
            (at, NOT_SET) => Some(Place::Text { at: fit(at) }),
            (needed, had) => Some(Place::Value { needed: fit(needed), had: fit(had) }),
        }
    }
}

/// Nothing for 0, the refusal for its number with the place that the library has said.
pub fn done_at(answer: u64, said: &Said) -> Result<(), Refused> {
    done(answer).map_err(|refusal| Refused::new(refusal, said.place()))
}

/// A number that the library promises to be of a smaller type.
pub fn fit<T: TryFrom<u64>>(number: u64) -> T {
    T::try_from(number)
        .unwrap_or_else(|_| panic!("loomfinch: the library has no number {number} here"))
}
