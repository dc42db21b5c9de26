//! What demand 3 says of one payload (RULES.md R12.5 and R12.6), judged on the values before and
//! after it.

use super::admission::{Field, elements, fields};
use super::asking::{Asked, stands};
use crate::dictionary::link::Given;
use crate::dictionary::model::layout::{self, Object, Value, element, is_string, no_encoding};
use crate::dictionary::model::malformed;
use crate::dictionary::model::memory::Memory;
use crate::dictionary::model::running::row;

/// What a payload shows: a word of demand 3 that is not kept, and the places of the elements that
/// it is seen to write whole.
pub struct Shown<'a> {
    pub asked: &'a Asked,
    pub breach: Option<&'static str>,
    pub written: Vec<usize>,
}

/// With all lent memory before and after the payload.
pub fn shown<'a>(asked: &'a Asked, before: &Memory, after: &Memory, given: &Given) -> Shown<'a> {
    let outcome = &given.outcome;
    let broken = |breach| Shown { asked, breach: Some(breach), written: Vec::new() };
    if outcome.answer != 0 {
        return broken("a payload is refused");
    }
    if malformed::judge(after).is_err() {
        return broken("a payload leaves no dictionary");
    }
    let Asked { channel, objects, .. } = asked;
    let elements = elements(before.edition(), objects, *channel);
    let consumed = Consumed {
        before: objects,
        after: &layout::read_off(after),
        payload: &asked.given.payload,
        fields: &fields(elements),
    };
    let breach = match asked.upto {
        Some(place) => consumed.breach_at(place),
        None if outcome.numbers[0] > 0 => Some("a payload gives an event"),
        None if consumed.fields.len() < elements.len() => Some("an element maps no field"),
        None => consumed.breach(before, after),
    };
    Shown { asked, breach, written: consumed.written(asked.upto) }
}

struct Consumed<'a> {
    before: &'a [Object],
    after: &'a [Object],
    payload: &'a [u8],
    fields: &'a [Field],
}

impl Consumed<'_> {
    fn breach(&self, before: &Memory, after: &Memory) -> Option<&'static str> {
        let mut standing = self.fields.iter().filter(|field| stands(field, self.fields));
        if standing.any(|field| !self.is_there(field, self.after)) {
            return Some("a field is not written whole");
        }
        let Some(folded) = self.folded() else {
            return Some("a field is no value of its target's");
        };
        let mut wanted = before.clone();
        layout::lay(before.edition(), &folded, &mut wanted);
        (wanted != *after).then_some("something else changed")
    }

    /// Of a run up to this element.
    fn breach_at(&self, place: usize) -> Option<&'static str> {
        let mut this = self.fields.iter().filter(|field| field.place == place);
        let whole = this.all(|field| self.is_there(field, self.after));
        (!whole).then_some("a field that is overwritten later is not written whole")
    }

    /// Elements whose targets had other bytes before, and have the field's now.
    fn written(&self, upto: Option<usize>) -> Vec<usize> {
        let looked_at = self.fields.iter().filter(|field| match upto {
            Some(place) => field.place == place,
            None => stands(field, self.fields),
        });
        let written = looked_at
            .filter(|field| !self.is_there(field, self.before) && self.is_there(field, self.after));
        written.map(|field| field.place).collect()
    }

    /// Whether a field's bytes are what its target has.
    fn is_there(&self, field: &Field, objects: &[Object]) -> bool {
        let value = field.target(objects);
        value.is_some_and(|value| value.encoding() == self.payload[field.start..field.end])
    }

    /// Each field put at its target, in list order; none where one of them cannot be.
    fn folded(&self) -> Option<Vec<Object>> {
        let mut objects = self.before.to_vec();
        for field in self.fields {
            let object = &mut objects[row(self.before, field.index)?];
            let place = element(object, field.sub_index)?;
            put(&mut object.values[place], &self.payload[field.start..field.end])?;
        }
        Some(objects)
    }
}

/// R5.7.
fn put(value: &mut Value, encoding: &[u8]) -> Option<()> {
    if no_encoding(value.kind, encoding).is_some() {
        return None;
    }
    if is_string(value.kind) {
        value.room.get_mut(..encoding.len())?.copy_from_slice(encoding);
        value.word = encoding.len() as u64;
    } else {
        value.word = Value::new(value.kind, 0, encoding).word;
    }
    Some(())
}
