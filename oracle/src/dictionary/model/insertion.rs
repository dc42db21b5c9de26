//! What an insertion is given, and how it is refused (RULES.md 6).

use super::layout::*;
use super::memory::Memory;
use super::range::Range;

/// The arguments as the C call takes them: three numbers a value, all
/// encodings back to back, the default last.
#[derive(Clone, PartialEq, Eq, Default)]
pub struct Insertion {
    pub index: u16,
    pub shape: u64,
    pub access: u64,
    pub has_default: u64,
    /// The range's lower end, its type first, then the upper one.
    pub ends: [u64; 4],
    pub name: Vec<u8>,
    pub numbers: Vec<u64>,
    pub encodings: Vec<u8>,
}

impl Insertion {
    pub fn of(object: &Object) -> Self {
        let mut given = Self {
            index: object.index as u16,
            shape: object.shape,
            access: object.access,
            has_default: object.default.is_some().into(),
            ends: object.range.ends(),
            name: object.name.clone(),
            ..Self::default()
        };
        for value in object.all_values() {
            let encoding = value.encoding();
            given.numbers.extend([value.kind, value.room.len() as u64, encoding.len() as u64]);
            given.encodings.extend(encoding);
        }
        given
    }

    /// The object, or the rule that makes it BadValue (R6.3).
    pub fn object(&self) -> Result<Object, &'static str> {
        let require = |holds: bool, rule: &'static str| if holds { Ok(()) } else { Err(rule) };
        require(self.shape <= LAST_SHAPE, "kind")?;
        require(self.access <= NO_ACCESS, "access")?;
        require(self.has_default <= 1, "has_default")?;
        require(self.name.len() <= LONGEST_NAME, "name too long")?;
        require(is_text(&self.name), "name not UTF-8")?;
        require(self.numbers.len().is_multiple_of(3), "numbers not by three")?;
        let described = self.numbers.len() / 3;
        let elements = described.checked_sub(self.has_default as usize);
        let elements = elements.ok_or("no value for the default")?;
        require(self.shape != VARIABLE || elements == 1, "not one value")?;
        require(elements <= MOST_ELEMENTS, "elements")?;
        let mut values = self.values(elements)?;
        let default = values.split_off(elements).pop();
        let range = Range::given(self.ends)?;
        let (index, name) = (self.index.into(), self.name.clone());
        let (shape, access) = (self.shape, self.access);
        Ok(Object { index, shape, access, name, values, default, range, kept: None })
    }

    fn values(&self, elements: usize) -> Result<Vec<Value>, &'static str> {
        let mut rest = self.encodings.as_slice();
        let mut values = Vec::new();
        for (place, numbers) in self.numbers.chunks(3).enumerate() {
            let count = usize::try_from(numbers[2]).unwrap_or(usize::MAX);
            let (encoding, behind) = rest.split_at_checked(count).ok_or("bytes missing")?;
            rest = behind;
            let is_default = place >= elements;
            let value = value(numbers[0], numbers[1], encoding, is_default);
            values.push(value.map_err(|rule| if is_default { of_default(rule) } else { rule })?);
        }
        if rest.is_empty() { Ok(values) } else { Err("bytes left over") }
    }

    /// What of R6.4 the object would pass.
    pub fn full(object: &Object, objects: &[Object], memory: &Memory) -> Option<&'static str> {
        let used = Used::of(objects).plus(object.used());
        let needed = used.lengths();
        let lent = memory.lengths();
        let passed = [
            (used.objects > MOST_OBJECTS, "1,024 objects"),
            (used.values > MOST_VALUES, "6,144 values"),
            (used.bytes > MOST_BYTES, "32,768 bytes"),
            (needed[0] > lent[0], "objects lent"),
            (needed[1] > lent[1], "slots lent"),
            (needed[2] > lent[2], "words lent"),
            (needed[3] > lent[3], "bytes lent"),
        ];
        let mut causes = passed.into_iter().filter(|(passed, _)| *passed).map(|(_, cause)| cause);
        let first = causes.next()?;
        Some(if causes.next().is_some() { "several causes" } else { first })
    }
}

/// A default has no room of its own (R5.6), so the one given is just its bytes.
fn value(kind: u64, room: u64, encoding: &[u8], is_default: bool) -> Result<Value, &'static str> {
    if kind > LAST_KIND {
        return Err("type");
    }
    if room > LARGEST_ROOM as u64 {
        return Err("room");
    }
    if let Some(rule) = no_encoding(kind, encoding) {
        return Err(rule);
    }
    let length = if is_string(kind) { encoding.len() as u64 } else { 0 };
    if length > room {
        return Err("longer than its room");
    }
    if is_default && length != room {
        return Err("room that is not its length");
    }
    Ok(Value::new(kind, room as usize, encoding))
}

/// The rule as one that a default breaks.
fn of_default(rule: &'static str) -> &'static str {
    match rule {
        "type" => "default's type",
        "room" => "default's room",
        "byte count" => "default's byte count",
        "not UTF-8" => "default not UTF-8",
        "odd" => "default odd",
        "longer than its room" => "default longer than its room",
        _ => "default's room not its length",
    }
}
