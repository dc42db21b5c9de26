//! The parts of a value on its line: type, value, room, unit.

use super::cursor::Cursor;
use super::lexer::Token;
use super::literal;
use super::numbers;
use super::problem::Problem;
use super::types::{is_unsigned, type_of_name};
use super::{Value, MOST_ROOM};
use crate::words;
use loomfinch::{PdoMappingEntry, ValueType};

/// What was said of a value so far.
#[derive(Default)]
pub struct Parts {
    of: Option<ValueType>,
    bytes: Option<Vec<u8>>,
    room: Option<usize>,
    milliseconds: bool,
}

impl Parts {
    pub fn value_type(&self) -> Option<ValueType> {
        self.of
    }

    pub fn is_empty(&self) -> bool {
        self.of.is_none() && self.bytes.is_none() && self.room.is_none() && !self.milliseconds
    }

    /// Takes a part of a value if one comes next.
    pub fn take(&mut self, cursor: &mut Cursor) -> Result<bool, Problem> {
        let word = match cursor.peek() {
            Some(Token::Equals) => {
                self.take_value(cursor)?;
                return Ok(true);
            }
            Some(Token::Word(word)) => word.clone(),
            _ => return Ok(false),
        };
        if let Some(of) = type_of_name(&word) {
            cursor.next();
            return once(cursor, self.of.replace(of).is_none(), "type");
        }
        if cursor.skip_word("room") {
            let room = room(cursor)?;
            return once(cursor, self.room.replace(room).is_none(), "room");
        }
        if cursor.skip_word("ms") {
            let first = !self.milliseconds;
            self.milliseconds = true;
            return once(cursor, first, "ms");
        }
        Ok(false)
    }

    fn take_value(&mut self, cursor: &mut Cursor) -> Result<(), Problem> {
        cursor.next();
        let of = match self.of {
            Some(of) => of,
            None => {
                return Err(cursor.problem("expected a type before '=', as in Unsigned16 = 2500"))
            }
        };
        let bytes = typed_value(cursor, of)?;
        once(cursor, self.bytes.replace(bytes).is_none(), "value").map(|_| ())
    }

    /// Takes a mapping or a mapping word, if an element's line goes on with one.
    pub fn take_mapping(&mut self, cursor: &mut Cursor) -> Result<(), Problem> {
        let is_group = |word: &str| word.len() == 4 && word.bytes().all(|c| c.is_ascii_hexdigit());
        let begins = |word: &str| word.starts_with(|c: char| c.is_ascii_digit()) || is_group(word);
        let word = if is_word(cursor, 1, "at") {
            mapping(cursor)?.to_u64()
        } else if cursor.word_ahead(0).map_or(false, begins) {
            mapping_word(cursor)?
        } else {
            return Ok(());
        };
        self.of = Some(ValueType::Unsigned64);
        self.bytes = Some(word.to_le_bytes().to_vec());
        Ok(())
    }

    /// The value that the parts say.
    pub fn finish(self, cursor: &Cursor) -> Result<Value, Problem> {
        let of = match self.of {
            Some(of) => of,
            None => return Err(cursor.problem_of_line("expected a type, such as Unsigned16")),
        };
        if self.milliseconds && !is_unsigned(of) {
            let text = format!(
                "expected 'ms' only beside an Unsigned type, found it beside {}",
                words::type_with_article(of)
            );
            return Err(cursor.problem_of_line(text));
        }
        if of.size().is_none() && self.bytes.is_none() && self.room.is_none() {
            let text = format!(
                "expected a room for {}, as in room 40, or a value that it takes its room from",
                words::type_with_article(of)
            );
            return Err(cursor.problem_of_line(text));
        }
        let bytes = self.bytes.unwrap_or_else(|| vec![0; of.size().unwrap_or(0)]);
        let needed = if of.size().is_none() { bytes.len() } else { 0 };
        let room = self.room.unwrap_or(needed);
        if needed > room {
            let text = format!("the value has {}, its room only {}", words::bytes(needed), room);
            return Err(cursor.problem_of_line(text));
        }
        if room > MOST_ROOM {
            return Err(
                cursor.problem_of_line(format!("expected at most {MOST_ROOM} bytes, found {room}"))
            );
        }
        Ok(Value { of, bytes, room, milliseconds: self.milliseconds, name: String::new() })
    }
}

/// A default's type, where it is said, and its value.
pub fn default_value(cursor: &mut Cursor, like: Option<ValueType>) -> Result<Value, Problem> {
    let own = cursor.word_ahead(0).and_then(type_of_name);
    if own.is_some() {
        cursor.next();
    }
    let of = match own.or(like) {
        Some(of) => of,
        None => {
            return Err(
                cursor.problem("expected a type behind 'default', as in default Unsigned16 = 2500")
            )
        }
    };
    match cursor.next() {
        Some(Token::Equals) => (),
        other => return Err(cursor.expected("'=' and the default's value", other.as_ref())),
    }
    let bytes = typed_value(cursor, of)?;
    let room = if of.size().is_none() { bytes.len() } else { 0 };
    if room > MOST_ROOM {
        return Err(cursor
            .problem(format!("expected at most {MOST_ROOM} bytes in a default, found {room}")));
    }
    Ok(Value { of, bytes, room, milliseconds: false, name: String::new() })
}

fn once(cursor: &Cursor, first: bool, part: &str) -> Result<bool, Problem> {
    if first {
        Ok(true)
    } else {
        Err(cursor.problem(format!("expected one {part}, found a second")))
    }
}

fn room(cursor: &mut Cursor) -> Result<usize, Problem> {
    let token = cursor.next();
    let number = match &token {
        Some(Token::Word(word)) => numbers::unsigned(word).filter(|n| *n <= MOST_ROOM as u64),
        _ => None,
    };
    match number {
        Some(number) => Ok(number as usize),
        None => {
            let wanted = format!("a room of 0 to {MOST_ROOM} bytes");
            Err(cursor.expected(&wanted, token.as_ref()))
        }
    }
}

/// A value; of an Unsigned64 also as a mapping.
fn typed_value(cursor: &mut Cursor, of: ValueType) -> Result<Vec<u8>, Problem> {
    if of == ValueType::Unsigned64 && is_word(cursor, 1, "at") {
        return mapping(cursor).map(|entry| entry.to_u64().to_le_bytes().to_vec());
    }
    literal::value(cursor, of)
}

/// `0010 0000 0000 6000h`, or its 16 digits in one. Fewer would be a mistake: an index alone maps nothing.
fn mapping_word(cursor: &mut Cursor) -> Result<u64, Problem> {
    let token = cursor.next();
    let word = match &token {
        Some(Token::Word(word)) => {
            let whole =
                numbers::hexadecimal(word).filter(|found| found.1 == 16).map(|found| found.0);
            cursor.grouped_word(word).or(whole)
        }
        _ => None,
    };
    let wanted =
        "a mapping, as in 6000h/0 at 0 length 2, or a mapping word, as in 0010 0000 0000 6000h";
    word.ok_or_else(|| cursor.expected(wanted, token.as_ref()))
}

fn is_word(cursor: &Cursor, ahead: usize, wanted: &str) -> bool {
    cursor.word_ahead(ahead).map_or(false, |word| word.eq_ignore_ascii_case(wanted))
}

/// `6000h/0 at 0 length 2`.
fn mapping(cursor: &mut Cursor) -> Result<PdoMappingEntry, Problem> {
    let (index, sub_index) = target(cursor)?;
    cursor.skip_word("at");
    let offset_bits = extent(cursor, "offset")?;
    if !cursor.skip_word("length") {
        return Err(cursor.expected_next("'length' and the field's length in bytes"));
    }
    let length_bits = extent(cursor, "length")?;
    Ok(PdoMappingEntry { index, sub_index, offset_bits, length_bits })
}

fn target(cursor: &mut Cursor) -> Result<(u16, u8), Problem> {
    let token = cursor.next();
    let parsed = match &token {
        Some(Token::Word(word)) => numbers::place(word),
        _ => None,
    };
    parsed.ok_or_else(|| cursor.expected("a target, as in 6000h/0", token.as_ref()))
}

/// An offset or a length in bytes, or in bits where that is said; answered in bits.
fn extent(cursor: &mut Cursor, part: &str) -> Result<u16, Problem> {
    let token = cursor.next();
    let number = match &token {
        Some(Token::Word(word)) => numbers::unsigned(word),
        _ => None,
    };
    let wanted =
        format!("the field's {part} as a number of bytes up to 8191, or of bits up to 65535");
    let problem = cursor.expected(&wanted, token.as_ref());
    let unit = if cursor.skip_word("bits") {
        1
    } else {
        cursor.skip_word("bytes");
        8
    };
    let bits = number.and_then(|n| n.checked_mul(unit)).and_then(|bits| u16::try_from(bits).ok());
    bits.ok_or(problem)
}
