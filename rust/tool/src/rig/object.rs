//! An object's line, and an element's.

use super::count;
use super::cursor::Cursor;
use super::element::{default_value, Parts};
use super::lexer::Token;
use super::problem::Problem;
use super::range;
use super::types::{access_of_name, Kind};
use super::{Count, Object, Value, MOST_NAME};
use crate::words;
use loomfinch::AccessType;

/// An object's line behind its index, with the range that it says.
pub fn object(cursor: &mut Cursor) -> Result<(Object, Option<range::Said>), Problem> {
    let (line, column) = cursor.start();
    let kind = kind(cursor)?;
    let mut name: Option<String> = None;
    let mut access: Option<AccessType> = None;
    let mut default: Option<Value> = None;
    let mut range: Option<range::Said> = None;
    let mut counted: Option<Count> = None;
    let mut parts = Parts::default();
    while let Some(token) = cursor.peek().cloned() {
        if let Token::Text(text) = token {
            cursor.next();
            set(&mut name, named(text, cursor)?, cursor, "name")?;
        } else if let Some(found) = cursor.word_ahead(0).and_then(access_of_name) {
            cursor.next();
            set(&mut access, found, cursor, "access")?;
        } else if cursor.skip_word("default") {
            set(&mut default, default_value(cursor, parts.value_type())?, cursor, "default")?;
        } else if cursor.skip_word("range") {
            set(&mut range, range::said(cursor)?, cursor, "range")?;
        } else if cursor.skip_word("count") {
            set(&mut counted, count::said(cursor, kind)?, cursor, "count")?;
        } else if !parts.take(cursor)? {
            return Err(cursor.expected_next(object_parts(kind)));
        } else if kind != Kind::Variable {
            let text = format!(
                "expected elements on their own lines, as in 1 Unsigned16: {} has no value itself",
                words::kind_with_article(kind)
            );
            return Err(cursor.problem(text));
        }
    }
    let values = if kind == Kind::Variable { vec![parts.finish(cursor)?] } else { Vec::new() };
    let name = name.unwrap_or_default();
    let object =
        Object { kind, access, name, values, default, range: None, count: counted, line, column };
    Ok((object, range))
}

fn kind(cursor: &mut Cursor) -> Result<Kind, Problem> {
    let token = cursor.next();
    let kind = match &token {
        Some(Token::Word(word)) => Kind::of_name(word),
        _ => None,
    };
    kind.ok_or_else(|| cursor.expected("Variable, Array or Record", token.as_ref()))
}

fn object_parts(kind: Kind) -> &'static str {
    match kind {
        Kind::Variable => "a type, a \"name\", an access, '=', 'room', 'ms', 'default' or 'range'",
        Kind::Array | Kind::Record => "a \"name\", an access, 'default', 'range' or 'count'",
    }
}

fn set<T>(place: &mut Option<T>, found: T, cursor: &Cursor, part: &str) -> Result<(), Problem> {
    match place.replace(found) {
        None => Ok(()),
        Some(_) => Err(cursor.problem(format!("expected one {part}, found a second"))),
    }
}

/// A name that was taken, of a length that the library takes.
pub fn named(name: String, cursor: &Cursor) -> Result<String, Problem> {
    if name.len() > MOST_NAME {
        let text = format!("expected a name of at most {} bytes, found {}", MOST_NAME, name.len());
        return Err(cursor.problem(text));
    }
    Ok(name)
}

/// An element's line behind its number.
pub fn element(cursor: &mut Cursor) -> Result<Value, Problem> {
    let mut parts = Parts::default();
    let mut name: Option<String> = None;
    parts.take_mapping(cursor)?;
    while let Some(token) = cursor.peek().cloned() {
        if let Token::Text(text) = token {
            cursor.next();
            set(&mut name, named(text, cursor)?, cursor, "name")?;
        } else if !parts.take(cursor)? {
            let wanted = if parts.is_empty() {
                "a type, as in Unsigned16, or a mapping, as in 6000h/0 at 0 length 2"
            } else {
                "a type, a \"name\", '=', 'room', 'ms' or the end of the line"
            };
            return Err(cursor.expected_next(wanted));
        }
    }
    Ok(Value { name: name.unwrap_or_default(), ..parts.finish(cursor)? })
}
