//! A rig file's lines as objects. A line that is wrong is told, and the others are read on.

use super::cursor::Cursor;
use super::lexer::Token;
use super::numbers;
use super::object;
use super::problem::Problem;
use super::range;
use super::types::Kind;
use super::{Object, Rig, Value, FORM, MANAGING_NODE};
use super::{MOST_BYTES, MOST_ELEMENTS, MOST_OBJECTS, MOST_VALUES};
use crate::broken;
use loomfinch::Edition;

/// What editors of some systems begin a text in UTF-8 with.
const BYTE_ORDER_MARK: &[u8] = "\u{FEFF}".as_bytes();

/// The rig that the bytes of a file describe, or all that is wrong with it, line by line.
pub fn parse(file: &[u8]) -> Result<Rig, Vec<Problem>> {
    let text = text_of(file).map_err(|problem| vec![problem])?;
    let mut reader = Reader::default();
    for (k, line) in text.lines().enumerate() {
        let read = Cursor::new(line, k + 1).and_then(|mut cursor| reader.line(&mut cursor));
        reader.problems.extend(read.err());
    }
    reader.finish_object();
    if reader.rig.objects.is_empty() && reader.problems.is_empty() {
        let text = "expected at least one object, as in 6000h Variable Unsigned16; found none";
        reader.problems.push(Problem::of_file(text));
    }
    if reader.problems.is_empty() {
        return Ok(reader.rig);
    }
    reader.problems.sort_by_key(|problem| (problem.line, problem.column));
    Err(reader.problems)
}

fn text_of(file: &[u8]) -> Result<&str, Problem> {
    let file = file.strip_prefix(BYTE_ORDER_MARK).unwrap_or(file);
    std::str::from_utf8(file).map_err(|error| no_text(file, error.valid_up_to()))
}

/// The error for a file that is text up to a byte.
fn no_text(file: &[u8], end: usize) -> Problem {
    let number = 1 + file[..end].iter().filter(|byte| **byte == b'\n').count();
    let start = file[..end].iter().rposition(|byte| *byte == b'\n').map_or(0, |found| found + 1);
    let column = 1 + String::from_utf8_lossy(&file[start..end]).chars().count();
    let line = file[start..].split(|byte| *byte == b'\n').next().unwrap_or_default();
    let why = broken::why("line", line).unwrap_or_default();
    Problem::at(number, column, format!("expected text in UTF-8: {why}"))
}

#[derive(Default)]
struct Reader {
    rig: Rig,
    /// The line that says the edition, where one does.
    edition_line: Option<usize>,
    open: Open,
    values: usize,
    bytes: usize,
    /// Was a line that is not empty read?
    begun: bool,
    problems: Vec<Problem>,
}

/// The object whose elements may follow.
#[derive(Default)]
enum Open {
    #[default]
    Nothing,
    Object(u16, Box<Object>, Option<range::Said>),
    /// Its own line was wrong: its elements are read, and kept nowhere.
    Broken,
}

impl Reader {
    fn line(&mut self, cursor: &mut Cursor) -> Result<(), Problem> {
        let first = match cursor.next() {
            Some(first) => first,
            None => return Ok(()),
        };
        let is_first = !std::mem::replace(&mut self.begun, true);
        if let Token::Word(word) = &first {
            match word.as_str() {
                "rig" => return form(cursor, is_first),
                "edition" => return self.edition(cursor),
                "node" => return self.node(cursor),
                _ => (),
            }
            let kind = cursor.word_ahead(0).and_then(Kind::of_name);
            match numbers::index(word) {
                Some(number) if kind.is_none() && self.has_elements() && number <= 0xFF => {
                    self.stand_in(number.into());
                    let wanted = format!(
                        "an element's number in decimal, as in {number}, or an object's kind behind its index"
                    );
                    return Err(cursor.expected(&wanted, Some(&first)));
                }
                Some(index) => return self.object(cursor, index),
                None if kind.is_some() => {
                    let wanted = "an index marked as hexadecimal, as in 6000h";
                    self.begin(Open::Broken);
                    return Err(cursor.expected(wanted, Some(&first)));
                }
                None => (),
            }
            if let Some((from, to)) = element_numbers(word) {
                return self.element(cursor, from, to);
            }
        }
        let wanted = "an index, as in 6000h, an element's number, as in 1, 'node' or 'edition'";
        Err(cursor.expected(wanted, Some(&first)))
    }

    /// `edition 2`, behind its first word. Where the line is wrong, counts are no further mistake.
    fn edition(&mut self, cursor: &mut Cursor) -> Result<(), Problem> {
        if let Some(line) = self.edition_line {
            let text = format!("expected one edition, found a second (first on line {line})");
            return Err(cursor.problem(text));
        }
        self.edition_line = Some(cursor.start().0);
        self.rig.edition = Edition::Two;
        if !self.rig.objects.is_empty() || !matches!(self.open, Open::Nothing) {
            return Err(cursor.problem("expected 'edition' before the first object"));
        }
        let token = cursor.next();
        let number = match &token {
            Some(Token::Word(word)) => numbers::unsigned(word),
            _ => None,
        };
        let number = number.and_then(|number| u8::try_from(number).ok());
        self.rig.edition = number.and_then(Edition::from_number).ok_or_else(|| {
            let wanted = "edition 1 or 2 of the mapping rules, as in edition 2";
            cursor.expected(wanted, token.as_ref())
        })?;
        end_of_line(cursor)
    }

    /// `node 5 "Drehbühne"`, behind its first word.
    fn node(&mut self, cursor: &mut Cursor) -> Result<(), Problem> {
        self.begin(Open::Nothing);
        let token = cursor.next();
        let number = match &token {
            Some(Token::Word(word)) => numbers::unsigned(word),
            _ => None,
        };
        let node = number.and_then(|number| u8::try_from(number).ok());
        let node = node.filter(|node| (1..=MANAGING_NODE).contains(node)).ok_or_else(|| {
            cursor.expected("a node from 1 to 240, as in node 5 \"Revolve\"", token.as_ref())
        })?;
        if self.rig.nodes.contains_key(&node) {
            return Err(
                cursor.problem(format!("expected one name for each node, found node {node} again"))
            );
        }
        let name = match cursor.next() {
            Some(Token::Text(text)) => object::named(text, cursor)?,
            other => {
                return Err(cursor.expected("the node's name in double quotes", other.as_ref()))
            }
        };
        self.rig.nodes.insert(node, name);
        end_of_line(cursor)
    }

    /// Is the object above one that has elements?
    fn has_elements(&self) -> bool {
        match &self.open {
            Open::Object(_, object, _) => object.is_list(),
            Open::Broken => true,
            Open::Nothing => false,
        }
    }

    fn object(&mut self, cursor: &mut Cursor, index: u16) -> Result<(), Problem> {
        self.begin(Open::Broken);
        let earlier = self.rig.objects.get(&index).map(|object| object.line);
        let again = earlier.map(|line| {
            let text = format!(
                "expected each index once, found {index:04X}h again (first on line {line})"
            );
            cursor.problem(text)
        });
        self.problems.extend(again);
        let (object, range) = object::object(cursor)?;
        if self.rig.edition == Edition::One {
            self.problems.extend(object.count.map(|count| count.not_kept()));
        }
        if earlier.is_none() {
            self.open = Open::Object(index, Box::new(object), range);
        }
        Ok(())
    }

    fn element(&mut self, cursor: &mut Cursor, from: usize, to: usize) -> Result<(), Problem> {
        let misplaced = match &self.open {
            Open::Object(_, object, _) if object.is_list() => None,
            Open::Object(..) => Some("expected a new object: a Variable has no elements"),
            Open::Nothing => Some("expected an object, as in 1600h Array, before its elements"),
            Open::Broken => return object::element(cursor).map(|_| ()),
        };
        if let Some(text) = misplaced {
            self.begin(Open::Broken);
            return Err(cursor.problem(text));
        }
        let count = match &self.open {
            Open::Object(_, object, _) => object.values.len(),
            _ => 0,
        };
        let misnumbered = misnumbered(count + 1, from, to).map(|text| cursor.problem(text));
        let rising = from <= to && to <= MOST_ELEMENTS;
        self.problems.extend(misnumbered);
        let value = object::element(cursor);
        if let Open::Object(_, object, _) = &mut self.open {
            // What stands in for an element that is wrong is never used: the file is refused.
            let stand_in = || Value::empty();
            let last = if rising { to } else { count + 1 };
            object.values.resize(last, value.as_ref().map_or_else(|_| stand_in(), Value::clone));
        }
        value.map(|_| ())
    }

    /// Counts an element whose line is wrong, so that the next one's number is not.
    fn stand_in(&mut self, number: usize) {
        match &mut self.open {
            Open::Object(_, object, _) if object.values.len() + 1 == number => {
                object.values.push(Value::empty());
            }
            _ => (),
        }
    }

    /// Closes the object above, and begins what follows.
    fn begin(&mut self, next: Open) {
        self.finish_object();
        self.open = next;
    }

    fn finish_object(&mut self) {
        let (index, mut object, range) = match std::mem::take(&mut self.open) {
            Open::Object(index, object, range) => (index, object, range),
            Open::Nothing | Open::Broken => return,
        };
        // What stands in for an element that is wrong has no type that a range could take.
        if self.problems.iter().all(|problem| problem.line < Some(object.line)) {
            self.problems.extend(range.and_then(|range| range.settle(&mut object).err()));
        }
        let before = [self.rig.objects.len(), self.values, self.bytes];
        self.values += object.value_count();
        self.bytes += object.weight();
        let after = [before[0] + 1, self.values, self.bytes];
        let bounds = [
            ("objects", MOST_OBJECTS),
            ("values and defaults", MOST_VALUES),
            ("bytes of names, rooms and defaults", MOST_BYTES),
        ];
        for ((what, most), (before, count)) in bounds.into_iter().zip(before.into_iter().zip(after))
        {
            if before <= most && count > most {
                let text = format!(
                    "expected at most {most} {what} in a rig, found {count} with this object"
                );
                self.problems.push(object.problem(text));
            }
        }
        self.rig.objects.insert(index, *object);
    }
}

fn end_of_line(cursor: &mut Cursor) -> Result<(), Problem> {
    match cursor.next() {
        None => Ok(()),
        other => Err(cursor.expected("the end of the line", other.as_ref())),
    }
}

/// `rig 1`, behind its first word.
fn form(cursor: &mut Cursor, is_first: bool) -> Result<(), Problem> {
    if !is_first {
        return Err(cursor.problem("expected 'rig' and the form's version on the first line only"));
    }
    let token = cursor.next();
    let version = match &token {
        Some(Token::Word(word)) => numbers::unsigned(word),
        _ => None,
    };
    match (version, cursor.peek()) {
        (Some(FORM), None) => Ok(()),
        (Some(FORM), Some(_)) => Err(cursor.expected_next("the end of the line")),
        (Some(other), _) => Err(cursor.problem(format!(
            "expected version {FORM} of the rig form, found {other}: a newer loomfinch may read it"
        ))),
        (None, _) => {
            Err(cursor.expected("the version of the rig form, as in rig 1", token.as_ref()))
        }
    }
}

/// What is wrong with an element's numbers where `next` is to come.
fn misnumbered(next: usize, from: usize, to: usize) -> Option<String> {
    if from != next {
        return Some(format!("expected element {next}, found {from}"));
    }
    let wrong = to < from || to > MOST_ELEMENTS;
    wrong.then(|| {
        format!("expected elements up to {MOST_ELEMENTS} at most, rising, found {from}..{to}")
    })
}

/// `3` or `1..3`.
fn element_numbers(word: &str) -> Option<(usize, usize)> {
    let number =
        |digits: &str| digits.parse().ok().filter(|_| digits.bytes().all(|c| c.is_ascii_digit()));
    match word.split_once("..") {
        Some((from, to)) => number(from).zip(number(to)),
        None => number(word).map(|k| (k, k)),
    }
}
