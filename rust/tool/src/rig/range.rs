//! An object's range: what a line says of it, and what it means for values.

use super::cursor::Cursor;
use super::lexer::Token;
use super::numbers;
use super::problem::Problem;
use super::types::{bounds, is_unsigned, type_of_name};
use super::{Kind, Object, Value};
use crate::words;
use loomfinch::ValueType;
use std::cmp::Ordering;

/// The least and the greatest number that a write may put where the type is the range's.
#[derive(Clone, Copy, Debug, PartialEq, Eq)]
pub struct Range {
    pub of: ValueType,
    pub least: i128,
    pub greatest: i128,
}

impl Range {
    /// Does a value lie below the range, above it, or, as one of another type always, within?
    pub fn side(&self, value: &Value) -> Ordering {
        let number = match value.integer() {
            Some(number) if value.of == self.of => number,
            _ => return Ordering::Equal,
        };
        if number < self.least {
            Ordering::Less
        } else if number > self.greatest {
            Ordering::Greater
        } else {
            Ordering::Equal
        }
    }

    /// Does a number of the range's type lie outside it?
    pub fn can_be_passed(&self) -> bool {
        bounds(self.of) != Some((self.least, self.greatest))
    }

    /// The encodings of the two ends.
    pub fn ends(&self) -> [Vec<u8>; 2] {
        let size = self.of.size().unwrap_or(0);
        [self.least, self.greatest].map(|end| end.to_le_bytes()[..size].to_vec())
    }
}

/// A range as an object's line says it. Its numbers are read when all values are there, since they may give it its type.
pub struct Said {
    of: Option<ValueType>,
    least: End,
    greatest: End,
    milliseconds: bool,
    /// Where the range begins.
    place: (usize, usize),
}

struct End {
    word: String,
    place: (usize, usize),
}

/// `range Unsigned32 0 ms to 60000 ms`, behind its first word.
pub fn said(cursor: &mut Cursor) -> Result<Said, Problem> {
    let place = cursor.place();
    let of = cursor.word_ahead(0).and_then(type_of_name);
    if let Some(of) = of {
        let token = cursor.next();
        if bounds(of).is_none() {
            let wanted = "an integer type behind 'range', as in range Unsigned32 0 to 60000";
            return Err(cursor.expected(wanted, token.as_ref()));
        }
    }
    let least = end(cursor, "the range's least number, as in range 0 to 60000")?;
    let mut milliseconds = cursor.skip_word("ms");
    if !cursor.skip_word("to") {
        return Err(cursor.expected_next("'to' and the range's greatest number"));
    }
    let greatest = end(cursor, "the range's greatest number behind 'to'")?;
    milliseconds |= cursor.skip_word("ms");
    Ok(Said { of, least, greatest, milliseconds, place })
}

fn end(cursor: &mut Cursor, wanted: &str) -> Result<End, Problem> {
    match cursor.next() {
        Some(Token::Word(word)) => Ok(End { word, place: cursor.place() }),
        other => Err(cursor.expected(wanted, other.as_ref())),
    }
}

impl Said {
    /// Gives the range to its object, whose values are all there. Where it is one of times, so are the values of its type.
    pub fn settle(&self, object: &mut Object) -> Result<(), Problem> {
        let of = match self.of.or_else(|| common_type(&object.values)) {
            Some(of) => of,
            None => return Err(self.problem(untyped(object))),
        };
        if self.milliseconds && !is_unsigned(of) {
            let of = words::type_with_article(of);
            let text = format!("expected 'ms' only in a range of an Unsigned type, found {of}");
            return Err(self.problem(text));
        }
        let (least, greatest) = (self.least.number(of)?, self.greatest.number(of)?);
        if least > greatest {
            let text = format!(
                "expected a range from its least to its greatest number, found {least} to {greatest}"
            );
            return Err(self.problem(text));
        }
        object.range = Some(Range { of, least, greatest });
        for value in object.values.iter_mut().filter(|value| value.of == of) {
            value.milliseconds |= self.milliseconds;
        }
        Ok(())
    }

    fn problem(&self, text: String) -> Problem {
        Problem::at(self.place.0, self.place.1, text)
    }
}

impl End {
    fn number(&self, of: ValueType) -> Result<i128, Problem> {
        let number = match is_unsigned(of) {
            true => numbers::unsigned(&self.word).map(i128::from),
            false => numbers::signed(&self.word),
        };
        let within = |number: &i128| {
            bounds(of).map_or(false, |(least, greatest)| (least..=greatest).contains(number))
        };
        number.filter(within).ok_or_else(|| {
            let text = format!(
                "expected {} for {}, found {}",
                words::numbers_of(of),
                words::type_with_article(of),
                Token::Word(self.word.clone()).shown()
            );
            Problem::at(self.place.0, self.place.1, text)
        })
    }
}

/// The one integer type that all values have.
fn common_type(values: &[Value]) -> Option<ValueType> {
    let of = values.first()?.of;
    Some(of).filter(|of| bounds(*of).is_some() && values.iter().all(|value| value.of == *of))
}

fn untyped(object: &Object) -> String {
    let why = match (object.kind, object.values.first()) {
        (Kind::Variable, Some(value)) => {
            format!("{} is no integer", words::type_with_article(value.of))
        }
        _ => "the elements are not all of one integer type".to_string(),
    };
    format!("expected a type behind 'range', as in range Unsigned32 0 to 60000: {why}")
}

#[cfg(test)]
mod tests {
    use super::super::parse;
    use super::*;

    fn object(text: &str) -> Object {
        let rig = parse(text.as_bytes()).unwrap_or_else(|found| panic!("{text}: {found:?}"));
        rig.objects[&0x6000].clone()
    }

    #[test]
    fn a_range_takes_the_type_that_all_values_have() {
        use ValueType::*;
        for (text, of, least, greatest) in [
            ("6000h Variable U32 range 0 to 60000", Unsigned32, 0, 60_000),
            ("6000h Variable range 0 to 60_000 \"Time\" U32 = 7", Unsigned32, 0, 60_000),
            ("6000h Variable U16 range Unsigned32 0 to 60000", Unsigned32, 0, 60_000),
            ("6000h Variable I8 range -80h to 7Fh", Integer8, -128, 127),
            ("6000h Variable U64 range 1 to 0xFFFFFFFFFFFFFFFF", Unsigned64, 1, u64::MAX.into()),
            ("6000h Array range 5 to 5 rws\n1..3 I16\n4 I16", Integer16, 5, 5),
            ("6000h Record range U8 0 to 9\n1 U8\n2 U16", Unsigned8, 0, 9),
            ("6000h Array range U8 0 to 9", Unsigned8, 0, 9),
        ] {
            assert_eq!(object(text).range, Some(Range { of, least, greatest }), "{text}");
        }
        assert_eq!(object("6000h Variable U32").range, None);
    }

    #[test]
    fn a_range_of_times_makes_times_of_its_values() {
        let times =
            |text: &str| object(text).values.iter().map(|value| value.milliseconds).collect();
        let list: Vec<bool> =
            times("6000h Record range U32 0 ms to 60000 ms\n1 U32\n2 U16\n3 U32 ms");
        assert_eq!(list, [true, false, true]);
        for (range, wanted) in [("0 to 9 ms", true), ("0 ms to 9", true), ("0 to 9", false)] {
            let one: Vec<bool> = times(&format!("6000h Variable U16 range {range}"));
            assert_eq!(one, [wanted], "{range}");
        }
    }

    #[test]
    fn errors_name_the_place_and_what_was_expected() {
        let example = "as in range Unsigned32 0 to 60000";
        let untyped = format!("expected a type behind 'range', {example}: ");
        let mixed = format!("{untyped}the elements are not all of one integer type");
        for (text, line, column, wanted) in [
            ("6000h Variable U8 range 0 to 256", 1, 30, "expected a number from 0 to 255 for an Unsigned8, found '256'"),
            ("6000h Variable I8 range -129 to 0", 1, 25, "expected a number from -128 to 127 for an Integer8, found '-129'"),
            ("6000h Variable U64 range -1 to 9", 1, 26, "expected a number from 0 to 18446744073709551615 for an Unsigned64, found '-1'"),
            ("6000h Variable U8 range 2 to 1", 1, 19, "expected a range from its least to its greatest number, found 2 to 1"),
            ("6000h Variable I8 range 7Fh to -80h", 1, 19, "expected a range from its least to its greatest number, found 127 to -128"),
            ("6000h Variable U8 range Real32 0 to 1", 1, 25, &format!("expected an integer type behind 'range', {example}, found 'Real32'")),
            ("6000h Variable U8 range 0 - 1", 1, 27, "expected 'to' and the range's greatest number, found '-'"),
            ("6000h Variable U8 range 0", 1, 26, "expected 'to' and the range's greatest number, found the end of the line"),
            ("6000h Variable U8 range", 1, 24, "expected the range's least number, as in range 0 to 60000, found the end of the line"),
            ("6000h Variable U8 range 0 to", 1, 29, "expected the range's greatest number behind 'to', found the end of the line"),
            ("6000h Variable U8 range 0 to 1 range 0 to 1", 1, 43, "expected one range, found a second"),
            ("6000h Variable Real32 range 0 to 1", 1, 23, &format!("{untyped}a Real32 is no integer")),
            ("6000h Variable I16 range 0 ms to 1 ms", 1, 20, "expected 'ms' only in a range of an Unsigned type, found an Integer16"),
            ("# two\n6000h Array range 0 to 1\n1 U8\n2 U16\n6001h Variable U8", 2, 13, &mixed),
            ("6000h Array range 0 to 1\n1 Boolean", 1, 13, &mixed),
            ("6000h Array range 0 to 1", 1, 13, &mixed),
            ("6000h Array\n1 U8 range 0 to 1", 2, 6, "expected a type, a \"name\", '=', 'room', 'ms' or the end of the line, found 'range'"),
        ] {
            let problems = parse(text.as_bytes()).unwrap_err();
            assert_eq!(problems, [Problem::at(line, column, wanted)], "{text}");
        }
    }

    #[test]
    fn a_wrong_element_is_told_alone() {
        let problems = parse(b"6000h Array range 0 to 1\n1 U16\n2 U61\n").unwrap_err();
        let lines: Vec<Option<usize>> = problems.iter().map(|problem| problem.line).collect();
        assert_eq!(lines, [Some(3)]);
    }

    #[test]
    fn values_below_within_and_above() {
        let side = |of: &str, range: &str, value: &str| {
            let object = object(&format!("6000h Variable {of} range {range} = {value}"));
            object.range.unwrap().side(&object.values[0])
        };
        assert_eq!(side("I8", "-1 to 1", "-128"), Ordering::Less);
        assert_eq!(side("I8", "-1 to 1", "-1"), Ordering::Equal);
        assert_eq!(side("I8", "-1 to 1", "2"), Ordering::Greater);
        assert_eq!(side("U64", "1 to 0xFFFFFFFFFFFFFFFE", "0xFFFFFFFFFFFFFFFF"), Ordering::Greater);
        assert_eq!(side("U64", "1 to 0xFFFFFFFFFFFFFFFE", "0"), Ordering::Less);
        assert_eq!(side("U16", "U8 0 to 1", "9"), Ordering::Equal);
    }

    #[test]
    fn the_whole_type_cannot_be_passed() {
        let passable = |text: &str| object(text).range.unwrap().can_be_passed();
        assert!(!passable("6000h Variable I8 range -128 to 127"));
        assert!(!passable("6000h Variable U64 range 0 to 0xFFFFFFFFFFFFFFFF"));
        assert!(passable("6000h Variable U8 range 0 to 254"));
        assert!(passable("6000h Variable U8 range 1 to 255"));
    }
}
