//! A value as a rig file writes it, turned into the bytes of its type.

use super::cursor::Cursor;
use super::lexer::Token;
use super::numbers;
use super::problem::Problem;
use crate::broken;
use crate::words;
use loomfinch::ValueType;

/// The encoding of the value that stands at the cursor.
pub fn value(cursor: &mut Cursor, of: ValueType) -> Result<Vec<u8>, Problem> {
    let token = match cursor.next() {
        Some(token) => token,
        None => return Err(cursor.expected(&expectation(of), None)),
    };
    let encoded = match &token {
        Token::Bytes(bytes) => return raw(cursor, of, bytes.clone()),
        Token::Text(text) => of_text(of, text),
        Token::Word(word) => of_word(cursor, of, word),
        Token::Equals => None,
    };
    encoded.ok_or_else(|| cursor.expected(&expectation(of), Some(&token)))
}

/// Bytes in brackets stand for themselves, for any type.
fn raw(cursor: &Cursor, of: ValueType, bytes: Vec<u8>) -> Result<Vec<u8>, Problem> {
    let no_text = match of {
        ValueType::VisibleString => broken::why("text", &bytes),
        _ => None,
    };
    if let Some(why) = no_text {
        let of = words::type_with_article(of);
        let text = format!("expected text in UTF-8 in the brackets for {of}: {why}");
        return Err(cursor.problem(text));
    }
    let fault = match of.size() {
        Some(size) if size != bytes.len() => Some(format!("{} in brackets", words::bytes(size))),
        None if of == ValueType::UnicodeString && bytes.len() % 2 != 0 => {
            Some("an even number of bytes in the brackets".to_string())
        }
        _ => None,
    };
    match fault {
        Some(wanted) => {
            let wanted = format!("{} for {}", wanted, words::type_with_article(of));
            Err(cursor.expected(&wanted, Some(&Token::Bytes(bytes))))
        }
        None => Ok(bytes),
    }
}

fn of_text(of: ValueType, text: &str) -> Option<Vec<u8>> {
    match of {
        ValueType::VisibleString => Some(text.as_bytes().to_vec()),
        ValueType::UnicodeString => Some(text.encode_utf16().flat_map(u16::to_le_bytes).collect()),
        _ => None,
    }
}

fn of_word(cursor: &mut Cursor, of: ValueType, word: &str) -> Option<Vec<u8>> {
    use ValueType::*;
    let size = of.size()?;
    match of {
        Boolean => match word.to_ascii_lowercase().as_str() {
            "true" => Some(vec![1]),
            "false" => Some(vec![0]),
            _ => unsigned(word, size),
        },
        Integer8 | Integer16 | Integer32 | Integer64 => signed(word, size),
        Unsigned64 => cursor
            .grouped_word(word)
            .map(|n| n.to_le_bytes().to_vec())
            .or_else(|| unsigned(word, size)),
        Real32 | Real64 => real(word, size),
        TimeOfDay | TimeDifference => parts(cursor, word, &[("ms", 4), ("days", 2)]),
        NetTime => parts(cursor, word, &[("s", 4), ("ns", 4)]),
        RelativeTime => parts(cursor, word, &[("us", 8)]).or_else(|| unsigned(word, size)),
        MacAddress => separated(word, ':', 16, size),
        IpAddress => separated(word, '.', 10, size),
        _ => unsigned(word, size),
    }
}

fn unsigned(word: &str, size: usize) -> Option<Vec<u8>> {
    let bytes = numbers::unsigned(word)?.to_le_bytes();
    Some(bytes[..size].to_vec()).filter(|_| bytes[size..].iter().all(|byte| *byte == 0))
}

fn signed(word: &str, size: usize) -> Option<Vec<u8>> {
    let number = numbers::signed(word)?;
    let half = 1i128 << (8 * size - 1);
    Some(number.to_le_bytes()[..size].to_vec()).filter(|_| (-half..half).contains(&number))
}

/// A decimal number, or its bits in hexadecimal.
fn real(word: &str, size: usize) -> Option<Vec<u8>> {
    if numbers::hexadecimal(word).is_some() {
        return unsigned(word, size);
    }
    if !word.bytes().all(|c| c.is_ascii_digit() || b"+-.eE".contains(&c)) {
        return None;
    }
    if size == 4 {
        let number: f32 = word.parse().ok()?;
        Some(number.to_le_bytes().to_vec()).filter(|_| number.is_finite())
    } else {
        let number: f64 = word.parse().ok()?;
        Some(number.to_le_bytes().to_vec()).filter(|_| number.is_finite())
    }
}

/// Numbers, each with its unit behind it, in the order in which they travel; units left out are 0.
fn parts(cursor: &mut Cursor, first: &str, units: &[(&str, usize)]) -> Option<Vec<u8>> {
    let mut words = vec![first.to_string()];
    words.extend(cursor.take_words(2 * units.len() - 1, |word| {
        numbers::unsigned(word).is_some() || units.iter().any(|unit| unit.0 == word)
    }));
    let mut rest = words.as_slice();
    let mut encoded = Vec::new();
    for (unit, size) in units {
        match rest {
            [number, name, behind @ ..] if name == unit => {
                encoded.extend(unsigned(number, *size)?);
                rest = behind;
            }
            _ => encoded.resize(encoded.len() + size, 0),
        }
    }
    Some(encoded).filter(|_| rest.is_empty())
}

fn separated(word: &str, mark: char, radix: u32, size: usize) -> Option<Vec<u8>> {
    let parts: Vec<&str> = word.split(mark).collect();
    let is_number =
        |part: &&str| (1..=3).contains(&part.len()) && part.chars().all(|c| c.is_digit(radix));
    if parts.len() != size || !parts.iter().all(is_number) {
        return None;
    }
    parts.iter().map(|part| u8::from_str_radix(part, radix).ok()).collect()
}

/// What a value of a type looks like, for an error message.
fn expectation(of: ValueType) -> String {
    use ValueType::*;
    let form = match of {
        Boolean => "true, false or a number from 0 to 255".to_string(),
        Integer8 | Integer16 | Integer32 | Integer64 | Unsigned8 | Unsigned16 | Unsigned32 => {
            words::numbers_of(of)
        }
        Unsigned64 => format!(
            "{}, a mapping (6000h/0 at 0 length 2) or a mapping word (0010 0000 0000 6000h)",
            words::numbers_of(of)
        ),
        Real32 | Real64 => "a decimal number in its range, or its bits as 3F800000h".to_string(),
        VisibleString | UnicodeString => "text in double quotes".to_string(),
        OctetString | Domain => "bytes in brackets, as in [C4 09] or [00 * 32]".to_string(),
        TimeOfDay | TimeDifference => {
            "milliseconds and up to 65535 days, as in 3600000 ms 15000 days".to_string()
        }
        NetTime => "seconds and nanoseconds, as in 12 s 500 ns".to_string(),
        RelativeTime => "microseconds, as in 1500 us".to_string(),
        MacAddress => "an address, as in 00:60:65:01:02:03".to_string(),
        IpAddress => "an address, as in 192.168.100.5".to_string(),
    };
    format!("{} for {}", form, words::type_with_article(of))
}
