//! A line of a rig file as tokens, each with the column where it begins.

use super::problem::Problem;
use crate::quoting;

#[derive(Clone, Debug, PartialEq, Eq)]
pub enum Token {
    /// A name, a number, an index, a target.
    Word(String),
    /// Text between double quotes.
    Text(String),
    /// Bytes between square brackets.
    Bytes(Vec<u8>),
    Equals,
}

impl Token {
    /// The token as an error message quotes it.
    pub fn shown(&self) -> String {
        match self {
            Token::Word(word) => quoting::word(word),
            Token::Text(text) => format!("the text {}", quoting::text(text)),
            Token::Bytes(bytes) => format!("{} in brackets", crate::words::bytes(bytes.len())),
            Token::Equals => "'='".to_string(),
        }
    }
}

/// The most bytes that brackets may hold: no room is larger.
const MOST_BYTES: usize = 1490;

/// A token, and the column where it begins.
pub type Placed = (Token, usize);

/// The tokens of a line, and the column behind the last; what follows a # outside of quotes is a comment.
pub fn tokens(line: &str, number: usize) -> Result<(Vec<Placed>, usize), Problem> {
    let mut scanner = Scanner { rest: line, line: number, column: 1 };
    let mut found = Vec::new();
    loop {
        let end = 1 + line[..line.len() - scanner.rest.len()].chars().count();
        scanner.rest = scanner.rest.trim_start();
        scanner.column = 1 + line[..line.len() - scanner.rest.len()].chars().count();
        let token = match scanner.rest.chars().next() {
            None | Some('#') => return Ok((found, end)),
            Some('=') => {
                scanner.skip(1);
                Token::Equals
            }
            Some('"') => Token::Text(scanner.text()?),
            Some('[') => Token::Bytes(scanner.bytes()?),
            Some(_) => Token::Word(scanner.word()),
        };
        found.push((token, scanner.column));
    }
}

struct Scanner<'a> {
    rest: &'a str,
    line: usize,
    /// Where the token begins that is scanned.
    column: usize,
}

impl<'a> Scanner<'a> {
    fn problem(&self, text: impl Into<String>) -> Problem {
        Problem::at(self.line, self.column, text)
    }

    fn skip(&mut self, bytes: usize) {
        self.rest = &self.rest[bytes..];
    }

    fn word(&mut self) -> String {
        let ends = |c: char| c.is_whitespace() || "=\"[#".contains(c);
        let end = self.rest.find(ends).unwrap_or(self.rest.len());
        let word = self.rest[..end].to_string();
        self.skip(end);
        word
    }

    fn text(&mut self) -> Result<String, Problem> {
        let mut text = String::new();
        let mut chars = self.rest.char_indices().skip(1);
        while let Some((at, c)) = chars.next() {
            match c {
                '"' => {
                    self.skip(at + 1);
                    return Ok(text);
                }
                '\\' => text.push(self.escaped(chars.next().map(|next| next.1))?),
                _ => text.push(c),
            }
        }
        Err(self.problem("expected a closing \" for the text that begins on this line"))
    }

    fn escaped(&self, c: Option<char>) -> Result<char, Problem> {
        match c {
            Some('"') => Ok('"'),
            Some('\\') => Ok('\\'),
            Some('n') => Ok('\n'),
            Some('t') => Ok('\t'),
            _ => Err(self.problem("expected \\\", \\\\, \\n or \\t after a \\ in a text")),
        }
    }

    /// Pairs of hexadecimal digits; `00 * 32` is a byte 32 times.
    fn bytes(&mut self) -> Result<Vec<u8>, Problem> {
        let end = match self.rest.find(']') {
            Some(end) => end,
            None => {
                return Err(
                    self.problem("expected a closing ] for the bytes that begin on this line")
                )
            }
        };
        let inside = self.rest[1..end].replace('*', " * ");
        self.skip(end + 1);
        let mut bytes = Vec::new();
        let mut words = inside.split_whitespace();
        while let Some(word) = words.next() {
            if word == "*" {
                self.repeat(&mut bytes, words.next())?;
            } else {
                self.pairs(&mut bytes, word)?;
            }
            if bytes.len() > MOST_BYTES {
                return Err(
                    self.problem(format!("expected at most {MOST_BYTES} bytes in brackets"))
                );
            }
        }
        Ok(bytes)
    }

    fn repeat(&self, bytes: &mut Vec<u8>, times: Option<&str>) -> Result<(), Problem> {
        let times = times
            .and_then(|word| word.parse::<usize>().ok())
            .filter(|n| (1..=MOST_BYTES).contains(n));
        match (bytes.last().copied(), times) {
            (Some(byte), Some(times)) => {
                bytes.resize(bytes.len() - 1 + times, byte);
                Ok(())
            }
            _ => Err(self.problem(
                "expected a byte before * and a count of 1 to 1490 behind it, as in [00 * 32]",
            )),
        }
    }

    fn pairs(&self, bytes: &mut Vec<u8>, word: &str) -> Result<(), Problem> {
        match hex_bytes(word) {
            Some(more) => bytes.extend(more),
            None => {
                let found = format!(
                    "expected pairs of hexadecimal digits in brackets, as in [C4 09], found {}",
                    quoting::word(word)
                );
                return Err(self.problem(found));
            }
        }
        Ok(())
    }
}

/// The bytes that pairs of hexadecimal digits say; none where they are not.
pub fn hex_bytes(digits: &str) -> Option<Vec<u8>> {
    if digits.len() % 2 != 0 || !digits.bytes().all(|c| c.is_ascii_hexdigit()) {
        return None;
    }
    (0..digits.len() / 2).map(|k| u8::from_str_radix(&digits[2 * k..2 * k + 2], 16).ok()).collect()
}

#[cfg(test)]
mod tests {
    use super::*;

    fn word(text: &str) -> Token {
        Token::Word(text.to_string())
    }

    #[test]
    fn words_texts_bytes_and_comments() {
        let line = "6000h Variable \"Ramp # \\\"1\\\"\"=[C409 00*3] ms # the rest";
        let wanted = vec![
            word("6000h"),
            word("Variable"),
            Token::Text("Ramp # \"1\"".to_string()),
            Token::Equals,
            Token::Bytes(vec![0xC4, 9, 0, 0, 0]),
            word("ms"),
        ];
        let (found, end) = tokens(line, 1).unwrap();
        assert_eq!(end, 45);
        assert_eq!(found.iter().map(|found| found.1).collect::<Vec<_>>(), [1, 7, 16, 30, 31, 43]);
        assert_eq!(found.into_iter().map(|found| found.0).collect::<Vec<_>>(), wanted);
        assert_eq!(tokens("   # nothing", 1), Ok((Vec::new(), 1)));
    }

    #[test]
    fn what_is_not_closed_names_its_line() {
        for (line, wanted) in [
            ("\"Ramp", "expected a closing \""),
            ("[00 01", "expected a closing ]"),
            ("[0]", "expected pairs of hexadecimal digits"),
            ("[* 3]", "expected a byte before *"),
            ("[00 * 1491]", "expected a byte before *"),
            ("[00 * 1490 11]", "expected at most 1490 bytes"),
            ("\"a\\q\"", "expected \\\""),
        ] {
            let problem = tokens(line, 7).unwrap_err();
            assert_eq!(problem.line, Some(7), "{line}");
            assert!(problem.text.starts_with(wanted), "{}: {}", line, problem.text);
        }
    }
}
