//! A place among the tokens of one line.

use super::lexer::{self, Placed, Token};
use super::numbers;
use super::problem::Problem;

pub struct Cursor {
    tokens: Vec<Placed>,
    at: usize,
    /// The token that was taken last: problems name its column.
    taken: usize,
    line: usize,
    /// The column behind the line's last token.
    end: usize,
}

impl Cursor {
    pub fn new(text: &str, line: usize) -> Result<Cursor, Problem> {
        let (tokens, end) = lexer::tokens(text, line)?;
        Ok(Cursor { tokens, at: 0, taken: 0, line, end })
    }

    pub fn peek(&self) -> Option<&Token> {
        self.tokens.get(self.at).map(|found| &found.0)
    }

    pub fn next(&mut self) -> Option<Token> {
        let token = self.peek().cloned();
        self.taken = self.at;
        self.at += usize::from(token.is_some());
        token
    }

    /// The word so many tokens ahead, where there is one.
    pub fn word_ahead(&self, ahead: usize) -> Option<&str> {
        match self.tokens.get(self.at + ahead) {
            Some((Token::Word(word), _)) => Some(word),
            _ => None,
        }
    }

    /// Passes over the word if it comes next.
    pub fn skip_word(&mut self, wanted: &str) -> bool {
        let found = self.word_ahead(0).map_or(false, |word| word.eq_ignore_ascii_case(wanted));
        if found {
            self.next();
        }
        found
    }

    /// Takes up to `most` words that fit.
    pub fn take_words(&mut self, most: usize, fits: impl Fn(&str) -> bool) -> Vec<String> {
        let mut taken = Vec::new();
        while taken.len() < most {
            match self.word_ahead(0) {
                Some(word) if fits(word) => taken.push(word.to_string()),
                _ => break,
            }
            self.at += 1;
        }
        taken
    }

    /// A 64-bit word in four groups, as 0010 0000 0000 6000h, of which the first was taken already.
    pub fn grouped_word(&mut self, first: &str) -> Option<u64> {
        let groups = [first, self.word_ahead(0)?, self.word_ahead(1)?];
        let is_group =
            |group: &&str| group.len() == 4 && group.bytes().all(|c| c.is_ascii_hexdigit());
        let (last, digits) = numbers::hexadecimal(self.word_ahead(2)?)?;
        if digits != 4 || !groups.iter().all(is_group) {
            return None;
        }
        let high = u64::from_str_radix(&groups.concat(), 16).ok()?;
        self.at += 3;
        Some(high << 16 | last)
    }

    /// The error for something else than what was wanted at the token that was taken last; none found is the line's end.
    pub fn expected(&self, wanted: &str, found: Option<&Token>) -> Problem {
        let shown = found.map_or("the end of the line".to_string(), Token::shown);
        self.problem(format!("expected {wanted}, found {shown}"))
    }

    /// The error for something else than what was wanted next.
    pub fn expected_next(&mut self, wanted: &str) -> Problem {
        let found = self.next();
        self.expected(wanted, found.as_ref())
    }

    /// An error at the token that was taken last.
    pub fn problem(&self, text: impl Into<String>) -> Problem {
        let (line, column) = self.place();
        Problem::at(line, column, text)
    }

    /// The line, and the column of the token that was taken last.
    pub fn place(&self) -> (usize, usize) {
        (self.line, self.tokens.get(self.taken).map_or(self.end, |found| found.1))
    }

    /// An error of the line as a whole, at its beginning.
    pub fn problem_of_line(&self, text: impl Into<String>) -> Problem {
        let (line, column) = self.start();
        Problem::at(line, column, text)
    }

    /// The line, and the column where its first token begins.
    pub fn start(&self) -> (usize, usize) {
        (self.line, self.tokens.first().map_or(1, |found| found.1))
    }
}
