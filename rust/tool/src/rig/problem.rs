//! What is wrong with a rig file, and where.

#[derive(Clone, Debug, PartialEq, Eq)]
pub struct Problem {
    /// The line, from 1; none where the file as a whole is meant.
    pub line: Option<usize>,
    /// The column, from 1, counted in characters; none where the file as a whole is meant.
    pub column: Option<usize>,
    pub text: String,
}

impl Problem {
    pub fn at(line: usize, column: usize, text: impl Into<String>) -> Problem {
        Problem { line: Some(line), column: Some(column), text: text.into() }
    }

    pub fn of_file(text: impl Into<String>) -> Problem {
        Problem { line: None, column: None, text: text.into() }
    }

    /// As a compiler writes it: file, line, column, what is wrong.
    pub fn shown(&self, file: &str) -> String {
        let number = |number: Option<usize>| number.map_or(String::new(), |n| format!(":{n}"));
        format!("{}{}{}: {}", file, number(self.line), number(self.column), self.text)
    }
}
