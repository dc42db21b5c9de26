//! JSON as text.

use std::fmt;

pub enum Json {
    Null,
    Bool(bool),
    Number(i128),
    Text(String),
    List(Vec<Json>),
    /// Members keep their order.
    Object(Vec<(&'static str, Json)>),
}

impl Json {
    pub fn text(text: impl Into<String>) -> Json {
        Json::Text(text.into())
    }

    pub fn number(number: impl Into<i128>) -> Json {
        Json::Number(number.into())
    }

    /// Null where there is nothing.
    pub fn or_null(json: Option<Json>) -> Json {
        json.unwrap_or(Json::Null)
    }

    /// All on one line.
    pub fn on_one_line(&self) -> String {
        let joined = |parts: Vec<String>| parts.join(", ");
        match self {
            Json::List(items) => {
                format!("[{}]", joined(items.iter().map(Json::on_one_line).collect()))
            }
            Json::Object(members) => {
                let member = |(name, value): &(&str, Json)| {
                    format!("{}: {}", Json::text(*name), value.on_one_line())
                };
                format!("{{{}}}", joined(members.iter().map(member).collect()))
            }
            other => other.to_string(),
        }
    }

    fn lines(&self, f: &mut fmt::Formatter, indent: usize) -> fmt::Result {
        match self {
            Json::Null => f.write_str("null"),
            Json::Bool(truth) => write!(f, "{truth}"),
            Json::Number(number) => write!(f, "{number}"),
            Json::Text(text) => quoted(f, text),
            Json::List(items) => {
                let member = |f: &mut fmt::Formatter, item: &Json| item.lines(f, indent + 2);
                enclosed(f, ('[', ']'), items, indent, member)
            }
            Json::Object(members) => {
                enclosed(f, ('{', '}'), members, indent, |f, (name, value)| {
                    quoted(f, name)?;
                    f.write_str(": ")?;
                    value.lines(f, indent + 2)
                })
            }
        }
    }
}

impl fmt::Display for Json {
    fn fmt(&self, f: &mut fmt::Formatter) -> fmt::Result {
        self.lines(f, 0)
    }
}

fn enclosed<T>(
    f: &mut fmt::Formatter,
    marks: (char, char),
    items: &[T],
    indent: usize,
    mut item: impl FnMut(&mut fmt::Formatter, &T) -> fmt::Result,
) -> fmt::Result {
    if items.is_empty() {
        return write!(f, "{}{}", marks.0, marks.1);
    }
    write!(f, "{}", marks.0)?;
    for (k, one) in items.iter().enumerate() {
        write!(f, "{}\n{:2$}", if k == 0 { "" } else { "," }, "", indent + 2)?;
        item(f, one)?;
    }
    write!(f, "\n{:2$}{}", "", marks.1, indent)
}

fn quoted(f: &mut fmt::Formatter, text: &str) -> fmt::Result {
    f.write_str("\"")?;
    for c in text.chars() {
        match c {
            '"' => f.write_str("\\\"")?,
            '\\' => f.write_str("\\\\")?,
            '\n' => f.write_str("\\n")?,
            '\r' => f.write_str("\\r")?,
            '\t' => f.write_str("\\t")?,
            c if u32::from(c) < 0x20 || c == '\u{7F}' => write!(f, "\\u{:04x}", u32::from(c))?,
            c => write!(f, "{c}")?,
        }
    }
    f.write_str("\"")
}

#[cfg(test)]
mod tests {
    use super::*;

    #[test]
    fn strings_are_escaped() {
        let text = Json::text("a \"b\" \\ \n \u{1} é");
        assert_eq!(text.to_string(), "\"a \\\"b\\\" \\\\ \\n \\u0001 é\"");
    }

    #[test]
    fn one_line_is_enough() {
        let json = Json::Object(vec![
            ("z", Json::List(vec![Json::Number(-1), Json::Null])),
            ("a", Json::text("\n")),
        ]);
        assert_eq!(json.on_one_line(), "{\"z\": [-1, null], \"a\": \"\\n\"}");
    }

    #[test]
    fn members_keep_their_order() {
        let json = Json::Object(vec![
            ("z", Json::List(vec![Json::Number(1), Json::Null])),
            ("a", Json::Bool(true)),
            ("none", Json::List(Vec::new())),
        ]);
        assert_eq!(
            json.to_string(),
            "{\n  \"z\": [\n    1,\n    null\n  ],\n  \"a\": true,\n  \"none\": []\n}"
        );
    }
}
