//! Texts and words of others as messages show them: as they are, but for what a terminal would obey.

/// A text in double quotes, as a rig file writes it.
pub fn text(text: &str) -> String {
    let shown = |c: char| match c {
        '"' | '\\' => format!("\\{c}"),
        c => character(c),
    };
    format!("\"{}\"", text.chars().map(shown).collect::<String>())
}

/// A word in single quotes, to be told from the message around it.
pub fn word(word: &str) -> String {
    format!("'{}'", printable(word))
}

/// What cannot move the cursor, end the line or turn the direction of writing.
pub fn printable(text: &str) -> String {
    text.chars().map(character).collect()
}

fn character(c: char) -> String {
    match c {
        '\n' => "\\n".to_string(),
        '\t' => "\\t".to_string(),
        c if c.is_control() || turns_direction(c) || matches!(c, '\u{2028}' | '\u{2029}') => {
            c.escape_unicode().to_string()
        }
        c => c.to_string(),
    }
}

/// The marks, embeddings, overrides and isolates of Unicode's bidirectional algorithm.
fn turns_direction(c: char) -> bool {
    matches!(c, '\u{61C}' | '\u{200E}' | '\u{200F}' | '\u{202A}'..='\u{202E}' | '\u{2066}'..='\u{2069}')
}

#[cfg(test)]
mod tests {
    use super::*;

    #[test]
    fn only_what_must_be_is_escaped() {
        assert_eq!(text("Durée d'accélération"), "\"Durée d'accélération\"");
        assert_eq!(text("a \"b\" \\ c"), "\"a \\\"b\\\" \\\\ c\"");
        assert_eq!(text("e\u{301}\u{1B}[1m\n"), "\"e\u{301}\\u{1b}[1m\\n\"");
        assert_eq!(text("\u{202E}nekat"), "\"\\u{202e}nekat\"");
        assert_eq!(word("l'été\u{7}"), "'l'été\\u{7}'");
    }
}
