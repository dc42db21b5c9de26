//! Numbers as people write them: 4096, 1000h or 0x1000, with _ between digits where it helps.

/// A number without sign.
pub fn unsigned(word: &str) -> Option<u64> {
    if let Some((number, _)) = hexadecimal(word) {
        return Some(number);
    }
    let digits = joined(word)?;
    let decimal = !digits.is_empty() && digits.bytes().all(|c| c.is_ascii_digit());
    digits.parse().ok().filter(|_| decimal)
}

/// The word without the _ between its digits; none where one stands elsewhere.
fn joined(word: &str) -> Option<String> {
    let digit = |c: Option<&u8>| c.map_or(false, u8::is_ascii_hexdigit);
    let bytes = word.as_bytes();
    let between = |k: usize| {
        bytes[k] != b'_' || (k > 0 && digit(bytes.get(k - 1)) && digit(bytes.get(k + 1)))
    };
    Some(word.replace('_', "")).filter(|_| (0..bytes.len()).all(between))
}

/// A number that is marked as hexadecimal, and how many digits it has.
pub fn hexadecimal(word: &str) -> Option<(u64, usize)> {
    let word = joined(word)?;
    let digits = hex_digits(&word)?;
    u64::from_str_radix(digits, 16).ok().map(|number| (number, digits.len()))
}

/// A number with a sign before it, or none.
pub fn signed(word: &str) -> Option<i128> {
    match word.strip_prefix('-') {
        Some(digits) => unsigned(digits).map(|n| -i128::from(n)),
        None => unsigned(word.strip_prefix('+').unwrap_or(word)).map(i128::from),
    }
}

/// A mapping version in its two hexadecimal digits: 1.2.
pub fn version(word: &str) -> Option<u8> {
    let (main, sub) = word.split_once('.')?;
    let digit = |digits: &str| match digits.as_bytes() {
        [digit] => char::from(*digit).to_digit(16).map(|digit| digit as u8),
        _ => None,
    };
    Some(digit(main)? << 4 | digit(sub)?)
}

/// A place: 6000h/0, or 6000h, which is the same.
pub fn place(word: &str) -> Option<(u16, u8)> {
    let (first, sub_index) = word.split_once('/').unwrap_or((word, "0"));
    let sub_index = unsigned(sub_index).and_then(|number| u8::try_from(number).ok());
    index(first).zip(sub_index)
}

/// An index: hexadecimal, and marked so.
pub fn index(word: &str) -> Option<u16> {
    hex_digits(word).and_then(|hex| u16::from_str_radix(hex, 16).ok())
}

/// The digits of a word that says it is hexadecimal.
fn hex_digits(word: &str) -> Option<&str> {
    let marked = word.strip_prefix("0x").or_else(|| word.strip_prefix("0X"));
    let hex = marked.or_else(|| word.strip_suffix('h').or_else(|| word.strip_suffix('H')))?;
    let right = !hex.is_empty() && hex.bytes().all(|c| c.is_ascii_hexdigit());
    Some(hex).filter(|_| right)
}

#[cfg(test)]
mod tests {
    use super::*;

    #[test]
    fn decimal_and_hexadecimal() {
        assert_eq!(unsigned("90_000"), Some(90_000));
        assert_eq!(unsigned("10h"), Some(16));
        assert_eq!(unsigned("0x10"), Some(16));
        assert_eq!(unsigned("18446744073709551615"), Some(u64::MAX));
        assert_eq!(signed("-128"), Some(-128));
        assert_eq!(index("6000h"), Some(0x6000));
        assert_eq!(index("0x6000"), Some(0x6000));
    }

    #[test]
    fn what_is_no_number() {
        for word in [
            "",
            "h",
            "0x",
            "+5",
            "1F",
            "1.5",
            "-1",
            "18446744073709551616",
            "_",
            "é",
            "_5",
            "5_",
            "5__0",
            "0x_5",
            "5_h",
        ] {
            assert_eq!(unsigned(word), None, "{word}");
        }
        for word in ["6000", "16000h", "g000h"] {
            assert_eq!(index(word), None, "{word}");
        }
    }
}
