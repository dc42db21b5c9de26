//! Where bytes stop being text, in plain words.

use crate::quoting;
use loomfinch::{decode, Place, ValueType};

/// How many characters of the text before are shown.
const SHOWN: usize = 20;

/// Why bytes are no text, or none where they are. `what` is what the bytes are.
pub fn why(what: &str, bytes: &[u8]) -> Option<String> {
    let refused = decode(ValueType::VisibleString, bytes).err()?;
    Some(match refused.place {
        Some(Place::Text { at }) => sentence(what, bytes, at),
        _ => refused.to_string(),
    })
}

/// Why no UTF-8 goes on at a byte: `byte 8 of the field, FCh, is no UTF-8 after "Acte II "`.
pub fn sentence(what: &str, bytes: &[u8], at: usize) -> String {
    let at = at.min(bytes.len());
    let begun = begun(&bytes[..at]);
    let before = &bytes[..at - begun.len()];
    let after = after(&String::from_utf8_lossy(before));
    let character = shown(begun);
    let why = match bytes.get(at) {
        Some(byte) if begun.is_empty() => {
            format!("byte {at} of the {what}, {}, is no UTF-8{after}", shown(&[*byte]))
        }
        Some(byte) => {
            let stands = match (after.is_empty(), begun.len()) {
                (true, _) => "",
                (false, 1) => ", which stands",
                (false, _) => ", which stand",
            };
            let byte = shown(&[*byte]);
            format!("byte {at} of the {what}, {byte}, cannot follow {character}{stands}{after}")
        }
        None => {
            format!(
                "the {what} ends at byte {at}, within the character begun by {character}{after}"
            )
        }
    };
    match may_be_latin_1(bytes, before, at) {
        true => format!("{why}; the {what} may be Latin-1"),
        false => why,
    }
}

/// The bytes of the character that bytes, which some text begins with, end within.
fn begun(bytes: &[u8]) -> &[u8] {
    let whole = std::str::from_utf8(bytes).map_or_else(|error| error.valid_up_to(), str::len);
    &bytes[whole..]
}

/// The end of the text before, or nothing where there is none.
fn after(before: &str) -> String {
    let left_out = before.chars().count().saturating_sub(SHOWN);
    let end: String = before.chars().skip(left_out).collect();
    match (end.is_empty(), left_out) {
        (true, _) => String::new(),
        (false, 0) => format!(" after {}", quoting::text(&end)),
        (false, _) => format!(" after ..{}", quoting::text(&end)),
    }
}

/// `E2h 82h`.
fn shown(bytes: &[u8]) -> String {
    bytes.iter().map(|byte| format!("{byte:02X}h")).collect::<Vec<_>>().join(" ")
}

/// Does nothing speak against Latin-1? A character of several bytes does, and a byte that is a control character there, or FFh,
/// which fills memory and begins UTF-16. So does a last byte that begins a Latin letter in UTF-8: the rest was cut off.
fn may_be_latin_1(bytes: &[u8], before: &[u8], at: usize) -> bool {
    let is_foreign = |byte: &u8| matches!(byte, 0x80..=0x9F | 0xFF);
    let is_cut = at == bytes.len() && matches!(bytes.last(), Some(0xC2 | 0xC3));
    before.is_ascii() && !bytes.iter().any(is_foreign) && !is_cut
}

#[cfg(test)]
mod tests {
    use super::*;

    fn assert_said(bytes: &[u8], at: usize, wanted: &str) {
        assert_eq!(sentence("field", bytes, at), wanted, "{bytes:02X?}");
    }

    #[test]
    fn a_byte_that_begins_no_character() {
        assert_said(
            b"Acte II \xFCber",
            8,
            "byte 8 of the field, FCh, is no UTF-8 after \"Acte II \"; the field may be Latin-1",
        );
        assert_said(b"\xFC", 0, "byte 0 of the field, FCh, is no UTF-8; the field may be Latin-1");
        assert_said(b"\x80", 0, "byte 0 of the field, 80h, is no UTF-8");
        assert_said(b"a\xFF\xFF", 1, "byte 1 of the field, FFh, is no UTF-8 after \"a\"");
        assert_said(
            "été \u{7}".as_bytes().iter().chain(&[0xFF]).copied().collect::<Vec<_>>().as_slice(),
            7,
            "byte 7 of the field, FFh, is no UTF-8 after \"été \\u{7}\"",
        );
    }

    #[test]
    fn a_byte_that_does_not_go_on_with_a_character() {
        assert_said(
            b"Acte II \xE9t\xE9",
            9,
            "byte 9 of the field, 74h, cannot follow E9h, which stands after \"Acte II \"; \
             the field may be Latin-1",
        );
        assert_said(b"\xE2\x82\x41", 2, "byte 2 of the field, 41h, cannot follow E2h 82h");
        assert_said(
            b"a\xE2\x82\x41",
            3,
            "byte 3 of the field, 41h, cannot follow E2h 82h, which stand after \"a\"",
        );
        assert_said(b"\xE0\x80", 1, "byte 1 of the field, 80h, cannot follow E0h");
        assert_said(
            b"\xED\xA0",
            1,
            "byte 1 of the field, A0h, cannot follow EDh; the field may be Latin-1",
        );
        assert_said(b"\xF4\x90", 1, "byte 1 of the field, 90h, cannot follow F4h");
    }

    #[test]
    fn a_text_that_ends_within_a_character() {
        assert_said(
            b"Acte II \xE9",
            9,
            "the field ends at byte 9, within the character begun by E9h after \"Acte II \"; \
             the field may be Latin-1",
        );
        assert_said(
            b"Acte II \xC3",
            9,
            "the field ends at byte 9, within the character begun by C3h after \"Acte II \"",
        );
        assert_said(
            b"\xE2\x82",
            2,
            "the field ends at byte 2, within the character begun by E2h 82h",
        );
    }

    #[test]
    fn a_long_text_before_is_shown_by_its_end() {
        let mut field = "é".repeat(144).into_bytes();
        field.extend(b"Acte II \"fin\"\n\xFF");
        assert_said(
            &field,
            302,
            "byte 302 of the field, FFh, is no UTF-8 after ..\"ééééééActe II \\\"fin\\\"\\n\"",
        );
        let mut field = vec![b'a'; 1490];
        field[1489] = 0xFC;
        let end = "a".repeat(20);
        assert_said(
            &field,
            1489,
            &format!("byte 1489 of the field, FCh, is no UTF-8 after ..\"{end}\"; the field may be Latin-1"),
        );
    }
}
