//! Bytes as the stored lines have them.

/// Upper-case digits; `-` is no bytes, since a line's tokens are parted by spaces.
pub fn hex(bytes: &[u8]) -> String {
    if bytes.is_empty() {
        return "-".to_string();
    }
    bytes.iter().map(|byte| format!("{byte:02X}")).collect()
}
