// Bytes in hexadecimal, as the stored inputs and answers have them.

pub fn hex(bytes: &[u8]) -> String {
    bytes.iter().map(|byte| format!("{byte:02x}")).collect()
}

/// The text, `-` for an empty one.
pub fn or_dash(text: String) -> String {
    if text.is_empty() { "-".to_string() } else { text }
}
