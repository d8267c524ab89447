//! Texts as the real crates have them: a `String` is checked to be UTF-8 and copied once. All inputs are.

pub fn from_bytes(bytes: &[u8]) -> String {
    String::from_utf8(bytes.to_vec()).expect("a text in UTF-8")
}

pub fn to_bytes(text: &str) -> &[u8] {
    text.as_bytes()
}

/// For the check alone.
pub fn hex(text: &str) -> String {
    text.bytes().map(|byte| format!("{byte:02x}")).collect()
}
