//! Any bytes as a `String`, and back to the same bytes, so that the session stays in step where a
//! text is not UTF-8. A byte that is no part of well-formed UTF-8 becomes one character from
//! U+10FF00 on. Those characters themselves are taken apart into bytes likewise, so no two texts meet.

use std::cell::Cell;

const BASE: u32 = 0x10FF00;

thread_local!(static ILL_FORMED: Cell<bool> = const { Cell::new(false) });

/// Was a text met since the last asking that is not UTF-8?
pub fn took_ill_formed() -> bool {
    ILL_FORMED.take()
}

fn note(bytes: &[u8]) {
    if std::str::from_utf8(bytes).is_err() {
        ILL_FORMED.set(true);
    }
}

fn hidden(byte: u8) -> char {
    char::from_u32(BASE + byte as u32).unwrap()
}

pub fn from_bytes(bytes: &[u8]) -> String {
    note(bytes);
    let mut text = String::new();
    for chunk in bytes.utf8_chunks() {
        for c in chunk.valid().chars() {
            if c as u32 >= BASE {
                text.extend(c.encode_utf8(&mut [0; 4]).bytes().map(hidden));
            } else {
                text.push(c);
            }
        }
        text.extend(chunk.invalid().iter().map(|b| hidden(*b)));
    }
    text
}

pub fn to_bytes(text: &str) -> Vec<u8> {
    let mut bytes = Vec::new();
    for c in text.chars() {
        if c as u32 >= BASE {
            bytes.push((c as u32 - BASE) as u8);
        } else {
            bytes.extend(c.encode_utf8(&mut [0; 4]).bytes());
        }
    }
    note(&bytes);
    bytes
}

/// Lower-case hex, `-` where empty.
pub fn hex(text: &str) -> String {
    let bytes = to_bytes(text);
    if bytes.is_empty() {
        return "-".to_string();
    }
    hex_of(&bytes)
}

pub fn hex_of(bytes: &[u8]) -> String {
    let digit = |x: u8| char::from_digit(x as u32, 16).unwrap();
    bytes.iter().flat_map(|b| [digit(b >> 4), digit(b & 15)]).collect()
}
