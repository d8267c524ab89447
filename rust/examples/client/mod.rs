//! What a client sends, spelled in AMF0: just enough for the examples and the tests.

#![allow(dead_code)] // each of them uses a part

pub fn string(text: &[u8]) -> Vec<u8> {
    [&[0x02], &(text.len() as u16).to_be_bytes()[..], text].concat()
}

pub fn number(n: f64) -> Vec<u8> {
    [&[0x00], &n.to_be_bytes()[..]].concat()
}

pub fn boolean(b: bool) -> Vec<u8> {
    vec![0x01, b.into()]
}

pub fn null() -> Vec<u8> {
    vec![0x05]
}

pub fn object(pairs: &[(&str, Vec<u8>)]) -> Vec<u8> {
    let mut all = vec![0x03];
    for (name, value) in pairs {
        all.extend((name.len() as u16).to_be_bytes());
        all.extend(name.as_bytes());
        all.extend(value);
    }
    all.extend([0x00, 0x00, 0x09]);
    all
}

/// A command's name, its transaction, and what follows.
pub fn command(name: &str, transaction: f64, rest: &[Vec<u8>]) -> Vec<u8> {
    [string(name.as_bytes()), number(transaction), rest.concat()].concat()
}

pub fn connect(app: &[u8]) -> Vec<u8> {
    command("connect", 1.0, &[object(&[("app", string(app))])])
}

pub fn create_stream() -> Vec<u8> {
    command("createStream", 2.0, &[null()])
}

pub fn publish(key: &[u8], mode: &str) -> Vec<u8> {
    command("publish", 3.0, &[null(), string(key), string(mode.as_bytes())])
}

pub fn play(key: &[u8]) -> Vec<u8> {
    command("play", 3.0, &[null(), string(key)])
}

pub fn close_stream(stream: u32) -> Vec<u8> {
    command("closeStream", 0.0, &[null(), number(stream.into())])
}

pub fn delete_stream(stream: u32) -> Vec<u8> {
    command("deleteStream", 0.0, &[null(), number(stream.into())])
}

pub fn set_data_frame(properties: &[(&str, Vec<u8>)]) -> Vec<u8> {
    [string(b"@setDataFrame"), string(b"onMetaData"), object(properties)].concat()
}
