//! Makes the vectors of the record writer: the bytes that every kind of answer has to consist of.
//!
//! An independent source: the writer below is written from document 01, section "Outbound records", and from
//! the source's server session (codes, texts, order of records) alone; it shares no line with the proved one.
//! It works another way, too: a message is first a tree of AMF0 values, the tree becomes a body, the body
//! becomes a record, and the room is looked at last, when the bytes are there to be counted. Numbers are
//! carried as their bits, so none that is echoed passes through the machine's floating point.
//!
//! What document 01 itself spells out or counts is typed below a second time, and `main` stops if the writer
//! disagrees: the start of 71 bytes, the 43 bytes of onBWDone, the 171 bytes of a publish on "pin7".
//!
//!     rustc -O vectors/records.rs -o target/make-records
//!     target/make-records > what the tested program has to write
//!
//! A line is a name, the number of bytes and the bytes in hexadecimal, in lower case; or a name and `none`,
//! where the lent buffer is too short. The last six lines are `time`, the start, the clock and the timestamp.

use std::convert::TryFrom;

// ---------------------------------------------------------------------------------------------------------
// AMF0
// ---------------------------------------------------------------------------------------------------------

enum Value<'a> {
    /// The bits of a double.
    Number(u64),
    Boolean(bool),
    Text(&'a str),
    /// Pairs, written in the order in which they stand here.
    Object(Vec<(&'a str, Value<'a>)>),
    Null,
}

use Value::{Boolean, Null, Number, Object, Text};

/// A text without its marker: the length in two bytes, then the text. This is also how a property is named.
fn counted(text: &str) -> Vec<u8> {
    let length = u16::try_from(text.len()).expect("a text of at most 65,535 bytes");
    [&length.to_be_bytes(), text.as_bytes()].concat()
}

fn amf0(value: &Value) -> Vec<u8> {
    match value {
        Number(bits) => [&[0x00][..], &bits.to_be_bytes()].concat(),
        Boolean(b) => vec![0x01, u8::from(*b)],
        Text(text) => [vec![0x02], counted(text)].concat(),
        Object(pairs) => {
            let inside: Vec<u8> = pairs.iter().flat_map(|(n, v)| [counted(n), amf0(v)].concat()).collect();
            [&[0x03], &inside[..], &[0x00, 0x00, 0x09]].concat()
        }
        Null => vec![0x05],
    }
}

/// The bits of a whole number below 2 ^ 32. Every one of these is a double, so nothing is rounded.
fn whole(n: u32) -> u64 {
    f64::from(n).to_bits()
}

// ---------------------------------------------------------------------------------------------------------
// Records
// ---------------------------------------------------------------------------------------------------------

const SET_CHUNK_SIZE: u8 = 1;
const USER_CONTROL: u8 = 4;
const WINDOW: u8 = 5;
const PEER_BANDWIDTH: u8 = 6;
const AUDIO: u8 = 8;
const VIDEO: u8 = 9;
const DATA: u8 = 18;
const COMMAND: u8 = 20;

/// Flags: none; an uncompressed header is wanted (start records only); droppable (media only).
const PLAIN: u8 = 0;
const UNCOMPRESSED: u8 = 1;
const DROPPABLE: u8 = 2;

/// User control events.
const STREAM_BEGIN: u16 = 0;
const PING_REQUEST: u16 = 6;
const PING_RESPONSE: u16 = 7;

fn record(kind: u8, time: u32, stream: u32, flags: u8, body: &[u8]) -> Vec<u8> {
    let length = u32::try_from(body.len()).expect("a length in 32 bits").to_be_bytes();
    assert_eq!(length[0], 0, "a length in 24 bits");
    let mut out = vec![kind];
    out.extend(&length[1..]);
    out.extend(time.to_be_bytes());
    out.extend(stream.to_be_bytes());
    out.push(flags);
    assert_eq!(out.len(), 13);
    out.extend(body);
    out
}

/// A record of AMF0 values, a command or data.
fn values(kind: u8, time: u32, stream: u32, flags: u8, all: &[Value]) -> Vec<u8> {
    let body: Vec<u8> = all.iter().flat_map(amf0).collect();
    record(kind, time, stream, flags, &body)
}

fn control(event: u16, value: u32, time: u32, stream: u32, flags: u8) -> Vec<u8> {
    let body = [&event.to_be_bytes()[..], &value.to_be_bytes()].concat();
    record(USER_CONTROL, time, stream, flags, &body)
}

/// Level, code and description, in this order.
fn status<'a>(level: &'a str, code: &'a str, description: &'a str) -> Vec<(&'a str, Value<'a>)> {
    vec![("level", Text(level)), ("code", Text(code)), ("description", Text(description))]
}

/// The command onStatus with level status: transaction 0, no command object.
fn on_status(code: &str, description: &str, time: u32, stream: u32) -> Vec<u8> {
    let about = status("status", code, description);
    values(COMMAND, time, stream, PLAIN, &[Text("onStatus"), Number(0), Null, Object(about)])
}

// ---------------------------------------------------------------------------------------------------------
// Answers
// ---------------------------------------------------------------------------------------------------------

fn start(chunk: u32, window: u32, bandwidth: u32, done: bool) -> Vec<u8> {
    let limit = [&bandwidth.to_be_bytes()[..], &[2]].concat();
    let mut all = vec![
        record(SET_CHUNK_SIZE, 0, 0, UNCOMPRESSED, &chunk.to_be_bytes()),
        record(WINDOW, 0, 0, UNCOMPRESSED, &window.to_be_bytes()),
        control(STREAM_BEGIN, 0, 0, 0, UNCOMPRESSED),
        record(PEER_BANDWIDTH, 0, 0, UNCOMPRESSED, &limit),
    ];
    if done {
        let body = [Text("onBWDone"), Number(0), Null, Number(whole(8192))];
        all.push(values(COMMAND, 0, 0, UNCOMPRESSED, &body));
    }
    all.concat()
}

fn created(transaction: u64, number: u32, time: u32) -> Vec<u8> {
    let body = [Text("_result"), Number(transaction), Null, Number(whole(number))];
    values(COMMAND, time, 0, PLAIN, &body)
}

fn connect(transaction: u64, version: &str, app: &str, encoding: u64, time: u32) -> Vec<u8> {
    let description = format!("Successfully connected on app: {app}");
    let server = vec![("fmsVer", Text(version)), ("capabilities", Number(whole(31)))];
    let mut about = status("status", "NetConnection.Connect.Success", &description);
    about.push(("objectEncoding", Number(encoding)));
    let body = [Text("_result"), Number(transaction), Object(server), Object(about)];
    values(COMMAND, time, 0, PLAIN, &body)
}

fn publish(key: &str, time: u32, stream: u32) -> Vec<u8> {
    let description = format!("Successfully started publishing on stream key {key}");
    [
        control(STREAM_BEGIN, stream, time, stream, PLAIN),
        on_status("NetStream.Publish.Start", &description, time, stream),
    ]
    .concat()
}

fn play(key: &str, time: u32, stream: u32) -> Vec<u8> {
    let description = format!("Successfully started playback on stream key {key}");
    let access = [Text("|RtmpSampleAccess"), Boolean(false), Boolean(false)];
    let data = [Text("onStatus"), Object(vec![("code", Text("NetStream.Data.Start"))])];
    [
        on_status("NetStream.Play.Reset", "Reset stream", time, stream),
        control(STREAM_BEGIN, stream, time, stream, PLAIN),
        on_status("NetStream.Play.Start", &description, time, stream),
        values(DATA, time, stream, PLAIN, &access),
        values(DATA, time, stream, PLAIN, &data),
    ]
    .concat()
}

fn finish(key: &str, time: u32, stream: u32) -> Vec<u8> {
    let description = format!("Stream playback is completed for {key}");
    on_status("NetStream.Play.Complete", &description, time, stream)
}

/// The level is `error`, as document 01 has it, where the source says `_error`.
fn error(transaction: u64, code: &str, description: &str, time: u32, stream: u32) -> Vec<u8> {
    let about = status("error", code, description);
    let body = [Text("_error"), Number(transaction), Null, Object(about)];
    values(COMMAND, time, stream, PLAIN, &body)
}

fn media(kind: u8, time: u32, stream: u32, droppable: bool, body: &[u8]) -> Vec<u8> {
    record(kind, time, stream, if droppable { DROPPABLE } else { PLAIN }, body)
}

fn ping_request(time: u32) -> Vec<u8> {
    control(PING_REQUEST, time, time, 0, PLAIN)
}

fn ping_response(value: u32, time: u32) -> Vec<u8> {
    control(PING_RESPONSE, value, time, 0, PLAIN)
}

/// The timestamp: the clock less the start, modulo 2 ^ 32, and 0 where the clock is below the start.
fn timestamp(start: u64, clock: u64) -> u64 {
    if clock < start { 0 } else { (clock - start) % 4_294_967_296 }
}

// ---------------------------------------------------------------------------------------------------------
// Lines
// ---------------------------------------------------------------------------------------------------------

fn hex(bytes: &[u8]) -> String {
    bytes.iter().map(|b| format!("{b:02x}")).collect()
}

/// An answer into a lent buffer that is long enough.
fn line(name: &str, bytes: Vec<u8>) {
    println!("{name} {} {}", bytes.len(), hex(&bytes));
}

/// An answer into a lent buffer of this length, which has to be too short for it.
fn short(name: &str, bytes: Vec<u8>, room: usize) {
    assert!(room < bytes.len(), "{}: {} bytes are room enough", name, room);
    println!("{name} none");
}

/// An answer into a lent buffer that is one byte too short for it.
fn short_by_one(name: &str, bytes: Vec<u8>) {
    let room = bytes.len() - 1;
    short(name, bytes, room);
}

/// Typed from document 01.
const START: &str = "\
    01 000004 00000000 00000000 01 00001000 \
    05 000004 00000000 00000000 01 002625A0 \
    04 000006 00000000 00000000 01 000000000000 \
    06 000005 00000000 00000000 01 002625A002";

fn main() {
    let plain = || start(4096, 2_500_000, 2_500_000, false);
    let with_done = || start(4096, 2_500_000, 2_500_000, true);
    let first_connect = || connect(0x3FF0_0000_0000_0000, "FMS/3,0,1,1233", "live", 0, 5);
    let first_error =
        || error(0x4014_0000_0000_0000, "NetStream.Publish.Start", "Invalid publish arguments", 13, 1);
    let audio = || media(AUDIO, 1000, 1, false, &[1, 2, 3]);
    let keys = "k".repeat(128);

    assert_eq!(hex(&plain()), START.replace(' ', "").to_lowercase());
    assert_eq!(plain().len(), 71);
    assert_eq!(with_done().len(), 71 + 43);
    assert_eq!(hex(&with_done()[106..]), "40c0000000000000");
    assert_eq!(publish("pin7", 7, 1).len(), 171);

    line("start-71", plain());
    line("start-114", with_done());
    line("start-odd", start(1, 0, 4_294_967_295, true));
    short("start-short", plain(), 70);
    short("start-short-done", with_done(), 113);

    line("created", created(0x4010_0000_0000_0000, 1, 0));
    line("created-last", created(0x7FF8_0000_0000_0001, 4_294_967_294, 4_294_967_295));
    short("created-short", created(0x4010_0000_0000_0000, 1, 0), 41);

    line("connect", first_connect());
    line("connect-empty", connect(0, "", "", 0xFFF0_0000_0000_0001, 4_294_967_295));
    let (version, app) = ("v".repeat(128), "a".repeat(128));
    line("connect-long", connect(0x4000_0000_0000_0000, &version, &app, 0x4008_0000_0000_0000, 65536));
    short_by_one("connect-short", first_connect());

    line("publish", publish("pin7", 7, 1));
    short("publish-short", publish("pin7", 7, 1), 170);
    line("publish-empty", publish("", 0, 4_294_967_295));
    line("publish-long", publish(&keys, 1, 2));

    line("play", play("pin7", 9, 3));
    short_by_one("play-short", play("pin7", 9, 3));
    line("play-long", play(&keys, 16_777_216, 16));

    line("finish", finish("pin7", 11, 5));
    short_by_one("finish-short", finish("pin7", 11, 5));

    line("error", first_error());
    line("error-empty", error(0, "", "", 0, 0));
    line("error-long", error(0, &"c".repeat(256), &"d".repeat(256), 1, 4_294_967_295));
    short_by_one("error-short", first_error());

    line("audio", audio());
    line("video", media(VIDEO, 4_294_967_295, 7, true, &[0x00, 0xFF]));
    line("media-empty", media(VIDEO, 0, 1, true, &[]));
    short("media-short", audio(), 15);
    short("media-shorter", audio(), 12);

    line("ping-request", ping_request(17));
    line("ping-response", ping_response(305_419_896, 19));
    short("ping-short", ping_request(17), 18);

    for (start, clock) in [
        (9, 5),
        (5, 9),
        (0, 4_294_967_296),
        (1, 4_294_967_296),
        (100, 4_294_967_395),
        (0, 18_446_744_073_709_551_615),
    ] {
        println!("time {start} {clock} {}", timestamp(start, clock));
    }
}
