//! The steps that are measured, with their fixed inputs.

use crate::body::Body;
use crate::script::{Call, Script};
use crate::table::thousands;

pub struct Case {
    pub group: &'static str,
    pub name: String,
    pub script: Script,
}

const APP: &str = "gauge-room-west";
const SIZES: [usize; 3] = [100, 1_000, 10_000];

/// A pass of frames: so many, over so many different ones.
const FRAMES: usize = 1_024;
const DIFFERENT: usize = 16;

/// Few enough that all copies of a session lie in the first cache, on both sides.
const COPIES: usize = 4;

/// Pairs of createStream and deleteStream in a pass.
const PAIRS: usize = 64;

pub fn all() -> Vec<Case> {
    let mut cases = Vec::new();
    for (kind, word) in [(8, "audio"), (9, "video")] {
        for streams in [1, 16] {
            for size in SIZES {
                cases.push(Case { group: "frame in, handle_media", name: frame_name(word, streams, size), script: frames(kind, streams, size, Call::Media) });
            }
        }
    }
    // The same by the call for any message: what a session made of the arrays costs.
    for streams in [1, 16] {
        cases.push(Case { group: "frame in, handle_message", name: frame_name("audio", streams, 1_000), script: frames(8, streams, 1_000, Call::Message) });
    }
    let group = "commands and decisions";
    cases.push(Case { group, name: "connect, 40 properties".to_string(), script: connect() });
    cases.push(Case { group, name: "createStream and deleteStream".to_string(), script: create_and_delete() });
    cases.push(Case { group, name: "accept of a publish".to_string(), script: accept_publish() });
    for size in SIZES {
        let name = format!("audio, {} bytes", thousands(size as u64));
        cases.push(Case { group: "frame out, send_audio_data", name, script: sends(size) });
    }
    cases
}

fn frame_name(word: &str, streams: u32, size: usize) -> String {
    format!("{word}, {streams} {}, {} bytes", if streams == 1 { "stream" } else { "streams" }, thousands(size as u64))
}

// ---- sessions to start from ----

/// Connected, and the next request has number 1.
fn connected() -> Script {
    let mut script = Script { copies: 1, calls_a_step: 1, ..Script::default() };
    let body = Body::command("connect", 1.0).object().property("app").text(APP).end();
    let at = script.add_command(0, body.bytes());
    script.before.extend([Call::Message(at), Call::Accept(0)]);
    script
}

/// With streams 1 and up, whose requests to publish wait under the same numbers.
fn asked_to_publish(streams: u32) -> Script {
    let mut script = connected();
    for stream in 1..=streams {
        let create = script.add_command(0, Body::command("createStream", 2.0).null().bytes());
        let publish = Body::command("publish", 3.0).null().text(&key(stream)).text("live");
        let publish = script.add_command(stream, publish.bytes());
        script.before.extend([Call::Message(create), Call::Message(publish)]);
    }
    script
}

fn publishing(streams: u32) -> Script {
    let mut script = asked_to_publish(streams);
    script.before.extend((1..=streams).map(Call::Accept));
    script
}

/// 14 to 20 bytes.
fn key(stream: u32) -> String {
    format!("pin{stream:02}-2026-W46{}", &"-bench"[..stream as usize % 7])
}

// ---- the steps ----

/// Frames that go round the streams in a fixed shuffled order.
fn frames(kind: u8, streams: u32, size: usize, call: fn(usize) -> Call) -> Script {
    let mut script = publishing(streams);
    let first = script.messages.len();
    for n in 0..DIFFERENT as u32 {
        script.add(kind, 1 + n % streams, 40 * n, filler(size));
    }
    script.calls = shuffled().into_iter().map(|n| call(first + n)).collect();
    script
}

fn sends(size: usize) -> Script {
    let mut script = publishing(1);
    let first = script.messages.len();
    for n in 0..2 {
        script.add(8, 1, 40 * n, filler(size));
    }
    script.calls = shuffled().into_iter().map(|n| Call::SendAudio(first + n % 2)).collect();
    script
}

/// Each of the different ones equally often.
fn shuffled() -> Vec<usize> {
    let mut order: Vec<usize> = (0..FRAMES).map(|n| n % DIFFERENT).collect();
    let mut seed: u64 = 2026;
    for last in (1..FRAMES).rev() {
        seed = seed.wrapping_mul(6_364_136_223_846_793_005).wrapping_add(1_442_695_040_888_963_407);
        order.swap(last, (seed >> 33) as usize % (last + 1));
    }
    order
}

fn filler(size: usize) -> Vec<u8> {
    (0..size).map(|n| (n * 7 + n / 251) as u8).collect()
}

/// A fresh session each time. What a client sends, and 30 properties more.
fn connect() -> Script {
    let mut body = Body::command("connect", 1.0).object();
    for n in 1..=15 {
        body = body.property(&format!("bench-note-{n:02}")).text(&format!("gauge pin {n:02}, checked"));
    }
    body = body
        .property("flashVer").text("FMLE/3.0 (compatible; Lavf59.27)")
        .property("type").text("nonprivate")
        .property("app").text(APP)
        .property("tcUrl").text("rtmp://gauge-room/gauge-room-west")
        .property("fpad").boolean(false)
        .property("capabilities").number(15.0)
        .property("audioCodecs").number(4071.0)
        .property("videoCodecs").number(252.0)
        .property("videoFunction").number(1.0)
        .property("objectEncoding").number(0.0);
    for n in 1..=15 {
        body = body.property(&format!("bench-size-{n:02}")).number(f64::from(n) * 0.125);
    }
    let mut script = Script { copies: COPIES, calls_a_step: 1, ..Script::default() };
    let at = script.add_command(0, body.end().bytes());
    script.calls.push(Call::Message(at));
    script
}

/// The numbers rise from 1. Each pass starts from the saved session, so no limit is reached.
fn create_and_delete() -> Script {
    let mut script = connected();
    let create = script.add_command(0, Body::command("createStream", 2.0).null().bytes());
    for number in 1..=PAIRS {
        let delete = Body::command("deleteStream", 3.0).null().number(number as f64);
        let delete = script.add_command(0, delete.bytes());
        script.calls.extend([Call::Message(create), Call::Message(delete)]);
    }
    script.calls_a_step = 2;
    script
}

fn accept_publish() -> Script {
    let mut script = asked_to_publish(1);
    script.copies = COPIES;
    script.calls.push(Call::Accept(1));
    script
}
