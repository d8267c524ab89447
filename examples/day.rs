//! Writes the sample day of the bench to standard output, as a trace.
//!
//! Three gauge pins are filmed over one line, and some calls come late, twice or wrong. The day itself is in `main`.

use std::io::{self, Write};

// --- AMF0 values ---

fn number(x: f64) -> Vec<u8> {
    [&[0x00], &x.to_be_bytes()[..]].concat()
}

fn boolean(x: bool) -> Vec<u8> {
    vec![0x01, x as u8]
}

fn string(text: &str) -> Vec<u8> {
    [&[0x02], &counted(text)[..]].concat()
}

fn null() -> Vec<u8> {
    vec![0x05]
}

fn object(properties: &[(&str, Vec<u8>)]) -> Vec<u8> {
    [&[0x03], &pairs(properties)[..]].concat()
}

fn ecma_array(properties: &[(&str, Vec<u8>)]) -> Vec<u8> {
    [&[0x08], &(properties.len() as u32).to_be_bytes()[..], &pairs(properties)].concat()
}

fn pairs(properties: &[(&str, Vec<u8>)]) -> Vec<u8> {
    let mut all = Vec::new();
    for (name, value) in properties {
        all.extend(counted(name));
        all.extend(value);
    }
    all.extend([0x00, 0x00, 0x09]);
    all
}

/// A text with its length in two bytes before it.
fn counted(text: &str) -> Vec<u8> {
    [&(text.len() as u16).to_be_bytes(), text.as_bytes()].concat()
}

// --- Entries of a trace ---

/// The length of the out buffer that is lent to every call.
const ROOM: u32 = 66_560;

const SET_CHUNK_SIZE: u8 = 1;
const USER_CONTROL: u8 = 4;
const AUDIO: u8 = 8;
const VIDEO: u8 = 9;
const DATA: u8 = 18;
const COMMAND: u8 = 20;

struct Day {
    trace: Vec<u8>,
    /// In milliseconds. It moves while films are taken, and else by `wait`.
    clock: u64,
    /// The number of the last command.
    transaction: u32,
}

impl Day {
    fn start(&mut self, chunk_size: u32, window: u32, bandwidth: u32, on_bw_done: bool, version: &str) {
        self.trace.push(0x01);
        self.trace.extend(chunk_size.to_be_bytes());
        self.trace.extend(window.to_be_bytes());
        self.trace.extend(bandwidth.to_be_bytes());
        self.trace.push(on_bw_done as u8);
        self.clock_and_room();
        self.trace.extend(counted(version));
    }

    fn message(&mut self, kind: u8, stream: u32, timestamp: u32, body: &[u8]) {
        self.trace.extend([0x02, kind]);
        self.trace.extend(stream.to_be_bytes());
        self.trace.extend(timestamp.to_be_bytes());
        self.clock_and_room();
        self.trace.extend((body.len() as u32).to_be_bytes());
        self.trace.extend(body);
    }

    fn accept(&mut self, request: u32) {
        self.trace.push(0x03);
        self.trace.extend(request.to_be_bytes());
        self.clock_and_room();
    }

    fn ping(&mut self) {
        self.trace.push(0x08);
        self.clock_and_room();
    }

    fn state(&mut self) {
        self.trace.push(0x09);
    }

    fn clock_and_room(&mut self) {
        self.trace.extend(self.clock.to_be_bytes());
        self.trace.extend(ROOM.to_be_bytes());
    }

    fn wait(&mut self, milliseconds: u64) {
        self.clock += milliseconds;
    }

    // --- What the bench sends ---

    /// A command is its name, its number, an object or null, and its arguments.
    fn command(&mut self, stream: u32, name: &str, object: Vec<u8>, arguments: &[Vec<u8>]) {
        self.transaction += 1;
        let body = [string(name), number(self.transaction.into()), object, arguments.concat()].concat();
        self.message(COMMAND, stream, 0, &body);
    }

    fn create_stream(&mut self) {
        self.command(0, "createStream", null(), &[]);
    }

    fn publish(&mut self, stream: u32, key: &str) {
        // A real client announces the key first, with two commands that the session passes over.
        self.command(0, "releaseStream", null(), &[string(key)]);
        self.command(0, "FCPublish", null(), &[string(key)]);
        self.command(stream, "publish", null(), &[string(key), string("live")]);
    }

    fn close_stream(&mut self, stream: u32) {
        self.command(0, "closeStream", null(), &[number(stream.into())]);
    }

    fn delete_stream(&mut self, stream: u32) {
        self.command(0, "deleteStream", null(), &[number(stream.into())]);
    }

    fn metadata(&mut self, stream: u32, values: Vec<u8>) {
        let body = [string("@setDataFrame"), string("onMetaData"), values].concat();
        self.message(DATA, stream, 0, &body);
    }

    /// The first picture is whole. The later ones hold what changed, so they are shorter.
    fn picture(&mut self, stream: u32, timestamp: u32) {
        let (codec, length) = if timestamp == 0 { (0x12, 1500) } else { (0x22, 400 + timestamp * 37 % 600) };
        self.message(VIDEO, stream, timestamp, &frame(codec, stream, length));
    }

    fn sound(&mut self, stream: u32, timestamp: u32) {
        self.message(AUDIO, stream, timestamp, &frame(0x2E, stream, 104 + timestamp % 2));
    }

    /// These films go on for so many milliseconds: a picture every 40, a sound every 23.
    fn take(&mut self, films: &[Film], milliseconds: u64) {
        for _ in 0..milliseconds {
            for film in films {
                let timestamp = (self.clock - film.began) as u32;
                if timestamp % 40 == 0 {
                    self.picture(film.stream, timestamp);
                }
                if timestamp % 23 == 0 {
                    self.sound(film.stream, timestamp);
                }
            }
            self.clock += 1;
        }
    }

    /// A film whose timestamps count from now.
    fn begin(&self, stream: u32) -> Film {
        Film { stream, began: self.clock }
    }
}

#[derive(Clone, Copy)]
struct Film {
    stream: u32,
    began: u64,
}

/// The byte that names the codec, then a pattern.
fn frame(codec: u8, stream: u32, length: u32) -> Vec<u8> {
    let mut body = vec![codec];
    body.extend((1..length).map(|i| (i * 7 + stream * 31) as u8));
    body
}

fn about_the_film() -> Vec<(&'static str, Vec<u8>)> {
    vec![
        ("width", number(640.0)),
        ("height", number(480.0)),
        ("videocodecid", number(2.0)),
        ("videodatarate", number(140.0)),
        ("framerate", number(25.0)),
        ("audiocodecid", number(2.0)),
        ("audiodatarate", number(36.0)),
        ("audiosamplerate", number(44100.0)),
        ("audiochannels", number(1.0)),
        ("stereo", boolean(false)),
        ("encoder", string("Lavf59.27.100")),
    ]
}

// --- The day ---

fn main() -> io::Result<()> {
    let mut day = Day { trace: Vec::new(), clock: 1000, transaction: 0 };

    // The line is opened, and the bench connects: request 0.
    day.start(4096, 2_500_000, 2_500_000, false, "FMS/3,0,1,1233");
    let client = object(&[
        ("app", string("bench")),
        ("type", string("nonprivate")),
        ("flashVer", string("FMLE/3.0 (compatible; Lavf59.27.100)")),
        ("tcUrl", string("rtmp://localhost/bench")),
    ]);
    day.wait(2);
    day.command(0, "connect", client, &[]);
    day.accept(0);
    day.message(SET_CHUNK_SIZE, 0, 0, &4096_u32.to_be_bytes());

    // Streams 1, 2 and 3.
    day.wait(40);
    day.create_stream();
    day.create_stream();
    day.create_stream();

    // Each asks for its pin's key: requests 1, 2 and 3.
    day.wait(40);
    day.publish(1, "pin7-2026-W46");
    day.publish(2, "pin8-2026-W46");
    day.publish(3, "pin9-2026-W46");
    day.wait(5);
    day.accept(1);
    day.accept(2);
    day.accept(3);

    // Two films are described by an object. The third by an array, and only an object has properties.
    day.metadata(1, object(&about_the_film()));
    day.metadata(2, object(&about_the_film()));
    day.metadata(3, ecma_array(&about_the_film()));

    // All three pins are filmed. The third camera is a little later.
    let pin7 = day.begin(1);
    let pin8 = day.begin(2);
    day.take(&[pin7, pin8], 12);
    let pin9 = day.begin(3);
    day.take(&[pin7, pin8, pin9], 588);

    // The host asks whether the bench is still there, and it is.
    let asked = (day.clock - 1000) as u32;
    day.ping();
    day.message(USER_CONTROL, 0, 0, &[&[0, 7], &asked.to_be_bytes()[..]].concat());

    // Pin 8 is done and its stream is closed. Two frames were still on the way: they must not be filed.
    day.close_stream(2);
    day.picture(2, 600);
    day.sound(2, 621);

    // The host accepts pin 8's request a second time: 10.
    day.accept(2);
    day.take(&[pin7, pin9], 200);

    // Pin 10 asks for its key on stream 4, request 4, and its stream is deleted before the accept: 11, then 10.
    day.create_stream();
    day.publish(4, "pin10-2026-W46");
    day.delete_stream(4);
    day.accept(4);
    day.accept(4);
    day.take(&[pin7, pin9], 100);

    // A key of 129 bytes: 6.
    day.publish(2, &"x".repeat(129));

    // Pin 8 is filmed again on stream 2, under a new key: request 5. A frame before the accept must not be filed.
    day.publish(2, "pin8-2026-W46-again");
    day.sound(2, 0);
    day.accept(5);
    day.metadata(2, object(&about_the_film()));
    let again = day.begin(2);
    day.take(&[pin7, pin9, again], 300);

    // The day ends: all streams are deleted.
    day.command(0, "FCUnpublish", null(), &[string("pin7-2026-W46")]);
    day.delete_stream(1);
    day.delete_stream(2);
    day.delete_stream(3);
    day.state();

    io::stdout().write_all(&day.trace)
}
