//! Makes traces from a seed: the same arguments give the same bytes everywhere.
//!
//!     generate N SEED            N traces end to end, one long good trace
//!     generate --plain N SEED    likewise, of ordinary traces alone
//!     generate --bad N SEED DIR  N files DIR/0.trace, DIR/1.trace, .. that end in a bad entry
//!
//! Trace i depends on the seed and on i alone. Every fifth trace is ordinary: no damage, no text that is not UTF-8, no
//! NaN, and no refusal but 5, 10 and 11. The others mix days of a session with wrong orders, spoilt bodies, tight rooms,
//! odd numbers and damage. A light model follows the session, so that decisions mostly find their request; where a
//! spoilt body does more than the model thinks, the model is a little wrong, and no harm is done.

use std::io::{self, BufWriter, Write};
use std::{env, fs, process};

// ---------------------------------------------------------------------------------------------------------
// Numbers out of a seed
// ---------------------------------------------------------------------------------------------------------

/// Splitmix64.
struct Random(u64);

impl Random {
    fn of(seed: u64, index: u64) -> Random {
        let mut random = Random(seed);
        let mixed = random.next();
        Random(mixed ^ index.wrapping_mul(0xD134_2543_DE82_EF95))
    }

    fn next(&mut self) -> u64 {
        self.0 = self.0.wrapping_add(0x9E37_79B9_7F4A_7C15);
        let mut z = self.0;
        z = (z ^ z >> 30).wrapping_mul(0xBF58_476D_1CE4_E5B9);
        z = (z ^ z >> 27).wrapping_mul(0x94D0_49BB_1331_11EB);
        z ^ z >> 31
    }

    fn below(&mut self, n: usize) -> usize {
        (self.next() >> 16) as usize % n
    }

    fn byte(&mut self) -> u8 {
        (self.next() >> 32) as u8
    }

    fn word(&mut self) -> u32 {
        (self.next() >> 32) as u32
    }

    /// So many times in a hundred.
    fn chance(&mut self, percent: usize) -> bool {
        self.below(100) < percent
    }

    fn pick<T: Copy>(&mut self, all: &[T]) -> T {
        all[self.below(all.len())]
    }

    fn bytes(&mut self, n: usize) -> Vec<u8> {
        (0..n).map(|_| self.byte()).collect()
    }
}

// ---------------------------------------------------------------------------------------------------------
// AMF0
// ---------------------------------------------------------------------------------------------------------

fn number(bits: u64) -> Vec<u8> {
    [&[0x00][..], &bits.to_be_bytes()].concat()
}

fn whole(n: u32) -> Vec<u8> {
    number(f64::from(n).to_bits())
}

fn counted(text: &[u8]) -> Vec<u8> {
    [&(text.len() as u16).to_be_bytes(), text].concat()
}

fn text(t: &[u8]) -> Vec<u8> {
    [vec![0x02], counted(t)].concat()
}

fn long_text(t: &[u8]) -> Vec<u8> {
    [&[0x0C][..], &(t.len() as u32).to_be_bytes(), t].concat()
}

const NULL: [u8; 1] = [0x05];

type Pair = (Vec<u8>, Vec<u8>);

fn pair(name: &str, value: Vec<u8>) -> Pair {
    (name.as_bytes().to_vec(), value)
}

fn pairs(all: &[Pair]) -> Vec<u8> {
    let mut bytes = Vec::new();
    for (name, value) in all {
        bytes.extend(counted(name));
        bytes.extend(value);
    }
    bytes.extend([0, 0, 9]);
    bytes
}

fn object(all: &[Pair]) -> Vec<u8> {
    [vec![0x03], pairs(all)].concat()
}

fn ecma(count: u32, all: &[Pair]) -> Vec<u8> {
    [&[0x08][..], &count.to_be_bytes(), &pairs(all)].concat()
}

fn strict(count: u32, all: &[Vec<u8>]) -> Vec<u8> {
    [&[0x0A][..], &count.to_be_bytes(), &all.concat()].concat()
}

/// A value inside a container of this marker, with what stands before and after it there.
fn wrapped(marker: u8, count: u32, value: &[u8]) -> Vec<u8> {
    match marker {
        0x03 => object(&[pair("a", value.to_vec())]),
        0x08 => ecma(count, &[pair("a", value.to_vec())]),
        _ => strict(1, &[value.to_vec()]),
    }
}

fn double(x: f64) -> u64 {
    x.to_bits()
}

// ---------------------------------------------------------------------------------------------------------
// Entries, with raw flags and rooms, so that bad ones can be said too
// ---------------------------------------------------------------------------------------------------------

struct Start {
    chunk: u32,
    window: u32,
    bandwidth: u32,
    on_bw_done: u8,
    clock: u64,
    room: u32,
    version: Vec<u8>,
}

impl Start {
    fn entry(&self) -> Vec<u8> {
        let sizes = [self.chunk, self.window, self.bandwidth].map(u32::to_be_bytes).concat();
        let clock = self.clock.to_be_bytes();
        [&[1], &sizes[..], &[self.on_bw_done], &clock, &self.room.to_be_bytes(), &counted(&self.version)].concat()
    }
}

fn message_entry(kind: u8, stream: u32, timestamp: u32, clock: u64, room: u32, n: u32, body: &[u8]) -> Vec<u8> {
    let head = [&[2, kind][..], &stream.to_be_bytes(), &timestamp.to_be_bytes(), &clock.to_be_bytes()].concat();
    [&head[..], &room.to_be_bytes(), &n.to_be_bytes(), body].concat()
}

/// An accept (3) or a finish (5).
fn plain_entry(kind: u8, number: u32, clock: u64, room: u32) -> Vec<u8> {
    [&[kind][..], &number.to_be_bytes(), &clock.to_be_bytes(), &room.to_be_bytes()].concat()
}

fn reject_entry(request: u32, clock: u64, room: u32, code: &[u8], description: &[u8]) -> Vec<u8> {
    [plain_entry(4, request, clock, room), counted(code), counted(description)].concat()
}

struct Metadata {
    stream: u32,
    clock: u64,
    room: u32,
    set: u16,
    numbers: [u32; 9],
    stereo: u8,
    encoder: Vec<u8>,
}

impl Metadata {
    fn entry(&self) -> Vec<u8> {
        let head = plain_entry(6, self.stream, self.clock, self.room);
        let numbers = self.numbers.map(u32::to_be_bytes).concat();
        [&head[..], &self.set.to_be_bytes(), &numbers, &[self.stereo], &counted(&self.encoder)].concat()
    }
}

fn media_entry(kind: u8, stream: u32, timestamp: u32, droppable: u8, room: u32, n: u32, body: &[u8]) -> Vec<u8> {
    let head = [&[7, kind][..], &stream.to_be_bytes(), &timestamp.to_be_bytes(), &[droppable]].concat();
    [&head[..], &room.to_be_bytes(), &n.to_be_bytes(), body].concat()
}

fn ping_entry(clock: u64, room: u32) -> Vec<u8> {
    [&[8][..], &clock.to_be_bytes(), &room.to_be_bytes()].concat()
}

const STATE: [u8; 1] = [9];

fn damage_entry(what: u8, place: u8, value: u32) -> Vec<u8> {
    [&[10, what, place][..], &value.to_be_bytes()].concat()
}

const LARGEST_ROOM: u32 = 66_560;
const LONGEST_BODY: u32 = 65_536;

// ---------------------------------------------------------------------------------------------------------
// The light model
// ---------------------------------------------------------------------------------------------------------

#[derive(Clone, Copy, PartialEq)]
enum State {
    Created,
    Publishing,
    Playing,
    Completed,
}

#[derive(Clone, Copy)]
struct Stream {
    number: u32,
    state: State,
    /// The key's length.
    key: usize,
}

#[derive(Clone, Copy, PartialEq)]
enum Want {
    Connect,
    Publish,
    Play,
}

#[derive(Clone, Copy)]
struct Request {
    number: u32,
    want: Want,
    stream: u32,
    /// The name's length.
    name: usize,
}

struct Model {
    connected: bool,
    /// Lengths of the two names.
    version: usize,
    app: usize,
    streams: Vec<Stream>,
    requests: Vec<Request>,
    next_stream: u32,
    next_request: u32,
    /// A damage makes every call 15.
    broken: bool,
}

/// What a message does where it is done.
#[derive(Clone, Copy)]
enum Effect {
    None,
    File { want: Want, stream: u32, name: usize },
    Create,
    Close(u32),
    Delete(u32),
}

impl Model {
    fn new(version: usize) -> Model {
        Model {
            connected: false,
            version,
            app: 0,
            streams: Vec::new(),
            requests: Vec::new(),
            next_stream: 1,
            next_request: 0,
            broken: false,
        }
    }

    fn apply(&mut self, effect: Effect) {
        match effect {
            Effect::None => {}
            Effect::File { want, stream, name } => {
                let can = want == Want::Connect || self.connected;
                if can && name <= 128 && self.requests.len() < 16 && self.next_request != u32::MAX {
                    self.requests.push(Request { number: self.next_request, want, stream, name });
                    self.next_request += 1;
                }
            }
            Effect::Create => {
                if self.streams.len() < 16 && self.next_stream != u32::MAX {
                    self.streams.push(Stream { number: self.next_stream, state: State::Created, key: 0 });
                    self.next_stream += 1;
                }
            }
            Effect::Close(number) => {
                for s in self.streams.iter_mut().filter(|s| self.connected && s.number == number) {
                    (s.state, s.key) = (State::Created, 0);
                }
            }
            Effect::Delete(number) => {
                if self.connected {
                    self.streams.retain(|s| s.number != number);
                }
            }
        }
    }

    fn request(&self, number: u32) -> Option<Request> {
        self.requests.iter().find(|r| r.number == number).copied()
    }

    fn stream(&self, number: u32) -> Option<Stream> {
        self.streams.iter().find(|s| s.number == number).copied()
    }

    /// The bytes that an accept of this request answers with.
    fn accept_need(&self, number: u32) -> usize {
        match self.request(number) {
            Some(r) if r.want == Want::Connect => 200 + self.version + r.name,
            Some(r) if self.stream(r.stream).is_none() => 0,
            Some(r) if r.want == Want::Publish => 167 + r.name,
            Some(r) => 367 + r.name,
            None => 0,
        }
    }

    fn accept(&mut self, number: u32) {
        let Some(r) = self.request(number) else { return };
        self.requests.retain(|r| r.number != number);
        if r.want == Want::Connect {
            (self.connected, self.app) = (true, r.name);
        }
        let state = if r.want == Want::Publish { State::Publishing } else { State::Playing };
        for s in self.streams.iter_mut().filter(|s| r.want != Want::Connect && s.number == r.stream) {
            (s.state, s.key) = (state, r.name);
        }
    }
}

// ---------------------------------------------------------------------------------------------------------
// How a trace is made
// ---------------------------------------------------------------------------------------------------------

/// How often odd things stand in a trace, in a hundred.
#[derive(Clone, Copy)]
struct Style {
    ordinary: bool,
    /// A room around what the answer needs.
    room: usize,
    /// A body that is spoilt.
    spoilt: usize,
    /// A number, type, name or argument that is unusual.
    odd: usize,
    /// A stream or a request that is not there.
    wrong: usize,
    /// A raw number of the session overwritten.
    damage: usize,
}

const ORDINARY: Style = Style { ordinary: true, room: 0, spoilt: 0, odd: 10, wrong: 8, damage: 0 };

/// Every fifth trace is of the first.
const STYLES: [Style; 5] = [
    ORDINARY,
    Style { ordinary: false, room: 4, spoilt: 2, odd: 10, wrong: 30, damage: 0 },
    Style { ordinary: false, room: 4, spoilt: 35, odd: 30, wrong: 10, damage: 0 },
    Style { ordinary: false, room: 35, spoilt: 3, odd: 15, wrong: 10, damage: 3 },
    Style { ordinary: false, room: 10, spoilt: 10, odd: 35, wrong: 15, damage: 6 },
];

struct Maker {
    random: Random,
    style: Style,
    index: u64,
    out: Vec<u8>,
    entries: usize,
    model: Model,
    clock: u64,
    start: u64,
    timestamp: u32,
}

/// A message before its room is known.
struct Sent {
    kind: u8,
    stream: u32,
    body: Vec<u8>,
    /// What its answer needs.
    need: usize,
    effect: Effect,
}

fn command(stream: u32, name: &[u8], transaction: u64, rest: &[Vec<u8>], need: usize, effect: Effect) -> Sent {
    let body = [text(name), number(transaction), rest.concat()].concat();
    Sent { kind: 20, stream, body, need, effect }
}

/// NaNs with payloads, quiet and signalling.
const NANS: [u64; 6] =
    [0x7FF8 << 48, 0xFFF8 << 48, 0x7FF0_0000_0000_0001, 0xFFF7_FFFF_FFFF_FFFF, u64::MAX, 0x7FF8_DEAD_BEEF_0001];

/// The length of an error record.
fn error_need(code: usize, description: usize) -> usize {
    76 + code + description
}

const CREATED: usize = 42;
const PING: usize = 19;

const NAMES: [&str; 11] = [
    "width",
    "height",
    "videocodecid",
    "videodatarate",
    "framerate",
    "audiocodecid",
    "audiodatarate",
    "audiosamplerate",
    "audiochannels",
    "stereo",
    "encoder",
];

const WORDS: [&str; 12] =
    ["pin7", "pin8", "bench", "live", "a", "k", "pin7?token=1", "stift", "café", "штифт", "/", "x/y"];

impl Maker {
    fn new(seed: u64, index: u64, style: Style) -> Maker {
        let random = Random::of(seed, index);
        let (out, model) = (Vec::new(), Model::new(0));
        Maker { random, style, index, out, entries: 0, model, clock: 0, start: 0, timestamp: 0 }
    }

    fn write(&mut self, entry: &[u8]) {
        self.out.extend(entry);
        self.entries += 1;
    }

    fn odd(&mut self) -> bool {
        self.random.chance(self.style.odd)
    }

    /// Odd, and not in an ordinary trace.
    fn wild(&mut self) -> bool {
        !self.style.ordinary && self.odd()
    }

    fn wrong(&mut self) -> bool {
        self.random.chance(self.style.wrong)
    }

    // -- clocks, rooms, texts and numbers

    /// Up, and now and then still, back, or far away.
    fn tick(&mut self) -> u64 {
        let far = [
            self.start.wrapping_add(1 << 32),
            1 << 32,
            u64::MAX,
            self.start,
            1,
            0,
            self.start.wrapping_add(u64::from(u32::MAX)),
        ];
        match self.random.below(40) {
            0..=5 => self.clock,
            6 => self.clock.saturating_sub(self.random.next() % 100),
            7 if self.odd() => self.random.pick(&far).wrapping_add(self.random.next() % 3).wrapping_sub(1),
            8 if self.odd() => self.start.saturating_sub(1 + self.random.next() % 10),
            9 if self.wild() => self.random.next(),
            _ => {
                self.clock = self.clock.wrapping_add(self.random.next() % 50);
                self.clock
            }
        }
    }

    fn room(&mut self, need: usize) -> u32 {
        let near =
            [need, need, need, need.saturating_sub(1), need.saturating_sub(1), need.saturating_sub(1), need + 1, 0];
        let room = if self.random.chance(self.style.room) {
            match self.random.below(13) {
                0..=8 => self.random.pick(&near),
                9 => self.random.below(need + 2),
                10 => self.random.pick(&[1, 12, 13, 18, 19, 41, 42, 70, 71, 113, 114, 170, 171, 370, 371]),
                11 => self.random.pick(&[LARGEST_ROOM as usize, 4096]),
                _ => self.random.below(700),
            }
        } else {
            need.max(512) + self.random.below(512)
        };
        room.min(LARGEST_ROOM as usize) as u32
    }

    /// A text of a length around the limit, or of bytes that are no UTF-8.
    fn odd_text(&mut self) -> Vec<u8> {
        let lengths: &[usize] = if self.style.ordinary { &[0, 1, 127, 128] } else { &[0, 1, 127, 128, 129, 200] };
        let n = self.random.pick(lengths);
        let letter = b'a' + self.random.byte() % 26;
        match self.random.below(6) {
            0 if !self.style.ordinary => self.random.bytes(n),
            1 if n >= 2 => ["é".repeat(n / 2).into_bytes(), vec![letter; n % 2]].concat(),
            _ => vec![letter; n],
        }
    }

    fn text(&mut self) -> Vec<u8> {
        if self.odd() {
            return self.odd_text();
        }
        self.random.pick(&WORDS).as_bytes().to_vec()
    }

    /// An app, with no slash at its end, one, two, or nothing else.
    fn app(&mut self) -> Vec<u8> {
        let mut app = self.text();
        match self.random.below(10) {
            0 | 1 => app.push(b'/'),
            2 => app.extend(b"//"),
            3 if self.odd() => app = b"/".to_vec(),
            4 if self.wild() => app = [vec![b'a'; 129], b"/".to_vec()].concat(),
            _ => {}
        }
        // Ordinary names stay in their 128 bytes.
        if self.style.ordinary {
            app.truncate(128)
        }
        if self.style.ordinary && std::str::from_utf8(&app).is_err() {
            app = b"bench".to_vec()
        }
        app
    }

    /// The bits of any double.
    fn bits(&mut self) -> u64 {
        let common = [0.0, -0.0, 1.0, 2.0, 3.0, 5.0, 25.0, 29.97, 30.0, 44100.0, 320.0, 1920.0, 0.5, 0.9, 1.9];
        let ends = [
            -2.0,
            -1.0,
            -0.5,
            -1.5,
            -1e300,
            1e300,
            4294967294.0,
            4294967294.5,
            4294967295.0,
            4294967295.5,
            4294967296.0,
            2147483648.0,
            16777217.0,
            16777219.0,
            3.4028234663852886e38,
            3.4028235677973366e38,
            3.4028235677973362e38,
            1e-45,
            7e-46,
            7.006492321624085e-46,
            1.1754943508222875e-38,
            1.1754942807573643e-38,
            5e-324,
            f64::INFINITY,
            f64::NEG_INFINITY,
            f64::MAX,
            f64::MIN_POSITIVE,
            9007199254740993.0,
        ];
        if !self.odd() {
            return double(self.random.pick(&common));
        }
        match self.random.below(10) {
            0..=3 => double(self.random.pick(&ends)),
            4 => double(f64::from(self.random.word())),
            5 => double(f64::from(self.random.word()) / 1024.0),
            // Half way between two singles, or next to it.
            6 => (double(f64::from(f32::from_bits(self.random.word() & 0x7F7F_FFFF))) | 1 << 28)
                .wrapping_add(self.random.next() % 3)
                .wrapping_sub(1),
            7 => double(f64::from(f32::from_bits(self.random.word() & 0x007F_FFFF)) * 1.5),
            _ if self.style.ordinary => double(-f64::from(self.random.word())),
            8 => self.random.pick(&NANS),
            _ => self.random.next(),
        }
    }

    fn transaction(&mut self) -> u64 {
        if self.odd() {
            self.bits()
        } else {
            double(self.random.below(9) as f64)
        }
    }

    /// Any value of any kind.
    fn value(&mut self, depth: usize) -> Vec<u8> {
        let kinds = if depth == 0 { 6 } else { 9 };
        match self.random.below(kinds) {
            0 => number(self.bits()),
            1 => vec![0x01, self.boolean()],
            2 => text(&self.text()),
            3 => vec![self.random.pick(&[0x05, 0x06])],
            4 => [vec![0x0B], self.random.bytes(10)].concat(),
            5 => long_text(&self.text()),
            6 => object(&self.any_pairs(depth - 1)),
            7 => {
                // The count is trusted by nobody.
                let count = self.random.pick(&[0, 1, 2, u32::MAX]);
                ecma(count, &self.any_pairs(depth - 1))
            }
            _ => {
                let n = self.random.below(4);
                let all: Vec<_> = (0..n).map(|_| self.value(depth - 1)).collect();
                strict(n as u32, &all)
            }
        }
    }

    fn boolean(&mut self) -> u8 {
        if self.wild() {
            self.random.byte()
        } else {
            self.random.pick(&[0, 1])
        }
    }

    fn any_pairs(&mut self, depth: usize) -> Vec<Pair> {
        let names = ["a", "b", "app", "objectEncoding", "width", "x"];
        (0..self.random.below(4)).map(|_| pair(self.random.pick(&names), self.value(depth))).collect()
    }

    /// A stream that is there, mostly.
    fn a_stream(&mut self, liked: State) -> u32 {
        let all: Vec<u32> = self.model.streams.iter().map(|s| s.number).collect();
        let good: Vec<u32> = self.model.streams.iter().filter(|s| s.state == liked).map(|s| s.number).collect();
        if self.wrong() || all.is_empty() {
            let next = self.model.next_stream;
            let random = self.random.word();
            return self.random.pick(&[0, 1, 2, next, next.wrapping_sub(1), u32::MAX, random]);
        }
        if good.is_empty() || self.random.chance(15) {
            self.random.pick(&all)
        } else {
            self.random.pick(&good)
        }
    }

    /// A request that waits, mostly.
    fn a_request(&mut self) -> u32 {
        let all: Vec<u32> = self.model.requests.iter().map(|r| r.number).collect();
        let next = self.model.next_request;
        if self.wrong() || all.is_empty() {
            let before = if next == 0 { 0 } else { (self.random.next() % u64::from(next)) as u32 };
            let random = self.random.word();
            return self.random.pick(&[before, before, next, next.wrapping_add(1), u32::MAX, random]);
        }
        self.random.pick(&all)
    }

    // -- messages

    fn connect(&mut self) -> Sent {
        let app = self.app();
        let mut all = Vec::new();
        if self.random.chance(50) {
            all.push(pair("flashVer", text(b"FMLE/3.0")));
        }
        all.push((b"app".to_vec(), text(&app)));
        if self.random.chance(60) {
            let bits = if self.odd() { self.bits() } else { double(self.random.pick(&[0.0, 3.0])) };
            all.push(pair("objectEncoding", number(bits)));
        }
        let length = app.strip_suffix(b"/").unwrap_or(&app).len();
        let mut effect = Effect::File { want: Want::Connect, stream: 0, name: length };
        if self.odd() {
            effect = self.twist_connect(&mut all, effect);
        }
        let mut third = object(&all);
        if self.odd() && self.random.chance(30) {
            third = if self.random.chance(40) { ecma(1, &all) } else { NULL.to_vec() };
            effect = Effect::None;
        }
        let mut rest = vec![third];
        if self.odd() {
            rest.push(self.value(2));
        }
        command(0, b"connect", self.transaction(), &rest, 0, effect)
    }

    /// Names twice, another type, or no app.
    fn twist_connect(&mut self, all: &mut Vec<Pair>, effect: Effect) -> Effect {
        match self.random.below(6) {
            0 => {
                all.push(pair("app", self.random.pick(&[&NULL[..], &[0x01, 1], &[0x06]]).to_vec()));
                Effect::None
            }
            1 => {
                all.insert(0, pair("app", number(double(7.0))));
                effect
            }
            2 => {
                all.retain(|(name, _)| name != b"app");
                Effect::None
            }
            3 => {
                all.push(pair("objectEncoding", self.value(1)));
                effect
            }
            4 if !self.style.ordinary => {
                all.push(pair("app", long_text(b"bench")));
                Effect::None
            }
            _ => {
                all.push(pair("tcUrl", self.value(2)));
                effect
            }
        }
    }

    fn create(&mut self) -> Sent {
        let mut rest = vec![NULL.to_vec()];
        if self.odd() {
            rest = vec![self.value(1), self.value(1)];
        }
        command(0, b"createStream", self.transaction(), &rest, CREATED, Effect::Create)
    }

    fn end(&mut self, delete: bool) -> Sent {
        let liked = self.random.pick(&[State::Publishing, State::Playing, State::Completed]);
        let number_of = self.a_stream(liked);
        let name: &[u8] = if delete { b"deleteStream" } else { b"closeStream" };
        let effect = if delete { Effect::Delete(number_of) } else { Effect::Close(number_of) };
        let (argument, effect) = match self.random.below(100) {
            0..=4 if self.odd() => (self.value(2), Effect::None),
            5..=9 if self.odd() => (Vec::new(), Effect::None),
            // The fraction is dropped.
            10..=19 => (number(double(f64::from(number_of) + 0.75)), effect),
            _ => (whole(number_of), effect),
        };
        let stream = self.random.pick(&[0, number_of]);
        command(stream, name, self.transaction(), &[NULL.to_vec(), argument], 0, effect)
    }

    /// A value that is no string of two bytes' length.
    fn no_string(&mut self) -> Vec<u8> {
        if self.wild() && self.random.chance(50) {
            return long_text(&self.text());
        }
        self.random.pick(&[&NULL[..], &[0x06], &[0x01, 1], &[0x00, 0x40, 0, 0, 0, 0, 0, 0, 0]]).to_vec()
    }

    fn publish(&mut self) -> Sent {
        let stream = self.a_stream(State::Created);
        let key = self.text();
        let mode = self.random.pick(&["live", "live", "append", "record"]).as_bytes().to_vec();
        let mut arguments = vec![text(&key), text(&mode)];
        let mut words = if self.model.connected { 0 } else { "Can't publish before connecting".len() };
        if self.odd() {
            let (fault, length) = self.twist_publish(&mut arguments);
            if words == 0 || fault {
                words = length;
            }
        }
        let need = if words == 0 { 0 } else { error_need("NetStream.Publish.Start".len(), words) };
        let effect =
            if words == 0 { Effect::File { want: Want::Publish, stream, name: key.len() } } else { Effect::None };
        arguments.insert(0, NULL.to_vec());
        command(stream, b"publish", self.transaction(), &arguments, need, effect)
    }

    /// Whether the fault comes before the test of the connection, and the length of the fault's words.
    fn twist_publish(&mut self, arguments: &mut Vec<Vec<u8>>) -> (bool, usize) {
        let bad_arguments = "Invalid publish arguments".len();
        match self.random.below(6) {
            0 => {
                arguments.truncate(1);
                (true, bad_arguments)
            }
            1 => {
                arguments.clear();
                (true, bad_arguments)
            }
            2 => {
                arguments[0] = self.no_string();
                (false, bad_arguments)
            }
            3 => {
                arguments[1] = self.no_string();
                (false, bad_arguments)
            }
            4 => {
                arguments[1] = text(self.random.pick(&["bad", "", "LIVE", "live ", "liv", "recor"]).as_bytes());
                (false, "Invalid publish mode given".len())
            }
            _ => {
                arguments.push(self.value(2));
                (false, 0)
            }
        }
    }

    fn play(&mut self) -> Sent {
        let stream = self.a_stream(State::Created);
        let key = self.text();
        let mut arguments = vec![NULL.to_vec(), text(&key)];
        let connected = self.model.connected;
        let mut words = if connected { 0 } else { "Can't play before connecting".len() };
        let options = self.random.below(5);
        for i in 0..options {
            arguments.push(self.play_option(i));
        }
        if self.odd() && self.random.chance(50) {
            let bad_arguments = "Invalid play arguments".len();
            if self.random.chance(50) {
                arguments.truncate(1);
                words = bad_arguments;
            } else {
                arguments[1] = self.no_string();
                words = if connected { bad_arguments } else { words };
            }
        }
        let need = if words == 0 { 0 } else { error_need("NetStream.Play.Start".len(), words) };
        let effect = if words == 0 { Effect::File { want: Want::Play, stream, name: key.len() } } else { Effect::None };
        command(stream, b"play", self.transaction(), &arguments, need, effect)
    }

    /// Start, duration and reset, and one more.
    fn play_option(&mut self, i: usize) -> Vec<u8> {
        if self.odd() {
            return self.value(1);
        }
        match i {
            0 => {
                number(double(self.random.pick(&[-2.0, -1.0, 0.0, -0.0, -0.5, 10.0, 4294967295.0, 4294967296.0, 1.5])))
            }
            1 => number(double(self.random.pick(&[-1.0, 0.0, 60.0, -0.0, 0.9, 1e10]))),
            _ => vec![0x01, self.boolean()],
        }
    }

    fn metadata_value(&mut self, field: usize) -> Vec<u8> {
        if self.odd() && self.random.chance(30) {
            return self.value(2);
        }
        match field {
            9 => vec![0x01, self.boolean()],
            10 => text(&self.text()),
            _ => number(self.bits()),
        }
    }

    fn metadata_pairs(&mut self) -> Vec<Pair> {
        let mut all: Vec<Pair> = Vec::new();
        let share = self.random.pick(&[10, 40, 70, 100]);
        for (field, name) in NAMES.iter().enumerate() {
            if self.random.chance(share) {
                all.push(pair(name, self.metadata_value(field)));
            }
        }
        if self.random.chance(20) {
            all.push(pair(self.random.pick(&["duration", "widt", "widthh", "Width", "filesize"]), self.value(2)));
        }
        // The last of a name counts, whatever its type.
        if self.odd() {
            let field = self.random.below(NAMES.len());
            let of = self.random.below(NAMES.len());
            all.push(pair(NAMES[field], self.metadata_value(of)));
        }
        if all.len() > 1 && self.random.chance(50) {
            let by = self.random.below(all.len());
            all.rotate_left(by);
        }
        all
    }

    fn data(&mut self) -> Sent {
        let stream = self.a_stream(State::Publishing);
        let all = self.metadata_pairs();
        let third = match self.random.below(12) {
            0 => ecma(all.len() as u32, &all),
            1 if self.odd() => ecma(self.random.word(), &all),
            2 if self.odd() => self.value(2),
            _ => object(&all),
        };
        let mut values = vec![text(b"@setDataFrame"), text(b"onMetaData"), third];
        match self.random.below(30) {
            0 => values[0] = text(b"onTextData"),
            1 => values[1] = text(b"onCuePoint"),
            2 => values.push(self.value(2)),
            3 => values[0] = self.value(1),
            4 => values.clear(),
            5 if !self.style.ordinary => values.truncate(2),
            6 if !self.style.ordinary => values.truncate(1),
            7 if !self.style.ordinary => values[1] = long_text(b"onMetaData"),
            _ => {}
        }
        Sent { kind: 18, stream, body: values.concat(), need: 0, effect: Effect::None }
    }

    fn media(&mut self) -> Sent {
        let kind = self.random.pick(&[8, 9]);
        let stream = self.a_stream(State::Publishing);
        let n = self.media_length();
        Sent { kind, stream, body: self.random.bytes(n), need: 0, effect: Effect::None }
    }

    fn media_length(&mut self) -> usize {
        match self.random.below(600) {
            0 => self.random.pick(&[4095, 4096, 4097]),
            1 if self.random.chance(20) => LONGEST_BODY as usize,
            n => n % 24,
        }
    }

    fn control(&mut self) -> Sent {
        let event = self.random.pick(&[6, 6, 6, 7, 7, 7, 0, 1, 2, 3, 4, 5, 8]);
        let mut body = [&[0, event][..], &self.random.word().to_be_bytes()].concat();
        if self.wild() {
            body.truncate(self.random.below(7));
        } else if event == 3 {
            body.extend([0, 0, 3, 232]);
        } else if self.wild() {
            body.push(0);
        }
        // An event has two bytes.
        let high = self.wild() && self.random.chance(40);
        if let (true, Some(first)) = (high, body.first_mut()) {
            *first = 1;
        }
        let need = if event == 6 && body.len() >= 6 && !high { PING } else { 0 };
        Sent { kind: 4, stream: self.random.pick(&[0, 0, 5]), body, need, effect: Effect::None }
    }

    fn other(&mut self) -> Sent {
        let kind = self.random.pick(&[0, 1, 2, 3, 5, 6, 7, 10, 11, 12, 13, 14, 15, 16, 17, 19, 21, 22, 255]);
        let n = if self.style.ordinary { 4 } else { self.random.below(12) };
        Sent { kind, stream: self.random.pick(&[0, 1]), body: self.random.bytes(n), need: 0, effect: Effect::None }
    }

    fn unknown(&mut self) -> Sent {
        let names = ["releaseStream", "FCPublish", "_checkbw", "getStreamLength", "", "Connect", "publis", "publish2"];
        let name = self.random.pick(&names).as_bytes();
        let mut rest = vec![self.value(2)];
        for _ in 0..self.random.below(3) {
            rest.push(self.value(2));
        }
        let mut sent = command(self.random.pick(&[0, 1]), name, self.transaction(), &rest, 0, Effect::None);
        if self.wild() {
            sent.body = self.bad_beginning();
        }
        sent
    }

    /// A command that does not begin with string, number, any value.
    fn bad_beginning(&mut self) -> Vec<u8> {
        let name = self.random.pick(&["connect", "createStream", "publish", "play", "ping"]).as_bytes();
        let one = number(double(1.0));
        match self.random.below(6) {
            0 => Vec::new(),
            1 => text(name),
            2 => [text(name), one].concat(),
            3 => [long_text(name), one, NULL.to_vec()].concat(),
            4 => [text(name), text(b"1"), NULL.to_vec()].concat(),
            _ => [self.value(1), self.value(1), self.value(1)].concat(),
        }
    }

    fn any_message(&mut self) -> Sent {
        match self.random.below(12) {
            0 | 1 => self.connect(),
            2 => self.create(),
            3 => self.end(false),
            4 => self.end(true),
            5 | 6 => self.publish(),
            7 | 8 => self.play(),
            9 | 10 => self.data(),
            _ => self.unknown(),
        }
    }

    /// One or two bytes wrong, cut, or too many.
    fn spoil(&mut self, mut body: Vec<u8>) -> Vec<u8> {
        let n = body.len();
        if n == 0 {
            return self.random.bytes(1);
        }
        let at = self.random.below(n);
        match self.random.below(9) {
            0 => body[at] = self.random.byte(),
            1 => body[at] ^= 1 << self.random.below(8),
            2 | 3 => body.truncate(at),
            4 => body.extend(self.value(1)),
            5 => {
                let more = 1 + self.random.below(6);
                body.extend(self.random.bytes(more));
            }
            6 => body.insert(at, self.random.pick(&[0, 1, 2, 3, 5, 8, 9, 10, 11, 12, 255])),
            7 => {
                body.remove(at);
            }
            _ => body[at] = self.random.pick(&[0, 1, 2, 3, 4, 5, 6, 7, 8, 9, 10, 11, 12, 13, 255]),
        }
        body
    }

    fn send_spoilt(&mut self) {
        let mut sent = self.any_message();
        sent.body = self.spoil(sent.body);
        if self.random.chance(25) {
            sent.body = self.spoil(sent.body);
        }
        sent.effect = Effect::None;
        self.send(sent);
    }

    fn send(&mut self, sent: Sent) {
        let room = self.room(sent.need);
        self.send_in(sent, room);
    }

    fn send_in(&mut self, sent: Sent, room: u32) {
        let clock = self.tick();
        let timestamp = self.next_timestamp();
        let Sent { kind, stream, body, need, effect } = sent;
        self.write(&message_entry(kind, stream, timestamp, clock, room, body.len() as u32, &body));
        if room as usize >= need && !self.model.broken {
            self.model.apply(effect);
        }
    }

    fn next_timestamp(&mut self) -> u32 {
        if self.odd() {
            let random = self.random.word();
            return self.random.pick(&[
                0,
                1,
                0xFF_FFFE,
                0xFF_FFFF,
                0x100_0000,
                0x7FFF_FFFF,
                0x8000_0000,
                u32::MAX,
                random,
            ]);
        }
        self.timestamp = self.timestamp.wrapping_add(self.random.word() % 40);
        self.timestamp
    }

    // -- the other calls

    fn accept(&mut self, request: u32) {
        let need = self.model.accept_need(request);
        let room = self.room(need);
        self.accept_in(request, room);
    }

    fn accept_in(&mut self, request: u32, room: u32) {
        let need = self.model.accept_need(request);
        let clock = self.tick();
        self.write(&plain_entry(3, request, clock, room));
        if room as usize >= need && !self.model.broken {
            self.model.accept(request);
        }
    }

    /// A code or a description around its limit, now and then.
    fn reason(&mut self) -> Vec<u8> {
        if !self.odd() {
            return self
                .random
                .pick(&["NetStream.Play.Failed", "no", "Access denied", "", "besetzt: Prüfstand"])
                .as_bytes()
                .to_vec();
        }
        let lengths: &[usize] = if self.style.ordinary { &[0, 1, 255, 256] } else { &[0, 1, 255, 256, 257, 1000] };
        let n = self.random.pick(lengths);
        if self.wild() {
            self.random.bytes(n)
        } else {
            vec![b'r'; n]
        }
    }

    fn reject(&mut self, request: u32) {
        let (code, description) = (self.reason(), self.reason());
        let there = self.model.request(request).is_some();
        let fits = code.len() <= 256 && description.len() <= 256;
        let need = if there && fits { error_need(code.len(), description.len()) } else { 0 };
        let room = self.room(need);
        self.reject_in(request, room, &code, &description);
        if there && fits && room as usize >= need && !self.model.broken {
            self.model.requests.retain(|r| r.number != request);
        }
    }

    fn reject_in(&mut self, request: u32, room: u32, code: &[u8], description: &[u8]) {
        let clock = self.tick();
        self.write(&reject_entry(request, clock, room, code, description));
    }

    fn decide(&mut self) {
        let request = self.a_request();
        // A day begins with an accepted connect.
        let accepted = if self.model.connected { 70 } else { 90 };
        if self.random.chance(accepted) {
            self.accept(request)
        } else {
            self.reject(request)
        }
    }

    fn finish(&mut self) {
        let stream = self.a_stream(State::Playing);
        let playing = self.model.stream(stream).filter(|s| s.state == State::Playing);
        let need = playing.map_or(0, |s| 135 + s.key);
        let (room, clock) = (self.room(need), self.tick());
        self.write(&plain_entry(5, stream, clock, room));
        if room as usize >= need && !self.model.broken {
            for s in self.model.streams.iter_mut().filter(|s| playing.is_some() && s.number == stream) {
                (s.state, s.key) = (State::Completed, 0);
            }
        }
    }

    fn send_metadata(&mut self) {
        let set = match self.random.below(4) {
            0 => 1 << self.random.below(11),
            1 => 0x7FF,
            2 => self.random.word() as u16 & 0x7FF,
            _ => 0x400 | self.random.word() as u16 & 0x7FF,
        };
        let mut numbers = [0; 9];
        for n in &mut numbers {
            let random = self.random.word();
            *n = self.random.pick(&[0, 1, 320, 44100, u32::MAX, 0x8000_0000, 16_777_217, random]);
        }
        numbers[4] = self.rate();
        let encoder = if self.wild() { vec![b'e'; self.random.pick(&[0, 1, 127, 128, 129, 300])] } else { self.text() };
        let need = 30 + (0..11).filter(|i| set >> i & 1 == 1).map(|i| field_need(i, encoder.len())).sum::<usize>();
        let need = if set >> 10 & 1 == 1 && encoder.len() > 128 { 0 } else { need };
        let stream = self.a_stream(State::Playing);
        let (clock, room, stereo) = (self.tick(), self.room(need), self.random.pick(&[0, 1]));
        self.write(&Metadata { stream, clock, room, set, numbers, stereo, encoder }.entry());
    }

    /// The bits of a frame rate.
    fn rate(&mut self) -> u32 {
        let random = self.random.word();
        let odd =
            [0, 0x8000_0000, 1, 0x007F_FFFF, 0x0080_0000, 0x7F7F_FFFF, 0x7F80_0000, 0xFF80_0000, random & 0x7F7F_FFFF];
        let nans = [0x7FC0_0000, 0x7F80_0001, 0xFFC0_0000, 0xFFFF_FFFF, 0x7FC0_1234, random];
        match self.random.below(4) {
            0 if !self.style.ordinary => self.random.pick(&nans),
            1 => self.random.pick(&odd),
            _ => self.random.pick(&[25f32, 29.97, 30.0, 0.1]).to_bits(),
        }
    }

    fn send_media(&mut self) {
        let kind = self.random.pick(&[8, 9]);
        let (stream, timestamp) = (self.a_stream(State::Playing), self.next_timestamp());
        let n = self.media_length();
        let body = self.random.bytes(n);
        let (droppable, room) = (self.random.pick(&[0, 1]), self.room(13 + n));
        self.write(&media_entry(kind, stream, timestamp, droppable, room, n as u32, &body));
    }

    fn ping(&mut self) {
        let (clock, room) = (self.tick(), self.room(PING));
        self.write(&ping_entry(clock, room));
    }

    fn state(&mut self) {
        self.write(&STATE);
    }

    // -- damage

    fn damage(&mut self, what: u8, place: usize, value: u32) {
        // A place is taken modulo 16.
        let place = place % 16 + if self.random.chance(20) { 16 * self.random.below(16) } else { 0 };
        self.write(&damage_entry(what, place as u8, value));
    }

    /// A place of a table of so many entries: in use, mostly.
    fn a_place(&mut self, count: usize) -> usize {
        if count == 0 || self.random.chance(15) {
            self.random.below(16)
        } else {
            self.random.below(count)
        }
    }

    /// Overwritten so that the session is still sound.
    fn damage_softly(&mut self) {
        let what = self.random.below(10) as u8;
        let length = self.random.pick(&[0, 1, 2, 4, 127, 128]);
        let (streams, requests) = (self.model.streams.len(), self.model.requests.len());
        match what {
            0 => {
                self.model.app = length;
                self.damage(0, 0, length as u32);
            }
            1 => {
                self.model.version = length;
                self.damage(1, 0, length as u32);
            }
            2 => self.count_softly(2, streams),
            3 => self.count_softly(3, requests),
            4 => self.number_softly(4),
            5 => {
                let place = self.a_place(streams);
                if let Some(s) = self.model.streams.get_mut(place) {
                    s.key = length;
                }
                self.damage(5, place, length as u32);
            }
            6 => self.number_softly(6),
            7 => {
                let place = self.a_place(requests);
                if let Some(r) = self.model.requests.get_mut(place) {
                    r.name = length;
                }
                self.damage(7, place, length as u32);
            }
            8 => {
                let least = self.model.streams.iter().map(|s| s.number + 1).max().unwrap_or(0);
                let next = self.far_number(least);
                self.model.next_stream = next;
                self.damage(8, 0, next);
            }
            _ => {
                let least = self.model.requests.iter().map(|r| r.number + 1).max().unwrap_or(0);
                let next = self.far_number(least);
                self.model.next_request = next;
                self.damage(9, 0, next);
            }
        }
    }

    /// A next number that is at least this one.
    fn far_number(&mut self, least: u32) -> u32 {
        let random = self.random.word();
        self.random
            .pick(&[least, least, least.saturating_add(3), u32::MAX - 2, u32::MAX - 1, u32::MAX, random])
            .max(least)
    }

    /// A smaller count, or one more, which finds a blank place.
    fn count_softly(&mut self, what: u8, count: usize) {
        let more = count < 16 && self.random.chance(30);
        let count = if more { count + 1 } else { self.random.below(count + 1) };
        if what == 2 {
            self.model.streams.truncate(count);
            if more && self.model.stream(0).is_none() {
                self.model.streams.push(Stream { number: 0, state: State::Created, key: 0 });
            }
        } else {
            self.model.requests.truncate(count);
            if more && self.model.request(0).is_none() {
                self.model.requests.push(Request { number: 0, want: Want::Connect, stream: 0, name: 0 });
            }
        }
        self.damage(what, 0, count as u32);
    }

    /// An entry's number becomes another one that is free.
    fn number_softly(&mut self, what: u8) {
        let next = if what == 4 { self.model.next_stream } else { self.model.next_request };
        let number = if next == 0 { 0 } else { (self.random.next() % u64::from(next)) as u32 };
        let taken = if what == 4 { self.model.stream(number).is_some() } else { self.model.request(number).is_some() };
        let count = if what == 4 { self.model.streams.len() } else { self.model.requests.len() };
        let place = self.a_place(count);
        if taken && place < count {
            return self.state();
        }
        match (what, self.model.streams.get_mut(place), self.model.requests.get_mut(place)) {
            (4, Some(s), _) => s.number = number,
            (6, _, Some(r)) => r.number = number,
            _ => {}
        }
        self.damage(what, place, number);
    }

    /// What can be overwritten so that 15 is due: what, place, the bad number and the good one.
    fn bad_ways(&mut self) -> Vec<(u8, usize, u32, u32)> {
        // Whatever the width of a length or a count, these are too large.
        let too_long = self.random.pick(&[129, 129, 129, 130, 255, 0xFFFF, u32::MAX]);
        let too_many = self.random.pick(&[17, 17, 17, 18, 255, 0xFFFF, u32::MAX]);
        let (streams, requests) = (self.model.streams.clone(), self.model.requests.clone());
        let (p, q) = (self.random.below(streams.len().max(1)), self.random.below(requests.len().max(1)));
        let mut ways = vec![
            (1, 0, too_long, self.model.version as u32),
            (2, 0, too_many, streams.len() as u32),
            (3, 0, too_many, requests.len() as u32),
        ];
        if self.model.connected {
            ways.push((0, 0, too_long, self.model.app as u32));
        }
        if let Some(s) = streams.get(p) {
            let other = streams[(p + 1) % streams.len()].number;
            let next = self.model.next_stream;
            let bad = if streams.len() > 1 { self.random.pick(&[other, other, next, u32::MAX]) } else { next };
            ways.push((4, p, bad, s.number));
            ways.push((5, p, too_long, s.key as u32));
            ways.push((8, 0, self.random.pick(&[0, s.number, s.number]), next));
        }
        if let Some(r) = requests.get(q) {
            let other = requests[(q + 1) % requests.len()].number;
            let next = self.model.next_request;
            let bad = if requests.len() > 1 { self.random.pick(&[other, other, next, u32::MAX]) } else { next };
            ways.push((6, q, bad, r.number));
            ways.push((7, q, too_long, r.name as u32));
            ways.push((9, 0, self.random.pick(&[0, r.number, r.number]), next));
        }
        ways
    }

    /// Broken, some calls, and mostly set right again.
    fn damage_badly(&mut self) {
        let ways = self.bad_ways();
        let (what, place, bad, good) = self.random.pick(&ways);
        self.damage(what, place, bad);
        self.model.broken = true;
        for _ in 0..1 + self.random.below(4) {
            self.any_call();
        }
        if self.random.chance(30) {
            self.state();
        }
        if self.random.chance(90) {
            self.damage(what, place, good);
            self.model.broken = false;
        }
    }

    /// Any call, each as often as any other.
    fn any_call(&mut self) {
        match self.random.below(8) {
            0 => {
                let sent = self.any_message();
                self.send(sent);
            }
            1 => {
                let request = self.a_request();
                self.accept(request);
            }
            2 => {
                let request = self.a_request();
                self.reject(request);
            }
            3 => self.finish(),
            4 => self.send_metadata(),
            5 => self.send_media(),
            6 => self.ping(),
            _ => {
                let sent = self.media();
                self.send(sent);
            }
        }
    }

    // -- pieces: short runs that get somewhere

    fn connected(&mut self) {
        for _ in 0..3 {
            if self.model.connected || self.model.broken {
                return;
            }
            let request = self.model.next_request;
            let body = object(&[pair("app", text(b"bench"))]);
            let effect = Effect::File { want: Want::Connect, stream: 0, name: 5 };
            self.send_in(command(0, b"connect", double(1.0), &[body], 0, effect), 600);
            self.accept_in(request, 700);
        }
    }

    fn one_stream(&mut self) -> u32 {
        if self.model.streams.is_empty() {
            self.send_in(command(0, b"createStream", double(2.0), &[NULL.to_vec()], CREATED, Effect::Create), 600);
        }
        self.model.streams.last().map_or(1, |s| s.number)
    }

    /// A stream that publishes.
    fn publishing(&mut self) -> u32 {
        self.connected();
        let stream = self.one_stream();
        let request = self.model.next_request;
        let sent = self.ask(Want::Publish, stream, b"pin7");
        self.send_in(sent, 600);
        self.accept_in(request, 600);
        stream
    }

    fn ask(&mut self, want: Want, stream: u32, key: &[u8]) -> Sent {
        let effect = Effect::File { want, stream, name: key.len() };
        let key_and_mode = [NULL.to_vec(), text(key), text(b"live")];
        match want {
            Want::Publish => command(stream, b"publish", double(5.0), &key_and_mode, 0, effect),
            _ => command(stream, b"play", double(6.0), &key_and_mode[..2], 0, effect),
        }
    }

    /// Sixteen wait, the next is refused, and a decision makes room.
    fn full_requests(&mut self) {
        self.connected();
        let stream = self.one_stream();
        for _ in self.model.requests.len()..17 + self.random.below(2) {
            let want = self.random.pick(&[Want::Publish, Want::Play]);
            let sent = self.ask(want, stream, b"pin7");
            self.send(sent);
        }
        // A key that is too long comes before a full table.
        let long = self.ask(Want::Publish, stream, &[b'k'; 129]);
        self.send(long);
        self.one_too_many(3, self.model.requests.len());
        self.decide();
        let sent = self.connect();
        self.send(sent);
        let sent = self.ask(Want::Publish, stream, b"pin8");
        self.send(sent);
        self.state();
    }

    /// A full table's count becomes 17, with no number twice, and 16 again.
    fn one_too_many(&mut self, what: u8, count: usize) {
        if count == 16 {
            self.damage(what, 0, 17);
            self.ping();
            self.damage(what, 0, 16);
        }
    }

    fn full_streams(&mut self) {
        self.connected();
        for _ in self.model.streams.len()..17 + self.random.below(2) {
            let sent = self.create();
            self.send(sent);
        }
        self.one_too_many(2, self.model.streams.len());
        let sent = self.end(true);
        self.send(sent);
        for _ in 0..2 {
            let sent = self.create();
            self.send(sent);
        }
        self.state();
    }

    /// The last numbers are given, with full tables or not.
    fn used_up(&mut self) {
        self.connected();
        let (mut a, mut b) = (self.random.below(3) as u32, self.random.below(3) as u32);
        if self.random.chance(40) {
            self.full_streams();
            self.full_requests();
            // Used up comes before full.
            (a, b) = (0, 0);
        }
        self.damage(8, 0, u32::MAX - a);
        self.damage(9, 0, u32::MAX - b);
        (self.model.next_stream, self.model.next_request) = (u32::MAX - a, u32::MAX - b);
        for _ in 0..3 {
            let sent = self.create();
            self.send(sent);
            let stream = self.model.streams.last().map_or(1, |s| s.number);
            let key = self.random.pick(&[4, 128, 129]);
            let sent = self.ask(Want::Publish, stream, &vec![b'k'; key]);
            self.send(sent);
        }
        self.decide();
        let sent = self.connect();
        self.send(sent);
        self.decide();
        self.state();
    }

    /// Accepted after its stream is gone, closed or taken by another.
    fn late(&mut self) {
        self.connected();
        for want in [Want::Publish, Want::Play] {
            let sent = self.create();
            self.send(sent);
            let stream = self.one_stream();
            let request = self.model.next_request;
            let sent = self.ask(want, stream, b"pin7");
            self.send(sent);
            let delete = self.random.chance(60);
            let name: &[u8] = if delete { b"deleteStream" } else { b"closeStream" };
            let effect = if delete { Effect::Delete(stream) } else { Effect::Close(stream) };
            self.send_in(command(0, name, 0, &[NULL.to_vec(), whole(stream)], 0, effect), 0);
            // 11 stands before 12 and takes the request away.
            let room = if delete { self.random.pick(&[0, 600]) } else { 600 };
            self.accept_in(request, room);
            self.accept(request);
            let sent = self.media();
            self.send(sent);
        }
    }

    /// A play, accepted in tight rooms, and finished twice.
    fn finished(&mut self) {
        self.connected();
        let stream = self.one_stream();
        let request = self.model.next_request;
        let sent = self.ask(Want::Play, stream, b"pin8");
        self.send(sent);
        for room in [370, 371] {
            self.accept_in(request, room);
        }
        for room in [138, 139, 139] {
            let clock = self.tick();
            self.write(&plain_entry(5, stream, clock, room));
        }
        for s in self.model.streams.iter_mut().filter(|s| s.number == stream) {
            (s.state, s.key) = (State::Completed, 0);
        }
    }

    /// A publish, accepted in tight rooms, with frames and metadata.
    fn published(&mut self) {
        self.connected();
        let stream = self.one_stream();
        let request = self.model.next_request;
        let sent = self.ask(Want::Publish, stream, b"pin7");
        self.send(sent);
        for room in [170, 171, 171] {
            self.accept_in(request, room);
        }
        let rates = [
            self.random.pick(&NANS),
            double(self.random.pick(&[16777217.0, 16777219.0, 0.1, -0.0, 29.97])),
            double(self.random.pick(&[1e-45, 7e-46, 7.006492321624085e-46, 1.1754942807573643e-38, 1e-40])),
            double(self.random.pick(&[3.4028235677973366e38, 3.4028235677973362e38, f64::INFINITY, -1e300])),
            double(self.random.pick(&[25.0, 16777219.0, 1e-39])),
        ];
        for (rate, n) in rates.into_iter().zip([127, 128, 3, 0, 129]) {
            let all = [
                pair("encoder", text(&vec![b'e'; n])),
                pair("width", number(self.bits())),
                pair("framerate", number(rate)),
                pair(self.random.pick(&NAMES), number(self.bits())),
            ];
            let body = [text(b"@setDataFrame"), text(b"onMetaData"), object(&all)].concat();
            let body = [body, self.value(1)][..1 + self.random.below(2)].concat();
            // A long encoder is refused only where the event would be raised.
            for stream in [stream, 0].into_iter().take(if n > 128 { 2 } else { 1 }) {
                self.send(Sent { kind: 18, stream, body: body.clone(), need: 0, effect: Effect::None });
            }
        }
        for _ in 0..3 {
            let sent = if self.random.chance(50) { self.data() } else { self.media() };
            self.send(sent);
        }
        // What publishes can't be finished.
        let clock = self.tick();
        self.write(&plain_entry(5, stream, clock, 600));
    }

    /// Starts and durations at every border.
    fn borders(&mut self) {
        self.connected();
        let stream = self.one_stream();
        let numbers = [-2.0, -1.0, -0.5, -0.0, 0.0, 0.9, 4294967294.5, 4294967295.0, 4294967296.0, f64::INFINITY, -1.5];
        for i in 0..7 {
            let nan = self.random.pick(&NANS);
            let start = if i == 0 { nan } else { double(self.random.pick(&numbers)) };
            let duration = if i == 1 { nan } else { double(self.random.pick(&numbers)) };
            let request = self.model.next_request;
            let rest =
                [NULL.to_vec(), text(b"pin7"), number(start), number(duration), vec![0x01, self.random.byte() % 3]];
            let effect = Effect::File { want: Want::Play, stream, name: 4 };
            self.send(command(stream, b"play", double(4.0), &rest, 0, effect));
            if i < 6 {
                self.reject(request);
            }
        }
    }

    /// Rejects with long reasons, of requests that wait and of others.
    fn reasons(&mut self) {
        self.connected();
        let stream = self.one_stream();
        let request = self.model.next_request;
        let sent = if self.random.chance(50) { self.ask(Want::Play, stream, b"k") } else { self.connect() };
        self.send(sent);
        // The lengths, then the room, and the request is gone only then.
        self.reject_in(request, 0, &[b'c'; 257], b"");
        self.reject_in(request, 600, b"", &[b'd'; 257]);
        self.reject_in(request, 587, &[b'c'; 256], &[b'd'; 256]);
        self.reject_in(request, 588, &[b'c'; 256], &[b'd'; 256]);
        self.reject_in(request, 588, &[b'c'; 256], &[b'd'; 257]);
        self.model.requests.retain(|r| r.number != request);
    }

    /// Around eight containers deep, whole and cut, with another fault to the left, to the right or inside.
    fn nested(&mut self) {
        for marker in [0x03, 0x08, 0x0A] {
            for depth in [8, 9] {
                let body = (0..depth).fold(NULL.to_vec(), |value, _| wrapped(marker, 1, &value));
                self.send(Sent { kind: 18, stream: 1, body, need: 0, effect: Effect::None });
            }
            // The name's fault comes before that of a container that would lie too deep.
            let inmost = vec![self.random.pick(&[0x03, 0x03, 0x08]), 0, 0, marker];
            let body = (0..7).fold(inmost, |value, _| wrapped(0x0A, 1, &value));
            self.send(Sent { kind: 20, stream: 1, body, need: 0, effect: Effect::None });
        }
        for _ in 0..5 {
            let body = self.nest();
            let kind = self.random.pick(&[18, 20]);
            let stream = self.random.pick(&[0, 1]);
            self.send(Sent { kind, stream, body, need: 0, effect: Effect::None });
        }
    }

    fn nest(&mut self) -> Vec<u8> {
        let depth = self.random.pick(&[7, 8, 8, 9, 9, 9, 10]);
        let one_kind = self.random.pick(&[0x03, 0x08, 0x0A]);
        let mixed = self.random.chance(50);
        let inmost: &[u8] =
            self.random.pick(&[&NULL[..], &[0x07], &[0x02, 0, 9], &[0x03], &[0x08], &[0x0A], &[0x0A, 0, 0, 0, 0]]);
        // An empty name with another byte than 09 behind it, in place of a value.
        let mut value = inmost.to_vec();
        if self.random.chance(20) {
            let after = self.random.pick(&[0x03, 0x08, 0x0A, 0x05, 0x09, 0x00]);
            value = vec![0x03, 0, 0, after];
        }
        for _ in 0..depth {
            let marker = if mixed { self.random.pick(&[0x03, 0x08, 0x0A]) } else { one_kind };
            let count = self.random.pick(&[0, 1, 7, u32::MAX]);
            value = wrapped(marker, count, &value);
        }
        let fault =
            self.random.pick(&[&[0x04][..], &[0x0D], &[0x02, 0xFF, 0xFF], &[0x00, 1], &[0x0A, 0, 0, 0, 9]]).to_vec();
        let mut body = match self.random.below(8) {
            0 => [fault, value].concat(),
            1 => [value, fault].concat(),
            2 => strict(2, &[fault, value]),
            3 => strict(2, &[value, fault]),
            4 => [text(b"ping"), number(double(1.0)), NULL.to_vec(), value].concat(),
            5 => [text(b"connect"), number(double(1.0)), object(&[pair("app", text(b"a")), pair("x", value)])].concat(),
            _ => value,
        };
        if self.random.chance(30) {
            body.truncate(self.random.below(body.len() + 1));
        }
        body
    }

    /// Empty names in objects, with every byte that matters behind them.
    fn empty_names(&mut self) {
        self.connected();
        for after in [0x09, 0x03, 0x08, 0x0A, 0x05, self.random.byte()] {
            let inside = [&counted(b"app")[..], &text(b"live"), &[0, 0, after]].concat();
            let third = [&[0x03][..], &inside, &[0, 0, 9][..self.random.below(4)]].concat();
            self.send(command(0, b"connect", double(1.0), &[third], 0, Effect::None));
        }
        // The first one was filed.
        let filed = Effect::File { want: Want::Connect, stream: 0, name: 4 };
        if !self.model.broken {
            self.model.apply(filed);
        }
    }

    /// Pings of every length that matters, and events that are none.
    fn controls(&mut self) {
        for event in [6, 7, self.random.pick(&[0, 3, 5, 8])] {
            let body = [&[0, event][..], &self.random.word().to_be_bytes(), &[1]].concat();
            for n in [1, 2, 5, 6, 7] {
                let need = if event == 6 && n >= 6 { PING } else { 0 };
                self.send(Sent { kind: 4, stream: 1, body: body[..n].to_vec(), need, effect: Effect::None });
            }
        }
    }

    /// One body, cut at some places side by side.
    fn cuts(&mut self) {
        let sent = self.any_message();
        let first = self.random.below(sent.body.len() + 1);
        for at in first..sent.body.len().min(first + 10) {
            let body = sent.body[..at].to_vec();
            self.send(Sent { kind: sent.kind, stream: sent.stream, body, need: 0, effect: Effect::None });
        }
    }

    /// Eight markers. The first forty traces of a run meet all 256 of them.
    fn markers(&mut self, first: u8) {
        for marker in (0..8).map(|i| first.wrapping_add(i)) {
            let n = self.random.below(14);
            // Nulls behind it, so that a marker that passes for one of them would be seen.
            let value = [vec![marker], NULL.repeat(n)].concat();
            let head = [text(b"ping"), number(double(1.0)), NULL.to_vec()].concat();
            let body = if self.random.chance(50) { [head, value].concat() } else { value };
            let kind = self.random.pick(&[18, 20]);
            self.send(Sent { kind, stream: 0, body, need: 0, effect: Effect::None });
        }
    }

    /// Array counts that lie, too high and too low.
    fn counts(&mut self) {
        for _ in 0..4 {
            let n = self.random.below(4);
            let all: Vec<_> = (0..n).map(|_| self.value(1)).collect();
            let said = self.random.pick(&[0, 1, n as u32, n as u32 + 1, 4000, u32::MAX]);
            let lie = if self.random.chance(50) { strict(said, &all) } else { ecma(said, &self.any_pairs(1)) };
            let body = [text(b"@setDataFrame"), text(b"onMetaData"), lie, self.value(1)].concat();
            let kind = self.random.pick(&[18, 20]);
            self.send(Sent { kind, stream: 1, body, need: 0, effect: Effect::None });
        }
    }

    /// Bodies around 4,096 bytes, and frames that are longer.
    fn sizes(&mut self) {
        let stream = self.publishing();
        let sizes = [(4, 4096), (4, 4097), (18, 4096), (18, 4097), (20, 4095), (20, 4096), (20, 4097)];
        for (kind, n) in sizes {
            let event = self.random.pick(&[0, 6, 7]);
            let create = [text(b"createStream"), number(double(1.0)), NULL.to_vec()].concat();
            let head = if kind == 4 { vec![0, event, 1, 2, 3, 4] } else { create };
            let filler = long_text(&vec![b'l'; n - head.len() - 5]);
            let (need, effect) = match kind {
                4 if event == 6 && n <= 4096 => (PING, Effect::None),
                20 if n <= 4096 => (CREATED, Effect::Create),
                _ => (0, Effect::None),
            };
            self.send(Sent { kind, stream, body: [head, filler].concat(), need, effect });
        }
        // As many values as a body can hold, and one that is not there.
        for count in [4091u32, 4092] {
            let body = [&[0x0A][..], &count.to_be_bytes(), &NULL.repeat(4091)].concat();
            self.send(Sent { kind: 18, stream, body, need: 0, effect: Effect::None });
        }
        let n = if self.random.chance(30) { LONGEST_BODY as usize } else { 4097 };
        for kind in [8, 9] {
            self.send(Sent { kind, stream, body: vec![kind; n], need: 0, effect: Effect::None });
        }
    }

    /// Apps and keys around 128 bytes.
    fn long_names(&mut self) {
        self.connected();
        let stream = self.one_stream();
        let any = (self.random.pick(&[0, 1, 127]), self.random.below(3));
        for (n, slashes) in [(128, 1), (128, 2), any, (129, self.random.below(2))] {
            let app = [vec![b'a'; n], vec![b'/'; slashes]].concat();
            let name = app.strip_suffix(b"/").unwrap_or(&app).len();
            let effect = Effect::File { want: Want::Connect, stream: 0, name };
            let nan = self.random.pick(&NANS);
            let encoding = self.random.pick(&[double(-0.0), double(3.0), double(-1.0), nan]);
            let third = object(&[(b"app".to_vec(), text(&app)), pair("objectEncoding", number(encoding))]);
            let sent = command(0, b"connect", self.transaction(), &[third], 0, effect);
            self.send(sent);
            let want = self.random.pick(&[Want::Publish, Want::Play]);
            let key = vec![b'k'; self.random.pick(&[0, 127, 128, 129])];
            let sent = self.ask(want, stream, &key);
            self.send(sent);
            self.decide();
        }
        // The mode is tested before the key's length.
        let rest = [NULL.to_vec(), text(&[b'k'; 129]), text(b"lif")];
        self.send(command(stream, b"publish", double(5.0), &rest, error_need(23, 26), Effect::None));
    }

    /// Rooms that are one short, and then enough, for calls that answer anywhere.
    fn tight(&mut self) {
        let clock = self.tick();
        for room in [PING as u32 - 1, PING as u32] {
            self.write(&ping_entry(clock, room));
            let sent = Sent { kind: 4, stream: 0, body: vec![0, 6, 1, 2, 3, 4], need: PING, effect: Effect::None };
            self.send_in(sent, room);
        }
        for room in [15, 16] {
            let kind = self.random.pick(&[8, 9]);
            self.write(&media_entry(kind, 1, 77, 1, room, 3, &[1, 2, 3]));
        }
        for room in [41, 42] {
            let sent = command(0, b"createStream", double(2.0), &[NULL.to_vec()], CREATED, Effect::Create);
            self.send_in(sent, room);
        }
        // An encoder that is not set may have any length.
        for (set, room, n) in [(0x400, 43, 1), (0x400, 42, 1), (0x400, 600, 129), (0x400, 0, 129), (0x001, 600, 129)] {
            let metadata = Metadata { stream: 1, clock, room, set, numbers: [0; 9], stereo: 0, encoder: vec![b'e'; n] };
            self.write(&metadata.entry());
        }
    }

    /// Starts that are refused, and one that is not.
    fn starts(&mut self) {
        let version = vec![b'v'; self.random.pick(&[0, 1, 127, 128, 129])];
        let clock = self.tick();
        for (on_bw_done, room) in [(0, 70), (1, 113), (0, 71), (1, 114)] {
            let (window, bandwidth, version) = (self.random.word(), self.random.word(), version.clone());
            let chunk = self.random.pick(&[1, 4096, 0x7FFF_FFFF]);
            self.write(&Start { chunk, window, bandwidth, on_bw_done, clock, room, version }.entry());
            if self.random.chance(30) {
                self.state();
                self.ping();
            }
        }
        self.begin(true);
        self.state();
        self.early();
        self.begin(false);
    }

    /// Before any connect: the number of arguments is tested first.
    fn early(&mut self) {
        let sent = self.create();
        self.send(sent);
        let key_and_mode = [NULL.to_vec(), text(b"pin7"), text(b"live")];
        for (name, least) in [("publish", 2), ("play", 1)] {
            for arguments in [0, 1, 2] {
                let early = format!("Can't {name} before connecting");
                let few = format!("Invalid {name} arguments");
                let words = if arguments < least { few } else { early };
                let code = if name == "publish" { 23 } else { 20 };
                let rest = &key_and_mode[..arguments + 1];
                let need = error_need(code, words.len());
                self.send(command(1, name.as_bytes(), double(5.0), rest, need, Effect::None));
            }
        }
        for delete in [false, true] {
            let sent = self.end(delete);
            self.send(sent);
        }
        self.state();
    }

    /// Where no app is set, its length is nobody's.
    fn damage_no_app(&mut self) {
        if !self.model.connected && !self.model.broken {
            let length = self.random.pick(&[128, 129, 255, u32::MAX]);
            self.damage(0, 0, length);
            self.any_call();
        }
    }

    /// A name that is cut short in a request, and made longer again where it was moved to.
    fn damage_names(&mut self) {
        let stream = self.one_stream();
        let (place, request) = (self.model.requests.len(), self.model.next_request);
        if place >= 16 || self.model.broken {
            return;
        }
        let app = self.random.chance(50);
        let third = object(&[pair("app", text(b"bench-and-more"))]);
        let effect = Effect::File { want: Want::Connect, stream: 0, name: 14 };
        let connect = command(0, b"connect", double(1.0), &[third], 0, effect);
        let publish = self.ask(Want::Publish, stream, b"pin7-and-more");
        self.send_in(if app { connect } else { publish }, 600);
        self.damage(7, place, 4);
        self.accept_in(request, 600);
        let longer = self.random.pick(&[5, 13, 20]);
        if app {
            self.model.app = longer;
            self.damage(0, 0, longer as u32);
        } else if let Some(at) = self.model.streams.iter().position(|s| s.number == stream) {
            self.model.streams[at].key = longer;
            self.damage(5, at, longer as u32);
        }
        self.state();
    }

    fn damaged(&mut self) {
        self.damage_no_app();
        self.connected();
        self.one_stream();
        if self.random.chance(40) {
            self.damage_names();
        }
        let stream = self.one_stream();
        for want in [Want::Play, Want::Publish] {
            let sent = self.ask(want, stream, b"pin7");
            self.send_in(sent, 600);
        }
        for (what, place, bad, good) in self.bad_ways() {
            self.damage(what, place, bad);
            self.model.broken = true;
            self.any_call();
            self.damage(what, place, good);
            self.model.broken = false;
        }
        self.damage_badly();
        self.damage_softly();
        self.state();
    }

    fn piece(&mut self, which: u64) {
        match which % 19 {
            0 => self.full_requests(),
            1 => self.damaged(),
            2 => self.nested(),
            3 => self.published(),
            4 => self.used_up(),
            5 => self.tight(),
            6 => self.sizes(),
            7 => self.late(),
            8 => self.full_streams(),
            9 => self.reasons(),
            10 => self.finished(),
            11 => self.starts(),
            12 => self.long_names(),
            13 => self.cuts(),
            14 => {
                let first = self.random.byte();
                self.markers(first);
            }
            15 => self.counts(),
            16 => self.borders(),
            17 => self.controls(),
            _ => self.empty_names(),
        }
    }

    // -- a trace

    /// A start. A refused one leaves the session of a start at clock 0 with no version.
    fn begin(&mut self, oddly: bool) {
        let odd = oddly && !self.style.ordinary;
        let (random, far) = (self.random.word(), self.random.next());
        let chunk =
            if odd { self.random.pick(&[0, 1, 4096, 0x7FFF_FFFF, 0x8000_0000, u32::MAX, random]) } else { 4096 };
        let sizes = [2_500_000, 2_500_000, 1, 0, u32::MAX, random];
        let version = match self.random.below(8) {
            0 => self.odd_text(),
            1 if odd => vec![b'v'; self.random.pick(&[127, 128, 129, 200, 1000])],
            _ => b"FMS/3,0,1,1233".to_vec(),
        };
        let on_bw_done = self.random.pick(&[0, 1]);
        let need = if on_bw_done == 1 { 114 } else { 71 };
        let room = if odd && self.random.chance(40) {
            self.random.pick(&[need - 1, need, 0, 71])
        } else {
            self.room(need) as usize
        };
        let clock = match self.random.below(6) {
            0 => 0,
            1 => 9,
            2 if odd => self.random.pick(&[u64::MAX, u64::MAX - 5, 1 << 32, far]),
            _ => 1_794_000_000_000 + self.random.next() % 1_000_000_000,
        };
        let done = (1..=0x7FFF_FFFF).contains(&chunk) && version.len() <= 128 && room >= need;
        self.model = Model::new(if done { version.len() } else { 0 });
        (self.start, self.clock) = (if done { clock } else { 0 }, clock);
        let (window, bandwidth) = (self.random.pick(&sizes), self.random.pick(&sizes));
        self.write(&Start { chunk, window, bandwidth, on_bw_done, clock, room: room as u32, version }.entry());
    }

    /// What suits the session, mostly.
    fn which_step(&mut self) -> usize {
        let model = &self.model;
        let there = |state: State| model.streams.iter().any(|s| s.state == state);
        let (publishing, playing) = (there(State::Publishing), there(State::Playing));
        // Ordinary traces never fill a table.
        let full = self.style.ordinary && model.streams.len() >= 15;
        let waiting = model.requests.len().min(8);
        let asking = if model.connected && !model.streams.is_empty() { 8 } else { 3 };
        let weights = [
            if model.connected { 2 } else { 20 },
            if full {
                0
            } else if model.streams.is_empty() {
                20
            } else {
                4
            },
            asking,
            asking,
            if waiting == 0 { 2 } else { 12 + 2 * waiting },
            if publishing { 18 } else { 3 },
            if publishing { 12 } else { 3 },
            3,
            if full { 20 } else { 3 },
            if playing { 6 } else { 1 },
            if playing { 8 } else { 3 },
            if playing { 6 } else { 3 },
            3,
            4,
            2,
            3,
            3,
        ];
        let mut at = self.random.below(weights.iter().sum());
        for (which, weight) in weights.iter().enumerate() {
            if at < *weight {
                return which;
            }
            at -= weight;
        }
        weights.len() - 1
    }

    fn step(&mut self) {
        if self.random.chance(self.style.damage) {
            return if self.random.chance(60) { self.damage_softly() } else { self.damage_badly() };
        }
        if self.random.chance(self.style.spoilt) {
            return self.send_spoilt();
        }
        if self.style.ordinary && self.model.requests.len() >= 15 {
            return self.decide();
        }
        let which = self.which_step();
        let sent = match which {
            0 => self.connect(),
            1 => self.create(),
            2 => self.publish(),
            3 => self.play(),
            4 => return self.decide(),
            5 => self.media(),
            6 => self.data(),
            7 => self.end(false),
            8 => self.end(true),
            9 => return self.finish(),
            10 => return self.send_media(),
            11 => return self.send_metadata(),
            12 => return self.ping(),
            13 => self.control(),
            14 => self.other(),
            15 => self.unknown(),
            _ => return self.state(),
        };
        self.send(sent);
    }

    fn trace(mut self) -> Vec<u8> {
        self.begin(self.index % 3 == 0);
        if self.style.damage > 0 && self.random.chance(50) {
            self.damage_no_app();
        }
        let length = 20 + self.random.below(100);
        // The pieces come in turn, so that a few traces meet them all.
        let pieces = if self.style.ordinary { 0 } else { 2 };
        let apart = length / (pieces + 1);
        let met = self.index - self.index.div_ceil(5);
        if pieces > 0 && self.index < 40 {
            self.markers((met * 8) as u8);
        }
        for k in 0..=pieces {
            let until = self.entries.max(apart * (k + 1));
            while self.entries < until {
                self.step();
            }
            if k < pieces {
                self.piece(met * 2 + k as u64);
            }
        }
        self.state();
        self.out
    }
}

/// What a field of a metadata send takes.
fn field_need(field: usize, encoder: usize) -> usize {
    2 + NAMES[field].len()
        + match field {
            9 => 2,
            10 => 3 + encoder,
            _ => 9,
        }
}

// ---------------------------------------------------------------------------------------------------------
// Bad traces
// ---------------------------------------------------------------------------------------------------------

fn good_start() -> Start {
    let version = b"FMS".to_vec();
    Start { chunk: 4096, window: 1, bandwidth: 1, on_bw_done: 0, clock: 9, room: 600, version }
}

fn good_metadata() -> Metadata {
    Metadata { stream: 1, clock: 9, room: 600, set: 0x401, numbers: [7; 9], stereo: 1, encoder: b"enc".to_vec() }
}

/// A good entry of each kind from 1 to 10.
fn good_entry(kind: u8) -> Vec<u8> {
    match kind {
        1 => good_start().entry(),
        2 => message_entry(4, 0, 0, 9, 600, 6, &[0, 6, 1, 2, 3, 4]),
        4 => reject_entry(0, 9, 600, b"code", b"words"),
        6 => good_metadata().entry(),
        7 => media_entry(8, 1, 77, 1, 600, 3, &[1, 2, 3]),
        8 => ping_entry(9, 600),
        9 => STATE.to_vec(),
        10 => damage_entry(8, 0, 7),
        _ => plain_entry(kind, 1, 9, 600),
    }
}

/// A good entry but for its room.
fn roomy_entry(kind: u8, room: u32) -> Vec<u8> {
    match kind {
        1 => Start { room, ..good_start() }.entry(),
        2 => message_entry(4, 0, 0, 9, room, 6, &[0, 6, 1, 2, 3, 4]),
        4 => reject_entry(0, 9, room, b"code", b"words"),
        6 => Metadata { room, ..good_metadata() }.entry(),
        7 => media_entry(8, 1, 77, 1, room, 3, &[1, 2, 3]),
        8 => ping_entry(9, room),
        _ => plain_entry(kind, 1, 9, room),
    }
}

fn bad_entry(which: u64, random: &mut Random) -> Vec<u8> {
    let flag = random.pick(&[2, 3, 128, 255]);
    let room = random.pick(&[LARGEST_ROOM + 1, 70_000, u32::MAX]);
    let over = random.pick(&[LONGEST_BODY + 1, LONGEST_BODY + 1, 1 << 24, u32::MAX]);
    // A body that is too long is there whole now and then.
    let there = vec![5; if over == LONGEST_BODY + 1 { over as usize } else { random.below(9) }];
    match which {
        0 => [vec![random.pick(&[0, 11, 12, 127, 255])], good_entry(1)].concat(),
        1 => {
            let kind = random.pick(&[1, 2, 3, 4, 5, 6, 7, 8, 10]);
            let entry = good_entry(kind);
            let n = 1 + random.below(entry.len() - 1);
            entry[..n].to_vec()
        }
        2 => message_entry(20, 0, 0, 9, 600, over, &there),
        3 => media_entry(9, 1, 77, 0, 600, over, &there),
        4 => roomy_entry(random.pick(&[1, 2, 3, 4, 5, 6, 7, 8]), room),
        5 => Start { on_bw_done: flag, ..good_start() }.entry(),
        6 => media_entry(8, 1, 77, flag, 600, 3, &[1, 2, 3]),
        7 => Metadata { stereo: flag, ..good_metadata() }.entry(),
        8 => media_entry(random.pick(&[0, 7, 10, 18, 255]), 1, 77, 0, 600, 3, &[1, 2, 3]),
        9 => Metadata { set: 1 << (11 + random.below(5)), ..good_metadata() }.entry(),
        10 => damage_entry(random.pick(&[10, 11, 255]), 0, 7),
        // Unset, a flag byte still has to be one.
        _ => Metadata { stereo: flag, set: 0, ..good_metadata() }.entry(),
    }
}

/// Good entries, mostly, and then the bad one; a file may be empty, or begin with no start.
fn bad_trace(seed: u64, index: u64) -> Vec<u8> {
    let mut random = Random::of(seed, index);
    let which = index % 14;
    if which == 12 {
        return Vec::new();
    }
    if which == 13 {
        return good_entry(random.pick(&[2, 3, 4, 5, 6, 7, 8, 9, 10]));
    }
    let mut all = Vec::new();
    if random.chance(80) {
        all.extend(good_entry(1));
        for _ in 0..random.below(5) {
            all.extend(good_entry(1 + random.below(10) as u8));
        }
    }
    all.extend(bad_entry(which, &mut random));
    all
}

// ---------------------------------------------------------------------------------------------------------

fn traces(n: u64, seed: u64, plain: bool) -> io::Result<()> {
    let mut out = BufWriter::new(io::stdout().lock());
    for index in 0..n {
        let style = if plain { ORDINARY } else { STYLES[(index % 5) as usize] };
        out.write_all(&Maker::new(seed, index, style).trace())?;
    }
    out.flush()
}

fn bad_traces(n: u64, seed: u64, dir: &str) -> io::Result<()> {
    fs::create_dir_all(dir)?;
    for index in 0..n {
        fs::write(format!("{dir}/{index}.trace"), bad_trace(seed, index))?;
    }
    Ok(())
}

fn main() -> io::Result<()> {
    let arguments: Vec<String> = env::args().skip(1).collect();
    let words: Vec<&str> = arguments.iter().map(String::as_str).collect();
    let number = |t: &str| t.parse::<u64>().ok();
    match words[..] {
        ["--bad", n, seed, dir] => match (number(n), number(seed)) {
            (Some(n), Some(seed)) => return bad_traces(n, seed, dir),
            _ => {}
        },
        ["--plain", n, seed] => match (number(n), number(seed)) {
            (Some(n), Some(seed)) => return traces(n, seed, true),
            _ => {}
        },
        [n, seed] => match (number(n), number(seed)) {
            (Some(n), Some(seed)) => return traces(n, seed, false),
            _ => {}
        },
        _ => {}
    }
    eprintln!("generate N SEED | generate --plain N SEED | generate --bad N SEED DIR");
    process::exit(2)
}
