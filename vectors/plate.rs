//! Makes the vectors of whole sessions: the line that every call on document 01's bench plate has to give.
//!
//! An independent source: the session below is written from document 01 and from the source's server session (codes,
//! texts) alone; it shares no line with the proved one. It works another way, too: streams and requests stand in maps,
//! a body is read into a tree of values, a step makes its records first and looks at the room when the bytes are there
//! to be counted, and a refused step works on a copy that is thrown away.
//!
//!     rustc -O vectors/plate.rs -o target/make-plate
//!     target/make-plate in > the calls, as a trace
//!     target/make-plate out > the text that the program trace has to write for them
//!
//! docs/TRACE.md has the format and the text. `oracle/stored` puts both in front of the stored answers.

use std::cell::RefCell;
use std::collections::BTreeMap;
use std::convert::TryFrom;
use std::io::Write;

// ---------------------------------------------------------------------------------------------------------
// AMF0
// ---------------------------------------------------------------------------------------------------------

#[derive(Clone)]
enum Value {
    /// The bits of a double.
    Number(u64),
    Boolean(u8),
    Text(Vec<u8>),
    Object(Vec<(Vec<u8>, Value)>),
    Null,
    Ecma(Vec<(Vec<u8>, Value)>),
    Strict(Vec<Value>),
    /// Undefined, a date or a long string: read, and of no use to any step.
    Other,
}

use Value::{Boolean, Ecma, Null, Number, Object, Other, Strict, Text};

fn number(x: f64) -> Value {
    Number(x.to_bits())
}

fn text(t: &str) -> Value {
    Text(t.as_bytes().to_vec())
}

fn object(pairs: Vec<(&str, Value)>) -> Value {
    Object(named(pairs))
}

fn named(pairs: Vec<(&str, Value)>) -> Vec<(Vec<u8>, Value)> {
    pairs.into_iter().map(|(n, v)| (n.as_bytes().to_vec(), v)).collect()
}

fn counted(t: &[u8]) -> Vec<u8> {
    let length = u16::try_from(t.len()).expect("a text of at most 65,535 bytes");
    [&length.to_be_bytes(), t].concat()
}

fn pairs_written(pairs: &[(Vec<u8>, Value)]) -> Vec<u8> {
    let inside: Vec<u8> = pairs.iter().flat_map(|(n, v)| [counted(n), amf0(v)].concat()).collect();
    [&inside[..], &[0, 0, 9]].concat()
}

fn amf0(value: &Value) -> Vec<u8> {
    match value {
        Number(bits) => [&[0x00][..], &bits.to_be_bytes()].concat(),
        Boolean(b) => vec![0x01, *b],
        Text(t) => [vec![0x02], counted(t)].concat(),
        Object(pairs) => [vec![0x03], pairs_written(pairs)].concat(),
        Null => vec![0x05],
        Ecma(pairs) => {
            let count = u32::try_from(pairs.len()).expect("few pairs").to_be_bytes();
            [&[0x08][..], &count, &pairs_written(pairs)].concat()
        }
        Strict(all) => {
            let count = u32::try_from(all.len()).expect("few values").to_be_bytes();
            [&[0x0A][..], &count, &row(all)].concat()
        }
        Other => vec![0x06],
    }
}

fn row(all: &[Value]) -> Vec<u8> {
    all.iter().flat_map(amf0).collect()
}

/// What is left of a body. Every reader gives document 01's number where it fails, and goes from left to right, so the
/// fault that is furthest left is the one that is given.
struct Rest<'a>(&'a [u8]);

impl Rest<'_> {
    fn take(&mut self, n: usize) -> Result<Vec<u8>, u8> {
        if self.0.len() < n {
            return Err(2);
        }
        let (now, later) = self.0.split_at(n);
        self.0 = later;
        Ok(now.to_vec())
    }

    fn whole(&mut self, n: usize) -> Result<u64, u8> {
        Ok(self.take(n)?.iter().fold(0, |x, b| x << 8 | u64::from(*b)))
    }

    fn counted(&mut self, width: usize) -> Result<Vec<u8>, u8> {
        let n = self.whole(width)?;
        self.take(n as usize)
    }

    fn pairs(&mut self, inside: u32) -> Result<Vec<(Vec<u8>, Value)>, u8> {
        let mut all = Vec::new();
        loop {
            let name = self.counted(2)?;
            if name.is_empty() {
                return if self.whole(1)? == 9 { Ok(all) } else { Err(2) };
            }
            all.push((name, self.value(inside)?));
        }
    }

    /// A value that lies inside so many containers.
    fn value(&mut self, inside: u32) -> Result<Value, u8> {
        let marker = self.whole(1)?;
        if matches!(marker, 0x03 | 0x08 | 0x0A) && inside >= 8 {
            return Err(3);
        }
        Ok(match marker {
            0x00 => Number(self.whole(8)?),
            0x01 => Boolean(self.whole(1)? as u8),
            0x02 => Text(self.counted(2)?),
            0x03 => Object(self.pairs(inside + 1)?),
            0x05 => Null,
            0x06 => Other,
            0x08 => {
                self.take(4)?;
                Ecma(self.pairs(inside + 1)?)
            }
            0x0A => {
                let n = self.whole(4)?;
                Strict((0..n).map(|_| self.value(inside + 1)).collect::<Result<_, _>>()?)
            }
            0x0B => {
                self.take(10)?;
                Other
            }
            0x0C => {
                self.counted(4)?;
                Other
            }
            _ => return Err(2),
        })
    }
}

fn read(body: &[u8]) -> Result<Vec<Value>, u8> {
    let mut rest = Rest(body);
    let mut all = Vec::new();
    while !rest.0.is_empty() {
        all.push(rest.value(0)?);
    }
    Ok(all)
}

/// The last property of this name.
fn property<'a>(pairs: &'a [(Vec<u8>, Value)], name: &str) -> Option<&'a Value> {
    pairs.iter().rev().find(|(n, _)| n == name.as_bytes()).map(|(_, v)| v)
}

// ---------------------------------------------------------------------------------------------------------
// Records
// ---------------------------------------------------------------------------------------------------------

fn record(kind: u8, time: u32, stream: u32, flags: u8, body: &[u8]) -> Vec<u8> {
    let length = u32::try_from(body.len()).expect("a length in 32 bits").to_be_bytes();
    let head = [&[kind][..], &length[1..], &time.to_be_bytes(), &stream.to_be_bytes(), &[flags]].concat();
    assert_eq!(head.len(), 13);
    [&head[..], body].concat()
}

fn control(event: u16, value: u32, time: u32, stream: u32, flags: u8) -> Vec<u8> {
    record(4, time, stream, flags, &[&event.to_be_bytes()[..], &value.to_be_bytes()].concat())
}

fn about(level: &str, code: &[u8], description: &[u8]) -> Vec<(Vec<u8>, Value)> {
    let (code, description) = (Text(code.to_vec()), Text(description.to_vec()));
    named(vec![("level", text(level)), ("code", code), ("description", description)])
}

fn on_status(code: &str, words: &str, key: &[u8], time: u32, stream: u32) -> Vec<u8> {
    let status = Object(about("status", code.as_bytes(), &[words.as_bytes(), key].concat()));
    record(20, time, stream, 0, &row(&[text("onStatus"), Number(0), Null, status]))
}

fn error(transaction: u64, code: &[u8], description: &[u8], time: u32, stream: u32) -> Vec<u8> {
    let status = Object(about("error", code, description));
    record(20, time, stream, 0, &row(&[text("_error"), Number(transaction), Null, status]))
}

fn publish_records(key: &[u8], time: u32, stream: u32) -> Vec<u8> {
    let words = "Successfully started publishing on stream key ";
    [control(0, stream, time, stream, 0), on_status("NetStream.Publish.Start", words, key, time, stream)].concat()
}

fn play_records(key: &[u8], time: u32, stream: u32) -> Vec<u8> {
    let words = "Successfully started playback on stream key ";
    let access = row(&[text("|RtmpSampleAccess"), Boolean(0), Boolean(0)]);
    let begun = row(&[text("onStatus"), object(vec![("code", text("NetStream.Data.Start"))])]);
    [
        on_status("NetStream.Play.Reset", "Reset stream", b"", time, stream),
        control(0, stream, time, stream, 0),
        on_status("NetStream.Play.Start", words, key, time, stream),
        record(18, time, stream, 0, &access),
        record(18, time, stream, 0, &begun),
    ]
    .concat()
}

// ---------------------------------------------------------------------------------------------------------
// A session
// ---------------------------------------------------------------------------------------------------------

#[derive(Clone)]
enum State {
    Created,
    Publishing(Vec<u8>),
    Playing(Vec<u8>),
    Completed,
}

#[derive(Clone)]
enum Request {
    Connect { app: Vec<u8>, transaction: u64 },
    Publish { stream: u32, key: Vec<u8> },
    Play { stream: u32, key: Vec<u8> },
}

#[derive(Clone, Default)]
struct Session {
    start: u64,
    version: Vec<u8>,
    /// Set from the first accepted connect on, which is also when the session is connected.
    app: Option<Vec<u8>>,
    encoding: u64,
    last_stream: u32,
    next_request: u32,
    streams: BTreeMap<u32, State>,
    requests: BTreeMap<u32, Request>,
    /// No map holds a number twice, so a session that fails the test of 15 is one that says so.
    damaged: bool,
}

/// What a step does: the event's text and the records.
#[derive(Default)]
struct Done {
    event: String,
    out: Vec<u8>,
}

/// A refusal as it is written. Only 11 from an accept changes the session.
struct Refused(String);

type Step = Result<Done, Refused>;

impl From<u8> for Refused {
    fn from(number: u8) -> Refused {
        Refused(number.to_string())
    }
}

fn refused<T>(number: u8) -> Result<T, Refused> {
    Err(Refused::from(number))
}

fn nothing() -> Step {
    Ok(Done::default())
}

fn raise(event: String) -> Step {
    Ok(Done { event, out: Vec::new() })
}

fn answer(out: Vec<u8>) -> Step {
    Ok(Done { event: String::new(), out })
}

fn hex(bytes: &[u8]) -> String {
    if bytes.is_empty() {
        return "-".to_string();
    }
    bytes.iter().map(|b| format!("{b:02x}")).collect()
}

fn whole_of(bits: u64) -> u32 {
    f64::from_bits(bits) as u32
}

impl Session {
    fn time(&self, clock: u64) -> u32 {
        (clock.saturating_sub(self.start) % (1 << 32)) as u32
    }

    fn file(&mut self, request: Request) -> Result<u32, Refused> {
        let number = self.next_request;
        if number == u32::MAX {
            return refused(8);
        }
        if self.requests.len() >= 16 {
            return refused(7);
        }
        self.requests.insert(number, request);
        self.next_request += 1;
        Ok(number)
    }

    fn message(&mut self, kind: u8, stream: u32, timestamp: u32, clock: u64, body: &[u8]) -> Step {
        if self.damaged {
            return refused(15);
        }
        if matches!(kind, 4 | 18 | 20) && body.len() > 4096 {
            return refused(1);
        }
        match kind {
            4 => self.user_control(clock, body),
            8 => self.frame("AudioDataReceived", stream, timestamp, body.len()),
            9 => self.frame("VideoDataReceived", stream, timestamp, body.len()),
            18 => self.data(stream, &read(body)?),
            20 => self.command(stream, self.time(clock), &read(body)?),
            _ => nothing(),
        }
    }

    fn user_control(&self, clock: u64, body: &[u8]) -> Step {
        let [a, b, rest @ ..] = body else { return refused(2) };
        let event = u16::from_be_bytes([*a, *b]);
        if event != 6 && event != 7 {
            return nothing();
        }
        let [p, q, r, s, ..] = rest else { return refused(2) };
        let value = u32::from_be_bytes([*p, *q, *r, *s]);
        if event == 6 {
            return answer(control(7, value, self.time(clock), 0, 0));
        }
        raise(format!(" PingResponseReceived timestamp={value}"))
    }

    /// The app and the key, where the stream publishes and the session is connected.
    fn published(&self, stream: u32) -> Option<String> {
        match (&self.app, self.streams.get(&stream)) {
            (Some(app), Some(State::Publishing(key))) => Some(format!(" app={} key={}", hex(app), hex(key))),
            _ => None,
        }
    }

    fn frame(&self, event: &str, stream: u32, timestamp: u32, length: usize) -> Step {
        match self.published(stream) {
            Some(names) => raise(format!(" {event}{names} timestamp={timestamp} length={length}")),
            None => nothing(),
        }
    }

    fn data(&self, stream: u32, values: &[Value]) -> Step {
        let [Text(a), Text(b), third, ..] = values else { return nothing() };
        if a != b"@setDataFrame" || b != b"onMetaData" {
            return nothing();
        }
        let Some(names) = self.published(stream) else { return nothing() };
        let mut event = format!(" StreamMetadataChanged{names}");
        if let Object(pairs) = third {
            if let Some(Number(bits)) = property(pairs, "width") {
                event += &format!(" width={}", whole_of(*bits));
            }
            if let Some(Text(encoder)) = property(pairs, "encoder") {
                if encoder.len() > 128 {
                    return refused(6);
                }
                event += &format!(" encoder={}", hex(encoder));
            }
        }
        raise(event)
    }

    fn command(&mut self, stream: u32, time: u32, values: &[Value]) -> Step {
        let [Text(name), Number(transaction), third, arguments @ ..] = values else { return refused(4) };
        match &name[..] {
            b"connect" => self.connect(*transaction, third),
            b"createStream" => self.create_stream(*transaction, time),
            b"closeStream" => self.end_stream(arguments, true),
            b"deleteStream" => self.end_stream(arguments, false),
            b"publish" => self.publish(stream, *transaction, time, arguments),
            b"play" => self.play(stream, *transaction, time, arguments),
            _ => nothing(),
        }
    }

    fn connect(&mut self, transaction: u64, third: &Value) -> Step {
        let Object(pairs) = third else { return refused(5) };
        let Some(Text(app)) = property(pairs, "app") else { return refused(5) };
        let app = app.strip_suffix(b"/").unwrap_or(app).to_vec();
        if app.len() > 128 {
            return refused(6);
        }
        let shown = hex(&app);
        let number = self.file(Request::Connect { app, transaction })?;
        self.encoding = match property(pairs, "objectEncoding") {
            Some(Number(bits)) => *bits,
            _ => 0,
        };
        raise(format!(" ConnectionRequested request={number} app={shown}"))
    }

    fn create_stream(&mut self, transaction: u64, time: u32) -> Step {
        let number = self.last_stream + 1;
        if number == u32::MAX {
            return refused(8);
        }
        if self.streams.len() >= 16 {
            return refused(9);
        }
        self.last_stream = number;
        self.streams.insert(number, State::Created);
        let result = [text("_result"), Number(transaction), Null, number_value(number)];
        answer(record(20, time, 0, 0, &row(&result)))
    }

    fn end_stream(&mut self, arguments: &[Value], stays: bool) -> Step {
        let Some(app) = self.app.clone() else { return nothing() };
        let Some(Number(bits)) = arguments.first() else { return nothing() };
        let number = whole_of(*bits);
        let Some(was) = self.streams.remove(&number) else { return nothing() };
        if stays {
            self.streams.insert(number, State::Created);
        }
        match was {
            State::Publishing(key) => raise(format!(" PublishStreamFinished app={} key={}", hex(&app), hex(&key))),
            State::Playing(key) => raise(format!(" PlayStreamFinished app={} key={}", hex(&app), hex(&key))),
            State::Created | State::Completed => nothing(),
        }
    }

    fn publish(&mut self, stream: u32, transaction: u64, time: u32, arguments: &[Value]) -> Step {
        let fault = |words: &str| answer(error(transaction, b"NetStream.Publish.Start", words.as_bytes(), time, stream));
        let [key, mode, ..] = arguments else { return fault("Invalid publish arguments") };
        let Some(app) = &self.app else { return fault("Can't publish before connecting") };
        let Text(key) = key else { return fault("Invalid publish arguments") };
        let Text(mode) = mode else { return fault("Invalid publish arguments") };
        let mode = match &mode[..] {
            b"live" => "live",
            b"append" => "append",
            b"record" => "record",
            _ => return fault("Invalid publish mode given"),
        };
        if key.len() > 128 {
            return refused(6);
        }
        let names = format!("app={} key={}", hex(app), hex(key));
        let number = self.file(Request::Publish { stream, key: key.clone() })?;
        raise(format!(" PublishStreamRequested request={number} {names} mode={mode}"))
    }

    fn play(&mut self, stream: u32, transaction: u64, time: u32, arguments: &[Value]) -> Step {
        let fault = |words: &str| answer(error(transaction, b"NetStream.Play.Start", words.as_bytes(), time, stream));
        let [key, options @ ..] = arguments else { return fault("Invalid play arguments") };
        let Some(app) = &self.app else { return fault("Can't play before connecting") };
        let Text(key) = key else { return fault("Invalid play arguments") };
        if key.len() > 128 {
            return refused(6);
        }
        let seconds = |i: usize| match options.get(i) {
            Some(Number(bits)) if f64::from_bits(*bits) >= 0.0 => Some(whole_of(*bits).to_string()),
            _ => None,
        };
        let live_only = matches!(options.first(), Some(Number(bits)) if f64::from_bits(*bits) == -1.0);
        let start = if live_only { "live-only".to_string() } else { seconds(0).unwrap_or("live-or-recorded".to_string()) };
        let duration = seconds(1).unwrap_or("none".to_string());
        let reset = u8::from(matches!(options.get(2), Some(Boolean(b)) if *b != 0));
        let names = format!("app={} key={}", hex(app), hex(key));
        let number = self.file(Request::Play { stream, key: key.clone() })?;
        raise(format!(
            " PlayStreamRequested request={number} {names} start={start} duration={duration} reset={reset} stream={stream}"
        ))
    }

    fn accept(&mut self, number: u32, clock: u64) -> Step {
        if self.damaged {
            return refused(15);
        }
        let time = self.time(clock);
        let Some(request) = self.requests.remove(&number) else { return refused(10) };
        match request {
            Request::Connect { app, transaction } => {
                let server = object(vec![("fmsVer", Text(self.version.clone())), ("capabilities", number_value(31))]);
                let words = [b"Successfully connected on app: ", &app[..]].concat();
                let mut status = about("status", b"NetConnection.Connect.Success", &words);
                status.push((b"objectEncoding".to_vec(), Number(self.encoding)));
                self.app = Some(app);
                answer(record(20, time, 0, 0, &row(&[text("_result"), Number(transaction), server, Object(status)])))
            }
            Request::Publish { stream, key } => {
                self.enter("publish", stream, State::Publishing(key.clone()))?;
                answer(publish_records(&key, time, stream))
            }
            Request::Play { stream, key } => {
                self.enter("play", stream, State::Playing(key.clone()))?;
                answer(play_records(&key, time, stream))
            }
        }
    }

    fn enter(&mut self, action: &str, stream: u32, state: State) -> Result<(), Refused> {
        match self.streams.get_mut(&stream) {
            Some(entry) => {
                *entry = state;
                Ok(())
            }
            None => Err(Refused(format!("11 {action} {stream}"))),
        }
    }

    fn reject(&mut self, number: u32, code: &[u8], description: &[u8], clock: u64) -> Step {
        if self.damaged {
            return refused(15);
        }
        let Some(request) = self.requests.remove(&number) else { return refused(10) };
        if code.len() > 256 || description.len() > 256 {
            return refused(13);
        }
        let (transaction, stream) = match request {
            Request::Connect { transaction, .. } => (transaction, 0),
            Request::Publish { stream, .. } | Request::Play { stream, .. } => (0, stream),
        };
        answer(error(transaction, code, description, self.time(clock), stream))
    }

    fn finish(&mut self, stream: u32, clock: u64) -> Step {
        if self.damaged {
            return refused(15);
        }
        let time = self.time(clock);
        match self.streams.get_mut(&stream) {
            Some(entry @ State::Playing(_)) => {
                let State::Playing(key) = std::mem::replace(entry, State::Completed) else { unreachable!() };
                let words = "Stream playback is completed for ";
                answer(on_status("NetStream.Play.Complete", words, &key, time, stream))
            }
            _ => Err(Refused(format!("11 complete {stream}"))),
        }
    }

    fn send(&self, out: Vec<u8>) -> Step {
        if self.damaged {
            return refused(15);
        }
        answer(out)
    }
}

fn number_value(n: u32) -> Value {
    number(f64::from(n))
}

// ---------------------------------------------------------------------------------------------------------
// Lines
// ---------------------------------------------------------------------------------------------------------

thread_local! {
    /// The entries, and the lines.
    static TAPE: RefCell<(Vec<u8>, String)> = RefCell::default();
}

fn entry(kind: u8, fields: &[&[u8]]) {
    TAPE.with(|t| t.borrow_mut().0.extend([&[kind][..], &fields.concat()].concat()));
}

fn wide(n: usize) -> [u8; 4] {
    u32::try_from(n).expect("a short entry").to_be_bytes()
}

fn short(n: usize) -> [u8; 2] {
    u16::try_from(n).expect("a short text").to_be_bytes()
}

fn write(words: String) {
    TAPE.with(|t| t.borrow_mut().1 += &(words + "\n"));
}

/// A session that writes an entry and a line for each call. A message comes at clock 12, an accept at 20, a reject at 5,
/// a finish and a ping at 4294967309, and all start at 9.
#[derive(Clone)]
struct Run(Session);

const ROOM: usize = 600;
const LATE: u64 = 4_294_967_309;

/// Room is the last test, and an answer that does not fit is no answer at all.
fn fitted(step: Step, room: usize) -> Step {
    match step {
        Ok(done) if done.out.len() > room => refused(12),
        step => step,
    }
}

fn line(name: &str, step: &Step, ping: Option<u32>) {
    match step {
        Ok(done) => {
            let ping = ping.map_or(String::new(), |n| format!(" ping={n}"));
            let out = if done.out.is_empty() { String::new() } else { format!(" out={}", hex(&done.out)) };
            write(format!("{name} 0{}{ping}{out}", done.event));
        }
        Err(Refused(words)) => write(format!("{name} {words}")),
    }
}

fn begin(chunk: u32, done: bool, version: &str, room: usize) -> Run {
    let (window, bandwidth) = (2_500_000u32, 2_500_000u32);
    let sizes = [chunk, window, bandwidth].map(u32::to_be_bytes).concat();
    entry(1, &[&sizes, &[u8::from(done)], &9u64.to_be_bytes(), &wide(room), &short(version.len()), version.as_bytes()]);
    let step = || {
        if chunk == 0 || chunk > 2_147_483_647 || version.len() > 128 {
            return refused(14);
        }
        let mut out = record(1, 0, 0, 1, &chunk.to_be_bytes());
        out.extend(record(5, 0, 0, 1, &window.to_be_bytes()));
        out.extend(control(0, 0, 0, 0, 1));
        out.extend(record(6, 0, 0, 1, &[&bandwidth.to_be_bytes()[..], &[2]].concat()));
        if done {
            out.extend(record(20, 0, 0, 1, &row(&[text("onBWDone"), Number(0), Null, number(8192.0)])));
        }
        answer(out)
    };
    let step = fitted(step(), room);
    line("start", &step, None);
    match step {
        Ok(_) => Run(Session { start: 9, version: version.as_bytes().to_vec(), ..Session::default() }),
        Err(_) => Run(Session::default()),
    }
}

impl Run {
    fn call(&mut self, name: &str, room: usize, step: impl FnOnce(&mut Session) -> Step) {
        let mut next = self.0.clone();
        let done = fitted(step(&mut next), room);
        line(name, &done, None);
        let removed = matches!(&done, Err(Refused(words)) if words.starts_with("11 p"));
        if done.is_ok() || removed {
            self.0 = next;
        }
    }

    fn message(&mut self, kind: u8, stream: u32, body: &[u8], room: usize) {
        let head = [&[kind][..], &stream.to_be_bytes(), &77u32.to_be_bytes(), &12u64.to_be_bytes()].concat();
        entry(2, &[&head, &wide(room), &wide(body.len()), body]);
        self.call("message", room, |s| s.message(kind, stream, 77, 12, body));
    }

    fn accept(&mut self, number: u32, room: usize) {
        entry(3, &[&number.to_be_bytes(), &20u64.to_be_bytes(), &wide(room)]);
        self.call("accept", room, |s| s.accept(number, 20));
    }

    fn reject(&mut self, number: u32, code: &str, description: &str, room: usize) {
        let head = [&number.to_be_bytes()[..], &5u64.to_be_bytes(), &wide(room)].concat();
        entry(4, &[&head, &short(code.len()), code.as_bytes(), &short(description.len()), description.as_bytes()]);
        self.call("reject", room, |s| s.reject(number, code.as_bytes(), description.as_bytes(), 5));
    }

    fn finish(&mut self, stream: u32) {
        entry(5, &[&stream.to_be_bytes(), &LATE.to_be_bytes(), &wide(ROOM)]);
        self.call("finish", ROOM, |s| s.finish(stream, LATE));
    }

    fn audio(&mut self, stream: u32) {
        self.message(9, stream, &[1, 2], 0);
        self.message(8, stream, &[1, 2, 3], 0);
    }

    fn command(&mut self, stream: u32, name: &str, transaction: f64, rest: &[Value]) {
        let body = [row(&[text(name), number(transaction)]), row(rest)].concat();
        self.message(20, stream, &body, ROOM);
    }

    fn connect(&mut self, third: Value) {
        self.command(0, "connect", 1.0, &[third]);
    }

    fn app(&mut self, app: &str) {
        self.connect(object(vec![("app", text(app))]));
    }

    fn create(&mut self) {
        self.command(0, "createStream", 2.0, &[Null]);
    }

    fn close(&mut self, number_of: f64) {
        self.command(0, "closeStream", 0.0, &[Null, number(number_of)]);
    }

    fn delete(&mut self, number_of: f64) {
        self.command(0, "deleteStream", 0.0, &[Null, number(number_of)]);
    }

    fn publish(&mut self, stream: u32, arguments: &[Value]) {
        self.command(stream, "publish", 5.0, &[&[Null], arguments].concat());
    }

    fn pin7(&mut self, stream: u32) {
        self.publish(stream, &[text("pin7"), text("live")]);
    }

    fn play(&mut self, stream: u32, arguments: &[Value]) {
        self.command(stream, "play", 6.0, &[&[Null], arguments].concat());
    }

    fn data(&mut self, stream: u32, rest: &[Value]) {
        let body = [row(&[text("@setDataFrame"), text("onMetaData")]), row(rest)].concat();
        self.message(18, stream, &body, ROOM);
    }

    /// With a width and an encoder, or with nothing. An encoder of more than 128 bytes is one that says so.
    fn send_metadata(&mut self, set: bool, width: u32, encoder: &str) {
        let flags = if set { 0x401u16 } else { 0 };
        let head = [&1u32.to_be_bytes()[..], &12u64.to_be_bytes(), &wide(ROOM), &flags.to_be_bytes(), &width.to_be_bytes()];
        entry(6, &[&head.concat(), &[0; 33], &short(encoder.len()), encoder.as_bytes()]);
        let pairs = if set { vec![("width", number_value(width)), ("encoder", text(encoder))] } else { vec![] };
        let out = record(18, self.0.time(12), 1, 0, &row(&[text("onMetaData"), object(pairs)]));
        self.call("metadata", ROOM, |s| match s.send(out) {
            Ok(_) if set && encoder.len() > 128 => refused(6),
            step => step,
        });
    }

    fn send_media(&mut self, kind: u8, stream: u32, time: u32, droppable: bool, body: &[u8], room: usize) {
        let head = [&[kind][..], &stream.to_be_bytes(), &time.to_be_bytes(), &[u8::from(droppable)]].concat();
        entry(7, &[&head, &wide(room), &wide(body.len()), body]);
        let flags = if droppable { 2 } else { 0 };
        self.call("media", room, |s| s.send(record(kind, time, stream, flags, body)));
    }

    fn send_ping(&mut self, room: usize) {
        entry(8, &[&LATE.to_be_bytes(), &wide(room)]);
        let time = self.0.time(LATE);
        let step = fitted(self.0.send(control(6, time, time, 0, 0)), room);
        line("ping", &step, Some(time));
    }

    /// One number of the session is overwritten.
    fn change(&mut self, what: u8, value: u32) {
        // the second stream gets the first one's number
        let (place, number) = if what == STREAM_TWICE { (1, 1) } else { (0, value) };
        entry(10, &[&[what, place], &number.to_be_bytes()]);
        write("damage".to_string());
        match what {
            STREAM_NEXT => self.0.last_stream = value - 1,
            REQUEST_NEXT => self.0.next_request = value,
            _ => {}
        }
        let many = |n: usize| n > 16;
        let streams = if what == STREAM_COUNT { value as usize } else { self.0.streams.len() };
        let requests = if what == REQUEST_COUNT { value as usize } else { self.0.requests.len() };
        let low_stream = self.0.streams.keys().any(|k| *k > self.0.last_stream);
        let low_request = self.0.requests.keys().any(|k| *k >= self.0.next_request);
        let twice = what == STREAM_TWICE && self.0.streams.len() > 1;
        self.0.damaged = many(streams) || many(requests) || low_stream || low_request || twice;
    }
}

const STREAM_COUNT: u8 = 2;
const REQUEST_COUNT: u8 = 3;
const STREAM_NEXT: u8 = 8;
const REQUEST_NEXT: u8 = 9;
const STREAM_TWICE: u8 = 4;

const VERSION: &str = "FMS/3,0,1,1233";

fn connected() -> Run {
    let mut run = begin(4096, false, VERSION, ROOM);
    run.app("live/");
    run.accept(0, ROOM);
    run
}

/// A strict array of one value, inside another, and so on.
fn nested(depth: usize, inmost: Value) -> Value {
    (0..depth).fold(inmost, |v, _| Strict(vec![v]))
}

// ---------------------------------------------------------------------------------------------------------
// The plate
// ---------------------------------------------------------------------------------------------------------

fn starts() {
    begin(4096, false, VERSION, 71);
    begin(4096, true, VERSION, ROOM);
    begin(4096, false, VERSION, 70);
    begin(4096, true, VERSION, 113);
    begin(0, false, VERSION, ROOM);
    begin(2_147_483_648, false, VERSION, ROOM);
    begin(2_147_483_647, false, "", ROOM);
    begin(4096, false, &"v".repeat(129), ROOM);
    begin(4096, false, &"v".repeat(128), ROOM);
    begin(0, false, "", 0);
}

fn publishing() {
    let mut run = connected();
    run.create();
    run.pin7(1);
    run.accept(1, 170);
    run.audio(1);
    run.accept(1, 171);
    run.accept(1, ROOM);
    run.audio(1);
    run.audio(2);
    run.close(1.0);
    run.audio(1);
    run.close(1.0);
}

fn late() {
    let mut run = connected();
    run.create();
    run.pin7(1);
    run.delete(1.0);
    run.accept(1, 0);
    run.accept(1, ROOM);
    run.create();
    run.pin7(2);
    run.close(2.0);
    run.accept(2, ROOM);
    run.audio(2);
    run.delete(2.0);
}

fn full_requests() {
    let mut run = connected();
    run.publish(1, &[text(&"k".repeat(128)), text("live")]);
    run.publish(1, &[text(&"k".repeat(129)), text("live")]);
    for _ in 0..16 {
        run.pin7(1);
    }
    run.publish(1, &[text(&"k".repeat(129)), text("live")]);
    run.app("a");
    run.reject(5, "no", "room", ROOM);
    run.pin7(1);
    run.pin7(1);
}

fn full_streams() {
    let mut run = connected();
    for _ in 0..17 {
        run.create();
    }
    run.delete(3.0);
    run.message(20, 0, &row(&[text("createStream"), number(2.0), Null]), 41);
    run.create();
    run.create();
    // One more than there are places, with no number twice among these.
    run.change(STREAM_COUNT, 17);
    run.create();
}

fn apps() {
    let mut run = begin(4096, false, "", ROOM);
    run.pin7(1);
    run.play(1, &[text("pin7")]);
    run.close(1.0);
    run.app("live//");
    run.app(&("a".repeat(128) + "/"));
    run.connect(object(vec![("app", text("/")), ("objectEncoding", number(3.0))]));
    run.app(&("a".repeat(128) + "//"));
    // The last connect's encoding answers the first one, too, and a refused connect has none.
    run.accept(0, ROOM);
    run.pin7(1);
    run.accept(2, ROOM);
    run.pin7(1);
}

fn arguments() {
    let mut run = connected();
    run.publish(7, &[text("pin7")]);
    run.publish(7, &[number(3.0), text("live")]);
    run.publish(7, &[text("pin7"), Null]);
    run.publish(7, &[text("pin7"), text("bad")]);
    run.publish(7, &[text("pin7"), text("append")]);
    run.publish(7, &[text(""), text("record")]);
    run.play(7, &[]);
    run.play(7, &[Null]);
}

fn plays() {
    let mut run = connected();
    run.play(7, &[text("pin7")]);
    for start in [-2.0, -1.0, 0.0, -0.0, -0.5] {
        run.play(7, &[text("pin7"), number(start)]);
    }
    let nan = || Number(0x7FF8_0000_0000_0000);
    run.play(7, &[text("pin7"), nan()]);
    run.play(7, &[text("pin7"), number(4_294_967_296.0), number(4.0), Boolean(2)]);
    run.play(7, &[text("pin7"), Null, nan(), Boolean(0)]);
    run.play(7, &[text(&"k".repeat(129))]);
}

fn playing() {
    let mut run = connected();
    run.create();
    run.finish(1);
    run.play(1, &[text("pin7")]);
    run.accept(1, 370);
    run.accept(1, 371);
    run.audio(1);
    run.finish(1);
    run.finish(1);
    run.close(1.0);
    run.play(1, &[text("pin7")]);
    run.accept(2, ROOM);
    run.close(f64::from_bits(2.0f64.to_bits() - 1));
    run.play(9, &[text("pin7")]);
    run.accept(3, ROOM);
    run.accept(3, ROOM);
    // A publish and a play on one stream: what was accepted last stands, and nothing is finished.
    run.pin7(1);
    run.play(1, &[text("other")]);
    run.accept(4, ROOM);
    run.accept(5, ROOM);
    run.audio(1);
    run.delete(1.0);
}

fn rejects() {
    let mut run = connected();
    run.pin7(3);
    run.reject(7, &"c".repeat(257), "", ROOM);
    run.reject(1, &"c".repeat(257), "", 0);
    run.reject(1, "", &"d".repeat(257), ROOM);
    run.reject(1, "", "", 70);
    run.reject(1, &"c".repeat(256), &"d".repeat(256), ROOM);
    run.reject(1, "", "", ROOM);
    run.app("");
    run.reject(2, "", "", ROOM);
}

fn controls() {
    let mut run = begin(4096, false, "", ROOM);
    run.message(4, 5, &[0, 6, 1, 2, 3, 4], 19);
    run.message(4, 0, &[0, 6, 255, 254, 253, 252], 18);
    run.message(4, 0, &[0, 7, 1, 2, 3, 4, 5], 0);
    run.message(4, 0, &[0], ROOM);
    run.message(4, 0, &[0, 6, 1, 2, 3], ROOM);
    run.message(4, 0, &[0, 7, 1, 2, 3], ROOM);
    run.message(4, 0, &[0, 3, 0, 0, 0, 0], ROOM);
    run.message(4, 0, &[1, 6], ROOM);
    run.message(4, 0, &[0; 4097], ROOM);
    run.message(4, 0, &[0; 4096], ROOM);
    run.message(3, 0, &[0; 4097], ROOM);
}

fn bodies() {
    let mut run = begin(4096, false, "", ROOM);
    // One long string, as long as a body may be.
    let longest = [&[0x0C][..], &4091u32.to_be_bytes(), &[b'l'; 4091]].concat();
    run.message(20, 0, &[5; 4097], ROOM);
    run.message(20, 0, &longest, ROOM);
    run.message(18, 0, &[5; 4097], ROOM);
    run.message(18, 0, &longest, ROOM);
    let nine = amf0(&nested(9, Null));
    let eight = amf0(&nested(8, Null));
    run.message(18, 0, &nine, ROOM);
    run.message(18, 0, &eight, ROOM);
    run.message(18, 0, &[&eight[..eight.len() - 1], &[0x0A]].concat(), ROOM);
    run.message(18, 0, &[&[0x05, 0x07][..], &nine].concat(), ROOM);
    run.message(20, 0, &[], ROOM);
    run.message(20, 0, &row(&[text("ping"), text("x"), Null]), ROOM);
    run.message(20, 0, &row(&[text("ping"), number(1.0), Null]), ROOM);
    run.message(20, 0, &[&row(&[text("ping"), number(1.0), Null])[..], &[0]].concat(), ROOM);
}

fn no_apps() {
    let mut run = begin(4096, false, "", ROOM);
    run.connect(object(vec![("ap", text("live"))]));
    run.connect(Null);
    run.connect(object(vec![("app", text("live")), ("app", Null)]));
    run.connect(object(vec![("app", Null), ("app", text("live"))]));
    run.connect(Ecma(named(vec![("app", text("live"))])));
}

fn metadata_messages() {
    let mut run = connected();
    run.create();
    run.create();
    run.pin7(1);
    run.accept(1, ROOM);
    let long = || object(vec![("encoder", text(&"e".repeat(129)))]);
    run.data(1, &[object(vec![("width", number(320.9)), ("encoder", text("x"))])]);
    run.data(1, &[Null]);
    run.data(1, &[]);
    run.data(1, &[long()]);
    run.data(2, &[long()]);
}

fn sends() {
    let mut run = begin(4096, false, "", ROOM);
    run.send_metadata(true, 320, "x");
    run.send_metadata(false, 320, "x");
    run.send_metadata(true, 320, &"e".repeat(129));
    run.send_metadata(false, 320, &"e".repeat(129));
    run.send_media(8, 1, 77, true, &[1, 2, 3], 16);
    run.send_media(8, 1, 77, true, &[1, 2, 3], 15);
    run.send_media(9, 2, 78, true, &[1, 2, 3], ROOM);
    run.send_media(9, 2, 78, false, &[], 13);
    run.send_ping(19);
    run.send_ping(18);
}

fn used_up() {
    let mut run = connected();
    run.change(STREAM_NEXT, 4_294_967_294);
    run.change(REQUEST_NEXT, 4_294_967_294);
    run.create();
    run.create();
    run.pin7(1);
    run.pin7(1);
    run.app("live");
    // 6 comes before 8.
    run.publish(1, &[text(&"k".repeat(129)), text("live")]);
    run.accept(4_294_967_294, ROOM);
    run.delete(4_294_967_294.0);
    run.create();
}

fn full_and_used_up() {
    let mut run = connected();
    for _ in 0..16 {
        run.create();
        run.pin7(1);
    }
    run.change(STREAM_NEXT, u32::MAX);
    run.change(REQUEST_NEXT, u32::MAX);
    // 8 comes before 7 and 9.
    run.create();
    run.pin7(1);
}

fn damaged() {
    let mut run = connected();
    run.create();
    run.create();
    run.pin7(1);
    for (what, bad, good) in [
        (STREAM_COUNT, 17, 2),
        (REQUEST_COUNT, 17, 1),
        (STREAM_NEXT, 2, 3),
        (REQUEST_NEXT, 1, 2),
        (STREAM_TWICE, 0, 0),
    ] {
        run.change(what, bad);
        run.message(20, 0, &[5; 4097], ROOM);
        run.audio(1);
        run.accept(1, ROOM);
        run.reject(7, "", "", ROOM);
        run.finish(1);
        run.send_media(8, 1, 77, true, &[1, 2, 3], ROOM);
        run.send_metadata(true, 320, &"e".repeat(129));
        run.send_ping(ROOM);
        if what != STREAM_TWICE {
            run.change(what, good);
            run.finish(1);
        }
    }
}

fn main() {
    // What document 01 counts itself.
    assert_eq!(publish_records(b"pin7", 7, 1).len(), 171);
    starts();
    publishing();
    late();
    full_requests();
    full_streams();
    apps();
    arguments();
    plays();
    playing();
    rejects();
    controls();
    bodies();
    no_apps();
    metadata_messages();
    sends();
    used_up();
    full_and_used_up();
    damaged();
    TAPE.with(|t| match std::env::args().nth(1).as_deref() {
        Some("in") => std::io::stdout().write_all(&t.borrow().0).expect("written"),
        Some("out") => print!("{}", t.borrow().1),
        _ => panic!("in or out?"),
    });
}
