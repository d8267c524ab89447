//! A second reading of document 01: a trace comes in on standard input, its text goes out on standard output.
//!
//! Written from document 01, the trace's format and the decisions on open places, and from the source's codes and
//! texts. It began as vectors/plate.rs, each part of which was held to document 01 again. It shares no line with the proved session and works another way. A body is read into a tree of values, a step
//! makes its records first and the room is looked at when the bytes are there to be counted, and every step works on a
//! copy of the session that is thrown away where the step is refused.
//!
//!     reading < run.trace > run.txt

use std::io::{self, BufWriter, Read, Write};

// ---------------------------------------------------------------------------------------------------------
// AMF0 values
// ---------------------------------------------------------------------------------------------------------

enum Value<'a> {
    /// The bits of a double, so that an echo has the same bits.
    Number(u64),
    Boolean(bool),
    Text(&'a [u8]),
    Object(Vec<(&'a [u8], Value<'a>)>),
    /// Null, undefined, either array, a date or a long string: read whole, and no step asks for more.
    Other,
}

use Value::{Boolean, Number, Object, Other, Text};

/// What is left of a body. The readers go from left to right and stop at the first fault with its number.
struct Rest<'a>(&'a [u8]);

impl<'a> Rest<'a> {
    fn take(&mut self, n: usize) -> Result<&'a [u8], u8> {
        // A cut value's place is the body's end, so nothing further left can be wrong.
        let (now, later) = self.0.split_at_checked(n).ok_or(2)?;
        self.0 = later;
        Ok(now)
    }

    fn whole(&mut self, width: usize) -> Result<u64, u8> {
        Ok(self.take(width)?.iter().fold(0, |x, b| x << 8 | u64::from(*b)))
    }

    /// Bytes with their count before them, in so many bytes.
    fn counted(&mut self, width: usize) -> Result<&'a [u8], u8> {
        let n = self.whole(width)?;
        self.take(usize::try_from(n).map_err(|_| 2)?)
    }

    fn pairs(&mut self, inside: u32) -> Result<Vec<(&'a [u8], Value<'a>)>, u8> {
        let mut all = Vec::new();
        loop {
            let name = self.counted(2)?;
            if name.is_empty() {
                // Whatever follows an empty name but 09 is 2, a container that lies too deep as well.
                return if self.whole(1)? == 0x09 { Ok(all) } else { Err(2) };
            }
            all.push((name, self.value(inside)?));
        }
    }

    /// A value that lies inside so many containers.
    fn value(&mut self, inside: u32) -> Result<Value<'a>, u8> {
        let marker = self.whole(1)?;
        // At its marker, before its count: it is 3 whether it is cut or not.
        if matches!(marker, 0x03 | 0x08 | 0x0A) && inside >= 8 {
            return Err(3);
        }
        match marker {
            0x00 => return Ok(Number(self.whole(8)?)),
            0x01 => return Ok(Boolean(self.whole(1)? != 0)),
            0x02 => return Ok(Text(self.counted(2)?)),
            0x03 => return Ok(Object(self.pairs(inside + 1)?)),
            0x05 | 0x06 => {}
            0x08 => {
                // The count is compared with nothing.
                self.take(4)?;
                self.pairs(inside + 1)?;
            }
            0x0A => {
                for _ in 0..self.whole(4)? {
                    self.value(inside + 1)?;
                }
            }
            0x0B => {
                self.take(10)?;
            }
            0x0C => {
                self.counted(4)?;
            }
            _ => return Err(2),
        }
        Ok(Other)
    }
}

/// A body's values, end to end. No bytes are no values.
fn values(body: &[u8]) -> Result<Vec<Value<'_>>, u8> {
    let mut rest = Rest(body);
    let mut all = Vec::new();
    while !rest.0.is_empty() {
        all.push(rest.value(0)?);
    }
    Ok(all)
}

/// The last property of this name, whatever its type.
fn property<'a, 'b>(pairs: &'b [(&'a [u8], Value<'a>)], name: &str) -> Option<&'b Value<'a>> {
    pairs.iter().rev().find(|(n, _)| *n == name.as_bytes()).map(|(_, v)| v)
}

/// Double to u32 as the cast does it: NaN gives 0, the ends hold, a fraction is dropped.
fn whole_of(bits: u64) -> u32 {
    f64::from_bits(bits) as u32
}

/// Double to single. A NaN's bits are written by hand, since the cast leaves them open.
fn single_of(bits: u64) -> u32 {
    let double = f64::from_bits(bits);
    if double.is_nan() {
        0x7FC0_0000
    } else {
        (double as f32).to_bits()
    }
}

fn double_of(single: u32) -> u64 {
    let value = f32::from_bits(single);
    if value.is_nan() {
        0x7FF8_0000_0000_0000
    } else {
        f64::from(value).to_bits()
    }
}

// ---------------------------------------------------------------------------------------------------------
// Records
// ---------------------------------------------------------------------------------------------------------

const UNCOMPRESSED: u8 = 1;
const DROPPABLE: u8 = 2;

fn record(kind: u8, time: u32, stream: u32, flags: u8, body: &[u8]) -> Vec<u8> {
    let length = u32::try_from(body.len()).expect("a length in three bytes").to_be_bytes();
    [&[kind], &length[1..], &time.to_be_bytes(), &stream.to_be_bytes(), &[flags], body].concat()
}

fn control(event: u16, value: u32, time: u32, stream: u32, flags: u8) -> Vec<u8> {
    record(4, time, stream, flags, &[&event.to_be_bytes()[..], &value.to_be_bytes()].concat())
}

fn counted(text: &[u8]) -> Vec<u8> {
    let length = u16::try_from(text.len()).expect("a text of at most 65,535 bytes");
    [&length.to_be_bytes(), text].concat()
}

fn text(t: &[u8]) -> Vec<u8> {
    [vec![0x02], counted(t)].concat()
}

fn number(bits: u64) -> Vec<u8> {
    [&[0x00][..], &bits.to_be_bytes()].concat()
}

fn whole_number(n: u32) -> Vec<u8> {
    number(f64::from(n).to_bits())
}

fn boolean(b: bool) -> Vec<u8> {
    vec![0x01, u8::from(b)]
}

const NULL: [u8; 1] = [0x05];

fn object(pairs: &[(&str, Vec<u8>)]) -> Vec<u8> {
    let mut all = vec![0x03];
    for (name, value) in pairs {
        all.extend(counted(name.as_bytes()));
        all.extend(value);
    }
    all.extend([0x00, 0x00, 0x09]);
    all
}

fn about(level: &str, code: &[u8], description: &[u8]) -> [(&'static str, Vec<u8>); 3] {
    [("level", text(level.as_bytes())), ("code", text(code)), ("description", text(description))]
}

fn on_status(code: &str, words: &str, key: &[u8], time: u32, stream: u32) -> Vec<u8> {
    let status = object(&about("status", code.as_bytes(), &[words.as_bytes(), key].concat()));
    record(20, time, stream, 0, &[&text(b"onStatus")[..], &number(0), &NULL, &status].concat())
}

fn error(transaction: u64, code: &[u8], description: &[u8], time: u32, stream: u32) -> Vec<u8> {
    let status = object(&about("error", code, description));
    record(20, time, stream, 0, &[&text(b"_error")[..], &number(transaction), &NULL, &status].concat())
}

fn start_records(sizes: &Sizes) -> Vec<u8> {
    let bandwidth = [&sizes.bandwidth.to_be_bytes()[..], &[2]].concat();
    let mut all = record(1, 0, 0, UNCOMPRESSED, &sizes.chunk.to_be_bytes());
    all.extend(record(5, 0, 0, UNCOMPRESSED, &sizes.window.to_be_bytes()));
    all.extend(control(0, 0, 0, 0, UNCOMPRESSED));
    all.extend(record(6, 0, 0, UNCOMPRESSED, &bandwidth));
    if sizes.on_bw_done {
        let body = [&text(b"onBWDone")[..], &number(0), &NULL, &whole_number(8192)].concat();
        all.extend(record(20, 0, 0, UNCOMPRESSED, &body));
    }
    all
}

fn connect_record(transaction: u64, version: &[u8], app: &[u8], encoding: u64, time: u32) -> Vec<u8> {
    let server = object(&[("fmsVer", text(version)), ("capabilities", whole_number(31))]);
    let words = [b"Successfully connected on app: ", app].concat();
    let [level, code, description] = about("status", b"NetConnection.Connect.Success", &words);
    let status = object(&[level, code, description, ("objectEncoding", number(encoding))]);
    record(20, time, 0, 0, &[text(b"_result"), number(transaction), server, status].concat())
}

fn publish_records(key: &[u8], time: u32, stream: u32) -> Vec<u8> {
    let words = "Successfully started publishing on stream key ";
    [control(0, stream, time, stream, 0), on_status("NetStream.Publish.Start", words, key, time, stream)].concat()
}

fn play_records(key: &[u8], time: u32, stream: u32) -> Vec<u8> {
    let words = "Successfully started playback on stream key ";
    let access = [text(b"|RtmpSampleAccess"), boolean(false), boolean(false)].concat();
    let begun = [text(b"onStatus"), object(&[("code", text(b"NetStream.Data.Start"))])].concat();
    [
        on_status("NetStream.Play.Reset", "Reset stream", b"", time, stream),
        control(0, stream, time, stream, 0),
        on_status("NetStream.Play.Start", words, key, time, stream),
        record(18, time, stream, 0, &access),
        record(18, time, stream, 0, &begun),
    ]
    .concat()
}

// ---------------------------------------------------------------------------------------------------------
// A session, with raw numbers that a damage may overwrite
// ---------------------------------------------------------------------------------------------------------

const LONGEST: usize = 128;
const PLACES: usize = 16;

#[derive(Clone, Copy)]
struct Name {
    bytes: [u8; LONGEST],
    length: u32,
}

impl Name {
    const EMPTY: Name = Name { bytes: [0; LONGEST], length: 0 };

    /// Refused where the text is too long. Bytes past the text are zeros.
    fn of(text: &[u8]) -> Result<Name, Refusal> {
        if text.len() > LONGEST {
            return refused(6);
        }
        let mut name = Name { length: text.len() as u32, ..Name::EMPTY };
        name.bytes[..text.len()].copy_from_slice(text);
        Ok(name)
    }

    /// A length that a damage put over 128 ends with the bytes.
    fn text(&self) -> &[u8] {
        &self.bytes[..LONGEST.min(self.length as usize)]
    }

    fn fits(&self) -> bool {
        self.length as usize <= LONGEST
    }
}

#[derive(Clone, Copy)]
enum Mode {
    Live,
    Append,
    Record,
}

impl Mode {
    fn of(text: &[u8]) -> Option<Mode> {
        match text {
            b"live" => Some(Mode::Live),
            b"append" => Some(Mode::Append),
            b"record" => Some(Mode::Record),
            _ => None,
        }
    }

    fn shown(self) -> &'static str {
        match self {
            Mode::Live => "live",
            Mode::Append => "append",
            Mode::Record => "record",
        }
    }
}

#[derive(Clone, Copy)]
enum State {
    Created,
    Publishing(Mode),
    Playing,
    Completed,
}

#[derive(Clone, Copy)]
struct Stream {
    number: u32,
    state: State,
    key: Name,
}

#[derive(Clone, Copy)]
enum Want {
    Connect { transaction: u64 },
    Publish { stream: u32, mode: Mode },
    Play { stream: u32 },
}

#[derive(Clone, Copy)]
struct Request {
    number: u32,
    want: Want,
    name: Name,
}

trait Entry: Copy {
    const BLANK: Self;
    fn number(&self) -> u32;
    fn name(&self) -> &Name;
}

impl Entry for Stream {
    const BLANK: Stream = Stream { number: 0, state: State::Created, key: Name::EMPTY };
    fn number(&self) -> u32 {
        self.number
    }
    fn name(&self) -> &Name {
        &self.key
    }
}

impl Entry for Request {
    const BLANK: Request = Request { number: 0, want: Want::Connect { transaction: 0 }, name: Name::EMPTY };
    fn number(&self) -> u32 {
        self.number
    }
    fn name(&self) -> &Name {
        &self.name
    }
}

#[derive(Clone)]
struct Table<T> {
    places: [T; PLACES],
    count: u32,
}

impl<T: Entry> Table<T> {
    const EMPTY: Table<T> = Table { places: [T::BLANK; PLACES], count: 0 };

    /// Entries below the count. A count that a damage put over 16 has all places in use.
    fn used(&self) -> &[T] {
        &self.places[..PLACES.min(self.count as usize)]
    }

    fn full(&self) -> bool {
        self.used().len() == PLACES
    }

    fn find(&self, number: u32) -> Option<usize> {
        self.used().iter().position(|e| e.number() == number)
    }

    fn append(&mut self, entry: T) {
        self.places[self.count as usize] = entry;
        self.count += 1;
    }

    /// Later entries move up, and the last one's place is blank again.
    fn remove(&mut self, place: usize) -> T {
        let last = self.used().len() - 1;
        let entry = self.places[place];
        self.places.copy_within(place + 1..=last, place);
        self.places[last] = T::BLANK;
        self.count -= 1;
        entry
    }

    fn sound(&self, next: u32) -> bool {
        let used = self.used();
        let twice = |(i, e): (usize, &T)| used[..i].iter().any(|f| f.number() == e.number());
        self.count as usize <= PLACES
            && used.iter().all(|e| e.name().fits() && e.number() < next)
            && !used.iter().enumerate().any(twice)
    }

    /// In rising number. Numbers that stand twice stay in the table's order.
    fn rising(&self) -> Vec<T> {
        let mut all = self.used().to_vec();
        all.sort_by_key(|e| e.number());
        all
    }
}

#[derive(Clone)]
struct Session {
    start: u64,
    version: Name,
    /// Set from the first accepted connect on.
    connected: bool,
    app: Name,
    encoding: u64,
    streams: Table<Stream>,
    next_stream: u32,
    requests: Table<Request>,
    next_request: u32,
}

/// What a step that is done gives beside the next session.
#[derive(Default)]
struct Done {
    /// The event and its fields, with a blank before each word.
    event: String,
    out: Vec<u8>,
    ping: Option<u32>,
}

enum Refusal {
    Number(u8),
    /// 11, with the action and the stream.
    Inactive(&'static str, u32),
}

type Step = Result<Done, Refusal>;

impl From<u8> for Refusal {
    fn from(number: u8) -> Refusal {
        Refusal::Number(number)
    }
}

fn refused<T>(number: u8) -> Result<T, Refusal> {
    Err(Refusal::Number(number))
}

fn nothing() -> Step {
    Ok(Done::default())
}

fn raise(event: String) -> Step {
    Ok(Done { event, ..Done::default() })
}

fn answer(out: Vec<u8>) -> Step {
    Ok(Done { out, ..Done::default() })
}

impl Session {
    fn fresh(start: u64, version: Name) -> Session {
        Session {
            start,
            version,
            connected: false,
            app: Name::EMPTY,
            encoding: 0,
            streams: Table::EMPTY,
            next_stream: 1,
            requests: Table::EMPTY,
            next_request: 0,
        }
    }

    /// The test of 15. The app counts only where one is set.
    fn sound(&self) -> bool {
        self.version.fits()
            && (!self.connected || self.app.fits())
            && self.streams.sound(self.next_stream)
            && self.requests.sound(self.next_request)
    }

    fn time(&self, clock: u64) -> u32 {
        (clock.saturating_sub(self.start) % (1 << 32)) as u32
    }

    // -- messages

    fn message(&mut self, m: &Message, clock: u64) -> Step {
        if matches!(m.kind, 4 | 18 | 20) && m.body.len() > 4096 {
            return refused(1);
        }
        match m.kind {
            4 => self.user_control(m.body, self.time(clock)),
            8 => self.frame("AudioDataReceived", m),
            9 => self.frame("VideoDataReceived", m),
            18 => self.data(m.stream, &values(m.body)?),
            20 => self.command(m.stream, self.time(clock), &values(m.body)?),
            _ => nothing(),
        }
    }

    fn user_control(&self, body: &[u8], time: u32) -> Step {
        let [a, b, rest @ ..] = body else { return refused(2) };
        let event = u16::from_be_bytes([*a, *b]);
        if event != 6 && event != 7 {
            return nothing();
        }
        let Some(value) = rest.first_chunk::<4>() else { return refused(2) };
        let value = u32::from_be_bytes(*value);
        if event == 6 {
            return answer(control(7, value, time, 0, 0));
        }
        raise(format!(" PingResponseReceived timestamp={value}"))
    }

    /// The app and the key as fields of an event, where the session is connected and the stream publishes.
    fn published(&self, stream: u32) -> Option<String> {
        let entry = &self.streams.places[self.streams.find(stream)?];
        match entry.state {
            State::Publishing(_) if self.connected => Some(self.names(&entry.key)),
            _ => None,
        }
    }

    fn names(&self, key: &Name) -> String {
        format!(" app={} key={}", hex(self.app.text()), hex(key.text()))
    }

    fn frame(&self, event: &str, m: &Message) -> Step {
        match self.published(m.stream) {
            Some(names) => raise(format!(" {event}{names} timestamp={} length={}", m.timestamp, m.body.len())),
            None => nothing(),
        }
    }

    fn data(&self, stream: u32, values: &[Value]) -> Step {
        let [Text(b"@setDataFrame"), Text(b"onMetaData"), third, ..] = values else { return nothing() };
        // 6 only where the event would be raised.
        let Some(names) = self.published(stream) else { return nothing() };
        let fields = match third {
            Object(pairs) => metadata_fields(pairs)?,
            _ => String::new(),
        };
        raise(format!(" StreamMetadataChanged{names}{fields}"))
    }

    fn command(&mut self, stream: u32, time: u32, values: &[Value]) -> Step {
        // 4 before the name is looked at.
        let [Text(name), Number(transaction), third, arguments @ ..] = values else { return refused(4) };
        match *name {
            b"connect" => self.connect(*transaction, third),
            b"createStream" => self.create_stream(*transaction, time),
            b"closeStream" => self.end_stream(arguments, true),
            b"deleteStream" => self.end_stream(arguments, false),
            b"publish" => self.publish(stream, *transaction, time, arguments),
            b"play" => self.play(stream, *transaction, time, arguments),
            _ => nothing(),
        }
    }

    /// The new request's number: 8 before 7.
    fn file(&mut self, want: Want, name: Name) -> Result<u32, Refusal> {
        let number = self.next_request;
        if number == u32::MAX {
            return refused(8);
        }
        if self.requests.full() {
            return refused(7);
        }
        self.requests.append(Request { number, want, name });
        self.next_request += 1;
        Ok(number)
    }

    fn connect(&mut self, transaction: u64, third: &Value) -> Step {
        let Object(pairs) = third else { return refused(5) };
        let Some(Text(app)) = property(pairs, "app") else { return refused(5) };
        let app = Name::of(app.strip_suffix(b"/").unwrap_or(app))?;
        self.encoding = match property(pairs, "objectEncoding") {
            Some(Number(bits)) => *bits,
            _ => 0,
        };
        let request = self.file(Want::Connect { transaction }, app)?;
        raise(format!(" ConnectionRequested request={request} app={}", hex(app.text())))
    }

    fn create_stream(&mut self, transaction: u64, time: u32) -> Step {
        let number_given = self.next_stream;
        if number_given == u32::MAX {
            return refused(8);
        }
        if self.streams.full() {
            return refused(9);
        }
        self.streams.append(Stream { number: number_given, ..Stream::BLANK });
        self.next_stream += 1;
        let result = [&text(b"_result")[..], &number(transaction), &NULL, &whole_number(number_given)].concat();
        answer(record(20, time, 0, 0, &result))
    }

    fn end_stream(&mut self, arguments: &[Value], stays: bool) -> Step {
        let [Number(bits), ..] = arguments else { return nothing() };
        let Some(place) = self.streams.find(whole_of(*bits)) else { return nothing() };
        if !self.connected {
            return nothing();
        }
        let was = self.streams.places[place];
        if stays {
            self.streams.places[place] = Stream { number: was.number, ..Stream::BLANK };
        } else {
            self.streams.remove(place);
        }
        match was.state {
            State::Publishing(_) => raise(format!(" PublishStreamFinished{}", self.names(&was.key))),
            State::Playing => raise(format!(" PlayStreamFinished{}", self.names(&was.key))),
            State::Created | State::Completed => nothing(),
        }
    }

    fn publish(&mut self, stream: u32, transaction: u64, time: u32, arguments: &[Value]) -> Step {
        let fault =
            |words: &str| answer(error(transaction, b"NetStream.Publish.Start", words.as_bytes(), time, stream));
        let [key, mode, ..] = arguments else { return fault("Invalid publish arguments") };
        if !self.connected {
            return fault("Can't publish before connecting");
        }
        let (Text(key), Text(mode)) = (key, mode) else { return fault("Invalid publish arguments") };
        let Some(mode) = Mode::of(mode) else { return fault("Invalid publish mode given") };
        let key = Name::of(key)?;
        let request = self.file(Want::Publish { stream, mode }, key)?;
        let names = self.names(&key);
        raise(format!(" PublishStreamRequested request={request}{names} mode={}", mode.shown()))
    }

    fn play(&mut self, stream: u32, transaction: u64, time: u32, arguments: &[Value]) -> Step {
        let fault = |words: &str| answer(error(transaction, b"NetStream.Play.Start", words.as_bytes(), time, stream));
        let [key, options @ ..] = arguments else { return fault("Invalid play arguments") };
        if !self.connected {
            return fault("Can't play before connecting");
        }
        let Text(key) = key else { return fault("Invalid play arguments") };
        let key = Name::of(key)?;
        let (start, duration) = (start_of(options.first()), duration_of(options.get(1)));
        let reset = u8::from(matches!(options.get(2), Some(Boolean(true))));
        let request = self.file(Want::Play { stream }, key)?;
        let names = self.names(&key);
        raise(format!(
            " PlayStreamRequested request={request}{names} start={start} duration={duration} reset={reset} stream={stream}"
        ))
    }

    // -- decisions and a finish

    fn accept(&mut self, request: u32, clock: u64) -> Step {
        let time = self.time(clock);
        let Some(place) = self.requests.find(request) else { return refused(10) };
        let Request { want, name, .. } = self.requests.remove(place);
        match want {
            Want::Connect { transaction } => {
                self.app = name;
                self.connected = true;
                answer(connect_record(transaction, self.version.text(), name.text(), self.encoding, time))
            }
            Want::Publish { stream, mode } => {
                self.enter("publish", stream, State::Publishing(mode), name)?;
                answer(publish_records(name.text(), time, stream))
            }
            Want::Play { stream } => {
                self.enter("play", stream, State::Playing, name)?;
                answer(play_records(name.text(), time, stream))
            }
        }
    }

    /// From whatever stood there.
    fn enter(&mut self, action: &'static str, stream: u32, state: State, key: Name) -> Result<(), Refusal> {
        let place = self.streams.find(stream).ok_or(Refusal::Inactive(action, stream))?;
        self.streams.places[place] = Stream { number: stream, state, key };
        Ok(())
    }

    fn reject(&mut self, request: u32, code: &[u8], description: &[u8], clock: u64) -> Step {
        let Some(place) = self.requests.find(request) else { return refused(10) };
        if code.len() > 256 || description.len() > 256 {
            return refused(13);
        }
        let (transaction, stream) = match self.requests.remove(place).want {
            Want::Connect { transaction } => (transaction, 0),
            Want::Publish { stream, .. } | Want::Play { stream } => (0, stream),
        };
        answer(error(transaction, code, description, self.time(clock), stream))
    }

    fn finish(&mut self, stream: u32, clock: u64) -> Step {
        let inactive = Refusal::Inactive("complete", stream);
        let Some(place) = self.streams.find(stream) else { return Err(inactive) };
        let entry = &mut self.streams.places[place];
        let State::Playing = entry.state else { return Err(inactive) };
        let key = std::mem::replace(&mut entry.key, Name::EMPTY);
        entry.state = State::Completed;
        let words = "Stream playback is completed for ";
        answer(on_status("NetStream.Play.Complete", words, key.text(), self.time(clock), stream))
    }

    // -- sends, which need no stream and change nothing

    fn send_metadata(&self, m: &Metadata, clock: u64) -> Step {
        let set = |field: usize| m.set >> field & 1 == 1;
        if set(ENCODER) && m.encoder.len() > LONGEST {
            return refused(6);
        }
        let mut pairs = Vec::new();
        for (field, name) in NAMES.iter().enumerate().filter(|(field, _)| set(*field)) {
            let value = match field {
                FRAMERATE => number(double_of(m.numbers[field])),
                STEREO => boolean(m.stereo),
                ENCODER => text(m.encoder),
                _ => whole_number(m.numbers[field]),
            };
            pairs.push((*name, value));
        }
        let body = [text(b"onMetaData"), object(&pairs)].concat();
        answer(record(18, self.time(clock), m.stream, 0, &body))
    }

    fn send_media(&self, m: &Message, droppable: bool) -> Step {
        if m.body.len() > 16_777_215 {
            return refused(1);
        }
        answer(record(m.kind, m.timestamp, m.stream, if droppable { DROPPABLE } else { 0 }, m.body))
    }

    fn send_ping(&self, clock: u64) -> Step {
        let time = self.time(clock);
        Ok(Done { ping: Some(time), out: control(6, time, time, 0, 0), ..Done::default() })
    }

    // -- damage

    /// One raw number is overwritten. Every field here has 32 bits, so no value is cut.
    fn damage(&mut self, what: u8, place: u8, value: u32) {
        let place = usize::from(place) % PLACES;
        let field = match what {
            0 => &mut self.app.length,
            1 => &mut self.version.length,
            2 => &mut self.streams.count,
            3 => &mut self.requests.count,
            4 => &mut self.streams.places[place].number,
            5 => &mut self.streams.places[place].key.length,
            6 => &mut self.requests.places[place].number,
            7 => &mut self.requests.places[place].name.length,
            8 => &mut self.next_stream,
            _ => &mut self.next_request,
        };
        *field = value;
    }

    // -- what kind 09 writes

    fn shown(&self) -> String {
        let app = if self.connected { hex(self.app.text()) } else { "none".to_string() };
        let mut all = format!(
            "state connected={} app={app} version={} start={} encoding={:016x} next-stream={} next-request={}\n",
            u8::from(self.connected),
            hex(self.version.text()),
            self.start,
            self.encoding,
            self.next_stream,
            self.next_request
        );
        for stream in self.streams.rising() {
            all += &format!(" stream {} {}\n", stream.number, shown_state(&stream));
        }
        for request in self.requests.rising() {
            all += &format!(" request {} {}\n", request.number, shown_want(&request));
        }
        all
    }
}

fn shown_state(stream: &Stream) -> String {
    let key = hex(stream.key.text());
    match stream.state {
        State::Created => "created".to_string(),
        State::Publishing(mode) => format!("publishing {key} {}", mode.shown()),
        State::Playing => format!("playing {key}"),
        State::Completed => "completed".to_string(),
    }
}

fn shown_want(request: &Request) -> String {
    let name = hex(request.name.text());
    match request.want {
        Want::Connect { transaction } => format!("connect app={name} transaction={transaction:016x}"),
        Want::Publish { stream, mode } => format!("publish stream={stream} key={name} mode={}", mode.shown()),
        Want::Play { stream } => format!("play stream={stream} key={name}"),
    }
}

fn start_of(argument: Option<&Value>) -> String {
    match argument {
        Some(Number(bits)) if f64::from_bits(*bits) == -1.0 => "live-only".to_string(),
        // Minus zero counts as zero; a NaN compares with nothing.
        Some(Number(bits)) if f64::from_bits(*bits) >= 0.0 => whole_of(*bits).to_string(),
        // -2, and anything else.
        _ => "live-or-recorded".to_string(),
    }
}

fn duration_of(argument: Option<&Value>) -> String {
    match argument {
        Some(Number(bits)) if f64::from_bits(*bits) >= 0.0 => whole_of(*bits).to_string(),
        _ => "none".to_string(),
    }
}

const NAMES: [&str; 11] = [
    "width",
    "height",
    "videocodecid",
    "videodatarate",
    "framerate",
    "audiocodecid",
    "audiodatarate",
    "audiosamplerate",
    "audiochannels",
    "stereo",
    "encoder",
];
const FRAMERATE: usize = 4;
const STEREO: usize = 9;
const ENCODER: usize = 10;

/// The set fields of an object's metadata. A wrong type leaves a field unset.
fn metadata_fields(pairs: &[(&[u8], Value)]) -> Result<String, Refusal> {
    let mut all = String::new();
    for (field, name) in NAMES.iter().enumerate() {
        let shown = match (field, property(pairs, name)) {
            (STEREO, Some(Boolean(b))) => u8::from(*b).to_string(),
            (ENCODER, Some(Text(encoder))) => hex(Name::of(encoder)?.text()),
            (STEREO | ENCODER, _) => continue,
            (FRAMERATE, Some(Number(bits))) => format!("{:08x}", single_of(*bits)),
            (_, Some(Number(bits))) => whole_of(*bits).to_string(),
            _ => continue,
        };
        all += &format!(" {name}={shown}");
    }
    Ok(all)
}

fn hex(bytes: &[u8]) -> String {
    const DIGITS: &[u8; 16] = b"0123456789abcdef";
    if bytes.is_empty() {
        return "-".to_string();
    }
    bytes.iter().flat_map(|b| [b >> 4, b & 15]).map(|d| char::from(DIGITS[usize::from(d)])).collect()
}

// ---------------------------------------------------------------------------------------------------------
// The trace
// ---------------------------------------------------------------------------------------------------------

const LONGEST_BODY: u32 = 65_536;
const LARGEST_ROOM: u32 = 66_560;

struct Sizes {
    chunk: u32,
    window: u32,
    bandwidth: u32,
    on_bw_done: bool,
}

struct Message<'a> {
    kind: u8,
    stream: u32,
    timestamp: u32,
    body: &'a [u8],
}

struct Metadata<'a> {
    stream: u32,
    set: u16,
    /// The first nine fields, the frame rate by its bits.
    numbers: [u32; 9],
    stereo: bool,
    /// Its length decides whether it fits, and only one that fits is sent.
    encoder: &'a [u8],
}

enum Call<'a> {
    Start { sizes: Sizes, clock: u64, version: &'a [u8] },
    Message { message: Message<'a>, clock: u64 },
    Accept { request: u32, clock: u64 },
    Reject { request: u32, clock: u64, code: &'a [u8], description: &'a [u8] },
    Finish { stream: u32, clock: u64 },
    Metadata { metadata: Metadata<'a>, clock: u64 },
    Media { message: Message<'a>, droppable: bool },
    Ping { clock: u64 },
    State,
    Damage { what: u8, place: u8, value: u32 },
}

/// What is left of the trace. `None` is a bad entry throughout.
struct Tape<'a>(&'a [u8]);

impl<'a> Tape<'a> {
    fn take(&mut self, n: usize) -> Option<&'a [u8]> {
        let (now, later) = self.0.split_at_checked(n)?;
        self.0 = later;
        Some(now)
    }

    fn array<const N: usize>(&mut self) -> Option<[u8; N]> {
        self.take(N)?.try_into().ok()
    }

    fn u8(&mut self) -> Option<u8> {
        Some(self.array::<1>()?[0])
    }

    fn u16(&mut self) -> Option<u16> {
        self.array().map(u16::from_be_bytes)
    }

    fn u32(&mut self) -> Option<u32> {
        self.array().map(u32::from_be_bytes)
    }

    fn u64(&mut self) -> Option<u64> {
        self.array().map(u64::from_be_bytes)
    }

    fn at_most(&mut self, most: u32) -> Option<usize> {
        let n = self.u32()?;
        (n <= most).then_some(n as usize)
    }

    fn room(&mut self) -> Option<usize> {
        self.at_most(LARGEST_ROOM)
    }

    fn flag(&mut self) -> Option<bool> {
        match self.u8()? {
            0 => Some(false),
            1 => Some(true),
            _ => None,
        }
    }

    fn short(&mut self) -> Option<&'a [u8]> {
        let n = self.u16()?;
        self.take(usize::from(n))
    }

    fn body(&mut self) -> Option<&'a [u8]> {
        let n = self.at_most(LONGEST_BODY)?;
        self.take(n)
    }

    /// The next call, and the room that is lent to it.
    fn call(&mut self) -> Option<(Call<'a>, usize)> {
        match self.u8()? {
            1 => {
                let (chunk, window, bandwidth) = (self.u32()?, self.u32()?, self.u32()?);
                let sizes = Sizes { chunk, window, bandwidth, on_bw_done: self.flag()? };
                let (clock, room) = (self.u64()?, self.room()?);
                Some((Call::Start { sizes, clock, version: self.short()? }, room))
            }
            2 => {
                let (kind, stream, timestamp) = (self.u8()?, self.u32()?, self.u32()?);
                let (clock, room) = (self.u64()?, self.room()?);
                Some((Call::Message { message: Message { kind, stream, timestamp, body: self.body()? }, clock }, room))
            }
            3 => Some((Call::Accept { request: self.u32()?, clock: self.u64()? }, self.room()?)),
            4 => {
                let (request, clock, room) = (self.u32()?, self.u64()?, self.room()?);
                Some((Call::Reject { request, clock, code: self.short()?, description: self.short()? }, room))
            }
            5 => Some((Call::Finish { stream: self.u32()?, clock: self.u64()? }, self.room()?)),
            6 => {
                let (stream, clock, room) = (self.u32()?, self.u64()?, self.room()?);
                Some((Call::Metadata { metadata: self.metadata(stream)?, clock }, room))
            }
            7 => {
                let kind = self.u8().filter(|kind| matches!(kind, 8 | 9))?;
                let (stream, timestamp, droppable) = (self.u32()?, self.u32()?, self.flag()?);
                let room = self.room()?;
                Some((
                    Call::Media { message: Message { kind, stream, timestamp, body: self.body()? }, droppable },
                    room,
                ))
            }
            8 => Some((Call::Ping { clock: self.u64()? }, self.room()?)),
            9 => Some((Call::State, 0)),
            10 => {
                let what = self.u8().filter(|what| *what <= 9)?;
                Some((Call::Damage { what, place: self.u8()?, value: self.u32()? }, 0))
            }
            _ => None,
        }
    }

    fn metadata(&mut self, stream: u32) -> Option<Metadata<'a>> {
        let set = self.u16().filter(|set| *set < 1 << NAMES.len())?;
        let mut numbers = [0; 9];
        for n in &mut numbers {
            *n = self.u32()?;
        }
        Some(Metadata { stream, set, numbers, stereo: self.flag()?, encoder: self.short()? })
    }
}

/// Room is the last test: an answer without records fits everywhere.
fn fitted(step: Step, room: usize) -> Step {
    match step {
        Ok(done) if done.out.len() > room => refused(12),
        step => step,
    }
}

fn start(sizes: &Sizes, clock: u64, version: &[u8], room: usize) -> (Session, Step) {
    let tested = match Name::of(version) {
        Ok(version) if (1..=2_147_483_647).contains(&sizes.chunk) => Ok(version),
        _ => refused(14),
    };
    let step = match &tested {
        Ok(_) => fitted(answer(start_records(sizes)), room),
        Err(_) => refused(14),
    };
    match (tested, step) {
        (Ok(version), Ok(done)) => (Session::fresh(clock, version), Ok(done)),
        (_, step) => (Session::fresh(0, Name::EMPTY), step),
    }
}

/// A call that is handed a session: 15 first, 12 last, and a refused step's copy is thrown away.
fn stepped(session: &mut Session, room: usize, step: impl FnOnce(&mut Session) -> Step) -> Step {
    if !session.sound() {
        return refused(15);
    }
    let mut next = session.clone();
    let done = fitted(step(&mut next), room);
    // 11 from an accept keeps the request's removal; from a finish nothing had changed.
    if matches!(done, Ok(_) | Err(Refusal::Inactive(..))) {
        *session = next;
    }
    done
}

fn line(name: &str, step: &Step) -> String {
    match step {
        Ok(done) => {
            let mut all = format!("{name} 0{}", done.event);
            if let Some(n) = done.ping {
                all += &format!(" ping={n}");
            }
            if !done.out.is_empty() {
                all += " out=";
                all += &hex(&done.out);
            }
            all + "\n"
        }
        Err(Refusal::Number(number)) => format!("{name} {number}\n"),
        Err(Refusal::Inactive(action, stream)) => format!("{name} 11 {action} {stream}\n"),
    }
}

/// What one entry writes. Only a start can come where no session is yet.
fn entry(session: &mut Option<Session>, call: &Call, room: usize) -> Option<String> {
    if let Call::Start { sizes, clock, version } = call {
        let (next, step) = start(sizes, *clock, version, room);
        *session = Some(next);
        return Some(line("start", &step));
    }
    let s = session.as_mut()?;
    let (name, step) = match call {
        Call::Start { .. } => return None,
        Call::Message { message, clock } => ("message", stepped(s, room, |s| s.message(message, *clock))),
        Call::Accept { request, clock } => ("accept", stepped(s, room, |s| s.accept(*request, *clock))),
        Call::Reject { request, clock, code, description } => {
            ("reject", stepped(s, room, |s| s.reject(*request, code, description, *clock)))
        }
        Call::Finish { stream, clock } => ("finish", stepped(s, room, |s| s.finish(*stream, *clock))),
        Call::Metadata { metadata, clock } => ("metadata", stepped(s, room, |s| s.send_metadata(metadata, *clock))),
        Call::Media { message, droppable } => ("media", stepped(s, room, |s| s.send_media(message, *droppable))),
        Call::Ping { clock } => ("ping", stepped(s, room, |s| s.send_ping(*clock))),
        Call::State => return Some(s.shown()),
        Call::Damage { what, place, value } => {
            s.damage(*what, *place, *value);
            return Some("damage\n".to_string());
        }
    };
    Some(line(name, &step))
}

fn main() -> io::Result<()> {
    let mut trace = Vec::new();
    io::stdin().lock().read_to_end(&mut trace)?;
    let mut text = BufWriter::new(io::stdout().lock());
    let mut tape = Tape(&trace);
    let mut session = None;
    let mut count = 0u64;
    while !tape.0.is_empty() {
        count += 1;
        let written = tape.call().and_then(|(call, room)| entry(&mut session, &call, room));
        match written {
            Some(lines) => text.write_all(lines.as_bytes())?,
            None => {
                writeln!(text, "bad trace at {count}")?;
                break;
            }
        }
    }
    text.flush()
}
