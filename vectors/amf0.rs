//! Makes the vectors of the AMF0 reader: bodies that go into it, and the answers that have to come out.
//!
//! An independent source: the reader below is written from document 01 and the readings in docs/DECISIONS.md
//! alone, as a plain recursive descent with a position and a depth; it shares no line with the proved one.
//! The bodies are put together byte by byte and never by the reader, so a body is whole, cut or spoilt
//! whatever the reader thinks of it.
//!
//!     rustc -O vectors/amf0.rs -o target/make-amf0
//!     target/make-amf0 in  > what the tested program reads
//!     target/make-amf0 out > what it has to write
//!
//! A line in is `b`, the body's length as four hexadecimal digits, and the body in hexadecimal, all in
//! upper case. A line out is `bad` (refusal 2), `deep` (refusal 3), or `whole` and the text of every value.

use std::collections::HashSet;

// ---------------------------------------------------------------------------------------------------------
// The reader
// ---------------------------------------------------------------------------------------------------------

/// A container that lies inside this many others is refused.
const DEEPEST: usize = 8;

/// The longest body that is made. The limit of 4,096 bytes is not the reader's: some bodies are a bit longer.
const LONGEST: usize = 4200;

enum Fault {
    Bad,
    Deep,
}

/// A value as far as the answer shows it. Of an object it keeps the last property named `a`.
enum Value {
    Number(Vec<u8>),
    Boolean(bool),
    Text(Vec<u8>),
    Object(Option<Box<Value>>),
    Null,
    Undefined,
    Array,
    Strict,
    Date,
    Long(Vec<u8>),
}

struct Reader<'a> {
    body: &'a [u8],
    at: usize,
}

impl Reader<'_> {
    /// The next `n` bytes. Where they are not all there, the body is cut.
    fn take(&mut self, n: usize) -> Result<Vec<u8>, Fault> {
        // compared with what is left, so that a claimed length is never added to anything
        if n > self.body.len() - self.at {
            return Err(Fault::Bad);
        }
        let taken = self.body[self.at..self.at + n].to_vec();
        self.at += n;
        Ok(taken)
    }

    /// The next `n` bytes as a big-endian number.
    fn whole_number(&mut self, n: usize) -> Result<usize, Fault> {
        Ok(self.take(n)?.iter().fold(0, |sum, &b| sum * 256 + b as usize))
    }

    /// A length of `n` bytes, and as many bytes as it says.
    fn counted(&mut self, n: usize) -> Result<Vec<u8>, Fault> {
        let length = self.whole_number(n)?;
        self.take(length)
    }

    /// One value that lies inside `outer` containers.
    fn value(&mut self, outer: usize) -> Result<Value, Fault> {
        let marker = self.take(1)?[0];
        // at the marker, before anything behind it is looked at: it may well be cut there
        if matches!(marker, 0x03 | 0x08 | 0x0A) && outer == DEEPEST {
            return Err(Fault::Deep);
        }
        Ok(match marker {
            0x00 => Value::Number(self.take(8)?),
            0x01 => Value::Boolean(self.take(1)?[0] != 0),
            0x02 => Value::Text(self.counted(2)?),
            0x03 => Value::Object(self.pairs(outer + 1)?.map(Box::new)),
            0x05 => Value::Null,
            0x06 => Value::Undefined,
            0x08 => {
                // the count is compared with nothing
                self.take(4)?;
                self.pairs(outer + 1)?;
                Value::Array
            }
            0x0A => {
                // the count is believed; a value has at least one byte, so the body's end stops a large one
                let count = self.whole_number(4)?;
                for _ in 0..count {
                    self.value(outer + 1)?;
                }
                Value::Strict
            }
            0x0B => {
                self.take(8 + 2)?;
                Value::Date
            }
            0x0C => Value::Long(self.counted(4)?),
            _ => return Err(Fault::Bad),
        })
    }

    /// Pairs of name and value up to the end mark; gives the value of the last one named `a`.
    fn pairs(&mut self, outer: usize) -> Result<Option<Value>, Fault> {
        let mut last = None;
        loop {
            let name = self.counted(2)?;
            if name.is_empty() {
                // only the end mark may follow, not a value: a container here is no container
                return if self.take(1)?[0] == 0x09 { Ok(last) } else { Err(Fault::Bad) };
            }
            let value = self.value(outer)?;
            if name == b"a" {
                last = Some(value);
            }
        }
    }
}

/// All values of a body, up to the first fault from the left.
fn read(body: &[u8]) -> Result<Vec<Value>, Fault> {
    let mut reader = Reader { body, at: 0 };
    let mut values = Vec::new();
    while reader.at < body.len() {
        values.push(reader.value(0)?);
    }
    Ok(values)
}

fn digits(bytes: &[u8]) -> String {
    bytes.iter().map(|b| format!("{b:02x}")).collect()
}

fn digits_or_dash(bytes: &[u8]) -> String {
    if bytes.is_empty() { "-".into() } else { digits(bytes) }
}

/// A value's text. An object inside an object's brackets is written without its own.
fn text(value: &Value, in_brackets: bool) -> String {
    match value {
        Value::Number(bytes) => format!("number={}", digits(bytes)),
        Value::Boolean(b) => format!("boolean={}", *b as u8),
        Value::Text(bytes) => format!("string={}", digits_or_dash(bytes)),
        Value::Object(_) if in_brackets => "object".into(),
        Value::Object(None) => "object[none]".into(),
        Value::Object(Some(a)) => format!("object[{}]", text(a, true)),
        Value::Null => "null".into(),
        Value::Undefined => "undefined".into(),
        Value::Array => "array".into(),
        Value::Strict => "strict".into(),
        Value::Date => "date".into(),
        Value::Long(bytes) => format!("long={}", digits_or_dash(bytes)),
    }
}

fn answer(body: &[u8]) -> String {
    match read(body) {
        Err(Fault::Bad) => "bad".into(),
        Err(Fault::Deep) => "deep".into(),
        Ok(values) => values.iter().fold("whole".into(), |line, v| line + " " + &text(v, false)),
    }
}

// ---------------------------------------------------------------------------------------------------------
// Putting bodies together
// ---------------------------------------------------------------------------------------------------------

type Bytes = Vec<u8>;

const NULL: &[u8] = &[0x05];
const UNDEFINED: &[u8] = &[0x06];
const END: &[u8] = &[0x00, 0x00, 0x09];
const CONTAINERS: [u8; 3] = [0x03, 0x08, 0x0A];

/// A marker and what follows it.
fn marked(marker: u8, rest: &[u8]) -> Bytes {
    [&[marker], rest].concat()
}

fn bits(b: u64) -> Bytes {
    marked(0x00, &b.to_be_bytes())
}

fn number(x: f64) -> Bytes {
    bits(x.to_bits())
}

fn boolean(byte: u8) -> Bytes {
    marked(0x01, &[byte])
}

fn name(bytes: &[u8]) -> Bytes {
    [&(bytes.len() as u16).to_be_bytes(), bytes].concat()
}

fn string(s: &str) -> Bytes {
    marked(0x02, &name(s.as_bytes()))
}

/// A long string whose length may be untrue.
fn long_claiming(claimed: u32, bytes: &[u8]) -> Bytes {
    marked(0x0C, &[&claimed.to_be_bytes(), bytes].concat())
}

fn long(s: &str) -> Bytes {
    long_claiming(s.len() as u32, s.as_bytes())
}

fn date(milliseconds: f64, zone: i16) -> Bytes {
    marked(0x0B, &[&milliseconds.to_be_bytes()[..], &zone.to_be_bytes()].concat())
}

fn pair(n: &str, value: impl AsRef<[u8]>) -> Bytes {
    [&name(n.as_bytes()), value.as_ref()].concat()
}

fn object(pairs: &[Bytes]) -> Bytes {
    marked(0x03, &[&pairs.concat(), END].concat())
}

fn array(count: u32, pairs: &[Bytes]) -> Bytes {
    marked(0x08, &[&count.to_be_bytes(), &pairs.concat()[..], END].concat())
}

fn strict(count: u32, values: &[Bytes]) -> Bytes {
    marked(0x0A, &[&count.to_be_bytes(), &values.concat()[..]].concat())
}

/// One whole value of each marker there is.
fn samples() -> Vec<Bytes> {
    vec![
        number(1.5),
        boolean(1),
        string("text"),
        object(&[pair("a", number(2.0))]),
        NULL.to_vec(),
        UNDEFINED.to_vec(),
        array(1, &[pair("a", NULL)]),
        strict(2, &[boolean(0), string("x")]),
        date(1.0e12, 0),
        long("long text"),
    ]
}

/// About a hundred bytes with every kind in them, at the top and inside containers.
fn every_kind() -> Bytes {
    [
        string("hi"),
        number(3.25),
        object(&[pair("a", boolean(1)), pair("b", UNDEFINED)]),
        boolean(0),
        NULL.to_vec(),
        array(1, &[pair("a", string("x"))]),
        UNDEFINED.to_vec(),
        strict(2, &[NULL.to_vec(), number(-1.0)]),
        date(1.0e12, 60),
        object(&[pair("b", strict(0, &[])), pair("a", object(&[pair("a", NULL)]))]),
        long("abc"),
    ]
    .concat()
}

// ---------------------------------------------------------------------------------------------------------
// Bodies with a purpose
// ---------------------------------------------------------------------------------------------------------

fn one_of_each(all: &mut Vec<Bytes>) {
    all.push(Vec::new());
    for v in samples() {
        all.push(v.clone());
        all.push([&v[..], &v].concat());
        all.push(object(&[pair("a", &v)]));
        all.push(array(1, &[pair("a", &v)]));
        all.push(strict(1, &[v]));
    }
    all.push(samples().concat());
    all.push(every_kind());
}

fn markers(all: &mut Vec<Bytes>) {
    let above = [0x10, 0x11, 0x12, 0x20, 0x61, 0x7F, 0x80, 0xFF];
    for m in (0x00..=0x0F).chain(above) {
        all.push(vec![m]);
        all.push(marked(m, &[0x00; 40]));
        // a strict array's marker and count are five bytes: the last of 41 bytes 0A is the ninth marker
        all.push(vec![m; 41]);
        all.push(object(&[pair("a", [m])]));
    }
    // and here the last byte is of the eighth one's count
    all.push(vec![0x0A; 40]);
    // what Adobe's AMF0 has and document 01 leaves out, each in its whole form: movie clip, reference,
    // unsupported, record set, XML, typed object, AMF3; none of them is a container
    let left_out: [&[u8]; 7] = [
        &[0x04],
        &[0x07, 0, 0],
        &[0x0D],
        &[0x0E],
        &[0x0F, 0, 0, 0, 4, b'<', b'x', b'/', b'>'],
        &[0x10, 0, 1, b'C', 0, 1, b'a', 0x05, 0, 0, 9],
        &[0x11, 0x06, 0x03, b'x'],
    ];
    for v in left_out {
        all.push(object(&[pair("a", v)]));
        all.push(nest(&[0x03; 8], v));
    }
    all.push(left_out[4].to_vec());
    all.push(left_out[5].to_vec());
}

fn connect() -> Bytes {
    let properties = object(&[
        pair("app", string("live")),
        pair("type", string("nonprivate")),
        pair("flashVer", string("FMLE/3.0 (compatible; FMSc/1.0)")),
        pair("swfUrl", string("rtmp://localhost:1935/live")),
        pair("tcUrl", string("rtmp://localhost:1935/live")),
        pair("fpad", boolean(0)),
        pair("capabilities", number(239.0)),
        pair("audioCodecs", number(3575.0)),
        pair("videoCodecs", number(252.0)),
        pair("videoFunction", number(1.0)),
        pair("pageUrl", UNDEFINED),
        pair("objectEncoding", number(0.0)),
    ]);
    [string("connect"), number(1.0), properties].concat()
}

fn short_connect() -> Bytes {
    let properties = object(&[
        pair("app", string("live")),
        pair("tcUrl", string("rtmp://h/live")),
        pair("objectEncoding", number(3.0)),
    ]);
    [string("connect"), number(1.0), properties].concat()
}

fn publish() -> Bytes {
    [string("publish"), number(5.0), NULL.to_vec(), string("key"), string("live")].concat()
}

fn metadata_pairs() -> Vec<Bytes> {
    vec![
        pair("width", number(1920.0)),
        pair("height", number(1080.0)),
        pair("videocodecid", string("avc1")),
        pair("framerate", number(29.97)),
        pair("audiocodecid", string("mp4a")),
        pair("stereo", boolean(1)),
        pair("encoder", string("obs-output module (libobs version 30.0.2)")),
    ]
}

fn commands(all: &mut Vec<Bytes>) {
    let frame = [string("@setDataFrame"), string("onMetaData")].concat();
    all.push(connect());
    all.push(short_connect());
    all.push(publish());
    let play = [string("play"), number(6.0), NULL.to_vec(), string("key")].concat();
    all.push([&play[..], &number(-2.0)].concat());
    all.push([&play[..], &number(0.0), &number(-1.0), &boolean(1)].concat());
    all.push(play);
    all.push([string("createStream"), number(2.0), NULL.to_vec()].concat());
    all.push([string("deleteStream"), number(7.0), NULL.to_vec(), number(1.0)].concat());
    all.push([string("closeStream"), number(0.0), NULL.to_vec()].concat());
    all.push([string("FCPublish"), number(3.0), NULL.to_vec(), string("key")].concat());
    all.push([frame.clone(), array(7, &metadata_pairs())].concat());
    all.push([frame.clone(), array(0, &metadata_pairs())].concat());
    all.push([frame, object(&metadata_pairs())].concat());
    all.push([string("onMetaData"), object(&metadata_pairs())].concat());
}

fn every_cut(all: &mut Vec<Bytes>, body: &[u8]) {
    for n in 0..body.len() {
        all.push(body[..n].to_vec());
    }
}

fn cuts(all: &mut Vec<Bytes>) {
    let metadata = [string("onMetaData"), array(1, &[pair("stereo", boolean(1))])];
    every_cut(all, &every_kind());
    every_cut(all, &short_connect());
    every_cut(all, &publish());
    every_cut(all, &metadata.concat());
}

/// Every byte of the body with every kind changed in turn: to a small number that may be a marker or a
/// length, by one, and to anything.
fn changes(all: &mut Vec<Bytes>) {
    let body = every_kind();
    let mut mix = Mix(11);
    for at in 0..body.len() {
        let small = mix.below(13) as u8;
        let near = if mix.chance(50) { body[at].wrapping_add(1) } else { body[at].wrapping_sub(1) };
        let any = mix.next() as u8;
        for b in [small, near, any] {
            let mut changed = body.clone();
            changed[at] = b;
            all.push(changed);
        }
    }
}

/// What an object says of its property `a`: the last one alone counts, of its own ones, by its whole name.
fn same_names(all: &mut Vec<Bytes>) {
    let values = samples();
    let n = values.len();
    for i in 0..n {
        let (x, y, z) = (&values[i], &values[(i + 1) % n], &values[(i + 3) % n]);
        all.push(object(&[pair("a", x), pair("a", y)]));
        all.push(object(&[pair("a", y), pair("b", z), pair("a", x), pair("app", y)]));
        all.push(object(&[pair("a", z), pair("a", x), pair("a", y)]));
    }
    let one = number(1.0);
    // names that are nearly `a`
    for other in ["A", "aa", "a\0", "\0a", " a", "\0", "\u{1}", "\u{9}"] {
        all.push(object(&[pair(other, &one)]));
        all.push(object(&[pair("a", NULL), pair(other, &one)]));
    }
    // an inner container's `a` is not the outer object's
    let inner = object(&[pair("a", &one)]);
    for v in [inner.clone(), array(1, &[pair("a", &one)]), strict(1, &[inner])] {
        all.push(object(&[pair("b", &v)]));
        all.push(object(&[pair("a", string("own")), pair("b", &v)]));
        all.push(object(&[pair("b", &v), pair("a", string("own"))]));
    }
    // a later `a` that is at fault is no property, nor is the object one
    all.push([object(&[pair("a", &one)]), marked(0x03, &pair("a", [0x04]))].concat());
}

fn names(all: &mut Vec<Bytes>) {
    // an empty name and then: a value, a container, a marker that is none, nothing
    for v in samples() {
        all.push(object(&[pair("", &v)]));
        all.push(array(1, &[pair("b", NULL), pair("", &v)]));
    }
    for b in [0x04, 0x07, 0x08, 0x0A, 0x0D, 0x90, 0xFF] {
        all.push(marked(0x03, &[0x00, 0x00, b]));
        all.push(marked(0x03, &[&pair("a", NULL)[..], &[0x00, 0x00, b], END].concat()));
    }
    for cut in [&[][..], &[0x00], &[0x00, 0x00]] {
        all.push(marked(0x03, cut));
        all.push(marked(0x08, &[&[0, 0, 0, 0], cut].concat()));
    }
    for n in [1, 2, 255, 256, 257] {
        let long_name = "n".repeat(n);
        all.push(object(&[pair(&long_name, NULL)]));
        all.push(array(1, &[pair(&long_name, NULL)]));
        // a name and no value; a name that is one byte short
        all.push(marked(0x03, &name(long_name.as_bytes())));
        all.push(marked(0x03, &name(long_name.as_bytes())[..n + 1]));
    }
    // a name as long as a body can hold, and names that claim more than there is
    all.push(object(&[pair(&"n".repeat(4000), NULL), pair("a", UNDEFINED)]));
    all.push([&[0x03, 0x80, 0x01, b'a'], NULL, END].concat());
    all.push([&[0x03, 0xFF, 0xFF], &[0x61; 30][..]].concat());
    all.push([&[0x08, 0, 0, 0, 1, 0xFF, 0xFF], &[0x61; 30][..], END].concat());
    all.push([&[0x03, 0xFF, 0xFF], &[0x05; 4000][..]].concat());
    // a name that reads like the end mark, or like a pair
    all.push(object(&[pair("\0\0\u{9}", NULL), pair("a", boolean(1))]));
    all.push(object(&[pair("\0\u{1}a\u{5}", NULL)]));
}

fn containers(all: &mut Vec<Bytes>) {
    let null = || NULL.to_vec();
    let counts = [0, 1, 2, 256, 0x0100_0000, u32::MAX];
    all.push(object(&[]));
    all.push(object(&[]).repeat(20));
    all.push(object(&[pair("a", object(&[]))]));
    for n in counts {
        // an ECMA array's count says nothing, a strict array's says everything
        all.push(array(n, &[]));
        all.push(array(n, &[pair("a", number(1.0)), pair("b", NULL)]));
        all.push(strict(n, &[]));
        all.push(strict(n, &[null()]));
        all.push(strict(n, &[null(), boolean(1), number(7.0)]));
        all.push(object(&[pair("a", array(n, &[])), pair("b", array(n, &[pair("a", NULL)]))]));
        all.push(object(&[pair("a", strict(n, &[]))]));
        all.push(object(&[pair("a", strict(n, &[UNDEFINED.to_vec()]))]));
    }
    all.push(strict(255, &vec![null(); 255]));
    all.push(strict(256, &vec![null(); 256]));
    all.push(strict(255, &vec![null(); 256]));
    all.push(strict(257, &vec![null(); 256]));
    // one too many in an object: the value after it is read as a name; a name's length of 0 and 09 end it
    all.push(object(&[pair("a", strict(1, &[null(), null()]))]));
    all.push([&[0x03][..], &pair("a", strict(0, &[])), END, &bits(9)].concat());
    // one too few: the end mark is taken for a number, and is one where there are bytes enough
    all.push([&[0x03][..], &pair("a", strict(2, &[null()])), END, &[1, 2, 3, 4, 5], END].concat());
    all.push([&[0x03][..], &pair("a", strict(2, &[null()])), END, &[1, 2, 3, 4, 5, 6], END].concat());
    // an end mark outside of pairs
    all.push([&strict(0, &[])[..], END].concat());
    all.push([&strict(0, &[])[..], END, &[0; 6]].concat());
    all.push(strict(1, &[vec![0x09]]));
    all.push([&object(&[])[..], END].concat());
    all.push(END.to_vec());
    // a container without its end, then a sound value
    all.push([&[0x03][..], &pair("a", NULL), &number(1.0)].concat());
    all.push([&[0x08, 0, 0, 0, 1][..], &pair("a", NULL), &string("x")].concat());
    // counts that are cut
    for m in [0x08, 0x0A] {
        for n in 0..4 {
            all.push(marked(m, &[0; 4][..n]));
        }
    }
    // large counts within each other: the body's end has to stop all of them at once
    all.push(strict(u32::MAX, &[]).repeat(8));
    all.push(strict(u32::MAX, &[]).repeat(9));
    all.push(strict(u32::MAX, &vec![strict(0, &[]); 800]));
    // a count that the body cannot hold is no fault where it stands: the ninth container comes first
    all.push(strict(u32::MAX, &[nest(&[0x03; 8], NULL)]));
    all.push(strict(2000, &[nest(&[0x08; 7], NULL), nest(&[0x08; 8], NULL)]));
    // a count whose highest bit alone makes it untrue
    all.push(strict(0x8000_0001, &[null()]));
    all.push([strict(u32::MAX, &[]).repeat(8), vec![0x05; 4000]].concat());
}

fn texts(all: &mut Vec<Bytes>) {
    for n in [0, 1, 2, 255, 256, 4000] {
        let s = "s".repeat(n);
        all.push(string(&s));
        all.push(object(&[pair("a", string(&s))]));
        all.push(string(&s)[..n + 2].to_vec());
    }
    for n in [0, 1, 255, 256, 300, 4000] {
        let s = "l".repeat(n);
        all.push(long(&s));
        all.push(object(&[pair("a", long(&s))]));
        all.push(long(&s)[..n + 4].to_vec());
    }
    // claimed lengths: one too many, one too few (the last byte is then a marker), and huge
    all.push([&[0x02, 0, 3][..], b"ab"].concat());
    all.push([&[0x02, 0, 1][..], b"ab"].concat());
    all.push([&[0x02, 0, 1][..], b"a", NULL].concat());
    all.push([&[0x02, 0xFF, 0xFF], &[0x05; 100][..]].concat());
    all.push([&[0x02, 0x80, 0x02][..], b"ab"].concat());
    for claimed in [4, 6, 256 + 5, 65536 + 5, 0x0100_0005, 0x8000_0005, 0x7FFF_FFFF, 0xFFFF_FFF0, u32::MAX] {
        all.push(long_claiming(claimed, b"bytes"));
    }
    all.push(long_claiming(4, &[b'l', b'o', b'n', b'g', 0x06]));
    // no UTF-8, and bytes that read like AMF0
    for bytes in [&[0xFF, 0xFE, 0x80][..], &[0xC0, 0x80], &[0x00], END, &[0x03; 12], &[0xED, 0xA0, 0x80]] {
        all.push(marked(0x02, &name(bytes)));
        all.push(long_claiming(bytes.len() as u32, bytes));
        all.push(object(&[[name(bytes), number(1.0)].concat(), pair("a", marked(0x02, &name(bytes)))]));
    }
}

fn plain_values(all: &mut Vec<Bytes>) {
    let nan = f64::from_bits(0x7FF8_0000_0000_0000);
    for v in [date(0.0, 0), date(1.7e12, -60), date(nan, 1), marked(0x0B, &[0x09; 10])] {
        all.push(v.clone());
        all.push([&v[..], NULL].concat());
        all.push(object(&[pair("a", v)]));
    }
    for n in 0..11 {
        all.push(date(1.7e12, 120)[..n].to_vec());
    }
    for b in [0, 1, 2, 3, 9, 127, 128, 255] {
        all.push(boolean(b));
        all.push(object(&[pair("a", boolean(b))]));
    }
    for b in NUMBERS {
        all.push([bits(b), object(&[pair("a", bits(b))])].concat());
    }
}

/// Numbers whose bits are easily lost: zeros, the ends of the range, infinities, NaNs of every sort.
const NUMBERS: [u64; 14] = [
    0,
    0x8000_0000_0000_0000,
    0x0000_0000_0000_0001,
    0x8000_0000_0000_0001,
    0x3FF0_0000_0000_0000,
    0x7FEF_FFFF_FFFF_FFFF,
    0x7FF0_0000_0000_0000,
    0xFFF0_0000_0000_0000,
    0x7FF0_0000_0000_0001,
    0x7FF8_0000_0000_0000,
    0xFFF8_0000_0000_0000,
    0x7FF4_DEAD_BEEF_0102,
    0xFFFF_FFFF_FFFF_FFFF,
    0x0102_0304_0506_0708,
];

// ---------------------------------------------------------------------------------------------------------
// Containers inside containers
// ---------------------------------------------------------------------------------------------------------

/// A container's bytes up to the place of its first value.
fn opened(marker: u8) -> &'static [u8] {
    match marker {
        0x03 => &[0x03, 0, 1, b'a'],
        0x08 => &[0x08, 0, 0, 0, 1, 0, 1, b'a'],
        _ => &[0x0A, 0, 0, 0, 1],
    }
}

/// A container's bytes behind its only value.
fn closed(marker: u8) -> &'static [u8] {
    if marker == 0x0A { &[] } else { END }
}

fn open_all(kinds: &[u8]) -> Bytes {
    kinds.iter().map(|&k| opened(k)).collect::<Vec<_>>().concat()
}

fn close_all(kinds: &[u8]) -> Bytes {
    kinds.iter().rev().map(|&k| closed(k)).collect::<Vec<_>>().concat()
}

/// Containers of these kinds, the outermost first, around a value.
fn nest(kinds: &[u8], core: &[u8]) -> Bytes {
    [open_all(kinds), core.to_vec(), close_all(kinds)].concat()
}

/// Kinds of containers again and again, up to ten.
fn ten_kinds() -> Vec<Bytes> {
    let patterns: [&[u8]; 7] = [
        &[0x03],
        &[0x08],
        &[0x0A],
        &[0x03, 0x08, 0x0A],
        &[0x0A, 0x03],
        &[0x08, 0x0A, 0x0A],
        &[0x0A, 0x0A, 0x0A, 0x0A, 0x0A, 0x0A, 0x0A, 0x03],
    ];
    patterns.iter().map(|p| p.iter().cycle().take(10).copied().collect()).collect()
}

fn nests(all: &mut Vec<Bytes>) {
    for kinds in ten_kinds() {
        for n in [7, 8, 9, 10] {
            all.push(nest(&kinds[..n], NULL));
        }
        // the ninth one's marker and nothing more, and with what cannot be right behind it
        let eight = open_all(&kinds[..8]);
        for m in CONTAINERS {
            all.push(marked_after(&eight, m, &[]));
        }
        all.push(marked_after(&eight, kinds[8], &[0x00, 0x00, 0x04, 0xFF]));
        // the cut comes before the ninth marker, and at the eighth one's
        all.push(open_all(&kinds[..8]));
        all.push(marked_after(&open_all(&kinds[..7]), kinds[7], &[]));
        first_fault(all, &kinds);
    }
    siblings(all);
}

fn marked_after(before: &[u8], marker: u8, rest: &[u8]) -> Bytes {
    [before, &marked(marker, rest)].concat()
}

/// Bodies with two faults: a bad byte and a ninth container, now the one and now the other further left.
fn first_fault(all: &mut Vec<Bytes>, kinds: &[u8]) {
    let nine = nest(&kinds[..9], NULL);
    let ninth = nest(&kinds[8..9], NULL);
    // a bad marker at the top, on either side
    all.push([&[0x04][..], &nine].concat());
    all.push([&nine[..], &[0x04]].concat());
    // in the place of the ninth one, and inside the ninth one
    all.push(nest(&kinds[..8], &marked(0x0D, &ninth)));
    all.push(nest(&kinds[..9], &[0x0D]));
    // a string that would swallow the ninth one, with the body's end inside it
    all.push(nest(&kinds[..8], &[&[0x02, 0x01, 0x00][..], &ninth].concat()));
    // an empty name is no name: the container behind it does not count as one
    if kinds[7] != 0x0A {
        let unnamed = [&[0x05, 0x00, 0x00][..], &ninth].concat();
        all.push(nest(&kinds[..8], &unnamed));
        // the same with a proper name is a ninth container, and with a null behind it none
        all.push(nest(&kinds[..8], &[NULL, &pair("b", &ninth)].concat()));
        all.push(nest(&kinds[..8], &[NULL, &pair("b", NULL)].concat()));
    }
}

/// The depth has to go down again behind a container.
fn siblings(all: &mut Vec<Bytes>) {
    for m in CONTAINERS {
        let eight = nest(&[m; 8], NULL);
        let seven = nest(&[m; 7], NULL);
        all.push([&eight[..], &eight, &eight].concat());
        all.push(object(&[pair("a", &seven), pair("b", &seven), pair("a", NULL)]));
        all.push(array(9, &[pair("a", &seven), pair("b", &seven)]));
        all.push(strict(2, &[seven.clone(), seven.clone()]));
        all.push(strict(2, &[seven.clone(), eight.clone()]));
        all.push(object(&[pair("b", &seven), pair("a", &eight)]));
        // nine that are not in each other, in the seventh
        let row = strict(9, &vec![nest(&[m], NULL); 9]);
        all.push(nest(&[m; 6], &row));
        all.push(nest(&[m; 7], &row));
        // empty ones at the eighth and ninth place
        let empty = [object(&[]), array(0, &[]), strict(0, &[])];
        for e in empty {
            all.push(nest(&[m; 7], &e));
            all.push(nest(&[m; 8], &e));
        }
    }
}

// ---------------------------------------------------------------------------------------------------------
// Large bodies
// ---------------------------------------------------------------------------------------------------------

/// Forty properties; the last one, `a`, is as long as it takes to have so many bytes with `around` more.
fn forty_pairs(total: usize, around: usize) -> Vec<Bytes> {
    let mut pairs: Vec<Bytes> = (0..39)
        .map(|i| {
            let n = format!("property-{i:02}");
            match i % 4 {
                0 => pair(&n, string(&"v".repeat(160))),
                1 => pair(&n, number(i as f64)),
                2 => pair(&n, long(&"w".repeat(150))),
                _ => pair(&n, strict(2, &[boolean(1), object(&[pair("a", NULL)])])),
            }
        })
        .collect();
    let so_far = pairs.concat().len() + around + pair("a", string("")).len();
    pairs.push(pair("a", string(&"z".repeat(total - so_far))));
    pairs
}

fn large(all: &mut Vec<Bytes>) {
    let full = object(&forty_pairs(4096, 4));
    all.push(full[..4095].to_vec());
    all.push([&full[..4093], &[0, 0, 8]].concat());
    all.push(full);
    all.push(array(40, &forty_pairs(4096, 8)));
    all.push(array(39, &forty_pairs(4097, 8)));
    all.push([string("@setDataFrame"), object(&forty_pairs(4080, 4))].concat());
    all.push(object(&forty_pairs(LONGEST, 4)));
    // as many values as go into a body, and as many with one that is cut at the end
    all.push(vec![0x05; 4096]);
    all.push([vec![0x05; 4095], vec![0x01]].concat());
    all.push(vec![0x00; 4095]);
    all.push(vec![0x00; 4096]);
}

// ---------------------------------------------------------------------------------------------------------
// Bodies by chance
// ---------------------------------------------------------------------------------------------------------

/// A generator of 64-bit numbers with a fixed start (splitmix64), so that every run makes the same vectors.
struct Mix(u64);

impl Mix {
    fn next(&mut self) -> u64 {
        self.0 = self.0.wrapping_add(0x9E37_79B9_7F4A_7C15);
        let mut z = self.0;
        z = (z ^ (z >> 30)).wrapping_mul(0xBF58_476D_1CE4_E5B9);
        z = (z ^ (z >> 27)).wrapping_mul(0x94D0_49BB_1331_11EB);
        z ^ (z >> 31)
    }

    fn below(&mut self, n: usize) -> usize {
        (self.next() % n as u64) as usize
    }

    fn chance(&mut self, percent: usize) -> bool {
        self.below(100) < percent
    }

    fn pick<T: Copy>(&mut self, from: &[T]) -> T {
        from[self.below(from.len())]
    }
}

fn some_name(mix: &mut Mix) -> &'static str {
    mix.pick(&["a", "a", "a", "b", "c", "aa", "A", "app", "tcUrl", "objectEncoding", "\0", "a\0"])
}

fn some_plain(mix: &mut Mix) -> Bytes {
    let s = "the quick brown fox";
    let cut = &s[..mix.below(s.len() + 1)];
    match mix.below(8) {
        0 => bits(mix.next()),
        1 => bits(mix.pick(&NUMBERS)),
        2 => boolean(mix.pick(&[0, 1, 2, 255])),
        3 => string(cut),
        4 => long(cut),
        5 => date(mix.next() as f64, mix.next() as i16),
        6 => NULL.to_vec(),
        _ => UNDEFINED.to_vec(),
    }
}

/// A whole value with exactly `depth` containers in each other: one member of a container has all the
/// depth that is left, and the others, on both sides of it, have little.
fn some_value(mix: &mut Mix, depth: usize) -> Bytes {
    if depth == 0 {
        return some_plain(mix);
    }
    let before = mix.below(3);
    let mut members = Vec::new();
    for i in 0..before + 1 + mix.below(2) {
        let d = if i == before { depth - 1 } else { mix.below(depth.min(2)) };
        members.push(some_value(mix, d));
    }
    let pairs: Vec<Bytes> = members.iter().map(|v| pair(some_name(mix), v)).collect();
    match mix.below(4) {
        0 => strict(members.len() as u32, &members),
        1 => {
            let true_count = members.len() as u32;
            array(mix.pick(&[true_count, true_count, 0, u32::MAX]), &pairs)
        }
        _ => object(&pairs),
    }
}

/// A few whole values; the first that is too deep, if there is one, may be any of them.
fn some_body(mix: &mut Mix) -> Bytes {
    let mut body = Vec::new();
    for _ in 0..1 + mix.below(4) {
        let depth = if mix.chance(70) { mix.below(4) } else { 4 + mix.below(7) };
        body.extend(some_value(mix, depth));
    }
    body
}

fn random_whole(all: &mut Vec<Bytes>) {
    let mut mix = Mix(21);
    for _ in 0..100 {
        all.push(some_body(&mut mix));
    }
    // an exact depth on its own, each a few times
    for depth in 0..=10 {
        for _ in 0..2 {
            all.push(some_value(&mut mix, depth));
        }
    }
}

/// Whole bodies with one thing done to them.
fn random_hurt(all: &mut Vec<Bytes>) {
    let mut mix = Mix(22);
    for _ in 0..80 {
        let mut body = some_body(&mut mix);
        let at = mix.below(body.len());
        match mix.below(5) {
            0 => body.truncate(at),
            1 => body[at] = mix.below(13) as u8,
            2 => body[at] = mix.next() as u8,
            3 => drop(body.remove(at)),
            _ => body.insert(at, mix.below(13) as u8),
        }
        all.push(body);
    }
}

/// Bytes by chance, mostly small ones: those are markers, and lengths that a body can hold.
fn random_bytes(all: &mut Vec<Bytes>) {
    let mut mix = Mix(23);
    for _ in 0..40 {
        let n = 1 + mix.below(48);
        let byte = |mix: &mut Mix| match mix.below(8) {
            0..=2 => mix.below(13) as u8,
            3 => 0x00,
            4 => mix.pick(&[0x05, 0x06]),
            5 => mix.pick(&CONTAINERS),
            6 => mix.pick(&[0x00, 0x01, 0x09, b'a']),
            _ => mix.next() as u8,
        };
        all.push((0..n).map(|_| byte(&mut mix)).collect());
    }
}

/// Pieces of AMF0 in any order: more often right for a while than bytes are.
fn random_pieces(all: &mut Vec<Bytes>) {
    let pieces: [&[u8]; 14] = [
        &[0x03, 0, 1, b'a'],
        &[0x08, 0, 0, 0, 0, 0, 1, b'b'],
        &[0x0A, 0, 0, 0, 1],
        &[0x0A, 0, 0, 0, 3],
        &[0x0A, 0, 0, 0, 0],
        &[0x03, 0, 0, 9],
        &[0x05, 0, 1, b'a'],
        &[0x06, 0, 0, 9],
        &[0x01, 1],
        &[0x02, 0, 1, b'a'],
        &[0x00, 0x40, 0, 0, 0, 0, 0, 0, 0],
        &[0x05],
        &[0x00, 0x00, 0x09],
        &[0x04],
    ];
    let mut mix = Mix(24);
    for _ in 0..60 {
        // the last pieces are faults nearly anywhere, so many bodies go without them
        let from = if mix.chance(60) { &pieces[..12] } else { &pieces[..] };
        let n = 1 + mix.below(24);
        all.push((0..n).flat_map(|_| mix.pick(from).to_vec()).collect());
    }
}

// ---------------------------------------------------------------------------------------------------------

fn bodies() -> Vec<Bytes> {
    let mut all = Vec::new();
    one_of_each(&mut all);
    markers(&mut all);
    commands(&mut all);
    cuts(&mut all);
    changes(&mut all);
    same_names(&mut all);
    names(&mut all);
    containers(&mut all);
    texts(&mut all);
    plain_values(&mut all);
    nests(&mut all);
    large(&mut all);
    random_whole(&mut all);
    random_hurt(&mut all);
    random_bytes(&mut all);
    random_pieces(&mut all);
    // a body that is made twice is asked once, in its first place
    let mut seen = HashSet::new();
    all.retain(|body| seen.insert(body.clone()));
    assert!(all.iter().all(|body| body.len() <= LONGEST));
    all
}

fn main() {
    match std::env::args().nth(1).as_deref() {
        Some("in") => {
            for body in bodies() {
                println!("b {:04X} {}", body.len(), digits(&body).to_uppercase());
            }
        }
        Some("out") => {
            for body in bodies() {
                println!("{}", answer(&body));
            }
        }
        _ => eprintln!("usage: make-amf0 in|out"),
    }
}
