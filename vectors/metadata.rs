//! Makes the vectors of the metadata properties: bodies that go in, and the fields and the record that have to
//! come out.
//!
//! An independent source: the reader and the writer below are written from document 01 alone and share no line
//! with the proved ones. The reader makes a tree of each value, the fields are looked up in the tree, and the
//! numbers go through Rust's own casts. The bodies are put together byte by byte and never by the writer.
//!
//!     rustc -O vectors/metadata.rs -o target/make-metadata
//!     target/make-metadata in  > what the tested program reads
//!     target/make-metadata out > what it has to write
//!
//! A line in is `m`, the body's length as four hexadecimal digits, and the body in hexadecimal. A line out is
//! `long` (an encoder over 128 bytes), or the set fields, or `empty`; then the record, and what the program finds
//! of it: `short` (one byte less is refused) and `back` (read again it has the same record). All digits are in
//! upper case.

use std::collections::HashSet;

type Bytes = Vec<u8>;

// ---------------------------------------------------------------------------------------------------------
// The reader
// ---------------------------------------------------------------------------------------------------------

/// A value as far as metadata asks. Only marker 02 is a text, and only 03 has properties.
enum Value {
    Number(u64),
    Boolean(bool),
    Text(Bytes),
    Object(Vec<(Bytes, Value)>),
    Other,
}

/// Takes bytes off the front. A body that is made here is whole, so one that is cut stops the program.
fn take<'a>(rest: &mut &'a [u8], n: usize) -> &'a [u8] {
    let (taken, left) = rest.split_at(n);
    *rest = left;
    taken
}

fn big_endian(bytes: &[u8]) -> u64 {
    bytes.iter().fold(0, |sum, &b| sum << 8 | u64::from(b))
}

fn counted(rest: &mut &[u8], width: usize) -> Bytes {
    let length = big_endian(take(rest, width)) as usize;
    take(rest, length).to_vec()
}

fn value(rest: &mut &[u8]) -> Value {
    match take(rest, 1)[0] {
        0x00 => return Value::Number(big_endian(take(rest, 8))),
        0x01 => return Value::Boolean(take(rest, 1)[0] != 0),
        0x02 => return Value::Text(counted(rest, 2)),
        0x03 => return Value::Object(pairs(rest)),
        0x05 | 0x06 => {}
        0x08 => {
            take(rest, 4);
            pairs(rest);
        }
        0x0A => {
            for _ in 0..big_endian(take(rest, 4)) {
                value(rest);
            }
        }
        0x0B => drop(take(rest, 8 + 2)),
        0x0C => drop(counted(rest, 4)),
        _ => panic!("no marker of document 01"),
    }
    Value::Other
}

fn pairs(rest: &mut &[u8]) -> Vec<(Bytes, Value)> {
    let mut all = Vec::new();
    loop {
        let name = counted(rest, 2);
        if name.is_empty() {
            assert_eq!(take(rest, 1), [0x09]);
            return all;
        }
        all.push((name, value(rest)));
    }
}

// ---------------------------------------------------------------------------------------------------------
// The eleven fields
// ---------------------------------------------------------------------------------------------------------

/// In the order of document 01.
const NAMES: [&str; 11] = [
    "width",
    "height",
    "videocodecid",
    "videodatarate",
    "framerate",
    "audiocodecid",
    "audiodatarate",
    "audiosamplerate",
    "audiochannels",
    "stereo",
    "encoder",
];

enum Field {
    Whole(u32),
    /// The bits of a single.
    Single(u32),
    Flag(bool),
    Text(Bytes),
}

/// A NaN is always this one.
fn single(bits: u64) -> u32 {
    let x = f64::from_bits(bits);
    if x.is_nan() { 0x7FC0_0000 } else { (x as f32).to_bits() }
}

fn double(bits: u32) -> u64 {
    let x = f32::from_bits(bits);
    if x.is_nan() { 0x7FF8_0000_0000_0000 } else { f64::from(x).to_bits() }
}

/// What a value says as the field of this name. A wrong type says nothing.
fn field(name: &str, value: &Value) -> Option<Field> {
    match (name, value) {
        ("stereo", Value::Boolean(b)) => Some(Field::Flag(*b)),
        ("encoder", Value::Text(text)) => Some(Field::Text(text.clone())),
        ("stereo" | "encoder", _) => None,
        ("framerate", Value::Number(bits)) => Some(Field::Single(single(*bits))),
        (_, Value::Number(bits)) => Some(Field::Whole(f64::from_bits(*bits) as u32)),
        _ => None,
    }
}

type Metadata = Vec<(&'static str, Field)>;

/// The set fields. Of a name that occurs twice, the last one alone counts.
fn metadata(value: &Value) -> Metadata {
    let Value::Object(pairs) = value else { return Vec::new() };
    let last = |name: &str| pairs.iter().rev().find(|(n, _)| n == name.as_bytes());
    NAMES.iter().filter_map(|&name| Some((name, field(name, &last(name)?.1)?))).collect()
}

// ---------------------------------------------------------------------------------------------------------
// The record, and the answer
// ---------------------------------------------------------------------------------------------------------

fn write_counted(out: &mut Bytes, text: &[u8]) {
    out.extend((text.len() as u16).to_be_bytes());
    out.extend(text);
}

fn write_field(out: &mut Bytes, field: &Field) {
    match field {
        Field::Whole(n) => {
            out.push(0x00);
            out.extend(f64::from(*n).to_be_bytes());
        }
        Field::Single(bits) => {
            out.push(0x00);
            out.extend(double(*bits).to_be_bytes());
        }
        Field::Flag(b) => out.extend([0x01, u8::from(*b)]),
        Field::Text(text) => {
            out.push(0x02);
            write_counted(out, text);
        }
    }
}

/// Type 18, the length, timestamp 7, stream 3, no flags; then the body.
fn record(metadata: &Metadata) -> Bytes {
    let mut body = vec![0x02];
    write_counted(&mut body, b"onMetaData");
    body.push(0x03);
    for (name, field) in metadata {
        write_counted(&mut body, name.as_bytes());
        write_field(&mut body, field);
    }
    body.extend([0x00, 0x00, 0x09]);
    let mut all = vec![18];
    all.extend(&(body.len() as u32).to_be_bytes()[1..]);
    all.extend(7u32.to_be_bytes());
    all.extend(3u32.to_be_bytes());
    all.push(0);
    all.extend(body);
    all
}

/// The record of what this reader reads in a record.
fn again(record: &[u8]) -> Bytes {
    let mut rest = &record[13..];
    assert!(matches!(value(&mut rest), Value::Text(text) if text == b"onMetaData"));
    let object = value(&mut rest);
    assert!(rest.is_empty());
    self::record(&metadata(&object))
}

fn digits(bytes: &[u8]) -> String {
    bytes.iter().map(|b| format!("{b:02X}")).collect()
}

fn shown(field: &Field) -> String {
    match field {
        Field::Whole(n) => n.to_string(),
        Field::Single(bits) => format!("{bits:08X}"),
        Field::Flag(b) => u8::from(*b).to_string(),
        Field::Text(text) if text.is_empty() => "-".into(),
        Field::Text(text) => digits(text),
    }
}

fn answer(body: &[u8]) -> String {
    let metadata = metadata(&value(&mut &body[..]));
    if metadata.iter().any(|(_, f)| matches!(f, Field::Text(text) if text.len() > 128)) {
        return "long".into();
    }
    let mut words: Vec<String> = metadata.iter().map(|(n, f)| format!("{n}={}", shown(f))).collect();
    if words.is_empty() {
        words.push("empty".into());
    }
    let record = record(&metadata);
    words.push(format!("record={}:{}", record.len(), digits(&record)));
    words.push("short".into());
    words.push(if again(&record) == record { "back".into() } else { "NOTBACK".into() });
    words.join(" ")
}

// ---------------------------------------------------------------------------------------------------------
// Putting bodies together
// ---------------------------------------------------------------------------------------------------------

const NULL: &[u8] = &[0x05];
const UNDEFINED: &[u8] = &[0x06];
const END: &[u8] = &[0x00, 0x00, 0x09];

fn bits(b: u64) -> Bytes {
    [&[0x00][..], &b.to_be_bytes()].concat()
}

fn number(x: f64) -> Bytes {
    bits(x.to_bits())
}

fn boolean(byte: u8) -> Bytes {
    vec![0x01, byte]
}

fn named(name: &[u8]) -> Bytes {
    [&(name.len() as u16).to_be_bytes(), name].concat()
}

fn string(text: &[u8]) -> Bytes {
    [&[0x02][..], &named(text)].concat()
}

fn long(text: &[u8]) -> Bytes {
    [&[0x0C][..], &(text.len() as u32).to_be_bytes(), text].concat()
}

fn date() -> Bytes {
    [&[0x0B][..], &1.5e12f64.to_be_bytes(), &[0, 0]].concat()
}

fn pair(name: &str, value: impl AsRef<[u8]>) -> Bytes {
    [&named(name.as_bytes()), value.as_ref()].concat()
}

fn object(pairs: &[Bytes]) -> Bytes {
    [&[0x03][..], &pairs.concat(), END].concat()
}

fn array(count: u32, pairs: &[Bytes]) -> Bytes {
    [&[0x08][..], &count.to_be_bytes(), &pairs.concat(), END].concat()
}

fn strict(values: &[Bytes]) -> Bytes {
    [&[0x0A][..], &(values.len() as u32).to_be_bytes(), &values.concat()].concat()
}

/// A right value for the field of this name, another one for each `n`.
fn right(name: &str, n: usize) -> Bytes {
    match name {
        "stereo" => boolean((n % 2) as u8),
        "encoder" => string(format!("encoder {n}").as_bytes()),
        "framerate" => number(29.97 + n as f64),
        _ => number(100.0 + n as f64),
    }
}

fn eleven() -> Vec<Bytes> {
    NAMES.iter().enumerate().map(|(i, name)| pair(name, right(name, i))).collect()
}

/// A value of every type, the field names inside.
fn samples() -> Vec<Bytes> {
    vec![
        number(7.0),
        boolean(1),
        string(b"640"),
        object(&[]),
        object(&eleven()[..2]),
        NULL.to_vec(),
        UNDEFINED.to_vec(),
        array(1, &eleven()[9..]),
        strict(&[number(640.0)]),
        date(),
        long(b"long text"),
    ]
}

// ---------------------------------------------------------------------------------------------------------
// Bodies with a purpose
// ---------------------------------------------------------------------------------------------------------

fn sets(all: &mut Vec<Bytes>) {
    let pairs = eleven();
    let backwards: Vec<Bytes> = pairs.iter().rev().cloned().collect();
    all.push(object(&pairs));
    all.push(object(&backwards));
    all.push(object(&[]));
    for i in 0..11 {
        all.push(object(&pairs[i..=i]));
        // all but this one
        all.push(object(&[&pairs[..i], &pairs[i + 1..]].concat()));
    }
}

fn other_names(all: &mut Vec<Bytes>) {
    all.push(object(&[pair("duration", number(0.0)), pair("filesize", number(1e6)), pair("title", string(b"t"))]));
    for (i, name) in NAMES.iter().enumerate() {
        let value = right(name, 1);
        let first = &name[..1];
        let others = [
            name.to_uppercase(),
            first.to_uppercase() + &name[1..],
            name[1..].to_string(),
            name[..name.len() - 1].to_string(),
            format!("{name}s"),
            format!(" {name}"),
            format!("{name}\0"),
            format!("{}{}", &name[..name.len() - 1], "q"),
            format!("q{}", &name[1..]),
        ];
        let unknown: Vec<Bytes> = others.iter().map(|n| pair(n, &value)).collect();
        all.push(object(&unknown));
        // with a right one among them, and with each alone behind it
        all.push(object(&[&unknown[..4], &eleven()[i..=i], &unknown[4..]].concat()));
        for other in unknown {
            all.push(object(&[pair(name, right(name, 2)), other]));
        }
    }
    all.push(object(&[pair(&"n".repeat(300), number(1.0)), pair("width", number(2.0))]));
}

fn wrong_types(all: &mut Vec<Bytes>) {
    for (i, name) in NAMES.iter().enumerate() {
        let beside = NAMES[(i + 1) % 11];
        for sample in samples() {
            all.push(object(&[pair(name, &sample), pair(beside, right(beside, 5))]));
        }
    }
    // one of each wrong type in turn, among ten right ones
    for k in 0..11 {
        let mut pairs = eleven();
        pairs[k] = pair(NAMES[k], &samples()[(k + 3) % 11]);
        all.push(object(&pairs));
    }
    for sample in samples() {
        let pairs: Vec<Bytes> = NAMES.iter().map(|name| pair(name, &sample)).collect();
        all.push(object(&pairs));
    }
}

fn twice(all: &mut Vec<Bytes>) {
    for (i, name) in NAMES.iter().enumerate() {
        let (one, two) = (pair(name, right(name, 1)), pair(name, right(name, 2)));
        let null = pair(name, NULL);
        // a date is wrong for every field, as is an object
        let wrong = pair(name, if i % 2 == 0 { date() } else { object(&eleven()) });
        let beside = pair("audiochannels", number(2.0));
        all.push(object(&[one.clone(), two.clone()]));
        all.push(object(&[two.clone(), beside.clone(), one.clone()]));
        all.push(object(&[one.clone(), null.clone()]));
        all.push(object(&[null, one.clone()]));
        all.push(object(&[wrong.clone(), beside, two.clone()]));
        all.push(object(&[one, two, wrong]));
    }
    all.push(object(&[eleven(), eleven().into_iter().rev().collect()].concat()));
}

/// Only an object has properties, and only the first value is asked.
fn no_objects(all: &mut Vec<Bytes>) {
    for sample in samples() {
        all.push(sample.clone());
        all.push([sample, object(&eleven())].concat());
    }
    for count in [0, 11, u32::MAX] {
        all.push(array(count, &eleven()));
    }
    all.push(array(0, &[]));
    all.push(strict(&[object(&eleven())]));
    all.push(strict(&[]));
    all.push(string(b"width"));
    all.push(string(&object(&eleven())));
    all.push(long(&object(&eleven())));
    all.push([object(&eleven()[..3]), object(&eleven()[3..])].concat());
    all.push([object(&[]), object(&eleven()), NULL.to_vec()].concat());
}

fn encoders(all: &mut Vec<Bytes>) {
    let encoder = |n: usize| pair("encoder", string(&vec![b'e'; n]));
    for n in [0, 1, 2, 127, 128, 129, 130, 255, 256, 257, 384, 3000] {
        all.push(object(&[encoder(n)]));
        all.push(object(&[&eleven()[..10], &[encoder(n)]].concat()));
    }
    all.push(object(&[encoder(129), encoder(3)]));
    all.push(object(&[encoder(3), encoder(129)]));
    all.push(object(&[encoder(128), encoder(0)]));
    all.push(object(&[encoder(0), encoder(128)]));
    // too long is only what is a string and the last one
    all.push(object(&[encoder(129), pair("encoder", number(3.0))]));
    all.push(object(&[pair("encoder", NULL), encoder(129)]));
    all.push(object(&[pair("encoder", long(&[b'e'; 129]))]));
    all.push(object(&[encoder(129), pair("encoder", long(b"e"))]));
    all.push(object(&[pair("Encoder", string(&[b'e'; 129])), encoder(4)]));
    all.push(object(&[pair("width", string(&[b'e'; 129])), encoder(5)]));
    all.push(array(1, &[encoder(129)]));
    all.push(object(&[pair("inner", object(&[encoder(129)])), encoder(6)]));
    // no UTF-8, zeros, and bytes that read like AMF0
    let inside = pair("width", number(3.0));
    let every: Bytes = (0..=255).collect();
    let texts = [&[0xFF, 0xFE, 0x80][..], &[0; 4], &[0; 128], END, &inside, &[0xA5; 128], &every[..128], &every[128..]];
    for text in texts {
        all.push(object(&[pair("encoder", string(text)), pair("height", number(9.0))]));
        all.push(object(&[pair("title", string(text)), pair("height", number(9.0))]));
        all.push(object(&[pair("title", long(text)), pair("encoder", string(text))]));
    }
}

/// Around every limit of a u32 and of a single.
const NUMBERS: [u64; 56] = [
    0x0000_0000_0000_0000, // 0.0
    0x8000_0000_0000_0000, // -0.0
    0x3FE0_0000_0000_0000, // 0.5
    0xBFE0_0000_0000_0000, // -0.5
    0x3FEF_FFFF_FFFF_FFFF, // just below 1
    0x3FF0_0000_0000_0000, // 1.0
    0x3FFE_6666_6666_6666, // 1.9
    0xBFF0_0000_0000_0000, // -1.0
    0xC1F0_0000_0000_0000, // -4294967296.0
    0x41DF_FFFF_FFC0_0000, // 2147483647.0
    0x41E0_0000_0000_0000, // 2147483648.0
    0x41EF_FFFF_FFC0_0000, // 4294967294.0
    0x41EF_FFFF_FFDF_FFFF, // just below 4294967295.0
    0x41EF_FFFF_FFE0_0000, // 4294967295.0
    0x41EF_FFFF_FFF0_0000, // 4294967295.5
    0x41F0_0000_0000_0000, // 4294967296.0
    0x43F0_0000_0000_0000, // 2 ^ 64
    0x7E37_E43C_8800_759C, // 1e300
    0xFE37_E43C_8800_759C, // -1e300
    0x7FEF_FFFF_FFFF_FFFF, // the largest
    0x7FF0_0000_0000_0000, // infinity
    0xFFF0_0000_0000_0000, // -infinity
    0x7FF0_0000_0000_0001, // NaN, as are the next six
    0xFFF0_0000_0000_0001,
    0x7FF4_0000_0000_0000,
    0x7FF8_0000_0000_0000,
    0xFFF8_0000_0000_0000,
    0x7FFD_EADB_EEF0_1234,
    0xFFFF_FFFF_FFFF_FFFF,
    0x403D_F851_EB85_1EB8, // 29.97
    0x404D_F851_EB85_1EB8, // 59.94
    0x4037_F9DC_B5F7_3A9E, // 23.976..
    0x4170_0000_0000_0000, // 16777216.0
    0x4170_0000_1000_0000, // 16777217.0, a tie
    0x4170_0000_3000_0000, // 16777219.0, a tie
    0x4170_0000_1000_0001, // just above a tie
    0x4170_0000_0FFF_FFFF, // just below one
    0x47EF_FFFF_E000_0000, // the largest single
    0x47EF_FFFF_EFFF_FFFF, // just below what rounds to infinity
    0x47EF_FFFF_F000_0000, // what rounds to infinity
    0xC7EF_FFFF_F000_0000,
    0x4807_82BC_E3CF_0BB8, // about 1e39
    0xC807_82BC_E3CF_0BB8,
    0x3810_0000_0000_0000, // the least normal single
    0x380F_FFFF_FFFF_FFFF, // just below it
    0x380F_FFFF_C000_0000, // the largest subnormal single
    0x3800_0000_0000_0000, // a subnormal single
    0xB800_0000_2000_0000,
    0x36A0_0000_0000_0000, // the least subnormal single
    0x36A6_D601_AD37_6AB9, // 1e-45
    0x36A8_0000_0000_0000, // a tie between the least two
    0x3690_0000_0000_0000, // half of the least: to 0
    0x3690_0000_0000_0001, // just above: to the least
    0xB690_0000_0000_0001,
    0x0000_0000_0000_0001, // the least subnormal double
    0x800F_FFFF_FFFF_FFFF,
];

/// The fields that are numbers.
fn numeric() -> Vec<&'static str> {
    NAMES.iter().copied().filter(|name| !matches!(*name, "stereo" | "encoder")).collect()
}

fn numbers(all: &mut Vec<Bytes>) {
    let n = NUMBERS.len();
    for (k, &b) in NUMBERS.iter().enumerate() {
        all.push(object(&[pair("width", bits(b))]));
        all.push(object(&[pair("framerate", bits(b))]));
        // each number comes to each field once
        let field = |(i, name): (usize, &&str)| pair(name, bits(NUMBERS[(k + 5 * i) % n]));
        let pairs: Vec<Bytes> = numeric().iter().enumerate().map(field).collect();
        all.push(object(&pairs));
    }
    for x in [640.0, 1920.0, 1080.0, 7.0, 10.0, 2500.0, 44100.0, 48000.0, 25.0, 30.0, 60.0, 1e-45, 1e39] {
        all.push(object(&[pair("audiosamplerate", number(x)), pair("framerate", number(x))]));
    }
    for byte in [0, 1, 2, 127, 128, 255] {
        all.push(object(&[pair("stereo", boolean(byte))]));
    }
}

/// The names inside another value do not count.
fn nested(all: &mut Vec<Bytes>) {
    let inner = [object(&eleven()), array(11, &eleven()), strict(&[object(&eleven())])];
    let own = [pair("width", number(1.0)), pair("encoder", string(b"own"))];
    for v in &inner {
        all.push(object(&[pair("inner", v)]));
        all.push(object(&[&own[..], &[pair("inner", v)]].concat()));
        all.push(object(&[&[pair("inner", v)], &own[..]].concat()));
        // under a field's own name
        all.push(object(&[&[pair("height", v)], &own[..]].concat()));
        all.push(object(&[&own[..], &[pair("width", v)]].concat()));
    }
    // as deep as a body may go: eight containers, the outer object counted
    for (v, around) in inner.iter().zip([6, 6, 5]) {
        let mut deep = v.clone();
        for _ in 0..around {
            deep = object(&[pair("width", deep), pair("height", number(3.0))]);
        }
        all.push(object(&[&[pair("inner", deep)], &own[..]].concat()));
    }
}

// ---------------------------------------------------------------------------------------------------------
// Bodies by chance
// ---------------------------------------------------------------------------------------------------------

/// A generator of 64-bit numbers with a fixed start (xorshift64*), so that every run makes the same vectors.
struct Chance(u64);

impl Chance {
    fn next(&mut self) -> u64 {
        self.0 ^= self.0 >> 12;
        self.0 ^= self.0 << 25;
        self.0 ^= self.0 >> 27;
        self.0.wrapping_mul(0x2545_F491_4F6C_DD1D)
    }

    fn below(&mut self, n: usize) -> usize {
        ((self.next() >> 32) % n as u64) as usize
    }

    fn number(&mut self) -> Bytes {
        match self.below(4) {
            0 => bits(self.next()),
            1 => number(self.below(100_000) as f64 / 100.0),
            2 => number(self.next() as u32 as f64),
            _ => bits(NUMBERS[self.below(NUMBERS.len())]),
        }
    }

    fn text(&mut self) -> Bytes {
        let n = [0, 1, 3, 12, 12, 30, 127, 128, 129][self.below(9)];
        (0..n).map(|_| self.next() as u8).collect()
    }

    fn boolean(&mut self) -> Bytes {
        boolean([0, 1, 1, 2, 255][self.below(5)])
    }

    fn value(&mut self, depth: usize) -> Bytes {
        match self.below(if depth == 0 { 7 } else { 10 }) {
            0 => self.number(),
            1 => self.boolean(),
            2 => string(&self.text()),
            3 => NULL.to_vec(),
            4 => UNDEFINED.to_vec(),
            5 => date(),
            6 => long(&self.text()),
            7 => object(&self.pairs(depth - 1)),
            8 => array(self.next() as u32, &self.pairs(depth - 1)),
            _ => strict(&[self.value(depth - 1), self.value(depth - 1)]),
        }
    }

    /// Mostly a field with a value of its type; at times any value, or a name that is nearly a field's.
    fn pair(&mut self, depth: usize) -> Bytes {
        let name = NAMES[self.below(11)];
        if self.below(10) < 3 {
            let value = self.value(depth);
            return match self.below(4) {
                0 => pair(&name.to_uppercase(), value),
                1 => pair(&name[1..], value),
                _ => pair(name, value),
            };
        }
        match name {
            "stereo" => pair(name, self.boolean()),
            "encoder" => pair(name, string(&self.text())),
            _ => pair(name, self.number()),
        }
    }

    fn pairs(&mut self, depth: usize) -> Vec<Bytes> {
        let most = if depth == 3 { 16 } else { 4 };
        (0..self.below(most)).map(|_| self.pair(depth)).collect()
    }
}

fn by_chance(all: &mut Vec<Bytes>) {
    let mut chance = Chance(2026);
    let mut seen: HashSet<Bytes> = all.iter().cloned().collect();
    let wanted = all.len() + 300;
    while all.len() < wanted {
        let body = object(&chance.pairs(3));
        if seen.insert(body.clone()) {
            all.push(body);
        }
    }
}

// ---------------------------------------------------------------------------------------------------------

fn bodies() -> Vec<Bytes> {
    let mut all = Vec::new();
    sets(&mut all);
    other_names(&mut all);
    wrong_types(&mut all);
    twice(&mut all);
    no_objects(&mut all);
    encoders(&mut all);
    numbers(&mut all);
    nested(&mut all);
    // a body that is made twice is asked once, in its first place
    let mut seen = HashSet::new();
    all.retain(|body| seen.insert(body.clone()));
    by_chance(&mut all);
    assert!(all.iter().all(|body| body.len() <= 4096));
    all
}

fn main() {
    match std::env::args().nth(1).as_deref() {
        Some("in") => {
            for body in bodies() {
                println!("m {:04X} {}", body.len(), digits(&body));
            }
        }
        Some("out") => {
            for body in bodies() {
                println!("{}", answer(&body));
            }
        }
        _ => eprintln!("usage: make-metadata in|out"),
    }
}
