//! Compares the texts that two or three programs wrote for one trace. See README.md.
//!
//!     compare TRACE-TEXT ORACLE-TEXT|- [READING-TEXT]

#[path = "../known.rs"]
mod known;

use std::collections::BTreeMap;
use std::process::exit;

/// A difference that is known. `rewrite` turns the Rust's entry into document 01's where the kind
/// applies; the result must then equal the first text, so that a kind hides nothing else.
struct Kind {
    name: &'static str,
    rewrite: fn(&str) -> Option<String>,
}

const EXPLAINED: [Kind; 5] = [
    Kind { name: "error level", rewrite: |entry| rewrite_out(entry, known::with_level_error) },
    Kind { name: "acknowledgement record", rewrite: |entry| rewrite_out(entry, known::without_acknowledgement) },
    Kind { name: "acknowledgement event", rewrite: |entry| without_event(entry, "AcknowledgementReceived", "bytes", |_| true) },
    Kind { name: "event of an unknown command", rewrite: |entry| without_event(entry, "UnhandleableAmf0Command", "name", is_unknown_command) },
    Kind { name: "unhandled message handed back", rewrite: |entry| without_event(entry, "UnhandleableMessageReceived", "type", is_other_type) },
];

fn bytes_of(hex: &str) -> Option<Vec<u8>> {
    if hex.len() % 2 != 0 {
        return None;
    }
    (0..hex.len() / 2).map(|i| u8::from_str_radix(hex.get(2 * i..2 * i + 2)?, 16).ok()).collect()
}

fn hex_of(bytes: &[u8]) -> String {
    bytes.iter().map(|b| format!("{b:02x}")).collect()
}

/// Rewrites the bytes of `out=`, which is left out where nothing stays.
fn rewrite_out(entry: &str, rewrite: fn(&[u8]) -> Option<Vec<u8>>) -> Option<String> {
    let (head, hex) = entry.split_once(" out=")?;
    let out = rewrite(&bytes_of(hex)?)?;
    if out.is_empty() {
        return Some(head.to_string());
    }
    Some(format!("{head} out={}", hex_of(&out)))
}

/// Takes an event with its one field out of a done message.
fn without_event(entry: &str, event: &str, field: &str, applies: fn(&str) -> bool) -> Option<String> {
    let rest = entry.strip_prefix("message 0 ")?.strip_prefix(event)?.strip_prefix(' ')?;
    let (value, tail) = match rest.split_once(' ') {
        Some((value, tail)) => (value, format!(" {tail}")),
        None => (rest, String::new()),
    };
    let value = value.strip_prefix(field)?.strip_prefix('=')?;
    applies(value).then(|| format!("message 0{tail}"))
}

fn is_unknown_command(hex: &str) -> bool {
    let known: [&[u8]; 6] = [b"connect", b"createStream", b"closeStream", b"deleteStream", b"publish", b"play"];
    hex == "-" || bytes_of(hex).is_some_and(|name| !known.contains(&&name[..]))
}

fn is_other_type(number: &str) -> bool {
    !["4", "8", "9", "18", "20"].contains(&number)
}

/// The kinds that turn the Rust's entry into `wanted`, if there are such.
fn explain(wanted: &str, rust: &str) -> Option<String> {
    let mut entry = rust.to_string();
    let mut names = Vec::new();
    for kind in &EXPLAINED {
        if let Some(new) = (kind.rewrite)(&entry) {
            entry = new;
            names.push(kind.name);
        }
    }
    (entry == wanted).then(|| names.join(" and "))
}

/// An entry outside says what document 01 does there. Does the first text say so too?
fn outside_is_sound(wanted: &str, why: &str) -> bool {
    match why.strip_prefix("refusal ") {
        Some(number) => wanted.split_once(' ').is_some_and(|(_, code)| code == number),
        None if why == "panic listed in document 01" => wanted == "message 0",
        None => !why.contains("NOT"),
    }
}

fn is_number(field: &str) -> bool {
    field.bytes().all(|b| b.is_ascii_digit())
}

/// Names the first field in which two entries differ.
fn place(a: &str, b: &str) -> String {
    let key = |field: Option<&str>| field.map_or("nothing".to_string(), |x| x.split('=').next().unwrap().to_string());
    if a.contains('\n') || b.contains('\n') {
        let line = a.lines().zip(b.lines()).find(|(x, y)| x != y);
        return match line {
            Some((x, _)) => format!("lines of the state: {}", x.split_whitespace().next().unwrap_or("")),
            None => "lines of the state: count".to_string(),
        };
    }
    let (mut x, mut y) = (a.split(' '), b.split(' '));
    for index in 0.. {
        let (p, q) = (x.next(), y.next());
        if p == q && p.is_some() {
            continue;
        }
        return match index {
            0 => "call".to_string(),
            1 => "code".to_string(),
            _ if p.is_some_and(is_number) && q.is_some_and(is_number) => "stream of refusal 11".to_string(),
            _ if key(p) == key(q) => format!("value of {}", key(p)),
            _ => format!("{} against {}", key(p), key(q)),
        };
    }
    unreachable!()
}

/// A line that begins with a blank belongs to the entry before it.
fn entries(path: &str) -> Vec<String> {
    let text = match std::fs::read_to_string(path) {
        Ok(text) => text,
        Err(e) => {
            eprintln!("{path}: {e}");
            exit(2);
        }
    };
    let mut entries: Vec<String> = Vec::new();
    for line in text.lines() {
        match entries.last_mut() {
            Some(entry) if line.starts_with(' ') => {
                entry.push('\n');
                entry.push_str(line);
            }
            _ => entries.push(line.to_string()),
        }
    }
    entries
}

/// Counts by name, with the first three examples of each.
#[derive(Default)]
struct Tally(BTreeMap<String, (usize, Vec<String>)>);

impl Tally {
    fn add(&mut self, name: String, number: usize, first: &str, second: &str) {
        let short = |x: &str| x.replace('\n', "|").chars().take(300).collect::<String>();
        let (count, examples) = self.0.entry(name).or_default();
        *count += 1;
        if examples.len() < 3 {
            examples.push(format!("      entry {number}\n        trace: {}\n        other: {}", short(first), short(second)));
        }
    }

    fn total(&self) -> usize {
        self.0.values().map(|(count, _)| count).sum()
    }

    fn print(&self, title: &str, with_examples: bool) {
        println!("  {title}: {}", self.total());
        for (name, (count, examples)) in &self.0 {
            println!("    {name}: {count}");
            if with_examples {
                examples.iter().for_each(|example| println!("{example}"));
            }
        }
    }
}

const MISSING: &str = "(no such entry)";

/// Pairs of entries; the shorter side is filled up, so that a missing entry is a difference.
fn pairs<'a>(a: &'a [String], b: &'a [String]) -> impl Iterator<Item = (usize, &'a str, &'a str)> {
    let get = |side: &'a [String], i: usize| side.get(i).map_or(MISSING, |x| x.as_str());
    (0..a.len().max(b.len())).map(move |i| (i + 1, get(a, i), get(b, i)))
}

fn against_the_rust(trace: &[String], rust: &[String]) -> bool {
    let (mut same, mut outside, mut explained, mut unexplained) = (0, Tally::default(), Tally::default(), Tally::default());
    for (number, wanted, got) in pairs(trace, rust) {
        if let Some(why) = got.strip_prefix("outside: ") {
            outside.add(why.to_string(), number, wanted, got);
            if !outside_is_sound(wanted, why) {
                unexplained.add("outside, and the trace says otherwise".to_string(), number, wanted, got);
            }
        } else if wanted == got {
            same += 1;
        } else if let Some(kind) = explain(wanted, got) {
            explained.add(kind, number, wanted, got);
        } else {
            unexplained.add(place(wanted, got), number, wanted, got);
        }
    }
    println!("against the Rust");
    println!("  the same: {same}");
    outside.print("outside", false);
    explained.print("explained differences", true);
    unexplained.print("unexplained differences", true);
    unexplained.total() == 0
}

fn against_the_reading(trace: &[String], reading: &[String]) -> bool {
    let (mut same, mut different) = (0, Tally::default());
    for (number, wanted, got) in pairs(trace, reading) {
        if wanted == got {
            same += 1;
        } else {
            different.add(place(wanted, got), number, wanted, got);
        }
    }
    println!("against the reading");
    println!("  the same: {same}");
    different.print("different", true);
    different.total() == 0
}

fn main() {
    let paths: Vec<String> = std::env::args().skip(1).collect();
    if !(2..=3).contains(&paths.len()) {
        eprintln!("usage: compare TRACE-TEXT ORACLE-TEXT|- [READING-TEXT]");
        exit(2);
    }
    let trace = entries(&paths[0]);
    println!("entries: {}", trace.len());
    let mut good = true;
    if paths[1] != "-" {
        good &= against_the_rust(&trace, &entries(&paths[1]));
    }
    if let Some(path) = paths.get(2) {
        good &= against_the_reading(&trace, &entries(path));
    }
    exit(if good { 0 } else { 1 });
}
