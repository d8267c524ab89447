//! One step after the other: the Rust runs on a copy of its session, and the copy is kept where
//! document 01's session moves on too.

use crate::known;
use crate::sessions::{ServerSession, ServerSessionConfig, ServerSessionError, ServerSessionEvent, ServerSessionResult, StreamMetadata};
use crate::standins::chunk_io::{frame, Packet};
use crate::standins::clock;
use crate::standins::messages::MessageDeserializationError;
use crate::standins::rml_amf0::{self, Amf0Value};
use crate::standins::time::RtmpTimestamp;
use crate::text;
use crate::trace::{Call, Entry, Metadata, Start, Trace};
use std::cell::RefCell;
use std::io::Write;
use std::panic::{catch_unwind, set_hook, AssertUnwindSafe};
use std::time::Duration;

thread_local!(static PANIC: RefCell<String> = const { RefCell::new(String::new()) });

/// The line of a step, or why it lies outside of the stated domain.
type Answer = Result<String, String>;

/// With `alone` nothing of document 01 is laid over the Rust: no limits, no outside, and the session
/// is kept as the Rust leaves it. Only what a stand-in refuses is still outside.
pub fn run(bytes: &[u8], alone: bool, out: &mut impl Write) -> std::io::Result<()> {
    set_hook(Box::new(|info| {
        // One line, whatever the message holds.
        let message = info.payload_as_str().unwrap_or("no message").replace('\n', " ");
        PANIC.set(message);
    }));
    let mut trace = Trace { rest: bytes };
    let mut oracle: Option<Oracle> = None;
    let mut number = 0;
    while !trace.rest.is_empty() {
        number += 1;
        text::took_ill_formed();
        let answer = match (trace.entry(), &mut oracle) {
            (Some(Entry::Start(start)), _) => {
                let (answer, session) = begin(&start, alone);
                oracle = Some(Oracle { session, alone, lost: None });
                answer
            }
            (Some(entry), Some(oracle)) => oracle.step(&entry),
            _ => return writeln!(out, "bad trace at {number}"),
        };
        let ill_formed = text::took_ill_formed();
        match answer {
            Ok(_) if ill_formed && !alone => writeln!(out, "outside: text is not UTF-8")?,
            Ok(line) => writeln!(out, "{line}")?,
            Err(why) => writeln!(out, "outside: {why}")?,
        }
    }
    Ok(())
}

fn refusal(number: u8) -> Answer {
    Err(format!("refusal {number}"))
}

fn new_session(start: &Start) -> Result<(ServerSession, Vec<ServerSessionResult>), ServerSessionError> {
    clock::set(Duration::from_millis(start.clock));
    ServerSession::new(ServerSessionConfig {
        fms_version: text::from_bytes(start.fms_version),
        chunk_size: start.chunk_size,
        peer_bandwidth: start.peer_bandwidth,
        window_ack_size: start.window_ack_size,
        send_on_bw_done_message_on_start: start.on_bw_done,
    })
}

fn begin(start: &Start, alone: bool) -> (Answer, ServerSession) {
    let refused = |number| {
        // Document 01's session after a refused start, so that both go on in step.
        let fresh = Start { chunk_size: 4096, window_ack_size: 0, peer_bandwidth: 0, on_bw_done: false, clock: 0, room: 0, fms_version: b"" };
        (refusal(number), new_session(&fresh).unwrap().0)
    };
    let sound = (1..=2_147_483_647).contains(&start.chunk_size) && start.fms_version.len() <= 128;
    if !sound && !alone {
        return refused(14);
    }
    let (session, results) = new_session(start).unwrap();
    let done = Done::of(results);
    if done.needs() > start.room && !alone {
        return refused(12);
    }
    (Ok(done.line("start")), session)
}

/// What the Rust gave, brought into one form.
struct Done {
    events: Vec<ServerSessionEvent>,
    unhandled: Vec<u8>,
    ping: Option<u32>,
    out: Vec<u8>,
}

impl Done {
    fn of(results: Vec<ServerSessionResult>) -> Done {
        let mut done = Done { events: Vec::new(), unhandled: Vec::new(), ping: None, out: Vec::new() };
        for result in results {
            match result {
                ServerSessionResult::OutboundResponse(packet) => done.out.extend(packet.bytes),
                ServerSessionResult::RaisedEvent(event) => done.events.push(event),
                ServerSessionResult::UnhandleableMessageReceived(payload) => done.unhandled.push(payload.type_id),
            }
        }
        done
    }

    fn packet(packet: Packet) -> Done {
        Done::of(vec![ServerSessionResult::OutboundResponse(packet)])
    }

    /// The bytes of document 01's records: a record that it does not have needs no room.
    fn needs(&self) -> usize {
        let out = known::without_acknowledgement(&self.out).unwrap_or(self.out.clone());
        known::with_level_error(&out).unwrap_or(out).len()
    }

    fn line(&self, name: &str) -> String {
        let mut line = format!("{name} 0");
        for event in &self.events {
            line += " ";
            line += &event.text();
        }
        for type_id in &self.unhandled {
            line += &format!(" UnhandleableMessageReceived type={type_id}");
        }
        if let Some(number) = self.ping {
            line += &format!(" ping={number}");
        }
        if !self.out.is_empty() {
            line += " out=";
            line += &text::hex_of(&self.out);
        }
        line
    }
}

struct Oracle {
    session: ServerSession,
    alone: bool,
    /// Why nothing can be said until the next start.
    lost: Option<&'static str>,
}

impl Oracle {
    fn step(&mut self, entry: &Entry) -> Answer {
        if let Entry::Damage { what, value } = entry {
            self.damage(*what, *value);
            return Ok("damage".to_string());
        }
        if let Some(why) = self.lost {
            return Err(why.to_string());
        }
        match entry {
            Entry::Call { call, clock, room } => self.call(call, *clock, *room),
            _ => Ok(self.session.state_text()),
        }
    }

    /// The Rust has next numbers, and none of the other things that can be damaged.
    fn damage(&mut self, what: u8, value: u32) {
        if self.alone && what >= 8 {
            self.session.set_next((what == 8).then_some(value), (what == 9).then_some(value));
        } else {
            self.lost = Some("damaged session");
        }
    }

    fn call(&mut self, call: &Call, clock: u64, room: usize) -> Answer {
        // Limits that the Rust has not, and that come before all else.
        match call {
            _ if self.alone => (),
            Call::Message { type_id: 4 | 18 | 20, body, .. } if body.len() > 4096 => return refusal(1),
            Call::Metadata { metadata, .. } if metadata.encoder().is_some_and(|x| x.len() > 128) => return refusal(6),
            _ => (),
        }
        clock::set(Duration::from_millis(clock));
        let mut next = self.session.clone();
        let name = name_of(call);
        let done = match catch_unwind(AssertUnwindSafe(|| apply(&mut next, call))) {
            Ok(Ok(done)) => done,
            Ok(Err(ServerSessionError::MessageDeserializationError(MessageDeserializationError(number)))) => return refusal(number),
            Ok(Err(error)) => {
                let line = match error {
                    ServerSessionError::NoAppNameForConnectionRequest => format!("{name} 5"),
                    ServerSessionError::InvalidRequestId => format!("{name} 10"),
                    ServerSessionError::ActionAttemptedOnInactiveStream { action, stream_id } => format!("{name} 11 {action} {stream_id}"),
                    other => {
                        self.lost = Some("after a step outside");
                        return Err(format!("error NOT expected: {other:?}"));
                    }
                };
                // Whatever the Rust changed before it failed stays changed.
                self.session = next;
                return Ok(line);
            }
            Err(_) if self.alone => {
                self.session = next;
                return Ok(format!("{name} panic: {}", PANIC.take()));
            }
            Err(_) if is_listed_panic(call) => return Err("panic listed in document 01".to_string()),
            Err(_) => {
                self.lost = Some("after a step outside");
                return Err(format!("panic NOT listed: {}", PANIC.take()));
            }
        };
        if self.alone {
            self.session = next;
            return Ok(done.line(name));
        }
        if let Some(number) = self.limit(call, &next, &done) {
            return refusal(number);
        }
        if done.needs() > room {
            return refusal(12);
        }
        self.session = next;
        if has_nan(call) || done.events.iter().any(|event| event.has_nan()) {
            return Err("NaN between widths".to_string());
        }
        if let (Call::Message { body, .. }, Some(data)) = (call, done.events.iter().find_map(|event| event.data())) {
            if data != body {
                return Err("media event whose data is NOT the body".to_string());
            }
        }
        Ok(done.line(name))
    }

    /// Refusals 6, 8, 7, 9 and 13, in document 01's order.
    fn limit(&self, call: &Call, next: &ServerSession, done: &Done) -> Option<u8> {
        let (old, new) = (self.session.counts(), next.counts());
        let files = new.requests > old.requests;
        let makes = new.streams > old.streams;
        if done.events.iter().flat_map(|event| event.names()).any(|name| text::to_bytes(name).len() > 128) {
            return Some(6);
        }
        if files && old.next_request == u32::MAX || makes && old.next_stream == u32::MAX {
            return Some(8);
        }
        if files && old.requests >= 16 {
            return Some(7);
        }
        if makes && old.streams >= 16 {
            return Some(9);
        }
        match call {
            Call::Reject { code, description, .. } if code.len() > 256 || description.len() > 256 => Some(13),
            _ => None,
        }
    }
}

fn name_of(call: &Call) -> &'static str {
    match call {
        Call::Message { .. } => "message",
        Call::Accept { .. } => "accept",
        Call::Reject { .. } => "reject",
        Call::Finish { .. } => "finish",
        Call::Metadata { .. } => "metadata",
        Call::Media { .. } => "media",
        Call::Ping => "ping",
    }
}

fn apply(session: &mut ServerSession, call: &Call) -> Result<Done, ServerSessionError> {
    Ok(match call {
        Call::Message { type_id, stream, timestamp, body } => {
            Done::of(session.handle_input(&frame(*type_id, *stream, *timestamp, body))?)
        }
        Call::Accept { request } => Done::of(session.accept_request(*request)?),
        Call::Reject { request, code, description } => {
            Done::of(session.reject_request(*request, &text::from_bytes(code), &text::from_bytes(description))?)
        }
        Call::Finish { stream } => Done::packet(session.finish_playing(*stream)?),
        Call::Metadata { stream, metadata } => Done::packet(session.send_metadata(*stream, &in_rust(metadata))?),
        Call::Media { type_id, stream, timestamp, droppable, body } => {
            let time = RtmpTimestamp::new(*timestamp);
            Done::packet(if *type_id == 8 {
                session.send_audio_data(*stream, body.to_vec(), time, *droppable)?
            } else {
                session.send_video_data(*stream, body.to_vec(), time, *droppable)?
            })
        }
        Call::Ping => {
            let (packet, time) = session.send_ping_request()?;
            Done { ping: Some(time.value), ..Done::packet(packet) }
        }
    })
}

fn in_rust(metadata: &Metadata) -> StreamMetadata {
    StreamMetadata {
        video_width: metadata.number(0),
        video_height: metadata.number(1),
        video_codec_id: metadata.number(2),
        video_bitrate_kbps: metadata.number(3),
        video_frame_rate: metadata.number(4).map(f32::from_bits),
        audio_codec_id: metadata.number(5),
        audio_bitrate_kbps: metadata.number(6),
        audio_sample_rate: metadata.number(7),
        audio_channels: metadata.number(8),
        audio_is_stereo: metadata.stereo(),
        encoder: metadata.encoder().map(text::from_bytes),
    }
}

/// A frame rate to be sent that is a NaN.
fn has_nan(call: &Call) -> bool {
    match call {
        Call::Metadata { metadata, .. } => metadata.number(4).is_some_and(|bits| f32::from_bits(bits).is_nan()),
        _ => false,
    }
}

/// Data `@setDataFrame` where one or both of the two values after it are absent.
fn is_listed_panic(call: &Call) -> bool {
    let Call::Message { type_id: 18, body, .. } = call else {
        return false;
    };
    match rml_amf0::read_all(body) {
        Ok(values) => values.len() < 3 && values.first() == Some(&Amf0Value::Utf8String("@setDataFrame".to_string())),
        Err(_) => false,
    }
}
