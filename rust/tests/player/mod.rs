//! Plays a trace (docs/TRACE.md) by the calls of this crate, and writes its text.
//!
//! Beside the text, three things are held on the way: an audio or a video message is answered alike by
//! `handle_message`, by `handle_media` and by the library's whole way; the records that a call wrote, split and put
//! together again, are the bytes that it wrote; and a refusal leaves every byte of the session, but for 11, and for a
//! start that is refused. The session, each body and each buffer are blocks of their own on the heap, so that valgrind
//! sees a byte that is read or written past one.

mod entries;
mod text;

use chungvator::ffi::{self, Answer};
use chungvator::places::{fact, request, stream};
use chungvator::{
    MediaNames, MessagePayload, Record, Records, RequestId, ServerSession, ServerSessionConfig, ServerSessionError,
    ServerSessionEvent, StreamId,
};
use entries::{Call, Entries};
use text::Line;

/// The text of a trace.
pub fn play(trace: &[u8]) -> String {
    let mut entries = Entries(trace);
    let mut session = None;
    let mut all = String::new();
    let mut n = 0;
    while !entries.0.is_empty() {
        n += 1;
        let played = entries.call().and_then(|(call, room)| entry(&mut session, &call, room));
        match played {
            Some(lines) => all += &lines,
            None => return all + &format!("bad trace at {n}\n"),
        }
    }
    all
}

/// What one entry writes. Only a start can come where no session is yet.
fn entry(session: &mut Option<Box<ServerSession>>, call: &Call, room: usize) -> Option<String> {
    let mut out = vec![0xA5; room];
    let before = session.as_ref().map(|s| s.arrays().clone());
    let clear = |done: Result<Records, ServerSessionError>| done.map(|records| (None, None, checked(records)));
    let done = match call {
        Call::Start { config, clock } => {
            // The first one, too, may be refused and still hands a session back.
            let s = session.get_or_insert_with(any_session);
            Line::of("start", clear(s.restart(config, *clock, &mut out)))
        }
        Call::Message { message, clock } => {
            let s = session.as_mut()?;
            let body: Box<[u8]> = message.data.into();
            let message = MessagePayload { data: &body, ..*message };
            let whole = whole_way(s, &message, *clock, room);
            let done = s.handle_message(&message, *clock, &mut out);
            let done = done.map(|result| (result.event, None, checked(result.records)));
            if let Some(whole) = whole {
                let event = done.as_ref().map(|(event, _, _)| event.clone()).map_err(|e| *e);
                assert!(whole == event, "the two ways answer a frame differently");
            }
            Line::of("message", done)
        }
        Call::Accept { request, clock } => {
            Line::of("accept", clear(session.as_mut()?.accept_request(RequestId(*request), *clock, &mut out)))
        }
        Call::Reject { request, clock, code, description } => {
            let s = session.as_mut()?;
            Line::of("reject", clear(s.reject_request(RequestId(*request), code, description, *clock, &mut out)))
        }
        Call::Finish { stream, clock } => {
            Line::of("finish", clear(session.as_mut()?.finish_playing(StreamId(*stream), *clock, &mut out)))
        }
        Call::Metadata { stream, metadata, clock } => {
            Line::of("metadata", clear(session.as_ref()?.send_metadata(StreamId(*stream), metadata, *clock, &mut out)))
        }
        Call::Media { message: m, droppable } => {
            let s = session.as_ref()?;
            let body: Box<[u8]> = m.data.into();
            let done = match m.type_id {
                8 => s.send_audio_data(m.message_stream_id, &body, m.timestamp, *droppable, &mut out),
                _ => s.send_video_data(m.message_stream_id, &body, m.timestamp, *droppable, &mut out),
            };
            Line::of("media", clear(done))
        }
        Call::Ping { clock } => {
            let done = session.as_ref()?.send_ping_request(*clock, &mut out);
            Line::of("ping", done.map(|(records, ping)| (None, Some(ping), checked(records))))
        }
        Call::State => return Some(text::state(session.as_ref()?.arrays())),
        Call::Damage { what, place, value } => {
            damage(session.as_mut()?.arrays_mut(), *what, *place, *value);
            return Some("damage\n".to_string());
        }
    };
    if !matches!(call, Call::Start { .. }) && !matches!(done.number, 0 | 11) {
        assert!(session.as_ref().map(|s| s.arrays()) == before.as_ref(), "a refusal changed the session");
    }
    Some(done.spelled(&out))
}

fn any_session() -> Box<ServerSession> {
    let mut out = [0; ServerSession::ROOM];
    Box::new(ServerSession::new(&ServerSessionConfig::new(), 0, &mut out).expect("rml_rtmp's values are good").0)
}

/// How many bytes were written, after the records were split and put together again.
fn checked(records: Records) -> usize {
    let bytes = records.as_bytes();
    assert_eq!(records.flat_map(|record| record_bytes(&record)).collect::<Vec<u8>>(), bytes);
    bytes.len()
}

fn record_bytes(record: &Record) -> Vec<u8> {
    let m = &record.message;
    let length = (m.data.len() as u32).to_be_bytes();
    let flags = u8::from(record.force_uncompressed) | u8::from(record.can_be_dropped) << 1;
    let stream = m.message_stream_id.0.to_be_bytes();
    [&[m.type_id], &length[1..], &m.timestamp.to_be_bytes(), &stream, &[flags], m.data].concat()
}

type Told<'m> = Result<Option<ServerSessionEvent<'m>>, ServerSessionError>;

/// A frame by the library's whole way and by `handle_media`. Both leave the session and the buffer as they were.
fn whole_way<'m>(session: &ServerSession, m: &MessagePayload<'m>, clock: u64, room: usize) -> Option<Told<'m>> {
    if m.type_id != 8 && m.type_id != 9 {
        return None;
    }
    let mut arrays = Box::new(session.arrays().clone());
    let mut out = vec![0xA5; room];
    let mut answer = Box::new(Answer::new());
    let stream = m.message_stream_id.0;
    let number = arrays.handle_message(m.type_id, stream, m.timestamp, clock, m.data, &mut out, &mut answer);
    assert!(*arrays == *session.arrays() && out.iter().all(|b| *b == 0xA5), "a frame leaves all as it was");

    let mut names = MediaNames::new();
    let short = session.handle_media(m, &mut names).map(|event| event.map(ServerSessionEvent::from));
    let whole = match number {
        0 => Ok(ServerSessionEvent::of(&answer, m.data)),
        15 => Err(ServerSessionError::BadSession),
        _ => panic!("a frame was refused with {number}"),
    };
    assert!(whole == short, "handle_media answers differently");
    Some(whole)
}

/// One raw number is overwritten. Every field holds a u32, so no value is cut.
fn damage(arrays: &mut ffi::Session, what: u8, place: u8, value: u32) {
    let place = usize::from(place) % 16;
    let field = match what {
        0 => &mut arrays.facts[fact::APP_LEN],
        1 => &mut arrays.facts[fact::VERSION_LEN],
        2 => &mut arrays.facts[fact::STREAM_COUNT],
        3 => &mut arrays.facts[fact::REQUEST_COUNT],
        4 => &mut arrays.streams[place][stream::NUMBER],
        5 => &mut arrays.streams[place][stream::KEY_LEN],
        6 => &mut arrays.requests[place][request::NUMBER],
        7 => &mut arrays.requests[place][request::NAME_LEN],
        8 => &mut arrays.facts[fact::NEXT_STREAM],
        _ => &mut arrays.facts[fact::NEXT_REQUEST],
    };
    *field = value.into();
}
