//! A session that the host damaged gets 15 from every call, and stays as it was, byte for byte. And a place that is freed
//! is blank, and a start leaves nothing of what stood there.

#[path = "../examples/client/mod.rs"]
mod client;

use chungvator::ffi::{Answer, Session};
use chungvator::places::{fact, request, stream};
use chungvator::ServerSessionError::BadSession;
use chungvator::{
    MediaNames, MessagePayload, RequestId, ServerSession, ServerSessionConfig, StreamId, StreamMetadata,
};

const FULL: [u8; ServerSession::ROOM] = [0xA5; ServerSession::ROOM];

fn send(session: &mut ServerSession, stream: u32, data: &[u8]) {
    let message = MessagePayload { timestamp: 0, type_id: 20, message_stream_id: StreamId(stream), data };
    session.handle_message(&message, 0, &mut FULL.clone()).unwrap();
}

/// Connected, with stream 1 publishing, stream 2 playing, stream 3 as it was made, and requests 3 and 4 waiting.
fn busy() -> ServerSession {
    let mut session = ServerSession::new(&ServerSessionConfig::new(), 0, &mut FULL.clone()).unwrap().0;
    send(&mut session, 0, &client::connect(b"bench"));
    for _ in 0..3 {
        send(&mut session, 0, &client::create_stream());
    }
    session.accept_request(RequestId(0), 0, &mut FULL.clone()).unwrap();
    send(&mut session, 1, &client::publish(b"pin7", "record"));
    send(&mut session, 2, &client::play(b"pin8"));
    session.accept_request(RequestId(1), 0, &mut FULL.clone()).unwrap();
    session.accept_request(RequestId(2), 0, &mut FULL.clone()).unwrap();
    send(&mut session, 3, &client::publish(b"pin9", "append"));
    send(&mut session, 0, &client::connect(b"other"));
    session
}

/// Every call but a start, which reads nothing of the session.
fn refused_by_all(session: &mut ServerSession, what: &str) {
    let before = session.clone();
    let mut out = FULL;
    // Not one of these asks for anything that is refused otherwise.
    for (type_id, data) in [(20, client::create_stream()), (18, vec![]), (8, vec![1]), (9, vec![]), (3, vec![])] {
        let message = MessagePayload { timestamp: 0, type_id, message_stream_id: StreamId(1), data: &data };
        assert_eq!(session.handle_message(&message, 0, &mut out).err(), Some(BadSession), "{what}: type {type_id}");
        let mut names = MediaNames::new();
        assert_eq!(session.handle_media(&message, &mut names), Err(BadSession), "{what}: type {type_id}");
    }
    let media = (StreamId(1), &b"frame"[..]);
    assert_eq!(session.accept_request(RequestId(3), 0, &mut out), Err(BadSession), "{what}: accept");
    assert_eq!(session.reject_request(RequestId(3), b"", b"", 0, &mut out), Err(BadSession), "{what}: reject");
    assert_eq!(session.finish_playing(StreamId(2), 0, &mut out), Err(BadSession), "{what}: finish");
    assert_eq!(session.send_audio_data(media.0, media.1, 0, true, &mut out), Err(BadSession), "{what}: audio");
    assert_eq!(session.send_video_data(media.0, media.1, 0, true, &mut out), Err(BadSession), "{what}: video");
    let metadata = StreamMetadata::new();
    assert_eq!(session.send_metadata(StreamId(1), &metadata, 0, &mut out), Err(BadSession), "{what}: metadata");
    assert_eq!(session.send_ping_request(0, &mut out), Err(BadSession), "{what}: ping");
    assert!(session.arrays() == before.arrays(), "{what}: the session changed");
    assert_eq!(out, FULL, "{what}: the buffer changed");
}

type Damage = (&'static str, fn(&mut Session));

const DAMAGES: &[Damage] = &[
    // A number that names nothing.
    ("session state 2", |s| s.facts[fact::STATE] = 2),
    ("session state 2^64 - 1", |s| s.facts[fact::STATE] = u64::MAX),
    ("has app 2", |s| s.facts[fact::HAS_APP] = 2),
    ("stream state 4", |s| s.streams[0][stream::STATE] = 4),
    ("stream state 2^32", |s| s.streams[2][stream::STATE] = 1 << 32),
    ("stream mode 3", |s| s.streams[1][stream::MODE] = 3),
    ("request kind 3", |s| s.requests[0][request::KIND] = 3),
    ("request mode 3", |s| s.requests[1][request::MODE] = 3),
    // A count over 16.
    ("17 streams", |s| s.facts[fact::STREAM_COUNT] = 17),
    ("2^64 - 1 streams", |s| s.facts[fact::STREAM_COUNT] = u64::MAX),
    ("17 requests", |s| s.facts[fact::REQUEST_COUNT] = 17),
    ("2^32 requests", |s| s.facts[fact::REQUEST_COUNT] = 1 << 32),
    // A number twice.
    ("stream 1 twice", |s| s.streams[1][stream::NUMBER] = 1),
    ("stream 1 again at the end", |s| s.streams[2][stream::NUMBER] = 1),
    ("request 3 twice", |s| s.requests[1][request::NUMBER] = 3),
    // A length over 128.
    ("version of 129", |s| s.facts[fact::VERSION_LEN] = 129),
    ("app of 129", |s| s.facts[fact::APP_LEN] = 129),
    ("app of 2^64 - 1", |s| s.facts[fact::APP_LEN] = u64::MAX),
    ("key of 129", |s| s.streams[0][stream::KEY_LEN] = 129),
    ("key of 2^32", |s| s.streams[2][stream::KEY_LEN] = 1 << 32),
    ("name of 129", |s| s.requests[0][request::NAME_LEN] = 129),
    // A number over 2^32, also where its low half is sound.
    ("stream 2^32 + 1", |s| s.streams[0][stream::NUMBER] += 1 << 32),
    ("request 2^32 + 3", |s| s.requests[0][request::NUMBER] += 1 << 32),
    ("stream of a request 2^32 + 3", |s| s.requests[0][request::STREAM] += 1 << 32),
    ("next stream 2^32", |s| s.facts[fact::NEXT_STREAM] = 1 << 32),
    ("next request 2^32 + 5", |s| s.facts[fact::NEXT_REQUEST] += 1 << 32),
    // A number not below the next one.
    ("next stream 3", |s| s.facts[fact::NEXT_STREAM] = 3),
    ("next request 4", |s| s.facts[fact::NEXT_REQUEST] = 4),
    ("stream 4", |s| s.streams[0][stream::NUMBER] = 4),
    ("request 5", |s| s.requests[0][request::NUMBER] = 5),
];

#[test]
fn every_damage_is_seen_by_every_call() {
    for (what, damage) in DAMAGES {
        let mut session = busy();
        damage(session.arrays_mut());
        refused_by_all(&mut session, what);
    }
}

/// What is no damage: numbers that do not rise, whatever stands past the counts, and bytes past a name.
const UNHARMED: &[Damage] = &[
    ("as it was", |_| ()),
    ("streams in another order", |s| s.streams.swap(0, 2)),
    ("requests in another order", |s| s.requests.swap(0, 1)),
    ("nonsense past the streams", |s| s.streams[3] = [u64::MAX; 4]),
    ("nonsense past the requests", |s| s.requests[2..].fill([u64::MAX; 6])),
    ("bytes past the app", |s| s.names[1][5..].fill(0xFF)),
    ("names past the counts", |s| s.names[20..].fill([0xFF; 128])),
    ("any transaction, encoding and start", |s| {
        s.requests[1][request::TRANSACTION] = u64::MAX;
        s.facts[fact::ENCODING] = u64::MAX;
        s.facts[fact::START] = u64::MAX;
    }),
    ("no app, and a length that is then nobody's", |s| {
        s.facts[fact::HAS_APP] = 0;
        s.facts[fact::APP_LEN] = 129;
    }),
];

#[test]
fn what_is_no_damage_is_not_refused() {
    for (what, change) in UNHARMED {
        let mut session = busy();
        change(session.arrays_mut());
        assert!(session.send_ping_request(0, &mut FULL.clone()).is_ok(), "{what}: ping");
        let message = MessagePayload {
            timestamp: 0,
            type_id: 20,
            message_stream_id: StreamId(0),
            data: &client::create_stream(),
        };
        assert!(session.handle_message(&message, 0, &mut FULL.clone()).is_ok(), "{what}: createStream");
        assert_eq!(session.arrays().facts[fact::NEXT_STREAM], 5, "{what}");
    }
}

/// Every row and name past the counts is zeros.
fn blank_behind(session: &ServerSession) {
    let s = session.arrays();
    let streams = s.facts[fact::STREAM_COUNT] as usize;
    let requests = s.facts[fact::REQUEST_COUNT] as usize;
    assert!(s.streams[streams..].iter().all(|row| *row == [0; 4]), "streams past {streams}");
    assert!(s.requests[requests..].iter().all(|row| *row == [0; 6]), "requests past {requests}");
    assert!(s.names[2 + streams..18].iter().all(|name| *name == [0; 128]), "keys past {streams}");
    assert!(s.names[18 + requests..].iter().all(|name| *name == [0; 128]), "names past {requests}");
}

#[test]
fn a_place_that_is_freed_is_blank() {
    let mut session = busy();
    blank_behind(&session);
    for gone in [1, 3, 2] {
        send(&mut session, 0, &client::delete_stream(gone));
        blank_behind(&session);
    }
    session.reject_request(RequestId(3), b"", b"", 0, &mut FULL.clone()).unwrap();
    blank_behind(&session);
    session.accept_request(RequestId(4), 0, &mut FULL.clone()).unwrap();
    blank_behind(&session);
    assert_eq!(session.arrays().facts[fact::STREAM_COUNT], 0);
    assert_eq!(session.arrays().facts[fact::REQUEST_COUNT], 0);
}

#[test]
fn a_start_leaves_nothing_of_what_stood_there() {
    let start = |arrays: &mut Session, chunk_size, out: &mut [u8]| {
        arrays.start(chunk_size, 2_500_000, 2_500_000, false, b"FMS/3,0,1,1233", 7, out, &mut Answer::new())
    };
    // Done, refused with 14, and refused with 12: what stood there before makes no difference.
    for (chunk_size, room, code) in [(4096, 71, 0), (0, 71, 14), (4096, 70, 12)] {
        let mut full = busy().arrays().clone();
        full.streams.fill([u64::MAX; 4]);
        full.requests.fill([u64::MAX; 6]);
        full.names.fill([0xFF; 128]);
        let mut empty = busy().arrays().clone();
        assert_eq!(start(&mut full, chunk_size, &mut FULL.clone()[..room]), code);
        assert_eq!(start(&mut empty, chunk_size, &mut FULL.clone()[..room]), code);
        assert!(full == empty, "a start with {code}");
        blank_behind(&ServerSession::from(full));
    }
}
