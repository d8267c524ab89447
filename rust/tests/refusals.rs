//! Each refusal, by its smallest input: number, what it names, and that nothing else happens.

#[path = "../examples/client/mod.rs"]
mod client;

use chungvator::places::fact;
use chungvator::{
    Action, MessagePayload, RequestId, ServerSession, ServerSessionConfig, ServerSessionError, ServerSessionEvent,
    ServerSessionResult, StreamId, StreamMetadata,
};
use ServerSessionError::*;

type Outcome<T> = Result<T, ServerSessionError>;

fn started() -> ServerSession {
    let mut out = [0; ServerSession::ROOM];
    ServerSession::new(&ServerSessionConfig::new(), 0, &mut out).unwrap().0
}

fn connected() -> ServerSession {
    let mut session = started();
    done(&mut session, 20, 0, &client::connect(b"bench"));
    session.accept_request(RequestId(0), 0, &mut [0; ServerSession::ROOM]).unwrap();
    session
}

/// A message that is done, and whether it raised something.
fn done(session: &mut ServerSession, type_id: u8, stream: u32, data: &[u8]) -> bool {
    let mut out = [0; ServerSession::ROOM];
    let message = MessagePayload { timestamp: 0, type_id, message_stream_id: StreamId(stream), data };
    session.handle_message(&message, 0, &mut out).expect("done").event.is_some()
}

/// A message that is refused, with a session and a buffer that stay as they were.
fn refused(session: &mut ServerSession, type_id: u8, stream: u32, data: &[u8]) -> ServerSessionError {
    let before = session.clone();
    let mut out = [0xA5; ServerSession::ROOM];
    let message = MessagePayload { timestamp: 0, type_id, message_stream_id: StreamId(stream), data };
    let refusal = session.handle_message(&message, 0, &mut out).expect_err("refused");
    assert!(session.arrays() == before.arrays() && out.iter().all(|b| *b == 0xA5));
    refusal
}

#[test]
fn a_body_too_long_is_1() {
    for type_id in [4, 18, 20] {
        assert_eq!(refused(&mut started(), type_id, 0, &[0; 4097]), BodyTooLong);
    }
    assert_ne!(refused(&mut started(), 20, 0, &[0; 4096]), BodyTooLong);
    // Of audio and video only a send has a limit: the record's length is three bytes.
    assert!(!done(&mut started(), 8, 0, &[0; 4097]));
    let (session, body) = (started(), vec![0; 16_777_216]);
    let mut out = vec![0; 16_777_229];
    assert_eq!(session.send_audio_data(StreamId(1), &body, 0, false, &mut out), Err(BodyTooLong));
    assert_eq!(session.send_video_data(StreamId(1), &body, 0, false, &mut out), Err(BodyTooLong));
    let records = session.send_video_data(StreamId(1), &body[1..], 0, true, &mut out).unwrap();
    let record = { records }.next().unwrap();
    assert_eq!((record.message.data.len(), record.can_be_dropped), (16_777_215, true));
}

#[test]
fn what_is_not_amf0_is_2() {
    for type_id in [18, 20] {
        assert_eq!(refused(&mut started(), type_id, 0, &[0x02]), NotAmf0);
        assert_eq!(refused(&mut started(), type_id, 0, &[0x04]), NotAmf0);
    }
    assert_eq!(refused(&mut started(), 4, 0, &[]), NotAmf0);
    assert_eq!(refused(&mut started(), 4, 0, &[0, 6, 0, 0, 0]), NotAmf0);
    assert_eq!(refused(&mut started(), 4, 0, &[0, 7, 0, 0, 0]), NotAmf0);
}

#[test]
fn a_container_inside_eight_others_is_3() {
    let nested = |n: usize| [0x0A, 0, 0, 0, 1].repeat(n);
    assert_eq!(refused(&mut started(), 18, 0, &[&nested(8)[..], &[0x0A]].concat()), TooDeep);
    assert!(!done(&mut started(), 18, 0, &[&nested(8)[..], &[0x05]].concat()));
}

#[test]
fn what_does_not_begin_as_a_command_is_4() {
    assert_eq!(refused(&mut started(), 20, 0, &[]), NoCommand);
    assert_eq!(refused(&mut started(), 20, 0, &client::command("", 0.0, &[])), NoCommand);
}

#[test]
fn a_connect_without_an_app_is_5() {
    let connect = |third| client::command("connect", 1.0, &[third]);
    assert_eq!(refused(&mut started(), 20, 0, &connect(client::null())), NoAppNameForConnectionRequest);
    assert_eq!(refused(&mut started(), 20, 0, &connect(client::object(&[]))), NoAppNameForConnectionRequest);
    let number = client::object(&[("app", client::number(0.0))]);
    assert_eq!(refused(&mut started(), 20, 0, &connect(number)), NoAppNameForConnectionRequest);
}

#[test]
fn a_name_of_129_bytes_is_6() {
    let long = [b'k'; 129];
    assert_eq!(refused(&mut started(), 20, 0, &client::connect(&long)), NameTooLong);
    assert!(done(&mut started(), 20, 0, &client::connect(&long[1..])));
    assert_eq!(refused(&mut connected(), 20, 1, &client::publish(&long, "live")), NameTooLong);
    assert_eq!(refused(&mut connected(), 20, 1, &client::play(&long)), NameTooLong);
    assert!(done(&mut connected(), 20, 1, &client::publish(&long[1..], "live")));

    let mut out = [0; ServerSession::ROOM];
    let mut metadata = StreamMetadata { encoder: Some(long.to_vec()), ..StreamMetadata::new() };
    assert_eq!(started().send_metadata(StreamId(1), &metadata, 0, &mut out), Err(NameTooLong));
    metadata.encoder = Some(vec![b'e'; 70_000]);
    assert_eq!(started().send_metadata(StreamId(1), &metadata, 0, &mut out), Err(NameTooLong));
    metadata.encoder = Some(long[1..].to_vec());
    assert!(started().send_metadata(StreamId(1), &metadata, 0, &mut out).is_ok());

    let mut session = connected();
    done(&mut session, 20, 0, &client::create_stream());
    done(&mut session, 20, 1, &client::publish(b"pin7", "live"));
    session.accept_request(RequestId(1), 0, &mut out).unwrap();
    let frame = |encoder: &[u8]| client::set_data_frame(&[("encoder", client::string(encoder))]);
    assert_eq!(refused(&mut session, 18, 1, &frame(&long)), NameTooLong);
    assert!(done(&mut session, 18, 1, &frame(&long[1..])));
}

#[test]
fn a_seventeenth_request_is_7() {
    let mut session = started();
    for _ in 0..16 {
        assert!(done(&mut session, 20, 0, &client::connect(b"")));
    }
    assert_eq!(refused(&mut session, 20, 0, &client::connect(b"")), RequestsFull);
    session.reject_request(RequestId(3), b"", b"", 0, &mut [0; ServerSession::ROOM]).unwrap();
    assert!(done(&mut session, 20, 0, &client::connect(b"")));
}

#[test]
fn the_last_number_is_8() {
    for (next, message) in
        [(fact::NEXT_REQUEST, client::connect(b"")), (fact::NEXT_STREAM, client::create_stream())]
    {
        let mut session = started();
        session.arrays_mut().facts[next] = u64::from(u32::MAX);
        assert_eq!(refused(&mut session, 20, 0, &message), NumbersUsedUp);
        session.arrays_mut().facts[next] -= 1;
        done(&mut session, 20, 0, &message);
        assert_eq!(refused(&mut session, 20, 0, &message), NumbersUsedUp);
    }
}

#[test]
fn a_seventeenth_stream_is_9() {
    let mut session = connected();
    for _ in 0..16 {
        done(&mut session, 20, 0, &client::create_stream());
    }
    assert_eq!(refused(&mut session, 20, 0, &client::create_stream()), StreamsFull);
    done(&mut session, 20, 0, &client::delete_stream(5));
    done(&mut session, 20, 0, &client::create_stream());
    assert_eq!(session.arrays().streams[15][0], 17);
}

/// A decision or a finish that is refused. Whether the session changed is handed back.
fn decided(
    session: &mut ServerSession,
    call: impl Fn(&mut ServerSession, &mut [u8]) -> Outcome<()>,
) -> (ServerSessionError, bool) {
    let before = session.clone();
    let mut out = [0xA5; ServerSession::ROOM];
    let refusal = call(session, &mut out).expect_err("refused");
    assert!(out.iter().all(|b| *b == 0xA5));
    (refusal, session.arrays() != before.arrays())
}

fn accept(request: u32) -> impl Fn(&mut ServerSession, &mut [u8]) -> Outcome<()> {
    move |session, out| session.accept_request(RequestId(request), 0, out).map(|_| ())
}

#[test]
fn an_unknown_request_is_10() {
    let reject = |s: &mut ServerSession, out: &mut [u8]| s.reject_request(RequestId(0), b"", b"", 0, out).map(|_| ());
    assert_eq!(decided(&mut started(), accept(0)), (InvalidRequestId, false));
    assert_eq!(decided(&mut started(), reject), (InvalidRequestId, false));
}

#[test]
fn a_missing_stream_is_11_with_action_and_stream() {
    let named = |action, stream| ActionAttemptedOnInactiveStream { action, stream_id: StreamId(stream) };
    let mut session = connected();
    done(&mut session, 20, 7, &client::publish(b"pin7", "live"));
    done(&mut session, 20, u32::MAX, &client::play(b"pin7"));
    // The request is used up, alone of all refusals.
    assert_eq!(decided(&mut session, accept(1)), (named(Action::Publish, 7), true));
    assert_eq!(decided(&mut session, accept(1)), (InvalidRequestId, false));
    assert_eq!(decided(&mut session, accept(2)), (named(Action::Play, u32::MAX), true));
    let finish = |s: &mut ServerSession, out: &mut [u8]| s.finish_playing(StreamId(1), 0, out).map(|_| ());
    assert_eq!(decided(&mut session, finish), (named(Action::Complete, 1), false));
    done(&mut session, 20, 0, &client::create_stream());
    assert_eq!(decided(&mut session, finish), (named(Action::Complete, 1), false));
    assert_eq!(named(Action::Play, 9).to_string(), "play: there is no stream 9");
    assert_eq!(named(Action::Complete, 9).to_string(), "complete: stream 9 is not playing");
}

#[test]
fn a_buffer_too_short_is_12() {
    let mut config = ServerSessionConfig::new();
    assert_eq!(ServerSession::new(&config, 0, &mut [0; 113]).err(), Some(NoRoom));
    assert!(ServerSession::new(&config, 0, &mut [0; 114]).is_ok());
    config.send_on_bw_done_message_on_start = false;
    assert_eq!(ServerSession::new(&config, 0, &mut [0; 70]).err(), Some(NoRoom));
    assert!(ServerSession::new(&config, 0, &mut [0; 71]).is_ok());

    // "Key "pin7": accepting publish needs 171 bytes; 170 gives 12 and the request still waits."
    let mut session = connected();
    done(&mut session, 20, 0, &client::create_stream());
    done(&mut session, 20, 1, &client::publish(b"pin7", "live"));
    let before = session.clone();
    assert_eq!(session.accept_request(RequestId(1), 0, &mut [0; 170]), Err(NoRoom));
    assert!(session.arrays() == before.arrays());
    assert_eq!(session.accept_request(RequestId(1), 0, &mut [0; 171]).unwrap().as_bytes().len(), 171);

    assert_eq!(session.send_audio_data(StreamId(1), b"", 0, false, &mut [0; 12]), Err(NoRoom));
    assert_eq!(session.send_ping_request(0, &mut [0; 18]), Err(NoRoom));
    assert!(session.send_ping_request(0, &mut [0; 19]).is_ok());
    // An answer without records asks for no room.
    let message = MessagePayload { timestamp: 0, type_id: 8, message_stream_id: StreamId(1), data: b"" };
    assert!(session.handle_message(&message, 0, &mut []).unwrap().event.is_some());
}

#[test]
fn a_text_of_257_bytes_is_13() {
    let long = [b'c'; 257];
    let mut session = started();
    done(&mut session, 20, 0, &client::connect(b""));
    let mut out = [0; ServerSession::ROOM];
    assert_eq!(session.reject_request(RequestId(0), &long, b"", 0, &mut out), Err(TextTooLong));
    assert_eq!(session.reject_request(RequestId(0), b"", &long, 0, &mut out), Err(TextTooLong));
    // The longest answer of all, so that ROOM is enough.
    assert_eq!(session.reject_request(RequestId(0), &long[1..], &long[1..], 0, &mut out[..587]), Err(NoRoom));
    let records = session.reject_request(RequestId(0), &long[1..], &long[1..], 0, &mut out).unwrap();
    assert_eq!(records.as_bytes().len(), 588);
}

#[test]
fn a_bad_start_is_14() {
    let bad = |chunk_size, fms_version: usize| {
        let config =
            ServerSessionConfig { chunk_size, fms_version: vec![b'v'; fms_version], ..ServerSessionConfig::new() };
        ServerSession::new(&config, 0, &mut [0; ServerSession::ROOM]).err()
    };
    assert_eq!(bad(0, 0), Some(BadConfig));
    assert_eq!(bad(1 << 31, 0), Some(BadConfig));
    assert_eq!(bad(1, 129), Some(BadConfig));
    assert_eq!(bad((1 << 31) - 1, 128), None);

    // "A refused start hands back the session of a start at clock 0 with empty `fms_version`." No row of it is in use,
    // so the facts and the first two names are all of it.
    let mut session = connected();
    let config = ServerSessionConfig { chunk_size: 0, ..ServerSessionConfig::new() };
    assert_eq!(session.restart(&config, 9, &mut [0; ServerSession::ROOM]), Err(BadConfig));
    let config = ServerSessionConfig { fms_version: Vec::new(), ..ServerSessionConfig::new() };
    let fresh = ServerSession::new(&config, 0, &mut [0; ServerSession::ROOM]).unwrap().0;
    assert!(session.arrays().facts == fresh.arrays().facts);
    assert!(session.arrays().names[..2] == fresh.arrays().names[..2]);
}

#[test]
fn a_damaged_session_is_15() {
    let mut session = started();
    session.arrays_mut().facts[fact::STREAM_COUNT] = 17;
    assert_eq!(refused(&mut session, 20, 0, &client::create_stream()), BadSession);
}

#[test]
fn numbers_rise_from_1_to_15() {
    let stream_id = StreamId(0);
    let all = [
        BodyTooLong,
        NotAmf0,
        TooDeep,
        NoCommand,
        NoAppNameForConnectionRequest,
        NameTooLong,
        RequestsFull,
        NumbersUsedUp,
        StreamsFull,
        InvalidRequestId,
        ActionAttemptedOnInactiveStream { action: Action::Publish, stream_id },
        NoRoom,
        TextTooLong,
        BadConfig,
        BadSession,
    ];
    assert!(all.iter().map(|refusal| refusal.number()).eq(1..=15));
}

/// What is done hands the event over with all its fields.
#[test]
fn a_play_has_all_its_fields() {
    use chungvator::PlayStartValue::StartTimeInSeconds;
    let mut session = connected();
    let body = client::command(
        "play",
        0.0,
        &[client::null(), client::string(b"\xFFkey"), client::number(7.9), client::number(60.0), client::boolean(true)],
    );
    let message = MessagePayload { timestamp: 0, type_id: 20, message_stream_id: StreamId(3), data: &body };
    let mut out = [];
    let ServerSessionResult { event, records } = session.handle_message(&message, 0, &mut out).unwrap();
    assert!(records.is_empty());
    let expected = ServerSessionEvent::PlayStreamRequested {
        request_id: RequestId(1),
        app_name: b"bench".to_vec(),
        stream_key: b"\xFFkey".to_vec(),
        start_at: StartTimeInSeconds(7),
        duration: Some(60),
        reset: true,
        stream_id: StreamId(3),
    };
    assert_eq!(event, Some(expected));
}
