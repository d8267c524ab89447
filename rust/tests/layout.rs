//! The places that the header names are those of this crate, and what the calls write lands in them.

mod c;
#[path = "../examples/client/mod.rs"]
mod client;

use chungvator::ffi::{Answer, Media, Metadata, Session};
use chungvator::places::{fact, media, name, number, property, request, stream, word};
use std::mem::{align_of, offset_of, size_of};

#[test]
fn the_header_and_the_crate_name_the_same_places() {
    let Some(printed) = c::run("layout.c") else { return };
    let ours = [
        ("sizeof(chungvator_session)", size_of::<Session>()),
        ("_Alignof(chungvator_session)", align_of::<Session>()),
        ("chungvator_session.facts", offset_of!(Session, facts)),
        ("chungvator_session.streams", offset_of!(Session, streams)),
        ("chungvator_session.requests", offset_of!(Session, requests)),
        ("chungvator_session.names", offset_of!(Session, names)),
        ("sizeof(chungvator_answer)", size_of::<Answer>()),
        ("_Alignof(chungvator_answer)", align_of::<Answer>()),
        ("chungvator_answer.numbers", offset_of!(Answer, numbers)),
        ("chungvator_answer.described", offset_of!(Answer, described)),
        ("chungvator_answer.words", offset_of!(Answer, words)),
        ("sizeof(chungvator_media)", size_of::<Media>()),
        ("_Alignof(chungvator_media)", align_of::<Media>()),
        ("chungvator_media.numbers", offset_of!(Media, numbers)),
        ("chungvator_media.words", offset_of!(Media, words)),
        ("sizeof(chungvator_metadata)", size_of::<Metadata>()),
        ("_Alignof(chungvator_metadata)", align_of::<Metadata>()),
        ("chungvator_metadata.described", offset_of!(Metadata, described)),
        ("chungvator_metadata.encoder", offset_of!(Metadata, encoder)),
        ("CHUNGVATOR_FACT_START", fact::START),
        ("CHUNGVATOR_FACT_VERSION_LEN", fact::VERSION_LEN),
        ("CHUNGVATOR_FACT_STATE", fact::STATE),
        ("CHUNGVATOR_FACT_HAS_APP", fact::HAS_APP),
        ("CHUNGVATOR_FACT_APP_LEN", fact::APP_LEN),
        ("CHUNGVATOR_FACT_ENCODING", fact::ENCODING),
        ("CHUNGVATOR_FACT_NEXT_STREAM", fact::NEXT_STREAM),
        ("CHUNGVATOR_FACT_NEXT_REQUEST", fact::NEXT_REQUEST),
        ("CHUNGVATOR_FACT_STREAM_COUNT", fact::STREAM_COUNT),
        ("CHUNGVATOR_FACT_REQUEST_COUNT", fact::REQUEST_COUNT),
        ("CHUNGVATOR_STREAM_NUMBER", stream::NUMBER),
        ("CHUNGVATOR_STREAM_STATE", stream::STATE),
        ("CHUNGVATOR_STREAM_MODE", stream::MODE),
        ("CHUNGVATOR_STREAM_KEY_LEN", stream::KEY_LEN),
        ("CHUNGVATOR_REQUEST_NUMBER", request::NUMBER),
        ("CHUNGVATOR_REQUEST_KIND", request::KIND),
        ("CHUNGVATOR_REQUEST_STREAM", request::STREAM),
        ("CHUNGVATOR_REQUEST_MODE", request::MODE),
        ("CHUNGVATOR_REQUEST_TRANSACTION", request::TRANSACTION),
        ("CHUNGVATOR_REQUEST_NAME_LEN", request::NAME_LEN),
        ("CHUNGVATOR_NAME_VERSION", name::VERSION),
        ("CHUNGVATOR_NAME_APP", name::APP),
        ("CHUNGVATOR_NAME_KEYS", name::KEYS),
        ("CHUNGVATOR_NAME_REQUESTS", name::REQUESTS),
        ("CHUNGVATOR_NUMBER_REFUSAL", number::REFUSAL),
        ("CHUNGVATOR_NUMBER_ACTION", number::ACTION),
        ("CHUNGVATOR_NUMBER_ACTION_STREAM", number::ACTION_STREAM),
        ("CHUNGVATOR_NUMBER_WRITTEN", number::WRITTEN),
        ("CHUNGVATOR_NUMBER_EVENT", number::EVENT),
        ("CHUNGVATOR_NUMBER_REQUEST", number::REQUEST),
        ("CHUNGVATOR_NUMBER_MODE", number::MODE),
        ("CHUNGVATOR_NUMBER_START_KIND", number::START_KIND),
        ("CHUNGVATOR_NUMBER_START_TIME", number::START_TIME),
        ("CHUNGVATOR_NUMBER_HAS_DURATION", number::HAS_DURATION),
        ("CHUNGVATOR_NUMBER_DURATION", number::DURATION),
        ("CHUNGVATOR_NUMBER_RESET", number::RESET),
        ("CHUNGVATOR_NUMBER_STREAM", number::STREAM),
        ("CHUNGVATOR_NUMBER_TIMESTAMP", number::TIMESTAMP),
        ("CHUNGVATOR_NUMBER_APP_LEN", number::APP_LEN),
        ("CHUNGVATOR_NUMBER_KEY_LEN", number::KEY_LEN),
        ("CHUNGVATOR_SET", property::SET),
        ("CHUNGVATOR_VALUES", property::VALUES),
        ("CHUNGVATOR_WIDTH", property::WIDTH),
        ("CHUNGVATOR_HEIGHT", property::HEIGHT),
        ("CHUNGVATOR_VIDEO_CODEC_ID", property::VIDEO_CODEC_ID),
        ("CHUNGVATOR_VIDEO_DATA_RATE", property::VIDEO_DATA_RATE),
        ("CHUNGVATOR_FRAME_RATE", property::FRAME_RATE),
        ("CHUNGVATOR_AUDIO_CODEC_ID", property::AUDIO_CODEC_ID),
        ("CHUNGVATOR_AUDIO_DATA_RATE", property::AUDIO_DATA_RATE),
        ("CHUNGVATOR_AUDIO_SAMPLE_RATE", property::AUDIO_SAMPLE_RATE),
        ("CHUNGVATOR_AUDIO_CHANNELS", property::AUDIO_CHANNELS),
        ("CHUNGVATOR_STEREO", property::STEREO),
        ("CHUNGVATOR_ENCODER", property::ENCODER),
        ("CHUNGVATOR_WORD_APP", word::APP),
        ("CHUNGVATOR_WORD_KEY", word::KEY),
        ("CHUNGVATOR_WORD_ENCODER", word::ENCODER),
        ("CHUNGVATOR_MEDIA_EVENT", media::EVENT),
        ("CHUNGVATOR_MEDIA_TIMESTAMP", media::TIMESTAMP),
        ("CHUNGVATOR_MEDIA_APP_LEN", media::APP_LEN),
        ("CHUNGVATOR_MEDIA_KEY_LEN", media::KEY_LEN),
        (
            "offsetof(chungvator_session, streams[15][CHUNGVATOR_STREAM_KEY_LEN])",
            offset_of!(Session, streams) + (15 * 4 + stream::KEY_LEN) * 8,
        ),
        (
            "offsetof(chungvator_session, requests[15][CHUNGVATOR_REQUEST_NAME_LEN])",
            offset_of!(Session, requests) + (15 * 6 + request::NAME_LEN) * 8,
        ),
        (
            "offsetof(chungvator_session, names[CHUNGVATOR_NAME_REQUESTS + 15])",
            offset_of!(Session, names) + (name::REQUESTS + 15) * 128,
        ),
        (
            "offsetof(chungvator_answer, described[CHUNGVATOR_VALUES][CHUNGVATOR_ENCODER])",
            offset_of!(Answer, described) + (11 * property::VALUES + property::ENCODER) * 8,
        ),
    ];
    let ours: Vec<String> = ours.iter().map(|(name, value)| format!("{name} {value}")).collect();
    assert_eq!(printed.lines().collect::<Vec<_>>(), ours);
}

/// The numbers of crates/image/specs/Cases.antt and crates/parts/specs/Parts.antt, and document 01's.
const CASES: &str = "\
DONE 0
BODY_TOO_LONG 1
NOT_AMF0 2
TOO_DEEP 3
NO_COMMAND 4
NO_APP 5
NAME_TOO_LONG 6
REQUESTS_FULL 7
NUMBERS_USED_UP 8
STREAMS_FULL 9
NO_SUCH_REQUEST 10
WRONG_STREAM 11
NO_ROOM 12
TEXT_TOO_LONG 13
BAD_CONFIG 14
BAD_SESSION 15
NO_ACTION 0
PUBLISH 1
PLAY 2
COMPLETE 3
STARTED 0
CONNECTED 1
CREATED 0
PUBLISHING 1
PLAYING 2
COMPLETED 3
LIVE 0
APPEND 1
RECORD 2
CONNECT_REQUEST 0
PUBLISH_REQUEST 1
PLAY_REQUEST 2
NO_EVENT 0
CONNECTION_REQUESTED 1
PUBLISH_STREAM_REQUESTED 2
PLAY_STREAM_REQUESTED 3
PUBLISH_STREAM_FINISHED 4
PLAY_STREAM_FINISHED 5
STREAM_METADATA_CHANGED 6
AUDIO_DATA_RECEIVED 7
VIDEO_DATA_RECEIVED 8
PING_RESPONSE_RECEIVED 9
LIVE_OR_RECORDED 0
LIVE_ONLY 1
START_TIME_IN_SECONDS 2
RECORD_TYPE 0
RECORD_LENGTH 1
RECORD_TIMESTAMP 4
RECORD_STREAM 8
RECORD_FLAGS 12
RECORD_HEADER 13
UNCOMPRESSED 1
DROPPABLE 2
";

#[test]
fn the_header_has_the_numbers_of_all_cases() {
    let Some(printed) = c::run("cases.c") else { return };
    assert_eq!(printed, CASES);
}

const ROOM: usize = 1024;

fn call(session: &mut Session, kind: u8, on: u32, body: &[u8]) -> Answer {
    let mut answer = Answer::new();
    let n = session.handle_message(kind, on, 77, 1009, body, &mut [0; ROOM], &mut answer);
    assert_eq!((n, answer.numbers[number::REFUSAL]), (0, 0));
    answer
}

fn accept(session: &mut Session, request: u32) -> Answer {
    let mut answer = Answer::new();
    assert_eq!(session.accept_request(request, 1009, &mut [0; ROOM], &mut answer), 0);
    answer
}

fn text(bytes: &[u8; 128], len: u64) -> &[u8] {
    assert!(bytes[len as usize..].iter().all(|b| *b == 0));
    &bytes[..len as usize]
}

/// A session by its calls, with a look at each place after the call that fills it.
#[test]
fn numbers_land_in_the_places_that_are_named() {
    let mut answer = Answer::new();
    let mut s = Session::unstarted();
    assert_eq!(s.start(4096, 1, 2, false, b"V/1", 1000, &mut [0; ROOM], &mut answer), 0);
    assert_eq!(answer.numbers[number::WRITTEN], 71);
    assert_eq!(s.facts[fact::START], 1000);
    assert_eq!(text(&s.names[name::VERSION], s.facts[fact::VERSION_LEN]), b"V/1");
    assert_eq!([s.facts[fact::STATE], s.facts[fact::HAS_APP], s.facts[fact::APP_LEN]], [0, 0, 0]);
    assert_eq!([s.facts[fact::NEXT_STREAM], s.facts[fact::NEXT_REQUEST]], [1, 0]);
    assert_eq!([s.facts[fact::STREAM_COUNT], s.facts[fact::REQUEST_COUNT]], [0, 0]);

    // A connect waits.
    let third = client::object(&[("app", client::string(b"bench/")), ("objectEncoding", client::number(3.0))]);
    let a = call(&mut s, 20, 0, &client::command("connect", 5.0, &[third]));
    assert_eq!([a.numbers[number::EVENT], a.numbers[number::REQUEST]], [1, 0]);
    assert_eq!(text(&a.words[word::APP], a.numbers[number::APP_LEN]), b"bench");
    assert_eq!(s.facts[fact::ENCODING], 3f64.to_bits());
    assert_eq!([s.facts[fact::NEXT_REQUEST], s.facts[fact::REQUEST_COUNT]], [1, 1]);
    let row = &s.requests[0];
    assert_eq!([row[request::NUMBER], row[request::KIND], row[request::TRANSACTION]], [0, 0, 5f64.to_bits()]);
    assert_eq!(text(&s.names[name::REQUESTS], row[request::NAME_LEN]), b"bench");

    accept(&mut s, 0);
    assert_eq!([s.facts[fact::STATE], s.facts[fact::HAS_APP], s.facts[fact::REQUEST_COUNT]], [1, 1, 0]);
    assert_eq!(text(&s.names[name::APP], s.facts[fact::APP_LEN]), b"bench");

    // Two streams, one to publish on and one to play on.
    call(&mut s, 20, 0, &client::create_stream());
    call(&mut s, 20, 0, &client::create_stream());
    assert_eq!([s.facts[fact::NEXT_STREAM], s.facts[fact::STREAM_COUNT]], [3, 2]);
    assert_eq!([s.streams[1][stream::NUMBER], s.streams[1][stream::STATE]], [2, 0]);

    let a = call(&mut s, 20, 1, &client::publish(b"pin7", "record"));
    assert_eq!([a.numbers[number::EVENT], a.numbers[number::REQUEST], a.numbers[number::MODE]], [2, 1, 2]);
    assert_eq!(text(&a.words[word::KEY], a.numbers[number::KEY_LEN]), b"pin7");
    let (key, time, duration) = (client::string(b"pin8"), client::number(7.0), client::number(8.0));
    let rest = [client::null(), key, time, duration, client::boolean(true)];
    let a = call(&mut s, 20, 2, &client::command("play", 0.0, &rest));
    let n = a.numbers;
    assert_eq!([n[number::EVENT], n[number::REQUEST], n[number::STREAM]], [3, 2, 2]);
    assert_eq!([n[number::START_KIND], n[number::START_TIME]], [2, 7]);
    assert_eq!([n[number::HAS_DURATION], n[number::DURATION], n[number::RESET]], [1, 8, 1]);
    let row = &s.requests[0];
    assert_eq!([row[request::KIND], row[request::STREAM], row[request::MODE]], [1, 1, 2]);
    let row = &s.requests[1];
    assert_eq!([row[request::NUMBER], row[request::KIND], row[request::STREAM]], [2, 2, 2]);
    assert_eq!(text(&s.names[name::REQUESTS + 1], row[request::NAME_LEN]), b"pin8");

    accept(&mut s, 1);
    accept(&mut s, 2);
    assert_eq!([s.streams[0][stream::STATE], s.streams[0][stream::MODE], s.streams[1][stream::STATE]], [1, 2, 2]);
    assert_eq!(text(&s.names[name::KEYS], s.streams[0][stream::KEY_LEN]), b"pin7");
    assert_eq!(text(&s.names[name::KEYS + 1], s.streams[1][stream::KEY_LEN]), b"pin8");

    // Frames, by both ways.
    let a = call(&mut s, 9, 1, b"frame");
    assert_eq!([a.numbers[number::EVENT], a.numbers[number::TIMESTAMP]], [8, 77]);
    let mut frame = Media::new();
    assert_eq!(s.handle_media(8, 1, 78, &mut frame), 0);
    assert_eq!([frame.numbers[media::EVENT], frame.numbers[media::TIMESTAMP]], [7, 78]);
    assert_eq!(text(&frame.words[word::APP], frame.numbers[media::APP_LEN]), b"bench");
    assert_eq!(text(&frame.words[word::KEY], frame.numbers[media::KEY_LEN]), b"pin7");

    // What 11 names.
    assert_eq!(s.finish_playing(9, 0, &mut [0; ROOM], &mut answer), 11);
    let n = answer.numbers;
    assert_eq!([n[number::REFUSAL], n[number::ACTION], n[number::ACTION_STREAM]], [11, 3, 9]);
}

/// Each property by itself: its flag and its value stand in its column, and a send writes it under its name.
#[test]
fn every_property_has_its_column() {
    use property::*;
    let columns = [
        ("width", WIDTH, client::number(1920.0), 1920),
        ("height", HEIGHT, client::number(1080.0), 1080),
        ("videocodecid", VIDEO_CODEC_ID, client::number(7.0), 7),
        ("videodatarate", VIDEO_DATA_RATE, client::number(2500.0), 2500),
        ("framerate", FRAME_RATE, client::number(29.5), u64::from(29.5f32.to_bits())),
        ("audiocodecid", AUDIO_CODEC_ID, client::number(10.0), 10),
        ("audiodatarate", AUDIO_DATA_RATE, client::number(128.0), 128),
        ("audiosamplerate", AUDIO_SAMPLE_RATE, client::number(48000.0), 48000),
        ("audiochannels", AUDIO_CHANNELS, client::number(2.0), 2),
        ("stereo", STEREO, client::boolean(true), 1),
        ("encoder", ENCODER, client::string(b"bench cam"), 9),
    ];
    let mut s = Session::unstarted();
    s.start(1, 0, 0, false, b"", 0, &mut [0; ROOM], &mut Answer::new());
    call(&mut s, 20, 0, &client::connect(b"a"));
    accept(&mut s, 0);
    call(&mut s, 20, 0, &client::create_stream());
    call(&mut s, 20, 1, &client::publish(b"k", "live"));
    accept(&mut s, 1);
    for (property, column, spelled, value) in columns {
        let object = client::object(&[(property, spelled)]);
        let described = [client::string(b"onMetaData"), object].concat();
        let a = call(&mut s, 18, 1, &[client::string(b"@setDataFrame"), described.clone()].concat());
        assert_eq!(a.numbers[number::EVENT], 6, "{property}");
        let mut rows = [[0; 11]; 2];
        (rows[SET][column], rows[VALUES][column]) = (1, value);
        assert_eq!(a.described, rows, "{property}");
        let encoder = a.words[word::ENCODER];
        let expected: &[u8] = if column == ENCODER { b"bench cam" } else { b"" };
        assert_eq!(text(&encoder, a.described[VALUES][ENCODER]), expected);

        let mut out = [0; ROOM];
        let (n, written) = s.send_metadata(1, &Metadata { described: rows, encoder }, 0, &mut out);
        assert_eq!(n, 0);
        assert_eq!(out[13..written as usize], described, "{property}");
    }
}
