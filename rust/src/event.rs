//! What a message may raise.

use crate::ffi;
use crate::message::{RequestId, StreamId};
use crate::metadata::StreamMetadata;
use crate::places::{media, number, word};

/// For what a stream is published.
#[derive(Clone, Copy, Debug, PartialEq, Eq)]
pub enum PublishMode {
    Live,
    Append,
    Record,
}

/// Where a play is to begin.
#[derive(Clone, Copy, Debug, PartialEq, Eq)]
pub enum PlayStartValue {
    /// The live stream of this key, or else the recorded one.
    LiveOrRecorded,
    LiveOnly,
    /// The recorded stream, from this time on.
    StartTimeInSeconds(u32),
}

/// An event. App names and stream keys are bytes: document 01 does not ask for UTF-8.
///
/// `'m` is the lifetime of the message's body, which the data of an audio or a video event is.
#[derive(Clone, Debug, PartialEq)]
pub enum ServerSessionEvent<'m> {
    /// The client wants to connect to this app: to be accepted or rejected.
    ConnectionRequested { request_id: RequestId, app_name: Vec<u8> },
    /// The client wants to publish under this key: to be accepted or rejected.
    PublishStreamRequested { request_id: RequestId, app_name: Vec<u8>, stream_key: Vec<u8>, mode: PublishMode },
    /// The client wants to play this key: to be accepted or rejected.
    PlayStreamRequested {
        request_id: RequestId,
        app_name: Vec<u8>,
        stream_key: Vec<u8>,
        start_at: PlayStartValue,
        /// In seconds.
        duration: Option<u32>,
        reset: bool,
        stream_id: StreamId,
    },
    /// A stream that was publishing was closed or deleted.
    PublishStreamFinished { app_name: Vec<u8>, stream_key: Vec<u8> },
    /// A stream that was playing was closed or deleted.
    PlayStreamFinished { app_name: Vec<u8>, stream_key: Vec<u8> },
    StreamMetadataChanged { app_name: Vec<u8>, stream_key: Vec<u8>, metadata: StreamMetadata },
    AudioDataReceived { app_name: Vec<u8>, stream_key: Vec<u8>, data: &'m [u8], timestamp: u32 },
    VideoDataReceived { app_name: Vec<u8>, stream_key: Vec<u8>, data: &'m [u8], timestamp: u32 },
    /// The client answered a ping that carried this timestamp.
    PingResponseReceived { timestamp: u32 },
}

/// What a frame is.
#[derive(Clone, Copy, Debug, PartialEq, Eq)]
pub enum MediaKind {
    Audio,
    Video,
}

/// The event of an audio or a video message. Its names stand in a lent [`MediaNames`], its data is the message's.
#[derive(Clone, Copy, Debug, PartialEq, Eq)]
pub struct MediaEvent<'n, 'm> {
    pub kind: MediaKind,
    pub app_name: &'n [u8],
    pub stream_key: &'n [u8],
    pub data: &'m [u8],
    pub timestamp: u32,
}

/// Room for the two names of a [`MediaEvent`]. One is enough for all frames, one after the other.
#[derive(Clone)]
pub struct MediaNames(pub(crate) ffi::Media);

impl MediaNames {
    pub const fn new() -> MediaNames {
        MediaNames(ffi::Media::new())
    }
}

impl Default for MediaNames {
    fn default() -> MediaNames {
        MediaNames::new()
    }
}

impl<'n, 'm> MediaEvent<'n, 'm> {
    pub(crate) fn of(names: &'n ffi::Media, data: &'m [u8]) -> Option<MediaEvent<'n, 'm>> {
        let ffi::Media { numbers, words } = names;
        let kind = match numbers[media::EVENT] {
            0 => return None,
            7 => MediaKind::Audio,
            8 => MediaKind::Video,
            n => unreachable!("the library's contract has no event {n} of a frame"),
        };
        Some(MediaEvent {
            kind,
            app_name: &words[word::APP][..numbers[media::APP_LEN] as usize],
            stream_key: &words[word::KEY][..numbers[media::KEY_LEN] as usize],
            data,
            timestamp: numbers[media::TIMESTAMP] as u32,
        })
    }
}

/// The same event with names of its own.
impl<'m> From<MediaEvent<'_, 'm>> for ServerSessionEvent<'m> {
    fn from(event: MediaEvent<'_, 'm>) -> ServerSessionEvent<'m> {
        let (app_name, stream_key) = (event.app_name.to_vec(), event.stream_key.to_vec());
        let (data, timestamp) = (event.data, event.timestamp);
        match event.kind {
            MediaKind::Audio => ServerSessionEvent::AudioDataReceived { app_name, stream_key, data, timestamp },
            MediaKind::Video => ServerSessionEvent::VideoDataReceived { app_name, stream_key, data, timestamp },
        }
    }
}

fn mode_of(n: u64) -> PublishMode {
    match n {
        0 => PublishMode::Live,
        1 => PublishMode::Append,
        2 => PublishMode::Record,
        _ => unreachable!("the library's contract has no mode {n}"),
    }
}

fn start_of(kind: u64, time: u64) -> PlayStartValue {
    match kind {
        0 => PlayStartValue::LiveOrRecorded,
        1 => PlayStartValue::LiveOnly,
        2 => PlayStartValue::StartTimeInSeconds(time as u32),
        _ => unreachable!("the library's contract has no start {kind}"),
    }
}

impl<'m> ServerSessionEvent<'m> {
    /// The event that an answer holds, if any, by the header's numbers. `data` is the body of the message.
    pub fn of(answer: &ffi::Answer, data: &'m [u8]) -> Option<ServerSessionEvent<'m>> {
        let n = &answer.numbers;
        let app_name = answer.words[word::APP][..n[number::APP_LEN] as usize].to_vec();
        let stream_key = answer.words[word::KEY][..n[number::KEY_LEN] as usize].to_vec();
        let request_id = RequestId(n[number::REQUEST] as u32);
        let timestamp = n[number::TIMESTAMP] as u32;
        Some(match n[number::EVENT] {
            0 => return None,
            1 => ServerSessionEvent::ConnectionRequested { request_id, app_name },
            2 => {
                let mode = mode_of(n[number::MODE]);
                ServerSessionEvent::PublishStreamRequested { request_id, app_name, stream_key, mode }
            }
            3 => ServerSessionEvent::PlayStreamRequested {
                request_id,
                app_name,
                stream_key,
                start_at: start_of(n[number::START_KIND], n[number::START_TIME]),
                duration: (n[number::HAS_DURATION] == 1).then_some(n[number::DURATION] as u32),
                reset: n[number::RESET] == 1,
                stream_id: StreamId(n[number::STREAM] as u32),
            },
            4 => ServerSessionEvent::PublishStreamFinished { app_name, stream_key },
            5 => ServerSessionEvent::PlayStreamFinished { app_name, stream_key },
            6 => {
                let metadata = StreamMetadata::of(&answer.described, &answer.words[word::ENCODER]);
                ServerSessionEvent::StreamMetadataChanged { app_name, stream_key, metadata }
            }
            7 => ServerSessionEvent::AudioDataReceived { app_name, stream_key, data, timestamp },
            8 => ServerSessionEvent::VideoDataReceived { app_name, stream_key, data, timestamp },
            9 => ServerSessionEvent::PingResponseReceived { timestamp },
            event => unreachable!("the library's contract has no event {event}"),
        })
    }
}
