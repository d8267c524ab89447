//! The text of a trace.

use chungvator::ffi::Session;
use chungvator::places::{fact, name, request, stream};
use chungvator::{PlayStartValue, PublishMode, ServerSessionError, ServerSessionEvent, StreamMetadata};
use std::fmt::Write;

/// A call's line but for the bytes: code, event and ping, and how many bytes were written.
pub struct Line {
    pub number: u32,
    words: String,
    written: usize,
}

type Done<'m> = (Option<ServerSessionEvent<'m>>, Option<u32>, usize);

impl Line {
    pub fn of(name: &str, done: Result<Done, ServerSessionError>) -> Line {
        let (event, ping, written) = match done {
            Ok(done) => done,
            Err(refusal) => {
                let mut words = format!("{name} {}", refusal.number());
                if let ServerSessionError::ActionAttemptedOnInactiveStream { action, stream_id } = refusal {
                    words += &format!(" {action} {}", stream_id.0);
                }
                return Line { number: refusal.number(), words, written: 0 };
            }
        };
        let mut words = format!("{name} 0");
        if let Some(event) = event {
            words += &format!(" {}", shown(&event));
        }
        if let Some(ping) = ping {
            words += &format!(" ping={ping}");
        }
        Line { number: 0, words, written }
    }

    /// With the bytes, and whether one past them was touched.
    pub fn spelled(mut self, out: &[u8]) -> String {
        let (written, past) = out.split_at(self.written);
        if !written.is_empty() {
            self.words += " out=";
            self.words += &hex(written);
        }
        if past.iter().any(|byte| *byte != 0xA5) {
            self.words += " spilt";
        }
        self.words + "\n"
    }
}

pub fn hex(bytes: &[u8]) -> String {
    if bytes.is_empty() {
        return "-".to_string();
    }
    let mut all = String::with_capacity(2 * bytes.len());
    for byte in bytes {
        write!(all, "{byte:02x}").unwrap();
    }
    all
}

fn mode_word(mode: PublishMode) -> &'static str {
    match mode {
        PublishMode::Live => "live",
        PublishMode::Append => "append",
        PublishMode::Record => "record",
    }
}

fn shown(event: &ServerSessionEvent) -> String {
    use ServerSessionEvent::*;
    let names = |app: &[u8], key: &[u8]| format!("app={} key={}", hex(app), hex(key));
    match event {
        ConnectionRequested { request_id, app_name } => {
            format!("ConnectionRequested request={} app={}", request_id.0, hex(app_name))
        }
        PublishStreamRequested { request_id, app_name, stream_key, mode } => {
            let names = names(app_name, stream_key);
            format!("PublishStreamRequested request={} {names} mode={}", request_id.0, mode_word(*mode))
        }
        PlayStreamRequested { request_id, app_name, stream_key, start_at, duration, reset, stream_id } => {
            let start = match start_at {
                PlayStartValue::LiveOrRecorded => "live-or-recorded".to_string(),
                PlayStartValue::LiveOnly => "live-only".to_string(),
                PlayStartValue::StartTimeInSeconds(n) => n.to_string(),
            };
            let duration = duration.map_or("none".to_string(), |n| n.to_string());
            let (names, reset) = (names(app_name, stream_key), u8::from(*reset));
            format!(
                "PlayStreamRequested request={} {names} start={start} duration={duration} reset={reset} stream={}",
                request_id.0, stream_id.0
            )
        }
        PublishStreamFinished { app_name, stream_key } => {
            format!("PublishStreamFinished {}", names(app_name, stream_key))
        }
        PlayStreamFinished { app_name, stream_key } => format!("PlayStreamFinished {}", names(app_name, stream_key)),
        StreamMetadataChanged { app_name, stream_key, metadata } => {
            format!("StreamMetadataChanged {}{}", names(app_name, stream_key), described(metadata))
        }
        AudioDataReceived { app_name, stream_key, data, timestamp } => {
            let names = names(app_name, stream_key);
            format!("AudioDataReceived {names} timestamp={timestamp} length={}", data.len())
        }
        VideoDataReceived { app_name, stream_key, data, timestamp } => {
            let names = names(app_name, stream_key);
            format!("VideoDataReceived {names} timestamp={timestamp} length={}", data.len())
        }
        PingResponseReceived { timestamp } => format!("PingResponseReceived timestamp={timestamp}"),
    }
}

fn described(m: &StreamMetadata) -> String {
    let number = |n: Option<u32>| n.map(|n| n.to_string());
    let fields = [
        ("width", number(m.video_width)),
        ("height", number(m.video_height)),
        ("videocodecid", number(m.video_codec_id)),
        ("videodatarate", number(m.video_bitrate_kbps)),
        ("framerate", m.video_frame_rate.map(|rate| format!("{:08x}", rate.to_bits()))),
        ("audiocodecid", number(m.audio_codec_id)),
        ("audiodatarate", number(m.audio_bitrate_kbps)),
        ("audiosamplerate", number(m.audio_sample_rate)),
        ("audiochannels", number(m.audio_channels)),
        ("stereo", m.audio_is_stereo.map(|b| u8::from(b).to_string())),
        ("encoder", m.encoder.as_deref().map(hex)),
    ];
    fields.iter().filter_map(|(name, value)| Some(format!(" {name}={}", value.as_ref()?))).collect()
}

/// A damaged session is shown as well: a count over 16 shows 16 places, and a length over 128 shows 128 bytes.
pub fn state(s: &Session) -> String {
    let text = |place: usize, len: u64| hex(&s.names[place][..len.min(128) as usize]);
    let app = match s.facts[fact::HAS_APP] {
        0 => "none".to_string(),
        _ => text(name::APP, s.facts[fact::APP_LEN]),
    };
    let mut all = format!(
        "state connected={} app={app} version={} start={} encoding={:016x} next-stream={} next-request={}\n",
        s.facts[fact::STATE],
        text(name::VERSION, s.facts[fact::VERSION_LEN]),
        s.facts[fact::START],
        s.facts[fact::ENCODING],
        s.facts[fact::NEXT_STREAM],
        s.facts[fact::NEXT_REQUEST],
    );
    for i in rising(s.streams.map(|row| row[stream::NUMBER]), s.facts[fact::STREAM_COUNT]) {
        let row = &s.streams[i];
        let key = text(name::KEYS + i, row[stream::KEY_LEN]);
        let state = match row[stream::STATE] {
            0 => "created".to_string(),
            1 => format!("publishing {key} {}", MODES[row[stream::MODE] as usize]),
            2 => format!("playing {key}"),
            _ => "completed".to_string(),
        };
        all += &format!(" stream {} {state}\n", row[stream::NUMBER]);
    }
    for i in rising(s.requests.map(|row| row[request::NUMBER]), s.facts[fact::REQUEST_COUNT]) {
        let row = &s.requests[i];
        let name = text(name::REQUESTS + i, row[request::NAME_LEN]);
        let on = row[request::STREAM];
        let want = match row[request::KIND] {
            0 => format!("connect app={name} transaction={:016x}", row[request::TRANSACTION]),
            1 => format!("publish stream={on} key={name} mode={}", MODES[row[request::MODE] as usize]),
            _ => format!("play stream={on} key={name}"),
        };
        all += &format!(" request {} {want}\n", row[request::NUMBER]);
    }
    all
}

const MODES: [&str; 3] = ["live", "append", "record"];

/// The places in use in rising number; of one number twice, the one further left comes first.
fn rising(numbers: [u64; 16], count: u64) -> Vec<usize> {
    let mut places: Vec<usize> = (0..count.min(16) as usize).collect();
    places.sort_by_key(|i| numbers[*i]);
    places
}
