//! Ours. The build copies this file beside the shown source, as a child of the session's module,
//! because a child may read private fields. It writes the trace's text for states and events.

use super::*;
use crate::text::hex;

fn name_of(mode: &PublishMode) -> &'static str {
    match mode {
        PublishMode::Live => "live",
        PublishMode::Append => "append",
        PublishMode::Record => "record",
    }
}

/// What the limits of document 01 are tested against.
pub struct Counts {
    pub streams: usize,
    pub requests: usize,
    pub next_stream: u32,
    pub next_request: u32,
}

impl ServerSession {
    pub fn counts(&self) -> Counts {
        Counts {
            streams: self.active_streams.len(),
            requests: self.outstanding_requests.len(),
            next_stream: self.next_stream_id,
            next_request: self.next_request_number,
        }
    }

    /// For `--alone`: the numbers that no run reaches.
    pub fn set_next(&mut self, stream: Option<u32>, request: Option<u32>) {
        self.next_stream_id = stream.unwrap_or(self.next_stream_id);
        self.next_request_number = request.unwrap_or(self.next_request_number);
    }

    pub fn state_text(&self) -> String {
        let mut text = format!(
            "state connected={} app={} version={} start={} encoding={:016x} next-stream={} next-request={}",
            (self.current_state == SessionState::Connected) as u8,
            self.connected_app_name.as_ref().map_or("none".to_string(), |app| hex(app)),
            hex(&self.fms_version),
            self.start_time.since_zero.as_millis(),
            self.object_encoding.to_bits(),
            self.next_stream_id,
            self.next_request_number,
        );
        let mut streams: Vec<_> = self.active_streams.iter().collect();
        streams.sort_by_key(|(number, _)| **number);
        for (number, stream) in streams {
            text += &match &stream.current_state {
                StreamState::Created => format!("\n stream {number} created"),
                StreamState::Publishing { stream_key, mode } => {
                    format!("\n stream {number} publishing {} {}", hex(stream_key), name_of(mode))
                }
                StreamState::Playing { stream_key } => format!("\n stream {number} playing {}", hex(stream_key)),
                StreamState::Completed => format!("\n stream {number} completed"),
            };
        }
        let mut requests: Vec<_> = self.outstanding_requests.iter().collect();
        requests.sort_by_key(|(number, _)| **number);
        for (number, request) in requests {
            text += &match request {
                OutstandingRequest::ConnectionRequest { app_name, transaction_id } => {
                    format!("\n request {number} connect app={} transaction={:016x}", hex(app_name), transaction_id.to_bits())
                }
                OutstandingRequest::PublishRequested { stream_key, mode, stream_id } => {
                    format!("\n request {number} publish stream={stream_id} key={} mode={}", hex(stream_key), name_of(mode))
                }
                OutstandingRequest::PlayRequested { stream_key, stream_id } => {
                    format!("\n request {number} play stream={stream_id} key={}", hex(stream_key))
                }
            };
        }
        text
    }
}

impl ServerSessionEvent {
    /// The names that refusal 6 measures.
    pub fn names(&self) -> Vec<&String> {
        use ServerSessionEvent::*;
        match self {
            ConnectionRequested { app_name, .. } => vec![app_name],
            PublishStreamRequested { app_name, stream_key, .. } => vec![app_name, stream_key],
            PlayStreamRequested { app_name, stream_key, .. } => vec![app_name, stream_key],
            StreamMetadataChanged { app_name, stream_key, metadata } => {
                let mut names = vec![app_name, stream_key];
                names.extend(&metadata.encoder);
                names
            }
            _ => Vec::new(),
        }
    }

    /// A frame rate that was converted from a NaN.
    pub fn has_nan(&self) -> bool {
        match self {
            ServerSessionEvent::StreamMetadataChanged { metadata, .. } => metadata.video_frame_rate.is_some_and(|x| x.is_nan()),
            _ => false,
        }
    }

    pub fn text(&self) -> String {
        use ServerSessionEvent::*;
        match self {
            ConnectionRequested { request_id, app_name } => {
                format!("ConnectionRequested request={request_id} app={}", hex(app_name))
            }
            PublishStreamRequested { request_id, app_name, stream_key, mode } => format!(
                "PublishStreamRequested request={request_id} app={} key={} mode={}",
                hex(app_name), hex(stream_key), name_of(mode)
            ),
            PlayStreamRequested { request_id, app_name, stream_key, start_at, duration, reset, stream_id } => format!(
                "PlayStreamRequested request={request_id} app={} key={} start={} duration={} reset={} stream={stream_id}",
                hex(app_name),
                hex(stream_key),
                match start_at {
                    PlayStartValue::LiveOrRecorded => "live-or-recorded".to_string(),
                    PlayStartValue::LiveOnly => "live-only".to_string(),
                    PlayStartValue::StartTimeInSeconds(x) => x.to_string(),
                },
                duration.map_or("none".to_string(), |x| x.to_string()),
                *reset as u8,
            ),
            PublishStreamFinished { app_name, stream_key } => {
                format!("PublishStreamFinished app={} key={}", hex(app_name), hex(stream_key))
            }
            PlayStreamFinished { app_name, stream_key } => {
                format!("PlayStreamFinished app={} key={}", hex(app_name), hex(stream_key))
            }
            StreamMetadataChanged { app_name, stream_key, metadata: m } => {
                let number = |x: Option<u32>| x.map(|x| x.to_string());
                let fields = [
                    ("width", number(m.video_width)),
                    ("height", number(m.video_height)),
                    ("videocodecid", number(m.video_codec_id)),
                    ("videodatarate", number(m.video_bitrate_kbps)),
                    ("framerate", m.video_frame_rate.map(|x| format!("{:08x}", x.to_bits()))),
                    ("audiocodecid", number(m.audio_codec_id)),
                    ("audiodatarate", number(m.audio_bitrate_kbps)),
                    ("audiosamplerate", number(m.audio_sample_rate)),
                    ("audiochannels", number(m.audio_channels)),
                    ("stereo", m.audio_is_stereo.map(|x| (x as u8).to_string())),
                    ("encoder", m.encoder.as_ref().map(|x| hex(x))),
                ];
                let mut text = format!("StreamMetadataChanged app={} key={}", hex(app_name), hex(stream_key));
                for (name, value) in fields {
                    if let Some(value) = value {
                        text += &format!(" {name}={value}");
                    }
                }
                text
            }
            AudioDataReceived { app_name, stream_key, data, timestamp } => format!(
                "AudioDataReceived app={} key={} timestamp={} length={}",
                hex(app_name), hex(stream_key), timestamp.value, data.len()
            ),
            VideoDataReceived { app_name, stream_key, data, timestamp } => format!(
                "VideoDataReceived app={} key={} timestamp={} length={}",
                hex(app_name), hex(stream_key), timestamp.value, data.len()
            ),
            PingResponseReceived { timestamp } => format!("PingResponseReceived timestamp={}", timestamp.value),
            // From here on: events that document 01 does not have.
            UnhandleableAmf0Command { command_name, .. } => format!("UnhandleableAmf0Command name={}", hex(command_name)),
            AcknowledgementReceived { bytes_received } => format!("AcknowledgementReceived bytes={bytes_received}"),
            ClientChunkSizeChanged { new_chunk_size } => format!("ClientChunkSizeChanged size={new_chunk_size}"),
            ReleaseStreamRequested { request_id, app_name, stream_key } => {
                format!("ReleaseStreamRequested request={request_id} app={} key={}", hex(app_name), hex(stream_key))
            }
        }
    }

    /// The body of a media event, which the trace writes by its length alone.
    pub fn data(&self) -> Option<&Bytes> {
        match self {
            ServerSessionEvent::AudioDataReceived { data, .. } | ServerSessionEvent::VideoDataReceived { data, .. } => Some(data),
            _ => None,
        }
    }
}
