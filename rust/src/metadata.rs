//! The eleven properties that a stream may advertise.

use crate::ffi;
use crate::places::property::*;

/// Document 01's names of the properties are width, height, videocodecid, videodatarate, framerate, audiocodecid,
/// audiodatarate, audiosamplerate, audiochannels, stereo and encoder.
#[derive(Clone, Debug, Default, PartialEq)]
pub struct StreamMetadata {
    pub video_width: Option<u32>,
    pub video_height: Option<u32>,
    pub video_codec_id: Option<u32>,
    pub video_bitrate_kbps: Option<u32>,
    pub video_frame_rate: Option<f32>,
    pub audio_codec_id: Option<u32>,
    pub audio_bitrate_kbps: Option<u32>,
    pub audio_sample_rate: Option<u32>,
    pub audio_channels: Option<u32>,
    pub audio_is_stereo: Option<bool>,
    /// Bytes, since nothing says that they are UTF-8. A send of more than 128 is refused with 6.
    pub encoder: Option<Vec<u8>>,
}

impl StreamMetadata {
    /// Nothing is set.
    pub fn new() -> StreamMetadata {
        StreamMetadata::default()
    }

    pub(crate) fn of(described: &[[u64; 11]; 2], encoder: &[u8; 128]) -> StreamMetadata {
        let value = |k: usize| (described[SET][k] == 1).then_some(described[VALUES][k] as u32);
        StreamMetadata {
            video_width: value(WIDTH),
            video_height: value(HEIGHT),
            video_codec_id: value(VIDEO_CODEC_ID),
            video_bitrate_kbps: value(VIDEO_DATA_RATE),
            video_frame_rate: value(FRAME_RATE).map(f32::from_bits),
            audio_codec_id: value(AUDIO_CODEC_ID),
            audio_bitrate_kbps: value(AUDIO_DATA_RATE),
            audio_sample_rate: value(AUDIO_SAMPLE_RATE),
            audio_channels: value(AUDIO_CHANNELS),
            audio_is_stereo: value(STEREO).map(|n| n == 1),
            encoder: value(ENCODER).map(|len| encoder[..len as usize].to_vec()),
        }
    }

    pub(crate) fn rows(&self) -> ffi::Metadata {
        let mut rows = ffi::Metadata::new();
        let mut put = |k: usize, value: Option<u64>| {
            rows.described[SET][k] = value.is_some().into();
            rows.described[VALUES][k] = value.unwrap_or(0);
        };
        put(WIDTH, self.video_width.map(u64::from));
        put(HEIGHT, self.video_height.map(u64::from));
        put(VIDEO_CODEC_ID, self.video_codec_id.map(u64::from));
        put(VIDEO_DATA_RATE, self.video_bitrate_kbps.map(u64::from));
        put(FRAME_RATE, self.video_frame_rate.map(|rate| rate.to_bits().into()));
        put(AUDIO_CODEC_ID, self.audio_codec_id.map(u64::from));
        put(AUDIO_DATA_RATE, self.audio_bitrate_kbps.map(u64::from));
        put(AUDIO_SAMPLE_RATE, self.audio_sample_rate.map(u64::from));
        put(AUDIO_CHANNELS, self.audio_channels.map(u64::from));
        put(STEREO, self.audio_is_stereo.map(u64::from));
        put(ENCODER, self.encoder.as_ref().map(|bytes| bytes.len() as u64));
        // Of a longer one the length alone is enough for the refusal.
        for (to, from) in rows.encoder.iter_mut().zip(self.encoder.iter().flatten()) {
            *to = *from;
        }
        rows
    }
}
