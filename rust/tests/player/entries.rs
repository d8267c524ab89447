//! The entries of a trace.

use chungvator::{MessagePayload, ServerSessionConfig, StreamId, StreamMetadata};

pub enum Call<'a> {
    Start { config: ServerSessionConfig, clock: u64 },
    Message { message: MessagePayload<'a>, clock: u64 },
    Accept { request: u32, clock: u64 },
    Reject { request: u32, clock: u64, code: &'a [u8], description: &'a [u8] },
    Finish { stream: u32, clock: u64 },
    Metadata { stream: u32, metadata: StreamMetadata, clock: u64 },
    Media { message: MessagePayload<'a>, droppable: bool },
    Ping { clock: u64 },
    State,
    Damage { what: u8, place: u8, value: u32 },
}

/// What is left of a trace. `None` is a bad entry throughout.
pub struct Entries<'a>(pub &'a [u8]);

impl<'a> Entries<'a> {
    fn take(&mut self, n: usize) -> Option<&'a [u8]> {
        let (now, later) = self.0.split_at_checked(n)?;
        self.0 = later;
        Some(now)
    }

    fn whole(&mut self, width: usize) -> Option<u64> {
        Some(self.take(width)?.iter().fold(0, |n, byte| n << 8 | u64::from(*byte)))
    }

    fn u8(&mut self) -> Option<u8> {
        self.whole(1).map(|n| n as u8)
    }

    fn u32(&mut self) -> Option<u32> {
        self.whole(4).map(|n| n as u32)
    }

    fn u64(&mut self) -> Option<u64> {
        self.whole(8)
    }

    fn at_most(&mut self, most: u32) -> Option<usize> {
        self.u32().filter(|n| *n <= most).map(|n| n as usize)
    }

    fn room(&mut self) -> Option<usize> {
        self.at_most(66_560)
    }

    fn body(&mut self) -> Option<&'a [u8]> {
        let n = self.at_most(65_536)?;
        self.take(n)
    }

    fn text(&mut self) -> Option<&'a [u8]> {
        let n = self.whole(2)?;
        self.take(n as usize)
    }

    fn flag(&mut self) -> Option<bool> {
        self.u8().filter(|b| *b <= 1).map(|b| b == 1)
    }

    /// The next call, and the room that is lent to it.
    pub fn call(&mut self) -> Option<(Call<'a>, usize)> {
        match self.u8()? {
            0x01 => self.start(),
            0x02 => {
                let (type_id, stream, timestamp) = (self.u8()?, self.u32()?, self.u32()?);
                let (clock, room, data) = (self.u64()?, self.room()?, self.body()?);
                let message = MessagePayload { timestamp, type_id, message_stream_id: StreamId(stream), data };
                Some((Call::Message { message, clock }, room))
            }
            0x03 => Some((Call::Accept { request: self.u32()?, clock: self.u64()? }, self.room()?)),
            0x04 => {
                let (request, clock, room) = (self.u32()?, self.u64()?, self.room()?);
                Some((Call::Reject { request, clock, code: self.text()?, description: self.text()? }, room))
            }
            0x05 => Some((Call::Finish { stream: self.u32()?, clock: self.u64()? }, self.room()?)),
            0x06 => self.metadata(),
            0x07 => {
                let type_id = self.u8().filter(|t| matches!(t, 8 | 9))?;
                let (stream, timestamp, droppable) = (self.u32()?, self.u32()?, self.flag()?);
                let (room, data) = (self.room()?, self.body()?);
                let message = MessagePayload { timestamp, type_id, message_stream_id: StreamId(stream), data };
                Some((Call::Media { message, droppable }, room))
            }
            0x08 => Some((Call::Ping { clock: self.u64()? }, self.room()?)),
            0x09 => Some((Call::State, 0)),
            0x0A => {
                let what = self.u8().filter(|what| *what <= 9)?;
                Some((Call::Damage { what, place: self.u8()?, value: self.u32()? }, 0))
            }
            _ => None,
        }
    }

    fn start(&mut self) -> Option<(Call<'a>, usize)> {
        let (chunk_size, window_ack_size, peer_bandwidth) = (self.u32()?, self.u32()?, self.u32()?);
        let send_on_bw_done_message_on_start = self.flag()?;
        let (clock, room, fms_version) = (self.u64()?, self.room()?, self.text()?.to_vec());
        let config = ServerSessionConfig {
            fms_version,
            chunk_size,
            peer_bandwidth,
            window_ack_size,
            send_on_bw_done_message_on_start,
        };
        Some((Call::Start { config, clock }, room))
    }

    /// All fields stand there, set or not.
    fn metadata(&mut self) -> Option<(Call<'a>, usize)> {
        let (stream, clock, room) = (self.u32()?, self.u64()?, self.room()?);
        let set = self.whole(2).filter(|set| set >> 11 == 0)?;
        let mut numbers = [0; 9];
        for n in &mut numbers {
            *n = self.u32()?;
        }
        let (stereo, encoder) = (self.flag()?, self.text()?);
        let is_set = |k: usize| set >> k & 1 == 1;
        let number = |k: usize| is_set(k).then_some(numbers[k]);
        let metadata = StreamMetadata {
            video_width: number(0),
            video_height: number(1),
            video_codec_id: number(2),
            video_bitrate_kbps: number(3),
            video_frame_rate: number(4).map(f32::from_bits),
            audio_codec_id: number(5),
            audio_bitrate_kbps: number(6),
            audio_sample_rate: number(7),
            audio_channels: number(8),
            audio_is_stereo: is_set(9).then_some(stereo),
            encoder: is_set(10).then_some(encoder.to_vec()),
        };
        Some((Call::Metadata { stream, metadata, clock }, room))
    }
}
