//! The session and its calls.

use crate::config::ServerSessionConfig;
use crate::error::ServerSessionError;
use crate::event::{MediaEvent, MediaNames, ServerSessionEvent};
use crate::ffi;
use crate::message::{message_type, MessagePayload, RequestId, StreamId};
use crate::metadata::StreamMetadata;
use crate::places::number;
use crate::record::Records;

/// What became of a message: at most one event, and the records to be sent. Mostly one of the two is there.
#[derive(Clone, Debug, PartialEq)]
pub struct ServerSessionResult<'m, 'o> {
    pub event: Option<ServerSessionEvent<'m>>,
    pub records: Records<'o>,
}

/// A server's side of one RTMP connection, after the handshake.
///
/// `clock` is the host's clock in milliseconds; records carry the time since the start. `out` is a buffer that the host
/// lends to a call: records are written to its front, and what is handed back lies in it. If it is too short the
/// refusal is 12, nothing has happened, and the call may be made again with a longer one. [`ServerSession::ROOM`] is
/// always enough but for audio and video sends.
///
/// It is 5,712 bytes of plain numbers. A clone is an independent session in the same state.
#[derive(Clone)]
pub struct ServerSession {
    arrays: ffi::Session,
}

type Outcome<T> = Result<T, ServerSessionError>;

impl ServerSession {
    /// A buffer of so many bytes is long enough for every call but audio and video sends, which need 13 bytes more
    /// than their data.
    pub const ROOM: usize = 1024;

    /// Starts a session. The records are to be sent first of all.
    pub fn new<'o>(
        config: &ServerSessionConfig,
        clock: u64,
        out: &'o mut [u8],
    ) -> Outcome<(ServerSession, Records<'o>)> {
        let mut session = ServerSession { arrays: ffi::Session::unstarted() };
        let records = session.restart(config, clock, out)?;
        Ok((session, records))
    }

    /// Starts over in the same place. If that is refused, the session is that of a start at clock 0 with an empty
    /// version.
    pub fn restart<'o>(
        &mut self,
        config: &ServerSessionConfig,
        clock: u64,
        out: &'o mut [u8],
    ) -> Outcome<Records<'o>> {
        let mut answer = ffi::Answer::new();
        let number = self.arrays.start(
            config.chunk_size,
            config.window_ack_size,
            config.peer_bandwidth,
            config.send_on_bw_done_message_on_start,
            &config.fms_version,
            clock,
            out,
            &mut answer,
        );
        records_of(number, &answer, out)
    }

    /// Does what a message asks. It stands for rml_rtmp's `handle_input`, behind the chunk layer.
    ///
    /// Audio and video take the way of [`handle_media`](ServerSession::handle_media), and copy no session.
    pub fn handle_message<'m, 'o>(
        &mut self,
        message: &MessagePayload<'m>,
        clock: u64,
        out: &'o mut [u8],
    ) -> Outcome<ServerSessionResult<'m, 'o>> {
        let MessagePayload { timestamp, type_id, message_stream_id: StreamId(stream), data } = *message;
        if matches!(type_id, message_type::AUDIO | message_type::VIDEO) {
            let mut names = MediaNames::new();
            let event = self.handle_media(message, &mut names)?.map(ServerSessionEvent::from);
            return Ok(ServerSessionResult { event, records: Records::new(&[]) });
        }
        let mut answer = ffi::Answer::new();
        let number = self.arrays.handle_message(type_id, stream, timestamp, clock, data, out, &mut answer);
        let records = outcome(number, &answer, out)?;
        Ok(ServerSessionResult { event: ServerSessionEvent::of(&answer, data), records })
    }

    /// An audio or a video message, without an allocation. There is an event where the session is connected and the
    /// stream is publishing. A message of another type raises nothing here.
    pub fn handle_media<'n, 'm>(
        &self,
        message: &MessagePayload<'m>,
        names: &'n mut MediaNames,
    ) -> Outcome<Option<MediaEvent<'n, 'm>>> {
        let MessagePayload { timestamp, type_id, message_stream_id: StreamId(stream), data } = *message;
        let number = self.arrays.handle_media(type_id, stream, timestamp, &mut names.0);
        ServerSessionError::check(number, 0, 0)?;
        Ok(MediaEvent::of(&names.0, data))
    }

    /// Accepts a request that an event named.
    pub fn accept_request<'o>(
        &mut self,
        request_id: RequestId,
        clock: u64,
        out: &'o mut [u8],
    ) -> Outcome<Records<'o>> {
        let mut answer = ffi::Answer::new();
        let number = self.arrays.accept_request(request_id.0, clock, out, &mut answer);
        records_of(number, &answer, out)
    }

    /// Rejects a request that an event named. Code and description are at most 256 bytes each.
    pub fn reject_request<'o>(
        &mut self,
        request_id: RequestId,
        code: &[u8],
        description: &[u8],
        clock: u64,
        out: &'o mut [u8],
    ) -> Outcome<Records<'o>> {
        let mut answer = ffi::Answer::new();
        let number = self.arrays.reject_request(request_id.0, code, description, clock, out, &mut answer);
        records_of(number, &answer, out)
    }

    /// Says that a playing stream is complete.
    pub fn finish_playing<'o>(&mut self, stream_id: StreamId, clock: u64, out: &'o mut [u8]) -> Outcome<Records<'o>> {
        let mut answer = ffi::Answer::new();
        let number = self.arrays.finish_playing(stream_id.0, clock, out, &mut answer);
        records_of(number, &answer, out)
    }

    /// One record. The stream need not exist; likewise for audio and video.
    pub fn send_metadata<'o>(
        &self,
        stream_id: StreamId,
        metadata: &StreamMetadata,
        clock: u64,
        out: &'o mut [u8],
    ) -> Outcome<Records<'o>> {
        let (number, written) = self.arrays.send_metadata(stream_id.0, &metadata.rows(), clock, out);
        sent(number, written, out)
    }

    /// One record. It carries the timestamp that is given.
    pub fn send_video_data<'o>(
        &self,
        stream_id: StreamId,
        data: &[u8],
        timestamp: u32,
        can_be_dropped: bool,
        out: &'o mut [u8],
    ) -> Outcome<Records<'o>> {
        let (number, written) = self.arrays.send_video_data(stream_id.0, timestamp, can_be_dropped, data, out);
        sent(number, written, out)
    }

    /// One record. It carries the timestamp that is given.
    pub fn send_audio_data<'o>(
        &self,
        stream_id: StreamId,
        data: &[u8],
        timestamp: u32,
        can_be_dropped: bool,
        out: &'o mut [u8],
    ) -> Outcome<Records<'o>> {
        let (number, written) = self.arrays.send_audio_data(stream_id.0, timestamp, can_be_dropped, data, out);
        sent(number, written, out)
    }

    /// One record, and the timestamp that it carries. The peer's answer raises `PingResponseReceived` with it.
    pub fn send_ping_request<'o>(&self, clock: u64, out: &'o mut [u8]) -> Outcome<(Records<'o>, u32)> {
        let (number, written, timestamp) = self.arrays.send_ping_request(clock, out);
        Ok((sent(number, written, out)?, timestamp))
    }

    /// The session as numbers and bytes, to be looked at or stored.
    pub fn arrays(&self) -> &ffi::Session {
        &self.arrays
    }

    /// The same, to be written. Whatever is written is safe: arrays that hold no session are refused with 15. Rows past
    /// a count are blank. What is written there stays, and is not read, until a new stream or request takes the row.
    pub fn arrays_mut(&mut self) -> &mut ffi::Session {
        &mut self.arrays
    }
}

/// A session that was stored. Nothing is tested here: its calls do that, and refuse with 15.
impl From<ffi::Session> for ServerSession {
    fn from(arrays: ffi::Session) -> ServerSession {
        ServerSession { arrays }
    }
}

/// What an answer wrote, if it is no refusal.
fn outcome<'o>(number: u32, answer: &ffi::Answer, out: &'o [u8]) -> Outcome<Records<'o>> {
    let n = &answer.numbers;
    ServerSessionError::check(number, n[number::ACTION], n[number::ACTION_STREAM])?;
    Ok(Records::new(&out[..n[number::WRITTEN] as usize]))
}

/// The same for the calls that raise no event.
fn records_of<'o>(number: u32, answer: &ffi::Answer, out: &'o [u8]) -> Outcome<Records<'o>> {
    debug_assert_eq!(answer.numbers[number::EVENT], 0, "only a message raises an event");
    outcome(number, answer, out)
}

fn sent(number: u32, written: u64, out: &[u8]) -> Outcome<Records<'_>> {
    ServerSessionError::check(number, 0, 0)?;
    Ok(Records::new(&out[..written as usize]))
}
