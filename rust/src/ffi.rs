//! The C boundary, as include/chungvator.h has it, and the only unsafe code of this crate.
//!
//! [`ServerSession`](crate::ServerSession) is what a host uses. This layer is public for those who keep a session's
//! arrays themselves, and for tests: its calls are safe, take the arrays as they stand, and return document 01's
//! number. [`crate::places`] says what stands where.
//!
//! Why the calls are safe, whatever the arrays hold: the library's contracts have no premises, so it may be handed any
//! numbers and bytes. What is left to the caller is that every pointer is good for its size and that what is written
//! overlaps with nothing else. References and slices of Rust are just that.

type Facts = [u64; 10];
type Streams = [[u64; 4]; 16];
type Requests = [[u64; 6]; 16];
type Names = [[u8; 128]; 34];
type Numbers = [u64; 16];
type Described = [[u64; 11]; 2];
type Words = [[u8; 128]; 3];
type MediaNumbers = [u64; 4];
type MediaWords = [[u8; 128]; 2];

/// A session's four arrays.
#[derive(Clone, PartialEq, Eq)]
#[repr(C)]
pub struct Session {
    pub facts: Facts,
    pub streams: Streams,
    pub requests: Requests,
    pub names: Names,
}

/// What most calls answer.
#[derive(Clone, PartialEq, Eq)]
#[repr(C)]
pub struct Answer {
    pub numbers: Numbers,
    pub described: Described,
    pub words: Words,
}

/// What a frame's own call answers.
#[derive(Clone, PartialEq, Eq)]
#[repr(C)]
pub struct Media {
    pub numbers: MediaNumbers,
    pub words: MediaWords,
}

/// Metadata that is handed in.
#[derive(Clone, PartialEq, Eq)]
#[repr(C)]
pub struct Metadata {
    pub described: Described,
    pub encoder: [u8; 128],
}

// A reference to an array is a pointer to its first element. A slice is two words.
extern "C" {
    fn chungvator_start(
        facts: &mut Facts, streams: &mut Streams, requests: &mut Requests, names: &mut Names,
        chunk_size: u32, window_ack_size: u32, peer_bandwidth: u32, on_bw_done: u32,
        fms_version: *const u8, fms_version_len: usize, clock: u64, out: *mut u8, out_len: usize,
        numbers: &mut Numbers, described: &mut Described, words: &mut Words,
    ) -> u32;
    fn chungvator_handle_message(
        facts: &mut Facts, streams: &mut Streams, requests: &mut Requests, names: &mut Names,
        kind: u8, stream: u32, timestamp: u32, clock: u64, body: *const u8, body_len: usize,
        out: *mut u8, out_len: usize, numbers: &mut Numbers, described: &mut Described, words: &mut Words,
    ) -> u32;
    fn chungvator_handle_media(
        facts: &Facts, streams: &Streams, requests: &Requests, names: &Names,
        kind: u8, stream: u32, timestamp: u32, media: &mut MediaNumbers, words: &mut MediaWords,
    ) -> u32;
    fn chungvator_accept_request(
        facts: &mut Facts, streams: &mut Streams, requests: &mut Requests, names: &mut Names,
        request: u32, clock: u64, out: *mut u8, out_len: usize,
        numbers: &mut Numbers, described: &mut Described, words: &mut Words,
    ) -> u32;
    fn chungvator_reject_request(
        facts: &mut Facts, streams: &mut Streams, requests: &mut Requests, names: &mut Names,
        request: u32, code: *const u8, code_len: usize, description: *const u8, description_len: usize,
        clock: u64, out: *mut u8, out_len: usize,
        numbers: &mut Numbers, described: &mut Described, words: &mut Words,
    ) -> u32;
    fn chungvator_finish_playing(
        facts: &mut Facts, streams: &mut Streams, requests: &mut Requests, names: &mut Names,
        stream: u32, clock: u64, out: *mut u8, out_len: usize,
        numbers: &mut Numbers, described: &mut Described, words: &mut Words,
    ) -> u32;
    fn chungvator_send_audio_data(
        facts: &Facts, streams: &Streams, requests: &Requests, names: &Names,
        stream: u32, timestamp: u32, droppable: u32, body: *const u8, body_len: usize,
        out: *mut u8, out_len: usize, written: &mut u64,
    ) -> u32;
    fn chungvator_send_video_data(
        facts: &Facts, streams: &Streams, requests: &Requests, names: &Names,
        stream: u32, timestamp: u32, droppable: u32, body: *const u8, body_len: usize,
        out: *mut u8, out_len: usize, written: &mut u64,
    ) -> u32;
    fn chungvator_send_metadata(
        facts: &Facts, streams: &Streams, requests: &Requests, names: &Names,
        stream: u32, described: &Described, encoder: &[u8; 128], clock: u64,
        out: *mut u8, out_len: usize, written: &mut u64,
    ) -> u32;
    fn chungvator_send_ping_request(
        facts: &Facts, streams: &Streams, requests: &Requests, names: &Names,
        clock: u64, out: *mut u8, out_len: usize, written: &mut u64, timestamp: &mut u32,
    ) -> u32;
}

impl Answer {
    /// All zeros. Every call that takes it writes all of it.
    pub const fn new() -> Answer {
        Answer { numbers: [0; 16], described: [[0; 11]; 2], words: [[0; 128]; 3] }
    }
}

impl Media {
    /// All zeros. A call writes all of it.
    pub const fn new() -> Media {
        Media { numbers: [0; 4], words: [[0; 128]; 2] }
    }
}

impl Metadata {
    /// Nothing is set.
    pub const fn new() -> Metadata {
        Metadata { described: [[0; 11]; 2], encoder: [0; 128] }
    }
}

/// All zeros, as [`Answer::new`].
impl Default for Answer {
    fn default() -> Answer {
        Answer::new()
    }
}

/// All zeros, as [`Media::new`].
impl Default for Media {
    fn default() -> Media {
        Media::new()
    }
}

/// Nothing is set, as [`Metadata::new`].
impl Default for Metadata {
    fn default() -> Metadata {
        Metadata::new()
    }
}

impl Session {
    /// All zeros, for a start to write over.
    pub const fn unstarted() -> Session {
        Session { facts: [0; 10], streams: [[0; 4]; 16], requests: [[0; 6]; 16], names: [[0; 128]; 34] }
    }

    /// Writes over whatever stood here.
    #[allow(clippy::too_many_arguments)] // as the boundary has it
    pub fn start(
        &mut self,
        chunk_size: u32,
        window_ack_size: u32,
        peer_bandwidth: u32,
        on_bw_done: bool,
        fms_version: &[u8],
        clock: u64,
        out: &mut [u8],
        answer: &mut Answer,
    ) -> u32 {
        let Session { facts, streams, requests, names } = self;
        // SAFETY: the arrays have the header's sizes; each slice goes with its own length; `self`, `out` and `answer`
        // are borrowed apart and exclusively, and the version is only read.
        unsafe {
            chungvator_start(
                facts, streams, requests, names, chunk_size, window_ack_size, peer_bandwidth, on_bw_done.into(),
                fms_version.as_ptr(), fms_version.len(), clock, out.as_mut_ptr(), out.len(),
                &mut answer.numbers, &mut answer.described, &mut answer.words,
            )
        }
    }

    /// The whole way, also for audio and video, which [`Session::handle_media`] answers alike and faster.
    #[allow(clippy::too_many_arguments)] // as the boundary has it
    pub fn handle_message(
        &mut self,
        kind: u8,
        stream: u32,
        timestamp: u32,
        clock: u64,
        body: &[u8],
        out: &mut [u8],
        answer: &mut Answer,
    ) -> u32 {
        let Session { facts, streams, requests, names } = self;
        // SAFETY: as in `start`; the body is only read.
        unsafe {
            chungvator_handle_message(
                facts, streams, requests, names, kind, stream, timestamp, clock, body.as_ptr(), body.len(),
                out.as_mut_ptr(), out.len(), &mut answer.numbers, &mut answer.described, &mut answer.words,
            )
        }
    }

    pub fn handle_media(&self, kind: u8, stream: u32, timestamp: u32, media: &mut Media) -> u32 {
        let Session { facts, streams, requests, names } = self;
        // SAFETY: the arrays have the header's sizes; the session is only read, and `media` is borrowed exclusively.
        unsafe {
            chungvator_handle_media(
                facts, streams, requests, names, kind, stream, timestamp, &mut media.numbers, &mut media.words,
            )
        }
    }

    pub fn accept_request(&mut self, request: u32, clock: u64, out: &mut [u8], answer: &mut Answer) -> u32 {
        let Session { facts, streams, requests, names } = self;
        // SAFETY: as in `start`, without a version.
        unsafe {
            chungvator_accept_request(
                facts, streams, requests, names, request, clock, out.as_mut_ptr(), out.len(),
                &mut answer.numbers, &mut answer.described, &mut answer.words,
            )
        }
    }

    pub fn reject_request(
        &mut self,
        request: u32,
        code: &[u8],
        description: &[u8],
        clock: u64,
        out: &mut [u8],
        answer: &mut Answer,
    ) -> u32 {
        let Session { facts, streams, requests, names } = self;
        // SAFETY: as in `start`; code and description are only read.
        unsafe {
            chungvator_reject_request(
                facts, streams, requests, names, request, code.as_ptr(), code.len(),
                description.as_ptr(), description.len(), clock, out.as_mut_ptr(), out.len(),
                &mut answer.numbers, &mut answer.described, &mut answer.words,
            )
        }
    }

    pub fn finish_playing(&mut self, stream: u32, clock: u64, out: &mut [u8], answer: &mut Answer) -> u32 {
        let Session { facts, streams, requests, names } = self;
        // SAFETY: as in `start`, without a version.
        unsafe {
            chungvator_finish_playing(
                facts, streams, requests, names, stream, clock, out.as_mut_ptr(), out.len(),
                &mut answer.numbers, &mut answer.described, &mut answer.words,
            )
        }
    }

    /// The number, and how many bytes were written; likewise for the other sends.
    pub fn send_audio_data(
        &self,
        stream: u32,
        timestamp: u32,
        droppable: bool,
        body: &[u8],
        out: &mut [u8],
    ) -> (u32, u64) {
        let Session { facts, streams, requests, names } = self;
        let mut written = 0;
        // SAFETY: session and body are only read; `out` is borrowed exclusively and goes with its own length; the
        // count is a local.
        let number = unsafe {
            chungvator_send_audio_data(
                facts, streams, requests, names, stream, timestamp, droppable.into(), body.as_ptr(), body.len(),
                out.as_mut_ptr(), out.len(), &mut written,
            )
        };
        (number, written)
    }

    pub fn send_video_data(
        &self,
        stream: u32,
        timestamp: u32,
        droppable: bool,
        body: &[u8],
        out: &mut [u8],
    ) -> (u32, u64) {
        let Session { facts, streams, requests, names } = self;
        let mut written = 0;
        // SAFETY: as in `send_audio_data`.
        let number = unsafe {
            chungvator_send_video_data(
                facts, streams, requests, names, stream, timestamp, droppable.into(), body.as_ptr(), body.len(),
                out.as_mut_ptr(), out.len(), &mut written,
            )
        };
        (number, written)
    }

    pub fn send_metadata(&self, stream: u32, metadata: &Metadata, clock: u64, out: &mut [u8]) -> (u32, u64) {
        let Session { facts, streams, requests, names } = self;
        let mut written = 0;
        // SAFETY: as in `send_audio_data`; the metadata's arrays have the header's sizes and are only read.
        let number = unsafe {
            chungvator_send_metadata(
                facts, streams, requests, names, stream, &metadata.described, &metadata.encoder, clock,
                out.as_mut_ptr(), out.len(), &mut written,
            )
        };
        (number, written)
    }

    /// The number, how many bytes were written, and the timestamp in the ping.
    pub fn send_ping_request(&self, clock: u64, out: &mut [u8]) -> (u32, u64, u32) {
        let Session { facts, streams, requests, names } = self;
        let (mut written, mut timestamp) = (0, 0);
        // SAFETY: as in `send_audio_data`; the timestamp is a local too.
        let number = unsafe {
            chungvator_send_ping_request(
                facts, streams, requests, names, clock, out.as_mut_ptr(), out.len(), &mut written, &mut timestamp,
            )
        };
        (number, written, timestamp)
    }
}
