//! The C boundary of the proved library, as its header has it, and the only unsafe code of the benchmark.

type Facts = [u64; 10];
type Streams = [[u64; 4]; 16];
type Requests = [[u64; 6]; 16];
type Names = [[u8; 128]; 34];
type Numbers = [u64; 16];
type Described = [[u64; 11]; 2];
type Words = [[u8; 128]; 3];

/// A session by value.
#[derive(Clone)]
#[repr(C)]
pub struct Session {
    facts: Facts,
    streams: Streams,
    requests: Requests,
    names: Names,
}

/// What most calls answer.
#[repr(C)]
pub struct Answer {
    pub numbers: Numbers,
    pub described: Described,
    pub names: Words,
}

/// What a frame's own call answers: event, timestamp, and the lengths of app and key; then app and key.
pub struct Media {
    pub numbers: [u64; 4],
    pub names: [[u8; 128]; 2],
}

// A slice is two words. A reference to an array is a pointer to its first element.
#[allow(dead_code)] // the whole boundary stands here, and the benchmark calls half of it
extern "C" {
    fn chungvator_start(facts: &mut Facts, streams: &mut Streams, requests: &mut Requests, names: &mut Names,
        chunk_size: u32, window_ack_size: u32, peer_bandwidth: u32, on_bw_done: u32, version: *const u8, version_len: usize,
        clock: u64, out: *mut u8, out_len: usize, numbers: &mut Numbers, described: &mut Described, words: &mut Words) -> u32;
    fn chungvator_handle_message(facts: &mut Facts, streams: &mut Streams, requests: &mut Requests, names: &mut Names,
        kind: u8, stream: u32, timestamp: u32, clock: u64, body: *const u8, body_len: usize,
        out: *mut u8, out_len: usize, numbers: &mut Numbers, described: &mut Described, words: &mut Words) -> u32;
    fn chungvator_handle_media(facts: &Facts, streams: &Streams, requests: &Requests, names: &Names,
        kind: u8, stream: u32, timestamp: u32, media: &mut [u64; 4], words: &mut [[u8; 128]; 2]) -> u32;
    fn chungvator_accept_request(facts: &mut Facts, streams: &mut Streams, requests: &mut Requests, names: &mut Names,
        request: u32, clock: u64, out: *mut u8, out_len: usize, numbers: &mut Numbers, described: &mut Described, words: &mut Words) -> u32;
    fn chungvator_reject_request(facts: &mut Facts, streams: &mut Streams, requests: &mut Requests, names: &mut Names,
        request: u32, code: *const u8, code_len: usize, description: *const u8, description_len: usize,
        clock: u64, out: *mut u8, out_len: usize, numbers: &mut Numbers, described: &mut Described, words: &mut Words) -> u32;
    fn chungvator_finish_playing(facts: &mut Facts, streams: &mut Streams, requests: &mut Requests, names: &mut Names,
        stream: u32, clock: u64, out: *mut u8, out_len: usize, numbers: &mut Numbers, described: &mut Described, words: &mut Words) -> u32;
    fn chungvator_send_audio_data(facts: &Facts, streams: &Streams, requests: &Requests, names: &Names,
        stream: u32, timestamp: u32, droppable: u32, body: *const u8, body_len: usize,
        out: *mut u8, out_len: usize, written: &mut u64) -> u32;
    fn chungvator_send_video_data(facts: &Facts, streams: &Streams, requests: &Requests, names: &Names,
        stream: u32, timestamp: u32, droppable: u32, body: *const u8, body_len: usize,
        out: *mut u8, out_len: usize, written: &mut u64) -> u32;
    fn chungvator_send_metadata(facts: &Facts, streams: &Streams, requests: &Requests, names: &Names,
        stream: u32, described: &Described, encoder: &[u8; 128],
        clock: u64, out: *mut u8, out_len: usize, written: &mut u64) -> u32;
    fn chungvator_send_ping_request(facts: &Facts, streams: &Streams, requests: &Requests, names: &Names,
        clock: u64, out: *mut u8, out_len: usize, written: &mut u64, timestamp: &mut u32) -> u32;
}

/// Each call gives document 01's number.
impl Session {
    /// Chunk size 4096, window and bandwidth 2500000, no onBWDone.
    pub fn start(version: &[u8], clock: u64, out: &mut [u8], answer: &mut Answer) -> (Session, u32) {
        let mut session = Session { facts: [0; 10], streams: [[0; 4]; 16], requests: [[0; 6]; 16], names: [[0; 128]; 34] };
        let Session { facts, streams, requests, names } = &mut session;
        // Safe: the arrays have the header's sizes, and the two slices are handed over with their own counts.
        let number = unsafe {
            chungvator_start(
                facts, streams, requests, names, 4096, 2_500_000, 2_500_000, 0, version.as_ptr(), version.len(),
                clock, out.as_mut_ptr(), out.len(), &mut answer.numbers, &mut answer.described, &mut answer.names,
            )
        };
        (session, number)
    }

    pub fn handle_message(&mut self, kind: u8, stream: u32, timestamp: u32, clock: u64, body: &[u8], out: &mut [u8], answer: &mut Answer) -> u32 {
        let Session { facts, streams, requests, names } = self;
        // Safe: as above. Body, buffer, session and answer are borrowed apart, so none lies in another.
        unsafe {
            chungvator_handle_message(
                facts, streams, requests, names, kind, stream, timestamp, clock, body.as_ptr(), body.len(),
                out.as_mut_ptr(), out.len(), &mut answer.numbers, &mut answer.described, &mut answer.names,
            )
        }
    }

    pub fn handle_media(&self, kind: u8, stream: u32, timestamp: u32, media: &mut Media) -> u32 {
        let Session { facts, streams, requests, names } = self;
        // Safe: all six are arrays of the header's sizes. The session is lent to be read alone.
        unsafe {
            chungvator_handle_media(facts, streams, requests, names, kind, stream, timestamp, &mut media.numbers, &mut media.names)
        }
    }

    pub fn accept_request(&mut self, request: u32, clock: u64, out: &mut [u8], answer: &mut Answer) -> u32 {
        let Session { facts, streams, requests, names } = self;
        // Safe: as handle_message, without a body.
        unsafe {
            chungvator_accept_request(
                facts, streams, requests, names, request, clock,
                out.as_mut_ptr(), out.len(), &mut answer.numbers, &mut answer.described, &mut answer.names,
            )
        }
    }

    pub fn send_audio_data(&self, stream: u32, timestamp: u32, droppable: bool, body: &[u8], out: &mut [u8], written: &mut u64) -> u32 {
        let Session { facts, streams, requests, names } = self;
        // Safe: as handle_message. The session is lent to be read alone, and the count is a number of ours.
        unsafe {
            chungvator_send_audio_data(
                facts, streams, requests, names, stream, timestamp, droppable as u32, body.as_ptr(), body.len(),
                out.as_mut_ptr(), out.len(), written,
            )
        }
    }

    /// How many streams there are, and how many requests wait.
    pub fn counts(&self) -> (u64, u64) {
        (self.facts[8], self.facts[9])
    }
}
