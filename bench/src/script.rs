//! What both sides are told to do: the same messages, and the same calls in the same order.

/// The version and the two readings of the clock: at the start, and in every call after it.
pub const VERSION: &str = "FMS/3,0,1,1233";
pub const STARTED: u64 = 1_000;
pub const NOW: u64 = 61_500;

pub struct Message {
    pub kind: u8,
    pub stream: u32,
    pub timestamp: u32,
    pub body: Vec<u8>,
}

/// A message is named by its place in the script.
#[derive(Clone, Copy, Debug)]
pub enum Call {
    /// A frame that comes in. Ours takes it by `handle_media`, which asks for no body.
    Media(usize),
    /// Anything that comes in. Ours takes it by `handle_message`.
    Message(usize),
    /// The accept of the request with this number.
    Accept(u32),
    /// The message goes out as audio.
    SendAudio(usize),
}

#[derive(Default)]
pub struct Script {
    pub messages: Vec<Message>,
    /// What makes a started session the one that is saved. Not timed.
    pub before: Vec<Call>,
    /// So many copies of the saved session are made for a pass. Not timed.
    pub copies: usize,
    /// What each copy gets in a pass. Timed.
    pub calls: Vec<Call>,
    /// So many of these calls are one step.
    pub calls_a_step: usize,
}

impl Script {
    pub fn add(&mut self, kind: u8, stream: u32, timestamp: u32, body: Vec<u8>) -> usize {
        self.messages.push(Message { kind, stream, timestamp, body });
        self.messages.len() - 1
    }

    pub fn add_command(&mut self, stream: u32, body: Vec<u8>) -> usize {
        self.add(20, stream, 0, body)
    }

    /// The steps of one pass.
    pub fn steps(&self) -> usize {
        self.copies * self.calls.len() / self.calls_a_step
    }
}
