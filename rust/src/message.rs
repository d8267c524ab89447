//! Messages, and the numbers that streams and requests go by.

/// A stream's number. A type of its own, so that a request's number is not taken for it.
#[derive(Clone, Copy, Debug, PartialEq, Eq, PartialOrd, Ord, Hash)]
pub struct StreamId(pub u32);

/// A request's number.
#[derive(Clone, Copy, Debug, PartialEq, Eq, PartialOrd, Ord, Hash)]
pub struct RequestId(pub u32);

/// A whole message, as the chunk layer of a host hands it on or takes it.
#[derive(Clone, Copy, Debug, PartialEq, Eq)]
pub struct MessagePayload<'a> {
    /// In milliseconds.
    pub timestamp: u32,
    pub type_id: u8,
    pub message_stream_id: StreamId,
    pub data: &'a [u8],
}

/// The types that a session looks at. Any other is done and does nothing.
pub mod message_type {
    pub const USER_CONTROL: u8 = 4;
    pub const AUDIO: u8 = 8;
    pub const VIDEO: u8 = 9;
    pub const DATA: u8 = 18;
    pub const COMMAND: u8 = 20;
}
