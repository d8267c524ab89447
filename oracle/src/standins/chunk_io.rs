//! In place of chunks: a packet is document 01's record, and the input is whole messages.

pub use super::input::{ChunkDeserializationError, ChunkDeserializer};
use super::messages::MessagePayload;
use super::time::RtmpTimestamp;

#[derive(Debug)]
pub struct ChunkSerializationError;

#[derive(Debug, PartialEq)]
pub struct Packet {
    pub bytes: Vec<u8>,
}

#[derive(Clone)]
pub struct ChunkSerializer;

impl ChunkSerializer {
    pub fn new() -> ChunkSerializer {
        ChunkSerializer
    }

    /// Document 01 fixes this record: type 1 on stream 0, with bit 0 set.
    pub fn set_max_chunk_size(&mut self, size: u32, time: RtmpTimestamp) -> Result<Packet, ChunkSerializationError> {
        let data = size.to_be_bytes().to_vec().into();
        let payload = MessagePayload { timestamp: time, type_id: 1, message_stream_id: 0, data };
        self.serialize(&payload, true, false)
    }

    pub fn serialize(
        &mut self,
        message: &MessagePayload,
        force_uncompressed: bool,
        can_be_dropped: bool,
    ) -> Result<Packet, ChunkSerializationError> {
        let mut bytes = Vec::with_capacity(13 + message.data.len());
        bytes.push(message.type_id);
        bytes.extend(&(message.data.len() as u32).to_be_bytes()[1..]);
        bytes.extend(message.timestamp.value.to_be_bytes());
        bytes.extend(message.message_stream_id.to_be_bytes());
        bytes.push(force_uncompressed as u8 | (can_be_dropped as u8) << 1);
        bytes.extend_from_slice(&message.data);
        Ok(Packet { bytes })
    }
}

/// The bytes of one message, as the reader in `input` takes them.
pub fn frame(type_id: u8, stream: u32, timestamp: u32, body: &[u8]) -> Vec<u8> {
    let mut bytes = vec![type_id];
    bytes.extend(stream.to_be_bytes());
    bytes.extend(timestamp.to_be_bytes());
    bytes.extend((body.len() as u32).to_be_bytes());
    bytes.extend(body);
    bytes
}
