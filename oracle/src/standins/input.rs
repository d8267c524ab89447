//! In place of reading chunks: the bytes of a call are whole messages.

use super::messages::MessagePayload;
use super::time::RtmpTimestamp;

#[derive(Debug)]
pub struct ChunkDeserializationError;

#[derive(Clone)]
pub struct ChunkDeserializer {
    waiting: Vec<u8>,
}

impl ChunkDeserializer {
    pub fn new() -> ChunkDeserializer {
        ChunkDeserializer { waiting: Vec::new() }
    }

    /// The session hands its bytes over with the first asking, and then asks until nothing is left.
    pub fn get_next_message(&mut self, bytes: &[u8]) -> Result<Option<MessagePayload>, ChunkDeserializationError> {
        self.waiting.extend(bytes);
        let Some((head, rest)) = self.waiting.split_at_checked(13) else {
            return Ok(None);
        };
        let number = |at: usize| u32::from_be_bytes([head[at], head[at + 1], head[at + 2], head[at + 3]]);
        let Some((body, rest)) = rest.split_at_checked(number(9) as usize) else {
            return Ok(None);
        };
        let payload = MessagePayload {
            type_id: head[0],
            message_stream_id: number(1),
            timestamp: RtmpTimestamp::new(number(5)),
            data: body.to_vec(),
        };
        self.waiting = rest.to_vec();
        Ok(Some(payload))
    }

    /// Chunks are left out, so their size means nothing here.
    pub fn set_max_chunk_size(&mut self, _size: usize) -> Result<(), ChunkDeserializationError> {
        Ok(())
    }
}
