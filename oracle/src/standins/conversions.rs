//! What thiserror's `#[from]` would write.

use super::{chunk_io::*, messages::*};
use crate::sessions::ServerSessionError as E;

impl From<ChunkDeserializationError> for E {
    fn from(e: ChunkDeserializationError) -> E {
        E::ChunkDeserializationError(e)
    }
}

impl From<ChunkSerializationError> for E {
    fn from(e: ChunkSerializationError) -> E {
        E::ChunkSerializationError(e)
    }
}

impl From<MessageSerializationError> for E {
    fn from(e: MessageSerializationError) -> E {
        E::MessageSerializationError(e)
    }
}

impl From<MessageDeserializationError> for E {
    fn from(e: MessageDeserializationError) -> E {
        E::MessageDeserializationError(e)
    }
}
