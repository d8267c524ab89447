//! Stand-ins for what the shown source leans on and does not show. Document 01 decides what they do.
//! The benchmark takes these files too, but for `bytes`, `clock`, `input` and `order`, which it has leaner.

pub mod chunk_io;
pub mod clock;
mod conversions;
pub mod input;
pub mod messages;
pub mod order;
pub mod rml_amf0;
pub mod session_state;
pub mod time;

pub mod bytes {
    pub type Bytes = Vec<u8>;
}
