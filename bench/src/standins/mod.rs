//! The oracle's stand-ins, with four leaner ones: `bytes`, `clock`, `input` and `order`.
//! docs/BENCH.md says why.

pub mod bytes;
pub mod clock;
pub mod input;
pub mod order;

#[path = "../../../oracle/src/standins/chunk_io.rs"]
pub mod chunk_io;
#[path = "../../../oracle/src/standins/conversions.rs"]
mod conversions;
#[path = "../../../oracle/src/standins/messages.rs"]
pub mod messages;
#[path = "../../../oracle/src/standins/rml_amf0.rs"]
pub mod rml_amf0;
#[path = "../../../oracle/src/standins/session_state.rs"]
pub mod session_state;
#[path = "../../../oracle/src/standins/time.rs"]
pub mod time;
