//! An RTMP server session: a message comes in, at most one event and some records go out.
//!
//! The session is the server session of rml_rtmp 0.8.0, written anew in the language Rattle and proved against a
//! scope, "document 01", that says for every input what has to come out. This crate is the host's side of the compiled
//! library: it lends the buffers, and gives numbers their Rust names. Nothing is decided here.
//!
//! # A connection
//!
//! ```
//! use chungvator::{
//!     message_type, MessagePayload, RequestId, ServerSession, ServerSessionConfig, ServerSessionError,
//!     ServerSessionEvent, StreamId,
//! };
//!
//! # fn main() -> Result<(), ServerSessionError> {
//! // The clock is the host's, in milliseconds. The buffer is lent to each call.
//! let mut out = [0; ServerSession::ROOM];
//! let (mut session, records) = ServerSession::new(&ServerSessionConfig::new(), 1_000, &mut out)?;
//! for record in records {
//!     // to the chunk layer, in this order
//!     assert!(record.force_uncompressed && record.message.timestamp == 0);
//! }
//!
//! let data = b"\x02\0\x07connect\0\x3f\xf0\0\0\0\0\0\0\x03\0\x03app\x02\0\x05bench\0\0\x09";
//! let message = MessagePayload { timestamp: 0, type_id: message_type::COMMAND, message_stream_id: StreamId(0), data };
//! let result = session.handle_message(&message, 1_020, &mut out)?;
//! let asked = ServerSessionEvent::ConnectionRequested { request_id: RequestId(0), app_name: b"bench".to_vec() };
//! assert_eq!(result.event, Some(asked));
//!
//! let mut records = session.accept_request(RequestId(0), 1_025, &mut out)?;
//! assert_eq!(records.as_bytes().len(), 219);
//! let record = records.next().unwrap();
//! assert_eq!((record.message.type_id, record.message.timestamp), (message_type::COMMAND, 25));
//!
//! // A request is decided once.
//! let refusal = session.accept_request(RequestId(0), 1_030, &mut out).unwrap_err();
//! assert_eq!(refusal, ServerSessionError::InvalidRequestId);
//! assert_eq!(refusal.number(), 10);
//! # Ok(())
//! # }
//! ```
//!
//! # Where it differs from rml_rtmp
//!
//! - **Messages, not chunk bytes.** [`ServerSession::handle_message`] stands for `handle_input`, and takes one whole
//!   message. Handshake, chunks and acknowledgements are the host's. What goes out is a [`Record`]: a message with the
//!   two flags that rml_rtmp's chunk serializer asks for.
//! - **Buffers and a clock are lent.** Records are written into a buffer of the host, and handed back as a part of it.
//!   A call reads no clock; it is told the time.
//! - **One result.** Where rml_rtmp hands back a list of results, there is at most one event, and [`Records`].
//!   Decisions and sends raise none, so they hand back records alone.
//! - **Fixed limits.** 16 streams and 16 waiting requests at a time; names of 128 bytes; bodies of 4,096 bytes but for
//!   audio and video. What goes beyond is refused and changes nothing. No call allocates in the session; the owned
//!   names of an event do, and [`ServerSession::handle_media`] has none.
//! - **Names are bytes.** App names, stream keys and encoders are `Vec<u8>` or `&[u8]`. They are as the client sent
//!   them: document 01 does not ask for UTF-8.
//! - **Numbered refusals.** [`ServerSessionError`] has document 01's fifteen. A refusal leaves the session as it was,
//!   so a host may go on after it. Only 11 from an accept uses the request up.
//! - **Numbers kept apart.** [`StreamId`] and [`RequestId`] are types of their own.
//! - **Less is raised.** There are no events for acknowledgements, chunk sizes, releaseStream and unknown commands,
//!   and no messages that are handed back unhandled. docs/DIFFERENCES.md of the repository has each difference.
//!
//! # Frames
//!
//! Nearly all messages are audio and video. `handle_message` does not copy the session for them. To be spared the
//! names' allocation as well, lend a [`MediaNames`]:
//!
//! ```
//! # use chungvator::*;
//! # let mut out = [0; ServerSession::ROOM];
//! # let (session, _) = ServerSession::new(&ServerSessionConfig::new(), 0, &mut out).unwrap();
//! let mut names = MediaNames::new();
//! let message =
//!     MessagePayload { timestamp: 40, type_id: message_type::VIDEO, message_stream_id: StreamId(1), data: b"\x17.." };
//! match session.handle_media(&message, &mut names) {
//!     Ok(Some(event)) => println!("{} bytes for {}", event.data.len(), event.stream_key.escape_ascii()),
//!     Ok(None) => println!("stream 1 is not publishing"),
//!     Err(refusal) => println!("{refusal}"),
//! }
//! ```
//!
//! # A session is numbers
//!
//! A [`ServerSession`] is four arrays. It can be cloned, stored and put back, by [`ServerSession::arrays`] and
//! `From<ffi::Session>`. Nothing that stands in them is trusted: what is no session is refused with 15, by every call,
//! and stays as it is.
//!
//! ```
//! # use chungvator::*;
//! # let mut out = [0; ServerSession::ROOM];
//! # let (session, _) = ServerSession::new(&ServerSessionConfig::new(), 0, &mut out).unwrap();
//! let mut stored = session.arrays().clone();
//! assert!(ServerSession::from(stored.clone()).send_ping_request(5, &mut out).is_ok());
//! stored.facts[places::fact::STREAM_COUNT] = 17;
//! let refusal = ServerSession::from(stored).send_ping_request(5, &mut out).unwrap_err();
//! assert_eq!(refusal, ServerSessionError::BadSession);
//! ```
//!
//! # Linking
//!
//! The library is `libhost.a`, made by `scripts/build library` in the repository. It is looked for in
//! `../target/staticlib`, seen from this crate, or in the folder that `CHUNGVATOR_LIB` names.
#![deny(unsafe_code)]

mod config;
mod error;
mod event;
#[allow(unsafe_code)]
pub mod ffi;
mod message;
mod metadata;
pub mod places;
mod record;
mod session;

pub use config::ServerSessionConfig;
pub use error::{Action, ServerSessionError};
pub use event::{MediaEvent, MediaKind, MediaNames, PlayStartValue, PublishMode, ServerSessionEvent};
pub use message::{message_type, MessagePayload, RequestId, StreamId};
pub use metadata::StreamMetadata;
pub use record::{Record, Records};
pub use session::{ServerSession, ServerSessionResult};
