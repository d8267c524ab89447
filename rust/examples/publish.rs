//! A client publishes a stream: what comes in, what the session says of it, and what goes back.
//!
//!     cargo run --example publish

#[path = "client/mod.rs"]
mod client;
#[path = "show/mod.rs"]
mod show;

use chungvator::{message_type::*, ServerSessionEvent::*};
use chungvator::{MediaNames, MessagePayload, ServerSession, ServerSessionConfig, ServerSessionError, StreamId};

fn main() -> Result<(), ServerSessionError> {
    let mut out = [0; ServerSession::ROOM];
    let (mut session, records) = ServerSession::new(&ServerSessionConfig::new(), 1_000, &mut out)?;
    println!("start");
    show::sent(records);

    let size = [("width", client::number(1280.0)), ("height", client::number(720.0))];
    let day = [
        ("connect to an app that is not ours", COMMAND, 0, client::connect(b"kitchen")),
        ("connect", COMMAND, 0, client::connect(b"bench")),
        ("createStream", COMMAND, 0, client::create_stream()),
        ("publish pin7", COMMAND, 1, client::publish(b"pin7", "live")),
        ("metadata", DATA, 1, client::set_data_frame(&size)),
        ("audio frame", AUDIO, 1, vec![0xAF; 100]),
        ("video frame", VIDEO, 1, vec![0x17; 2_000]),
        ("bytes that are no AMF0", COMMAND, 1, vec![0xFF]),
        ("closeStream", COMMAND, 1, client::close_stream(1)),
        ("video frame that comes too late", VIDEO, 1, vec![0x27; 800]),
        ("deleteStream", COMMAND, 0, client::delete_stream(1)),
    ];
    for (n, (what, type_id, stream, data)) in day.iter().enumerate() {
        let timestamp = 20 * n as u32;
        println!("\n{what}");
        let message = MessagePayload { timestamp, type_id: *type_id, message_stream_id: StreamId(*stream), data };
        let done = match *type_id {
            AUDIO | VIDEO => frame(&session, &message),
            _ => host(&mut session, &message, 1_000 + u64::from(timestamp)),
        };
        // A refusal leaves the session as it was, so the host may go on or hang up as it likes.
        if let Err(refusal) = done {
            println!("    refused with {}: {refusal}", refusal.number());
        }
    }
    Ok(())
}

/// What a host does with a message: sends what is to be sent, and decides what is asked.
fn host(session: &mut ServerSession, message: &MessagePayload, clock: u64) -> Result<(), ServerSessionError> {
    let mut out = [0; ServerSession::ROOM];
    let result = session.handle_message(message, clock, &mut out)?;
    show::sent(result.records);
    let Some(event) = result.event else { return Ok(()) };
    show::raised(&event);
    match event {
        ConnectionRequested { request_id, app_name } if app_name != b"bench" => {
            let code = b"NetConnection.Connect.Rejected";
            show::sent(session.reject_request(request_id, code, b"No such app", clock, &mut out)?);
        }
        ConnectionRequested { request_id, .. } | PublishStreamRequested { request_id, .. } => {
            show::sent(session.accept_request(request_id, clock, &mut out)?);
        }
        _ => {}
    }
    Ok(())
}

/// Frames are most of the traffic. This way nothing is allocated, and the session is only read.
fn frame(session: &ServerSession, message: &MessagePayload) -> Result<(), ServerSessionError> {
    let mut names = MediaNames::new();
    match session.handle_media(message, &mut names)? {
        Some(event) => {
            let (key, bytes, at) = (event.stream_key.escape_ascii(), event.data.len(), event.timestamp);
            println!("    {:?}, {bytes} bytes at {at} ms, to be filed under {key}", event.kind);
        }
        None => println!("    nothing: the stream is not publishing"),
    }
    Ok(())
}
