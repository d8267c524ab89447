//! A client plays a stream: the host sends metadata and frames, asks for a sign of life, and ends the play.
//!
//!     cargo run --example play

#[path = "client/mod.rs"]
mod client;
#[path = "show/mod.rs"]
mod show;

use chungvator::{message_type::*, ServerSessionEvent::*};
use chungvator::{MessagePayload, ServerSession, ServerSessionConfig, ServerSessionError, StreamId, StreamMetadata};

fn main() -> Result<(), ServerSessionError> {
    let mut out = [0; 4_096];
    let (mut session, records) = ServerSession::new(&ServerSessionConfig::new(), 0, &mut out)?;
    println!("start");
    show::sent(records);

    come_in(&mut session, 10, "connect", COMMAND, 0, &client::connect(b"bench"))?;
    come_in(&mut session, 20, "createStream", COMMAND, 0, &client::create_stream())?;
    come_in(&mut session, 30, "play pin7", COMMAND, 1, &client::play(b"pin7"))?;

    println!("\nthe host sends");
    let stream = StreamId(1);
    let metadata = StreamMetadata {
        video_width: Some(1280),
        video_height: Some(720),
        video_frame_rate: Some(29.97),
        encoder: Some(b"bench camera".to_vec()),
        ..StreamMetadata::new()
    };
    show::sent(session.send_metadata(stream, &metadata, 40, &mut out)?);
    show::sent(session.send_audio_data(stream, &[0xAF; 100], 0, false, &mut out)?);
    show::sent(session.send_video_data(stream, &[0x17; 2_000], 0, false, &mut out)?);
    show::sent(session.send_video_data(stream, &[0x27; 800], 33, true, &mut out)?);

    println!("\nthe host asks whether the client is there");
    let (records, timestamp) = session.send_ping_request(90, &mut out)?;
    show::sent(records);
    let answer = [&[0, 7], &timestamp.to_be_bytes()[..]].concat();
    come_in(&mut session, 95, "the client answers", USER_CONTROL, 0, &answer)?;

    println!("\nthe host has no more to send");
    show::sent(session.finish_playing(stream, 100, &mut out)?);
    println!("\na second time");
    match session.finish_playing(stream, 100, &mut out) {
        Ok(records) => show::sent(records),
        Err(refusal) => println!("    refused with {}: {refusal}", refusal.number()),
    }
    come_in(&mut session, 110, "deleteStream", COMMAND, 0, &client::delete_stream(1))
}

/// A message of the client. Whatever it asks for is accepted.
fn come_in(
    session: &mut ServerSession,
    clock: u64,
    what: &str,
    type_id: u8,
    stream: u32,
    data: &[u8],
) -> Result<(), ServerSessionError> {
    println!("\n{what}");
    let mut out = [0; ServerSession::ROOM];
    let message = MessagePayload { timestamp: clock as u32, type_id, message_stream_id: StreamId(stream), data };
    let result = session.handle_message(&message, clock, &mut out)?;
    show::sent(result.records);
    if let Some(event) = result.event {
        show::raised(&event);
        if let ConnectionRequested { request_id, .. } | PlayStreamRequested { request_id, .. } = event {
            show::sent(session.accept_request(request_id, clock, &mut out)?);
        }
    }
    Ok(())
}
