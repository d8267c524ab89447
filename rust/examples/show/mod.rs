//! Prints what the session raises, and what goes to the client.

use chungvator::message_type::{COMMAND, DATA};
use chungvator::{Record, Records, ServerSessionEvent};

pub fn raised(event: &ServerSessionEvent) {
    use ServerSessionEvent::*;
    match event {
        ConnectionRequested { request_id, app_name } => {
            println!("    request {}: to connect to {}", request_id.0, app_name.escape_ascii());
        }
        PublishStreamRequested { request_id, stream_key, mode, .. } => {
            println!("    request {}: to publish {}, {mode:?}", request_id.0, stream_key.escape_ascii());
        }
        PlayStreamRequested { request_id, stream_key, start_at, .. } => {
            println!("    request {}: to play {}, {start_at:?}", request_id.0, stream_key.escape_ascii());
        }
        PublishStreamFinished { stream_key, .. } => println!("    {} is finished", stream_key.escape_ascii()),
        PlayStreamFinished { stream_key, .. } => println!("    {} is not played any more", stream_key.escape_ascii()),
        StreamMetadataChanged { stream_key, metadata, .. } => {
            let (width, height) = (metadata.video_width, metadata.video_height);
            println!("    {} has width {width:?} and height {height:?}", stream_key.escape_ascii());
        }
        AudioDataReceived { stream_key, data, .. } | VideoDataReceived { stream_key, data, .. } => {
            println!("    a frame of {} bytes for {}", data.len(), stream_key.escape_ascii());
        }
        PingResponseReceived { timestamp } => println!("    answer to the ping of {timestamp} ms"),
    }
}

pub fn sent(records: Records) {
    for Record { message, force_uncompressed, can_be_dropped } in records {
        let mut more = String::new();
        if force_uncompressed {
            more += ", uncompressed header";
        }
        if can_be_dropped {
            more += ", may be dropped";
        }
        if matches!(message.type_id, COMMAND | DATA) {
            more += &texts(message.data);
        }
        let (kind, stream, at) = (message.type_id, message.message_stream_id.0, message.timestamp);
        println!("    <- type {kind} on stream {stream} at {at} ms, {} bytes{more}", message.data.len());
    }
}

/// The AMF0 strings of a body, found by their marker and length.
fn texts(mut data: &[u8]) -> String {
    let mut all = String::new();
    while let [marker, rest @ ..] = data {
        data = rest;
        let Some(([high, low], text)) = rest.split_first_chunk() else { break };
        let Some(text) = text.get(..usize::from(*high) << 8 | usize::from(*low)) else { continue };
        if *marker == 0x02 && text.iter().all(|byte| (b' '..=b'~').contains(byte)) {
            all += &format!(" | {}", text.escape_ascii());
            data = &rest[2 + text.len()..];
        }
    }
    all
}
