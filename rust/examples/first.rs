use chungvator::{message_type, MessagePayload, ServerSession, ServerSessionConfig, ServerSessionError};
use chungvator::{ServerSessionEvent::ConnectionRequested, StreamId};

fn main() -> Result<(), ServerSessionError> {
    let mut out = [0; ServerSession::ROOM];
    let (mut session, records) = ServerSession::new(&ServerSessionConfig::new(), 0, &mut out)?;
    println!("to send: {} records", records.count());

    // A connect, as the chunk layer hands it on: the name, transaction 1, and an object with the app.
    let data = b"\x02\0\x07connect\0\x3f\xf0\0\0\0\0\0\0\x03\0\x03app\x02\0\x05bench\0\0\x09";
    let message = MessagePayload { timestamp: 0, type_id: message_type::COMMAND, message_stream_id: StreamId(0), data };
    let result = session.handle_message(&message, 20, &mut out)?;
    let Some(ConnectionRequested { request_id, app_name }) = result.event else { return Ok(()) };
    println!("request {}: connect to {}", request_id.0, app_name.escape_ascii());

    for record in session.accept_request(request_id, 25, &mut out)? {
        println!("to send: type {}, {} bytes", record.message.type_id, record.message.data.len());
    }
    // A request is decided once.
    if let Err(refusal) = session.accept_request(request_id, 30, &mut out) {
        println!("refused with {}: {refusal}", refusal.number());
    }
    Ok(())
}
