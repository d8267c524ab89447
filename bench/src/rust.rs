//! The Rust's side: the shown source, built with the stand-ins.

use crate::script::{Call, Message, NOW, STARTED, VERSION};
use crate::sessions::{ServerSession, ServerSessionConfig, ServerSessionError, ServerSessionResult};
use crate::side::{Shown, Side};
use crate::standins::bytes::Bytes;
use crate::standins::chunk_io::{frame, Packet};
use crate::standins::time::RtmpTimestamp;
use crate::standins::{clock, input};
use std::hint::black_box;
use std::rc::Rc;

pub struct Rust<'a> {
    messages: &'a [Message],
    /// All messages end to end, where a host's reads would have put them.
    buffer: Rc<[u8]>,
    /// Of each message the bytes to hand in, and the body to send.
    whole: Vec<Bytes>,
    bodies: Vec<Bytes>,
}

enum Given {
    Results(Vec<ServerSessionResult>),
    Packet(Packet),
}

impl Rust<'_> {
    pub fn new(messages: &[Message]) -> Rust<'_> {
        let framed: Vec<_> = messages.iter().map(|m| frame(m.kind, m.stream, m.timestamp, &m.body)).collect();
        let buffer: Rc<[u8]> = framed.concat().into();
        let mut rest = &buffer[..];
        let (mut whole, mut bodies) = (Vec::new(), Vec::new());
        for bytes in &framed {
            let (message, later) = rest.split_at(bytes.len());
            whole.push(Bytes::part(&buffer, message));
            bodies.push(Bytes::part(&buffer, &message[13..]));
            rest = later;
        }
        Rust { messages, buffer, whole, bodies }
    }

    fn call(&self, session: &mut ServerSession, call: Call) -> Result<Given, ServerSessionError> {
        Ok(match call {
            Call::Media(at) | Call::Message(at) => Given::Results(session.handle_input(&self.whole[at])?),
            Call::Accept(request) => Given::Results(session.accept_request(request)?),
            Call::SendAudio(at) => {
                let Message { stream, timestamp, .. } = self.messages[at];
                Given::Packet(session.send_audio_data(stream, self.bodies[at].clone(), RtmpTimestamp::new(timestamp), false)?)
            }
        })
    }
}

impl Side for Rust<'_> {
    type Session = ServerSession;

    fn start(&mut self) -> ServerSession {
        input::lend(self.buffer.clone());
        clock::set(STARTED);
        let config = ServerSessionConfig {
            fms_version: VERSION.to_string(),
            chunk_size: 4096,
            peer_bandwidth: 2_500_000,
            window_ack_size: 2_500_000,
            send_on_bw_done_message_on_start: false,
        };
        let (session, _) = ServerSession::new(config).expect("a start");
        clock::set(NOW);
        session
    }

    fn play(&mut self, session: &mut ServerSession, call: Call) {
        drop(black_box(self.call(session, call).expect("an answer")));
    }

    fn show(&mut self, session: &mut ServerSession, call: Call) -> Shown {
        let given = self.call(session, call);
        let counts = session.counts();
        let mut shown = Shown { event: String::new(), out: Vec::new(), streams: counts.streams as u64, requests: counts.requests as u64 };
        match given {
            Ok(Given::Packet(packet)) => shown.out = packet.bytes,
            Ok(Given::Results(results)) => {
                for result in results {
                    match result {
                        ServerSessionResult::OutboundResponse(packet) => shown.out.extend(packet.bytes),
                        ServerSessionResult::UnhandleableMessageReceived(_) => shown.event += "not handled",
                        ServerSessionResult::RaisedEvent(event) => {
                            shown.event += &event.text();
                            if let (Call::Media(at) | Call::Message(at), Some(data)) = (call, event.data()) {
                                assert!(data[..] == self.messages[at].body, "the event's data is not the body");
                            }
                        }
                    }
                }
            }
            Err(error) => shown.event = format!("{error:?}"),
        }
        shown
    }
}
