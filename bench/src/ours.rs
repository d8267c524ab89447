//! Our side: the proved library behind its C boundary.

use crate::ffi::{Answer, Media, Session};
use crate::script::{Call, Message, NOW, STARTED, VERSION};
use crate::side::{Shown, Side};
use crate::text::hex;
use std::hint::black_box;
use std::str::from_utf8;

/// As much room as a trace may lend.
const ROOM: usize = 66_560;

/// What is lent to every call: one buffer and one answer, never cleared.
pub struct Ours<'a> {
    messages: &'a [Message],
    out: Vec<u8>,
    answer: Answer,
    media: Media,
    written: u64,
}

impl Ours<'_> {
    pub fn new(messages: &[Message]) -> Ours<'_> {
        Ours {
            messages,
            out: vec![0; ROOM],
            answer: Answer { numbers: [0; 16], described: [[0; 11]; 2], names: [[0; 128]; 3] },
            media: Media { numbers: [0; 4], names: [[0; 128]; 2] },
            written: 0,
        }
    }

    fn call(&mut self, session: &mut Session, call: Call) -> u32 {
        match call {
            Call::Media(at) => {
                let Message { kind, stream, timestamp, .. } = self.messages[at];
                session.handle_media(kind, stream, timestamp, &mut self.media)
            }
            Call::Message(at) => {
                let Message { kind, stream, timestamp, ref body } = self.messages[at];
                session.handle_message(kind, stream, timestamp, NOW, body, &mut self.out, &mut self.answer)
            }
            Call::Accept(request) => session.accept_request(request, NOW, &mut self.out, &mut self.answer),
            Call::SendAudio(at) => {
                let Message { stream, timestamp, ref body, .. } = self.messages[at];
                session.send_audio_data(stream, timestamp, false, body, &mut self.out, &mut self.written)
            }
        }
    }

    /// The event of an answer, in the words of the trace's text.
    fn event(&self, call: Call) -> String {
        let numbers = &self.answer.numbers;
        let word = |names: &[[u8; 128]], place: usize, length: u64| hex(from_utf8(&names[place][..length as usize]).unwrap());
        let app = || word(&self.answer.names, 0, numbers[14]);
        let key = || word(&self.answer.names, 1, numbers[15]);
        let frame = |kind: u64, app: String, key: String, timestamp: u64, at: usize| {
            let name = if kind == 7 { "AudioDataReceived" } else { "VideoDataReceived" };
            format!("{name} app={app} key={key} timestamp={timestamp} length={}", self.messages[at].body.len())
        };
        match call {
            Call::Media(at) => {
                let Media { numbers: [kind, timestamp, app, key], ref names } = self.media;
                match kind {
                    7 | 8 => frame(kind, word(names, 0, app), word(names, 1, key), timestamp, at),
                    _ => format!("event {kind}"),
                }
            }
            Call::SendAudio(_) => String::new(),
            Call::Message(_) | Call::Accept(_) => match (numbers[4], call) {
                (0, _) => String::new(),
                (1, _) => format!("ConnectionRequested request={} app={}", numbers[5], app()),
                (2, _) => {
                    let mode = ["live", "append", "record"][numbers[6] as usize];
                    format!("PublishStreamRequested request={} app={} key={} mode={mode}", numbers[5], app(), key())
                }
                (kind @ (7 | 8), Call::Message(at)) => frame(kind, app(), key(), numbers[13], at),
                (kind, _) => format!("event {kind}"),
            },
        }
    }
}

impl Side for Ours<'_> {
    type Session = Session;

    fn start(&mut self) -> Session {
        let (session, number) = Session::start(VERSION.as_bytes(), STARTED, &mut self.out, &mut self.answer);
        assert!(number == 0, "our start was refused with {number}");
        session
    }

    fn play(&mut self, session: &mut Session, call: Call) {
        black_box(self.call(session, call));
    }

    fn show(&mut self, session: &mut Session, call: Call) -> Shown {
        let number = self.call(session, call);
        let written = match call {
            Call::Media(_) => 0,
            Call::SendAudio(_) => self.written,
            Call::Message(_) | Call::Accept(_) => self.answer.numbers[3],
        };
        let (streams, requests) = session.counts();
        let event = if number == 0 { self.event(call) } else { format!("refused with {number}") };
        Shown { event, out: self.out[..written as usize].to_vec(), streams, requests }
    }
}
