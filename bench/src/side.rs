//! What the benchmark asks of either side.

use crate::script::{Call, Script};

pub trait Side {
    type Session: Clone;

    fn start(&mut self) -> Self::Session;

    /// One call, its answer made and given back. This is what is timed.
    fn play(&mut self, session: &mut Self::Session, call: Call);

    /// One call, and what it answered. This is what is checked.
    fn show(&mut self, session: &mut Self::Session, call: Call) -> Shown;

    /// The session that the timed calls start from.
    fn saved(&mut self, script: &Script) -> Self::Session {
        let mut session = self.start();
        for call in &script.before {
            self.play(&mut session, *call);
        }
        session
    }
}

/// An answer and what it left behind.
#[derive(Debug, PartialEq)]
pub struct Shown {
    /// As the trace's text has it; or why there is none.
    pub event: String,
    pub out: Vec<u8>,
    pub streams: u64,
    pub requests: u64,
}
