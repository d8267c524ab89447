//! Before anything is timed: do both sides answer the same? Different work is not worth comparing.

use crate::known::records;
use crate::ours::Ours;
use crate::rust::Rust;
use crate::script::{Call, Script};
use crate::side::{Shown, Side};
use crate::standins::rml_amf0::read_all;

/// Plays the whole script once on both sides, and names the first call that they answer differently.
pub fn check(script: &Script) -> Result<(), String> {
    let (mut ours, mut rust) = (Ours::new(&script.messages), Rust::new(&script.messages));
    let (mut our_session, mut rust_session) = (ours.start(), rust.start());
    for call in script.before.iter().chain(&script.calls) {
        let our = ours.show(&mut our_session, *call);
        let their = rust.show(&mut rust_session, *call);
        if !same(&our, &their) {
            return Err(format!("{call:?} is answered differently\nours: {our:x?}\nRust: {their:x?}"));
        }
        if is_frame(*call, script) && !our.event.contains("DataReceived") {
            return Err(format!("{call:?} is a frame, and raises nothing"));
        }
    }
    Ok(())
}

fn is_frame(call: Call, script: &Script) -> bool {
    matches!(call, Call::Media(at) | Call::Message(at) if matches!(script.messages[at].kind, 8 | 9))
}

fn same(a: &Shown, b: &Shown) -> bool {
    a.event == b.event && a.streams == b.streams && a.requests == b.requests && same_out(&a.out, &b.out)
}

/// The same records. Properties are compared as sets, since the Rust's map has no order.
fn same_out(a: &[u8], b: &[u8]) -> bool {
    let (Some(a), Some(b)) = (records(a), records(b)) else {
        return false;
    };
    a.len() == b.len() && a.iter().zip(b).all(|(a, b)| same_record(a, b))
}

fn same_record(a: &[u8], b: &[u8]) -> bool {
    let ((a_head, a_body), (b_head, b_body)) = (a.split_at(13), b.split_at(13));
    let is_amf0 = matches!(a_head[0], 18 | 20);
    a_head == b_head && (a_body == b_body || is_amf0 && read_all(a_body).is_ok_and(|values| Ok(values) == read_all(b_body)))
}
