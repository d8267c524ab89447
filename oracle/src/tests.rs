//! What a trace can't show of the Rust, since a trace's clock stands still within a call and a call
//! holds one message. The numbers are the rows of docs/DIFFERENCES.md.

use crate::sessions::{ServerSession, ServerSessionConfig, ServerSessionResult};
use crate::standins::chunk_io::frame;
use crate::standins::clock;
use std::time::Duration;

fn micros(us: u64) -> Duration {
    Duration::from_micros(us)
}

fn start() -> (ServerSession, Vec<u32>) {
    let (session, results) = ServerSession::new(ServerSessionConfig::new()).unwrap();
    (session, times(&results))
}

/// The timestamps of the records.
fn times(results: &[ServerSessionResult]) -> Vec<u32> {
    let mut times = Vec::new();
    for result in results {
        if let ServerSessionResult::OutboundResponse(packet) = result {
            times.push(u32::from_be_bytes(packet.bytes[4..8].try_into().unwrap()));
        }
    }
    times
}

/// A command with transaction 0: its name, its object and its arguments as AMF0 bytes.
fn command(name: &str, rest: &[u8]) -> Vec<u8> {
    let mut body = vec![2, 0, name.len() as u8];
    body.extend(name.as_bytes());
    body.extend([0; 9]);
    body.extend(rest);
    body
}

const APP: &[u8] = b"\x03\x00\x03app\x02\x00\x00\x00\x00\x09";
const KEY: &[u8] = b"\x05\x02\x00\x01k";
const NULL: &[u8] = b"\x05";

/// Row 25: the stream is made, and neither its answer nor its number is handed out.
#[test]
fn a_later_failure_loses_what_earlier_messages_gave() {
    let (mut session, _) = start();
    let mut bytes = frame(20, 0, 0, &command("createStream", NULL));
    bytes.extend(frame(20, 0, 0, &command("connect", NULL)));
    assert!(session.handle_input(&bytes).is_err());
    assert_eq!(session.counts().streams, 1);
}

/// Row 3: the count is reported in a record that the same call then drops.
#[test]
fn a_failure_loses_the_acknowledgement() {
    let (mut session, _) = start();
    session.handle_input(&frame(5, 0, 0, &[0, 0, 0, 20])).unwrap();
    assert!(session.handle_input(&frame(20, 0, 0, &command("connect", NULL))).is_err());
    assert!(session.handle_input(&frame(4, 0, 0, &[0, 99])).unwrap().is_empty());
    assert_eq!(session.handle_input(&frame(4, 0, 0, &[0, 99])).unwrap().len(), 1);
}

/// Row 26: the Reset record, made last, stands first.
#[test]
fn an_accepted_play_reads_the_clock_five_times() {
    let (mut session, _) = start();
    session.handle_input(&frame(20, 0, 0, &command("connect", APP))).unwrap();
    session.accept_request(0).unwrap();
    session.handle_input(&frame(20, 0, 0, &command("createStream", NULL))).unwrap();
    session.handle_input(&frame(20, 1, 0, &command("play", KEY))).unwrap();
    clock::set_step(micros(1000));
    let results = session.accept_request(1).unwrap();
    clock::set_step(Duration::ZERO);
    assert_eq!(times(&results), [4, 0, 1, 2, 3]);
}

/// Row 27: the chunk size record has a fixed 0.
#[test]
fn a_start_reads_the_clock_for_each_record_but_the_first() {
    clock::set_step(micros(1000));
    let (_, times) = start();
    clock::set_step(Duration::ZERO);
    assert_eq!(times, [0, 1, 2, 3, 4]);
}

/// Row 28: 0.9 ms to 1.0 ms is 0 here; two floored readings would give 1.
#[test]
fn the_difference_is_floored_and_not_the_readings() {
    clock::set(micros(900));
    let (mut session, _) = start();
    clock::set(micros(1000));
    assert_eq!(session.send_ping_request().unwrap().1.value, 0);
}
