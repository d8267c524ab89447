//! The header's calls by C, and the same calls by this crate: every number and every byte is the same.

mod c;
#[path = "../examples/client/mod.rs"]
mod client;

use chungvator::ffi::{Answer, Media, Metadata, Session};

/// A session with what is lent to its calls, and the text that tests/c/calls.c prints.
struct Calls {
    session: Session,
    answer: Answer,
    out: [u8; 1024],
    text: String,
}

fn hex(bytes: &[u8]) -> String {
    bytes.iter().map(|byte| format!("{byte:02x}")).collect()
}

/// A struct's bytes in C: its arrays end to end, since none of these structs has gaps.
fn numbers<'a>(rows: impl IntoIterator<Item = &'a [u64]>) -> Vec<u8> {
    rows.into_iter().flatten().flat_map(|n| n.to_ne_bytes()).collect()
}

impl Calls {
    fn done(&mut self, name: &str, number: u32) {
        let s = &self.session;
        let rows = numbers([&s.facts[..], s.streams.as_flattened(), s.requests.as_flattened()]);
        let session = hex(&[&rows[..], s.names.as_flattened()].concat());
        self.text += &format!("{name} {number} session={session} out={}", hex(&self.out));
    }

    fn answered(&mut self, name: &str, number: u32) {
        self.done(name, number);
        let rows = numbers([&self.answer.numbers[..], self.answer.described.as_flattened()]);
        self.text += &format!(" answer={}\n", hex(&[&rows[..], self.answer.words.as_flattened()].concat()));
    }

    fn sent(&mut self, name: &str, (number, written): (u32, u64)) {
        self.done(name, number);
        self.text += &format!(" written={written}\n");
    }

    fn command(&mut self, name: &str, stream: u32, body: &[u8]) {
        let n = self.session.handle_message(20, stream, 11, 1012, body, &mut self.out, &mut self.answer);
        self.answered(name, n);
    }

    fn accept(&mut self, request: u32, clock: u64) {
        let n = self.session.accept_request(request, clock, &mut self.out, &mut self.answer);
        self.answered("accept", n);
    }
}

#[test]
fn every_call_does_the_same_from_c() {
    let Some(printed) = c::run("calls.c") else { return };
    let mut c = Calls { session: Session::unstarted(), answer: Answer::new(), out: [0; 1024], text: String::new() };
    let n = c.session.start(4096, 1, 2, true, b"V/1", 1000, &mut c.out, &mut c.answer);
    c.answered("start", n);
    let wanted = |name: &str, rest: &[Vec<u8>]| client::command(name, 1.0, rest);
    let app = client::object(&[("app", client::string(b"bench"))]);
    c.command("connect", 0, &wanted("connect", &[app]));
    c.accept(0, 1013);
    c.command("create", 0, &wanted("createStream", &[client::null()]));
    let (live, null) = (client::string(b"live"), client::null());
    c.command("publish", 1, &wanted("publish", &[null.clone(), client::string(b"pin7"), live.clone()]));
    let n = c.session.reject_request(1, b"code", b"words", 1014, &mut c.out, &mut c.answer);
    c.answered("reject", n);
    c.command("play", 1, &wanted("play", &[null.clone(), client::string(b"pin8")]));
    c.accept(2, 1015);

    let mut metadata = Metadata::new();
    metadata.described = [[1; 11], std::array::from_fn(|i| i as u64 + 1)];
    metadata.encoder[..12].copy_from_slice(b"bench camera");
    let done = c.session.send_metadata(5, &metadata, 1016, &mut c.out);
    c.sent("metadata", done);
    let done = c.session.send_audio_data(6, 21, true, b"frame", &mut c.out);
    c.sent("audio", done);
    let done = c.session.send_video_data(7, 22, false, b"fram", &mut c.out);
    c.sent("video", done);
    let (n, written, timestamp) = c.session.send_ping_request(1017, &mut c.out);
    c.text += &format!("{timestamp} ");
    c.sent("ping", (n, written));
    let n = c.session.finish_playing(1, 1018, &mut c.out, &mut c.answer);
    c.answered("finish", n);

    c.command("publish", 1, &wanted("publish", &[null, client::string(b"pin9"), live]));
    c.accept(3, 1019);
    let mut media = Media::new();
    let n = c.session.handle_media(9, 1, 33, &mut media);
    c.done("media", n);
    let shown = hex(&[&numbers([&media.numbers[..]])[..], media.words.as_flattened()].concat());
    c.text += &format!(" media={shown}\n");

    for (ours, theirs) in c.text.lines().zip(printed.lines()) {
        assert!(ours.contains(" 0 session="), "{}", &ours[..20]);
        assert!(ours == theirs, "{} by this crate, {} by C", &ours[..20], &theirs[..20]);
    }
    assert_eq!(c.text, printed);
}
