//! The stored trace gives the stored text, byte for byte, through this crate too.

mod player;

use std::path::Path;

fn stored(file: &str) -> Vec<u8> {
    let path = Path::new(env!("CARGO_MANIFEST_DIR")).join("..").join(file);
    std::fs::read(&path).unwrap_or_else(|e| panic!("{}: {e}", path.display()))
}

fn compare(trace: &str, text: &str) {
    let (played, text) = (player::play(&stored(trace)), stored(text));
    let text = String::from_utf8(text).expect("the text is ASCII");
    for (n, (ours, theirs)) in played.lines().zip(text.lines()).enumerate() {
        assert_eq!(ours, theirs, "line {} of {trace}", n + 1);
    }
    assert_eq!(played.len(), text.len(), "{trace}");
}

#[test]
fn the_stored_answers() {
    compare("crates/trace/stdin", "crates/trace/stdout");
}

#[test]
fn the_sample_day() {
    compare("examples/day.trace", "examples/day.txt");
}

#[test]
fn what_ends_a_run() {
    let start = [&[1][..], &4096u32.to_be_bytes(), &[0; 8], &[0], &[0; 8], &66_560u32.to_be_bytes(), &[0; 2]].concat();
    let after = |rest: &[u8]| player::play(&[&start, rest].concat()).lines().last().unwrap().to_string();
    assert_eq!(player::play(b""), "");
    assert_eq!(player::play(&[9]), "bad trace at 1\n");
    assert!(player::play(&start).starts_with("start 0 out=01000004"));
    assert!(after(&[9]).starts_with("state connected=0 app=none version=- start=0 encoding=0000000000000000 "));
    assert_eq!(after(&[0x0B]), "bad trace at 2");
    assert_eq!(after(&[9, 8, 0]), "bad trace at 3");
    assert_eq!(after(&[0x0A, 10, 0, 0, 0, 0, 0]), "bad trace at 2");
}
