//! Plays a trace on standard input by the calls of this crate, and writes its text. `compare` runs it.

#[path = "../tests/player/mod.rs"]
mod player;

use std::io::{self, Read, Write};

fn main() -> io::Result<()> {
    let mut trace = Vec::new();
    io::stdin().lock().read_to_end(&mut trace)?;
    io::stdout().lock().write_all(player::play(&trace).as_bytes())
}
