//! Runs a trace through the shown Rust and writes the trace's text. See README.md.

#[cfg(rust_source)]
mod known;
#[cfg(rust_source)]
mod oracle;
#[cfg(rust_source)]
mod standins;
#[cfg(all(test, rust_source))]
mod tests;
#[cfg(rust_source)]
mod text;
#[cfg(rust_source)]
mod trace;

#[cfg(rust_source)]
include!(concat!(env!("OUT_DIR"), "/shown.rs"));

#[cfg(rust_source)]
fn main() -> std::io::Result<()> {
    use std::io::{stdin, stdout, BufWriter, Read};
    let mut bytes = Vec::new();
    stdin().read_to_end(&mut bytes)?;
    let alone = std::env::args().any(|x| x == "--alone");
    oracle::run(&bytes, alone, &mut BufWriter::new(stdout().lock()))
}

#[cfg(not(rust_source))]
fn main() {
    eprintln!("the Rust source is not at hand");
    std::process::exit(3);
}
