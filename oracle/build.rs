//! Copies the shown Rust into OUT_DIR with named textual edits. An edit that does not match as
//! often as it says ends the build. Nothing of the Rust is kept in this repository.

use std::path::{Path, PathBuf};
use std::{env, fs};

struct Source {
    file: &'static str,
    text: String,
}

impl Source {
    fn read(root: &Path, file: &'static str) -> Source {
        let path = root.join(file);
        println!("cargo:rerun-if-changed={}", path.display());
        match fs::read_to_string(&path) {
            Ok(text) => Source { file, text },
            Err(e) => panic!("{file}: {e}"),
        }
    }

    fn edit(mut self, name: &str, from: &str, to: &str, times: usize) -> Source {
        let found = self.text.matches(from).count();
        assert!(found == times, "edit `{name}` of {}: `{from}` found {found} times, not {times}", self.file);
        self.text = self.text.replace(from, to);
        self
    }

    /// `use NAME::` of the 2015 edition becomes a path of this crate.
    fn paths(mut self, names: &[&str]) -> Source {
        for name in names {
            let home = if *name == "sessions" { "crate" } else { "crate::standins" };
            let to = format!("use {home}::{name}::");
            self = self.edit(&format!("path {name}"), &format!("use {name}::"), &to, 1);
        }
        self
    }

    fn write(self, out: &Path) {
        let path = out.join(self.file);
        fs::create_dir_all(path.parent().unwrap()).unwrap();
        fs::write(path, self.text).unwrap();
    }
}

fn main() {
    println!("cargo:rerun-if-changed=build.rs");
    shown(&PathBuf::from(env::var("CARGO_MANIFEST_DIR").unwrap()));
}

/// `home` is the oracle's folder. The benchmark builds the same Rust by this function.
pub fn shown(home: &Path) {
    let peek = home.join("src/peek.rs");
    println!("cargo:rerun-if-changed={}", peek.display());
    println!("cargo:rerun-if-env-changed=CHUNGVATOR_RUST_SRC");
    println!("cargo:rustc-check-cfg=cfg(rust_source)");

    let root = match env::var_os("CHUNGVATOR_RUST_SRC") {
        Some(folder) => PathBuf::from(folder),
        None => home.join("../../shared/docs/src"),
    };
    // An absent folder is watched too, so that it is seen once it is there.
    println!("cargo:rerun-if-changed={}", root.display());
    if !root.is_dir() {
        return;
    }
    println!("cargo:rustc-cfg=rust_source");

    let out = PathBuf::from(env::var("OUT_DIR").unwrap());
    fs::write(out.join("shown.rs"), "#[allow(warnings)]\npub mod sessions;\n").unwrap();

    Source::read(&root, "sessions/mod.rs")
        .edit("client left out", "mod client", "// client", 1)
        .edit("client names left out", "pub use self::client::", "// ", 7)
        .paths(&["rml_amf0"])
        .write(&out);

    Source::read(&root, "sessions/server/mod.rs")
        .paths(&["bytes", "chunk_io", "messages", "rml_amf0", "sessions", "time"])
        .edit("clock", "use std::time::SystemTime", "use crate::standins::clock::SystemTime", 1)
        .edit("session state", "mod session_state", "use crate::standins::session_state", 1)
        .edit("no tests", "mod tests;", "mod tests {}", 1)
        .edit("session can be copied", "pub struct ServerSession {", "#[derive(Clone)]\npub struct ServerSession {", 1)
        .edit("session can be read", "mod active_stream", "mod peek;\nmod active_stream", 1)
        .write(&out);

    Source::read(&root, "sessions/server/active_stream.rs")
        .edit("state can be copied", "pub enum", "#[derive(Clone)]\npub enum", 1)
        .edit("stream can be copied", "pub struct", "#[derive(Clone)]\npub struct", 1)
        .write(&out);

    Source::read(&root, "sessions/server/outstanding_requests.rs")
        .edit("request can be copied", "pub enum", "#[derive(Clone)]\npub enum", 1)
        .write(&out);

    Source::read(&root, "sessions/server/errors.rs")
        .paths(&["chunk_io", "messages"])
        .edit("no thiserror", "use thiserror", "// thiserror", 1)
        .edit("no thiserror derive", "Debug, Error", "Debug", 1)
        .edit("error texts as comments", "#[error(", "#[doc = concat!(", 8)
        .edit("conversions by hand", "#[from] ", "", 4)
        .write(&out);

    Source::read(&root, "sessions/server/events.rs")
        .paths(&["bytes", "rml_amf0", "sessions", "time"])
        .write(&out);

    Source::read(&root, "sessions/server/result.rs").paths(&["chunk_io", "messages"]).write(&out);
    Source::read(&root, "sessions/server/config.rs").write(&out);
    Source::read(&root, "sessions/server/publish_mode.rs").write(&out);

    // A child of the session's module may read its private fields; this file is ours.
    fs::copy(peek, out.join("sessions/server/peek.rs")).unwrap();
}
