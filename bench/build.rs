//! Builds the shown Rust as the oracle does, links the proved library, and notes with what all was built.

#[path = "../oracle/build.rs"]
#[allow(dead_code)]
mod oracle;

use std::path::{Path, PathBuf};
use std::process::Command;
use std::{env, fs};

fn main() {
    println!("cargo:rerun-if-changed=build.rs");
    let home = PathBuf::from(env::var("CARGO_MANIFEST_DIR").unwrap());
    oracle::shown(&home.join("../oracle"));
    link(&home);
    note(&home);
}

/// `CHUNGVATOR_LIB` names another folder that has a libhost.a.
fn link(home: &Path) {
    println!("cargo:rerun-if-env-changed=CHUNGVATOR_LIB");
    let folder = match env::var_os("CHUNGVATOR_LIB") {
        Some(folder) => env::current_dir().unwrap().join(folder),
        None => home.join("../target/staticlib"),
    };
    println!("cargo:rerun-if-changed={}", folder.join("libhost.a").display());
    println!("cargo:rustc-link-search=native={}", folder.display());
    println!("cargo:rustc-link-lib=static=host");
}

/// What the program prints of its own build.
fn note(home: &Path) {
    println!("cargo:rerun-if-changed=Cargo.toml");
    let said = Command::new(env::var_os("RUSTC").unwrap()).arg("--version").output().unwrap();
    let manifest = fs::read_to_string(home.join("Cargo.toml")).unwrap();
    let (_, profile) = manifest.split_once("[profile.release]").expect("a release profile");
    let profile: Vec<&str> = profile.lines().filter(|line| !line.is_empty()).collect();
    let flags = env::var("CARGO_ENCODED_RUSTFLAGS").unwrap_or_default().replace('\x1f', " ");
    println!("cargo:rustc-env=BENCH_RUSTC={}", String::from_utf8_lossy(&said.stdout).trim());
    println!("cargo:rustc-env=BENCH_PROFILE={}", profile.join(", "));
    println!("cargo:rustc-env=BENCH_FLAGS={flags}");
}
