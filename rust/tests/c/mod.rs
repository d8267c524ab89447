//! Compiles a C file of this folder with the header and the library, and runs it.

use std::env;
use std::path::{Path, PathBuf};
use std::process::Command;

/// What the program prints; nothing where gcc is not at hand, which is then said.
pub fn run(file: &str) -> Option<String> {
    if Command::new("gcc").arg("--version").output().is_err() {
        println!("{file} not compiled: no gcc");
        return None;
    }
    let home = Path::new(env!("CARGO_MANIFEST_DIR"));
    let library = env::var_os("CHUNGVATOR_LIB").map_or(PathBuf::from("../target/staticlib"), PathBuf::from);
    let program = Path::new(env!("CARGO_TARGET_TMPDIR")).join(file).with_extension("run");
    let built = Command::new("gcc")
        .args(["-std=c11", "-Wall", "-Wextra", "-Wpedantic", "-Werror", "-O1", "-I"])
        .arg(home.join("../include"))
        .arg(home.join("tests/c").join(file))
        .arg(home.join(library).join("libhost.a"))
        .arg("-o")
        .arg(&program)
        .output()
        .unwrap();
    assert!(built.status.success(), "{}", String::from_utf8_lossy(&built.stderr));
    let ran = Command::new(&program).output().unwrap();
    assert!(ran.status.success(), "{file} ended with {}", ran.status);
    Some(String::from_utf8(ran.stdout).unwrap())
}
