//! Links the proved library. `CHUNGVATOR_LIB` names another folder that has a libhost.a.

use std::env;
use std::path::PathBuf;

fn main() {
    println!("cargo:rerun-if-changed=build.rs");
    println!("cargo:rerun-if-env-changed=CHUNGVATOR_LIB");
    let home = PathBuf::from(env::var_os("CARGO_MANIFEST_DIR").unwrap());
    let folder = match env::var_os("CHUNGVATOR_LIB") {
        Some(folder) => home.join(folder),
        None => home.join("../target/staticlib"),
    };
    println!("cargo:rerun-if-changed={}", folder.join("libhost.a").display());
    println!("cargo:rustc-link-search=native={}", folder.display());
    println!("cargo:rustc-link-lib=static=host");
}
