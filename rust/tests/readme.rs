//! The repository's README shows two programs: they are the files that `check` runs.

use std::path::Path;

fn file(path: &str) -> String {
    let path = Path::new(env!("CARGO_MANIFEST_DIR")).join("..").join(path);
    std::fs::read_to_string(&path).unwrap_or_else(|e| panic!("{}: {e}", path.display()))
}

#[test]
fn the_readme_shows_the_programs_as_they_are() {
    let readme = file("README.md");
    assert!(readme.contains(&format!("```rust\n{}```\n", file("rust/examples/first.rs"))));
    assert!(readme.contains(&format!("```c\n{}```\n", file("include/example.c"))));
}
