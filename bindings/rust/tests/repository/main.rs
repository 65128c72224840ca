//! The crate against files of the repository, so these tests are not in the package: the books of
//! examples/, the stored answers.

mod books;
#[path = "../all/common.rs"]
mod common;
mod examples;
mod stored;

use std::path::PathBuf;

/// A file of the repository.
fn file(name: &str) -> Vec<u8> {
    let path = PathBuf::from(env!("CARGO_MANIFEST_DIR"))
        .join("../..")
        .join(name);
    std::fs::read(&path).unwrap_or_else(|e| panic!("{}: {e}", path.display()))
}
