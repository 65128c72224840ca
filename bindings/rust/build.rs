//! Finds libcombinator.a: in the folder that COMBINATOR_LIB_DIR names, else where `make lib` writes it, else where
//! pkg-config says that it is installed. Where it is not found, what links nothing works all the same: `cargo check`,
//! `cargo doc`.

use std::{
    env,
    path::{Path, PathBuf},
    process::Command,
};

const ARCHIVE: &str = "libcombinator.a";

fn named() -> Option<PathBuf> {
    let dir = PathBuf::from(env::var_os("COMBINATOR_LIB_DIR")?);
    // A folder that is named and wrong is not passed over.
    assert!(
        dir.join(ARCHIVE).is_file(),
        "COMBINATOR_LIB_DIR: no {ARCHIVE} in {}",
        dir.display()
    );
    Some(dir)
}

/// Where `make lib` writes the archive.
fn build() -> PathBuf {
    let here = env::var_os("CARGO_MANIFEST_DIR").expect("cargo names the package's folder");
    Path::new(&here).join("../../build")
}

fn built() -> Option<PathBuf> {
    build().join(ARCHIVE).is_file().then(build)
}

fn installed() -> Option<PathBuf> {
    let program = env::var_os("PKG_CONFIG").unwrap_or_else(|| "pkg-config".into());
    let output = Command::new(program)
        .args(["--variable=libdir", "combinator"])
        .output()
        .ok()?;
    let dir = PathBuf::from(String::from_utf8(output.stdout).ok()?.trim());
    (output.status.success() && dir.join(ARCHIVE).is_file()).then_some(dir)
}

fn main() {
    for name in ["COMBINATOR_LIB_DIR", "PKG_CONFIG", "PKG_CONFIG_PATH"] {
        println!("cargo:rerun-if-env-changed={name}");
    }
    println!("cargo:rerun-if-changed=build.rs");
    let found = named().or_else(built).or_else(installed);
    if let Some(dir) = &found {
        println!("cargo:rustc-link-search=native={}", dir.display());
    } else {
        println!("cargo:warning=no {ARCHIVE}: run `make lib` in the repository, install it, or name its folder in COMBINATOR_LIB_DIR");
    }
    // An archive that is missing now may be there the next time.
    let archive = found.unwrap_or_else(build).join(ARCHIVE);
    println!("cargo:rerun-if-changed={}", archive.display());
    println!("cargo:rustc-link-lib=static=combinator");
}
