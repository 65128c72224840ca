//! Assembles the crate's modules in OUT_DIR: first the given files, byte for byte, then the
//! stand-ins of scaffold/ in the places of absent files. A stand-in may never take the place of a
//! given file; the build stops if it would. ORACLE_SRC names the folder of the given files.
//! With the feature `glue`, readme.rs there is the code of bindings/rust/README.md.

use std::{
    fs,
    path::{Path, PathBuf},
};

use sha2::{Digest, Sha256};

fn files(root: &Path, dir: &Path, out: &mut Vec<PathBuf>) {
    let mut names: Vec<_> = fs::read_dir(dir)
        .unwrap_or_else(|e| panic!("{}: {e}", dir.display()))
        .map(|e| e.unwrap().path())
        .collect();
    names.sort();
    for p in names {
        if p.is_dir() {
            files(root, &p, out);
        } else {
            out.push(p.strip_prefix(root).unwrap().to_path_buf());
        }
    }
}

/// The code of the README that needs the given files, on the lines on which it stands there.
fn readme(file: &Path) -> String {
    println!("cargo:rerun-if-changed={}", file.display());
    let text = fs::read_to_string(file).unwrap_or_else(|e| panic!("{}: {e}", file.display()));
    let mut inside = false;
    let mut code = String::new();
    for line in text.lines() {
        if line.starts_with("```") {
            inside = line == "```rust,ignore";
        } else if inside {
            code.push_str(line);
        }
        code.push('\n');
    }
    code
}

fn main() {
    let here = PathBuf::from(std::env::var("CARGO_MANIFEST_DIR").unwrap());
    let out = PathBuf::from(std::env::var("OUT_DIR").unwrap()).join("sciparse");
    println!("cargo:rerun-if-env-changed=ORACLE_SRC");
    let src = match std::env::var("ORACLE_SRC") {
        Ok(p) => PathBuf::from(p),
        Err(_) => here.join("../../shared/docs/src/crates/libs/sciparse/src"),
    };
    let scaffold = here.join("scaffold");
    println!("cargo:rerun-if-changed={}", src.display());
    println!("cargo:rerun-if-changed={}", scaffold.display());
    println!("cargo:rerun-if-changed=build.rs");

    let _ = fs::remove_dir_all(&out);
    let mut given = Vec::new();
    assert!(
        src.join("scion/path/combinator/graph.rs").is_file(),
        "ORACLE_SRC: {} is not sciparse's src folder",
        src.display()
    );
    files(&src, &src, &mut given);
    let mut list = String::new();
    for f in &given {
        let bytes = fs::read(src.join(f)).unwrap();
        let to = out.join(f);
        fs::create_dir_all(to.parent().unwrap()).unwrap();
        fs::write(&to, &bytes).unwrap();
        assert!(fs::read(&to).unwrap() == bytes);
        let digest: [u8; 32] = Sha256::digest(&bytes).into();
        let hex: String = digest.iter().map(|b| format!("{b:02x}")).collect();
        list.push_str(&format!("{hex}  {}\n", f.display()));
    }
    let mut standins = Vec::new();
    files(&scaffold, &scaffold, &mut standins);
    for f in &standins {
        assert!(
            !given.contains(f),
            "stand-in {} would replace a given file",
            f.display()
        );
        let to = out.join(f);
        fs::create_dir_all(to.parent().unwrap()).unwrap();
        fs::copy(scaffold.join(f), &to).unwrap();
    }

    let mut roots = String::new();
    for (m, f) in [
        ("core", "core/mod.rs"),
        ("proto", "proto/mod.rs"),
        ("scion", "scion/mod.rs"),
        ("rpc", "rpc.rs"),
    ] {
        roots.push_str(&format!(
            "#[path = {:?}]\npub mod {m};\n",
            out.join(f).to_str().unwrap()
        ));
    }
    let out = out.parent().unwrap();
    fs::write(out.join("roots.rs"), roots).unwrap();
    fs::write(out.join("given.txt"), list).unwrap();
    if std::env::var_os("CARGO_FEATURE_GLUE").is_some() {
        let code = readme(&here.join("../bindings/rust/README.md"));
        fs::write(out.join("readme.rs"), code).unwrap();
    }
}
