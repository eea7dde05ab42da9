//! Writes the module `source`: the files of geometry-rs as they are, with open.rs behind lib.rs.
//! Refuses to go on where the files of geometry-rs are not those that ../SHA256SUMS records.

use std::path::{Path, PathBuf};
use std::process::Command;
use std::{env, fs};

fn main() {
    let here = PathBuf::from(env::var("CARGO_MANIFEST_DIR").expect("cargo sets CARGO_MANIFEST_DIR"));
    let out = PathBuf::from(env::var("OUT_DIR").expect("cargo sets OUT_DIR"));
    let workspace = here.parent().expect("the crate lies in the workspace");
    let geometry = workspace.join("geometry-rs");
    check_hashes(workspace);

    let mut source = read(&geometry.join("src/lib.rs"));
    source.extend(read(&here.join("open.rs")));
    write(&out.join("src/lib.rs"), &source);
    for same in ["src/next_after/mod.rs", "README.md"] {
        write(&out.join(same), &read(&geometry.join(same)));
    }
    let place = out.join("src/lib.rs");
    write(&out.join("source.rs"), format!("#[path = {place:?}]\nmod source;\n").as_bytes());
}

fn check_hashes(workspace: &Path) {
    println!("cargo:rerun-if-changed={}", workspace.join("SHA256SUMS").display());
    let status = Command::new("sha256sum")
        .args(["--check", "--quiet", "--strict", "SHA256SUMS"])
        .current_dir(workspace)
        .status()
        .expect("sha256sum (GNU coreutils) is needed to check the source's bytes");
    assert!(status.success(), "the files of geometry-rs are not those that SHA256SUMS records");
}

fn read(path: &Path) -> Vec<u8> {
    println!("cargo:rerun-if-changed={}", path.display());
    fs::read(path).unwrap_or_else(|e| panic!("{}: {e}", path.display()))
}

fn write(path: &Path, bytes: &[u8]) {
    fs::create_dir_all(path.parent().expect("a file lies in a folder")).expect("OUT_DIR can be written");
    fs::write(path, bytes).expect("OUT_DIR can be written");
}
