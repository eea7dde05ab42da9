//! Links libprobe.a, which `rt lib` in crates/probe writes to the crate's folder out/.
//! PROBE_DIR names another folder.

use std::env;
use std::path::PathBuf;

fn main() {
    println!("cargo:rerun-if-env-changed=PROBE_DIR");
    let here = PathBuf::from(env::var("CARGO_MANIFEST_DIR").expect("cargo sets CARGO_MANIFEST_DIR"));
    let folder = env::var("PROBE_DIR").map_or_else(|_| here.join("../../crates/probe/out"), PathBuf::from);
    let library = folder.join("libprobe.a");
    println!("cargo:rerun-if-changed={}", library.display());
    assert!(library.exists(), "{} is missing: run `rt lib` in crates/probe first", library.display());
    println!("cargo:rustc-link-search=native={}", folder.display());
    println!("cargo:rustc-link-lib=static=probe");
}
