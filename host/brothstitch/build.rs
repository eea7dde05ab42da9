//! Links libcapi.a, which `rt lib` in crates/capi writes to the crate's folder out/.
//! BROTHSTITCH_DIR names another folder.

use std::env;
use std::path::PathBuf;

fn main() {
    println!("cargo:rerun-if-env-changed=BROTHSTITCH_DIR");
    let here = PathBuf::from(env::var("CARGO_MANIFEST_DIR").expect("cargo sets CARGO_MANIFEST_DIR"));
    let folder = env::var("BROTHSTITCH_DIR").map_or_else(|_| here.join("../../crates/capi/out"), PathBuf::from);
    let library = folder.join("libcapi.a");
    println!("cargo:rerun-if-changed={}", library.display());
    assert!(library.exists(), "{} is missing: run `rt lib` in crates/capi first", library.display());
    println!("cargo:rustc-link-search=native={}", folder.display());
    println!("cargo:rustc-link-lib=static=capi");
}
