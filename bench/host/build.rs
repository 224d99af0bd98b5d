//! Says where the static library of the proved calls lies: `rt lib` in the
//! folder crates/host makes it.

use std::path::Path;

fn main() {
    let here = std::env::var("CARGO_MANIFEST_DIR").expect("cargo says where this crate lies");
    let folder = Path::new(&here).join("../../crates/host/out");
    let archive = folder.join("libhost.a");
    assert!(archive.is_file(), "{}: missing; run `rt lib` in crates/host", archive.display());
    println!("cargo::rustc-link-search=native={}", folder.display());
    println!("cargo::rustc-link-lib=static=host");
    println!("cargo::rerun-if-changed={}", archive.display());
}
