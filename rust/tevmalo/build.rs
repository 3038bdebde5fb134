//! Links the static library that `rt lib` makes of crates/tevmalo.

use std::env;
use std::path::Path;

fn main() {
    let here = env::var("CARGO_MANIFEST_DIR").expect("cargo gives the folder of this crate");
    let out = Path::new(&here).join("../../crates/tevmalo/out");
    let archive = out.join("libtevmalo.a");
    assert!(archive.exists(), "{} is not there: run `rt lib` in crates/tevmalo, or rust/test", archive.display());
    println!("cargo:rerun-if-changed={}", archive.display());
    println!("cargo:rustc-link-search=native={}", out.display());
    println!("cargo:rustc-link-lib=static=tevmalo");
}
