//! Links the static library that `rt lib` makes in crates/exports_c, under the name libexports.a.
use std::path::Path;

fn main() {
    let here = std::env::var("CARGO_MANIFEST_DIR").expect("cargo sets it");
    let folder = std::env::var("OUT_DIR").expect("cargo sets it");
    let made = Path::new(&here).join("../../crates/exports_c/out/libexports_c.a");
    if let Err(error) = std::fs::copy(&made, Path::new(&folder).join("libexports.a")) {
        panic!("{}: {error}; `rt lib` in crates/exports_c makes it", made.display());
    }
    println!("cargo:rustc-link-search=native={folder}");
    println!("cargo:rustc-link-lib=static=exports");
    println!("cargo:rerun-if-changed={}", made.display());
}
