//! Links the static library that `rt lib` writes in `crates/exports_c`, under the name that callers link, `libexports.a`.

use std::{env, fs, path::PathBuf};

fn main() {
    let from = PathBuf::from(env::var("CARGO_MANIFEST_DIR").unwrap());
    let built = from.join("../../crates/exports_c/out/libexports_c.a");
    let folder = PathBuf::from(env::var("OUT_DIR").unwrap());
    if let Err(e) = fs::copy(&built, folder.join("libexports.a")) {
        panic!("{}: {e}. Build it first: rt lib in crates/exports_c", built.display());
    }
    println!("cargo:rustc-link-search=native={}", folder.display());
    println!("cargo:rerun-if-changed={}", built.display());
}
