//! Links liblayer1.a, which `make library` writes: in LAYER1_LIB_DIR, or else in target/staticlib beside this folder.

use std::env;
use std::path::PathBuf;

fn main() {
    println!("cargo:rerun-if-env-changed=LAYER1_LIB_DIR");
    let folder = env::var_os("LAYER1_LIB_DIR").map_or_else(
        || PathBuf::from(env::var_os("CARGO_MANIFEST_DIR").unwrap()).join("../target/staticlib"),
        PathBuf::from,
    );
    println!(
        "cargo:rerun-if-changed={}",
        folder.join("liblayer1.a").display()
    );
    println!("cargo:rustc-link-search=native={}", folder.display());
    println!("cargo:rustc-link-lib=static=layer1");
}
