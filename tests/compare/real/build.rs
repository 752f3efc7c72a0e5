//! Where the Rust lies.
use std::env::var;
use std::path::PathBuf;

fn main() {
    println!("cargo:rerun-if-changed=build.rs");
    if var("CARGO_FEATURE_RUST").is_ok() {
        println!("cargo:rerun-if-env-changed=SVGTREE_RUST");
        let here = PathBuf::from(var("CARGO_MANIFEST_DIR").unwrap());
        let beside = here.join("../../../../shared/docs/src/src/parser/svgtree");
        let rust = var("SVGTREE_RUST").map_or(beside, PathBuf::from).canonicalize().expect("the Rust is not there");
        println!("cargo:rerun-if-changed={}", rust.display());
        println!("cargo:rustc-env=SVGTREE_RUST={}", rust.display());
    }
}
