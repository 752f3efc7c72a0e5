//! Where the port's static library lies, if it is asked for.
use std::env::var;

fn main() {
    println!("cargo:rerun-if-changed=build.rs");
    let features = ["CHECK", "QUESTIONS", "BUILD"];
    if features.iter().any(|f| var(format!("CARGO_FEATURE_{f}")).is_ok()) {
        let folder = format!("{}/../../target/staticlib", var("CARGO_MANIFEST_DIR").unwrap());
        println!("cargo:rerun-if-changed={folder}/libsvgtree.a");
        println!("cargo:rustc-link-search=native={folder}");
    }
}
