//! Where the port's static library lies.
use std::path::Path;

fn main() {
    let folder = Path::new(env!("CARGO_MANIFEST_DIR")).join("../target/staticlib");
    let library = folder.join("libsvgtree.a");
    println!("cargo:rerun-if-changed=build.rs");
    println!("cargo:rerun-if-changed={}", library.display());
    assert!(library.exists(), "target/staticlib/libsvgtree.a is not there: `tools/staticlib svgtree` makes it");
    println!("cargo:rustc-link-search=native={}", folder.display());
}
