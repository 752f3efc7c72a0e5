//! Where the Rust lies, and the codes of names.
use std::env::var;
use std::path::PathBuf;

/// The lists of names in the order of their codes, as Rust.
fn codes(lists: &str) -> String {
    let list = |kind: &str| -> Vec<String> {
        let line = lists.lines().find(|l| l.split(' ').next() == Some(kind)).unwrap();
        line.split(' ').skip(2).map(str::to_string).collect()
    };
    let names = |kind: &str, list: &[String]| format!("pub static {kind}: [&str; {}] = {list:?};\n", list.len());
    let variants = |name: &str, kind: &str, list: &[String]| {
        let all: Vec<String> = list.iter().map(|v| format!("{kind}::{v}")).collect();
        format!("#[cfg(feature = \"rust\")]\npub static {name}: [{kind}; {}] = [{}];\n", list.len(), all.join(", "))
    };
    let (elements, attributes) = (list("EId"), list("AId"));
    let module = |name: &str, list: &[String]| {
        let all: String = list.iter().enumerate().map(|(k, v)| format!("pub const {v}: u8 = {k};\n")).collect();
        format!("#[allow(dead_code, non_upper_case_globals)]\npub mod {name} {{\n{all}}}\n")
    };
    let class = |name: &str, kind: &str| {
        let all: Vec<String> = list(kind).iter().map(|v| format!("a::{v}")).collect();
        format!("#[allow(dead_code)]\npub static {name}: [u8; {}] = [{}];\n", all.len(), all.join(", "))
    };
    names("ELEMENTS", &elements)
        + &names("ATTRIBUTES", &attributes)
        + &variants("EIDS", "EId", &elements)
        + &variants("AIDS", "AId", &attributes)
        + &module("e", &elements)
        + &module("a", &attributes)
        + &class("PRESENTATION", "is_presentation")
        + &class("INHERIT_ALLOWED", "allows_inherit_value")
}

fn main() {
    println!("cargo:rerun-if-changed=build.rs");
    let here = PathBuf::from(var("CARGO_MANIFEST_DIR").unwrap());
    let lists = here.join("../../tools/names.lists");
    println!("cargo:rerun-if-changed={}", lists.display());
    let out = PathBuf::from(var("OUT_DIR").unwrap()).join("codes.rs");
    std::fs::write(out, codes(&std::fs::read_to_string(lists).unwrap())).unwrap();
    if var("CARGO_FEATURE_RUST").is_ok() {
        println!("cargo:rerun-if-env-changed=SVGTREE_RUST");
        let beside = here.join("../../../shared/docs/src/src/parser/svgtree");
        let rust = var("SVGTREE_RUST").map_or(beside, PathBuf::from).canonicalize().expect("the Rust is not there");
        println!("cargo:rerun-if-changed={}", rust.display());
        println!("cargo:rustc-env=SVGTREE_RUST={}", rust.display());
    }
}
