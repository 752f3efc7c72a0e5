//! Compares the tree that the Rust makes of an SVG file with the one that the host and the library make of it. `tests/compare/real/run`
//! calls it. usage: real files|documents LIST, real record-files|record-documents, real random|values|damaged SEED COUNT; to look at a
//! difference: real write-random|write-values|write-damaged SEED TURN writes a document, and real file FILE compares one.
use std::io::Write;

mod corpus;
mod damage;
mod generate;
mod hand;
mod hash;
mod library;
#[cfg(feature = "rust")]
#[path = "../../src/outside.rs"]
mod outside;
mod random;
#[cfg(feature = "rust")]
mod rust;
#[cfg(feature = "rust")]
#[allow(warnings)]
mod svgtree;
mod tally;
mod tree;

#[cfg(feature = "rust")]
use outside::*;

fn main() {
    let arguments: Vec<String> = std::env::args().skip(1).collect();
    let words: Vec<&str> = arguments.iter().map(String::as_str).collect();
    let read = |list: &str| std::fs::read_to_string(list).unwrap_or_else(|error| panic!("{list}: {error}"));
    let number = |word: &str| word.parse().unwrap_or_else(|_| panic!("{word}: no number"));
    let is_good = match words[..] {
        ["files", list] => corpus::compare(&read(list)).told(),
        ["record-files"] => printed(corpus::record()),
        ["documents", list] => generate::compare(&read(list)).told(),
        ["record-documents"] => printed(generate::record()),
        ["random", seed, count] => generate::random(number(seed), number(count)).told(),
        ["values", seed, count] => generate::values(number(seed), number(count)).told(),
        ["damaged", seed, count] => damage::compare(number(seed), number(count)).told(),
        ["file", file] => one(&std::fs::read(file).unwrap_or_else(|error| panic!("{file}: {error}"))).told(),
        ["write-random", seed, turn] => written(generate::document(number(seed), number(turn)).as_bytes()),
        ["write-values", seed, turn] => written(generate::document_of_values(number(seed), number(turn)).as_bytes()),
        ["write-damaged", seed, turn] => written(&damage::one(number(seed), number(turn))),
        _ => panic!("the arguments stand at the top of src/main.rs"),
    };
    std::process::exit(if is_good { 0 } else { 1 });
}

/// One file alone.
fn one(file: &[u8]) -> tally::Tally {
    let mut tally = tally::Tally::default();
    tally.add("the file", file, None);
    tally
}

fn written(bytes: &[u8]) -> bool {
    std::io::stdout().write_all(bytes).is_ok()
}

fn printed(lines: Vec<String>) -> bool {
    lines.iter().for_each(|line| println!("{line}"));
    !lines.is_empty()
}
