//! Drawings of SVG files, as the host in host/ makes them. Its test host/tests/files.rs writes them to a folder: list.txt has a line for
//! each, the file's name and the hash of its bytes, and N.commands and N.characters have the drawing of line N, counted from 1.
use crate::case::{self, Case, Side};
use crate::commands::Bytes;
use crate::record::{Hash, hash_built};
use crate::run::{Tally, one};
use crate::rust;
use host::built::Built;
use host::random::Random;

/// The lines of the list with their drawings.
fn drawings(folder: &str) -> Result<Vec<(String, Bytes)>, String> {
    let read = |name: &str| std::fs::read(format!("{folder}/{name}")).map_err(|e| format!("{folder}/{name}: {e}"));
    let list = String::from_utf8(read("list.txt")?).map_err(|e| format!("list.txt: {e}"))?;
    let drawing = |(k, line): (usize, &str)| {
        let script = read(&format!("{}.commands", k + 1))?;
        Ok((line.to_string(), Bytes { script, characters: read(&format!("{}.characters", k + 1))? }))
    };
    list.lines().enumerate().map(drawing).collect()
}

/// Each drawing with tables of just the size that is needed, and with others near it and an exchange of a text.
pub fn files(folder: &str, side: &Side, compared: bool) -> Result<Tally, String> {
    let mut tally = Tally::new(compared);
    for (k, (line, bytes)) in drawings(folder)?.into_iter().enumerate() {
        let exact = Case { bytes: bytes.clone(), slack: [0; 3], exchange: None };
        one(&mut tally, &exact, side, &|| line.clone());
        for turn in 0..3 {
            let near = case::of_drawing(bytes.clone(), &mut Random::new(1, 3 * k as u64 + turn));
            one(&mut tally, &near, side, &|| line.clone());
        }
    }
    Ok(tally)
}

/// Lines for the host's list: those of list.txt, the hash of the drawing, the Rust's number and counts, and the hash of its tables, each as
/// long as is needed. A refused drawing has - for the last.
pub fn record(folder: &str) -> Result<Vec<String>, String> {
    let line = |(line, bytes): (String, Bytes)| {
        let Bytes { script, characters } = &bytes;
        let mut drawing = Hash::new();
        drawing.words(&[script.len() as u32, characters.len() as u32]);
        drawing.bytes(script);
        drawing.bytes(characters);
        let number = host::check::check(script, characters);
        let built = match number {
            0 => {
                let tree = rust::tree(script, characters);
                let [nodes, attributes, text] = tree.needed();
                tree.built([8 * nodes, 5 * attributes, text])
            }
            _ => Built::refused(number, [0; 3]),
        };
        let hash = if built.number == 0 { hash_built(&built) } else { "-".to_string() };
        let [nodes, attributes, text] = built.counts;
        format!("{line} {} {} {nodes} {attributes} {text} {hash}", drawing.written(), built.number)
    };
    Ok(drawings(folder)?.into_iter().map(line).collect())
}
