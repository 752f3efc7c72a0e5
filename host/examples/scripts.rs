//! Writes a line for each SVG file: its name, and script and characters in hexadecimal, as the recorded vectors have them. A file that is
//! no XML is left out. `bench/run files` and `compare files` read such lines. usage: cargo run --example scripts FILE.svg.. > FILE.jsonl
#![forbid(unsafe_code)]
use std::io::Write;
use storkvanity::Drawing;

fn hex(bytes: &[u8]) -> String {
    bytes.iter().map(|b| format!("{:02x}", b)).collect()
}

fn main() -> std::io::Result<()> {
    let mut out = std::io::stdout().lock();
    for file in std::env::args().skip(1) {
        match Drawing::from_bytes(&std::fs::read(&file)?) {
            Ok(d) => {
                let name = file.rsplit('/').next().unwrap_or("").replace(['"', '\\'], "_");
                let (script, characters) = (hex(d.script()), hex(d.characters()));
                writeln!(out, r#"{{"name": "{name}", "script": "{script}", "characters": "{characters}"}}"#)?;
            }
            Err(fault) => eprintln!("{file}: no XML: {fault}"),
        }
    }
    Ok(())
}
