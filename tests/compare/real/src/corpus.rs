//! The SVG files of Debian's packages, where `host/build test` has put them below target/files/packages, and their list.
use crate::hash;
use crate::tally::{rust, Tally};
use std::collections::HashMap;
use std::path::{Path, PathBuf};

/// A file: its name, with what would part it in a list written otherwise, and its bytes.
pub struct File {
    pub name: String,
    pub bytes: Vec<u8>,
}

/// The SVG files below a folder, by their names.
fn svg_files(folder: &Path, files: &mut Vec<PathBuf>) {
    let mut entries: Vec<PathBuf> = std::fs::read_dir(folder).into_iter().flatten().flatten().map(|entry| entry.path()).collect();
    entries.sort();
    for path in entries {
        if path.is_dir() {
            svg_files(&path, files);
        } else if path.extension().map_or(false, |end| end == "svg") {
            files.push(path);
        }
    }
}

/// The files, those that a name points to in another place too.
pub fn files() -> Vec<File> {
    let folder = Path::new(env!("CARGO_MANIFEST_DIR")).join("../../../target/files/packages");
    let mut paths = Vec::new();
    svg_files(&folder, &mut paths);
    let file = |path: PathBuf| {
        let name = path.strip_prefix(&folder).ok()?.to_str()?.replace(' ', "%20");
        Some(File { name, bytes: std::fs::read(&path).ok()? })
    };
    paths.into_iter().filter_map(file).collect()
}

fn start(file: &File) -> String {
    format!("{} {}", file.name, hash::of(&file.bytes))
}

/// A line of the list has the name of a file, the hash of its bytes and the Rust's answer.
pub fn record() -> Vec<String> {
    files().iter().filter_map(|file| Some(format!("{} {}", start(file), rust(&file.bytes)?.line()))).collect()
}

/// Compares each file. One whose bytes are not the recorded ones is compared with the Rust alone.
pub fn compare(list: &str) -> Tally {
    let split = |line: &str| {
        let place = line.match_indices(' ').nth(1)?.0;
        Some((line[..place].to_string(), line[place + 1..].to_string()))
    };
    let recorded: HashMap<String, String> = list.lines().filter_map(split).collect();
    let mut tally = Tally::default();
    let mut known = 0;
    let files = files();
    for file in &files {
        let line = recorded.get(&start(file)).map(String::as_str);
        known += line.is_some() as usize;
        tally.add(&file.name, &file.bytes, line);
    }
    if 2 * known < files.len() {
        tally.fail(format!("only {known} of {} files are recorded", files.len()));
    }
    tally
}
