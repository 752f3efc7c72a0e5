//! The SVG files of Debian's packages librsvg2-tests and adwaita-icon-theme, where `host/build test` has put them below target/files.
//!
//! files.txt has a line for each file: its name, the hash of its bytes, then the hash of its drawing, the number, the counts and the hash
//! of the tables that the Rust made from the drawing (`compare record-folder`). A file that is no XML has `fault` and the words instead.
use std::collections::HashMap;
use std::path::{Path, PathBuf};
use storkvanity::{Drawing, Tree};

/// FNV-1a.
struct Hash(u64);

impl Hash {
    fn bytes(&mut self, bytes: &[u8]) {
        for &byte in bytes {
            self.0 = (self.0 ^ byte as u64).wrapping_mul(0x100_0000_01b3);
        }
    }

    fn words(&mut self, words: &[u32]) {
        words.iter().for_each(|word| self.bytes(&word.to_le_bytes()));
    }
}

fn hash(fill: impl FnOnce(&mut Hash)) -> String {
    let mut hash = Hash(0xcbf2_9ce4_8422_2325);
    fill(&mut hash);
    format!("{:016x}", hash.0)
}

/// The hash of a drawing, the number, the counts and the hash of the tables.
fn answers(drawing: &Drawing) -> String {
    let of_drawing = hash(|hash| {
        hash.words(&[drawing.script().len() as u32, drawing.characters().len() as u32]);
        hash.bytes(drawing.script());
        hash.bytes(drawing.characters());
    });
    match Tree::build(drawing.clone()) {
        Err(refusal) => format!("{of_drawing} {} 0 0 0 -", refusal.number()),
        Ok(tree) => {
            let tables = tree.tables();
            let [nodes, attributes, text] = [tables.counts.nodes, tables.counts.attributes, tables.counts.text];
            let of_tables = hash(|hash| {
                hash.words(&[0, nodes, attributes, text]);
                hash.words(&tables.nodes[..8 * nodes as usize]);
                hash.words(&tables.attributes[..5 * attributes as usize]);
                hash.bytes(&tables.text[..text as usize]);
            });
            format!("{of_drawing} 0 {nodes} {attributes} {text} {of_tables}")
        }
    }
}

/// The first two words of a line: the name of a file and its hash.
fn start(line: &str) -> String {
    line.splitn(3, ' ').take(2).collect::<Vec<_>>().join(" ")
}

/// The SVG files below a folder.
fn svg_files(folder: &Path, files: &mut Vec<PathBuf>) {
    let mut entries: Vec<PathBuf> = std::fs::read_dir(folder).into_iter().flatten().flatten().map(|entry| entry.path()).collect();
    entries.sort();
    for path in entries {
        if path.is_dir() {
            svg_files(&path, files);
        } else if path.extension().map_or(false, |end| end == "svg") {
            files.push(path);
        }
    }
}

/// Each file has the tables that the Rust made from its drawing. A file that is not the recorded one is passed over.
#[test]
fn real_files() {
    let folder = Path::new(env!("CARGO_MANIFEST_DIR")).join("../target/files");
    // By the name and the hash of a file.
    let recorded: HashMap<String, &str> = include_str!("files.txt").lines().map(|line| (start(line), line)).collect();
    let mut files = Vec::new();
    svg_files(&folder.join("packages"), &mut files);
    let (mut list, mut faults) = (String::new(), String::new());
    let (mut written, mut seen, mut differ) = (0, 0, Vec::new());
    drop(std::fs::remove_dir_all(folder.join("drawings")));
    std::fs::create_dir_all(folder.join("drawings")).unwrap();
    for file in &files {
        let bytes = std::fs::read(file).unwrap();
        let name = file.strip_prefix(folder.join("packages")).unwrap().to_str().unwrap().replace(' ', "%20");
        let start = format!("{name} {}", hash(|hash| hash.bytes(&bytes)));
        let line = match Drawing::from_bytes(&bytes) {
            Err(fault) => {
                faults += &format!("{start} fault {fault}\n");
                format!("{start} fault {fault}")
            }
            Ok(drawing) => {
                written += 1;
                list += &format!("{start}\n");
                let place = folder.join("drawings").join(written.to_string());
                std::fs::write(place.with_extension("commands"), drawing.script()).unwrap();
                std::fs::write(place.with_extension("characters"), drawing.characters()).unwrap();
                format!("{start} {}", answers(&drawing))
            }
        };
        let wanted = recorded.get(&start);
        seen += wanted.is_some() as usize;
        if wanted.map_or(false, |wanted| *wanted != line) {
            differ.push(line);
        }
    }
    std::fs::write(folder.join("drawings/list.txt"), list).unwrap();
    std::fs::write(folder.join("drawings/faults.txt"), faults).unwrap();
    let read = format!("{} SVG files of Debian's packages: {written} drawings", files.len());
    std::fs::write(folder.join("drawings/summary.txt"), format!("{read}, {seen} files are recorded, {} differ\n", differ.len()))
        .unwrap();
    assert_eq!(differ, Vec::<String>::new());
    assert!(2 * seen >= files.len(), "of {} files only {seen} are recorded", files.len());
}
