//! Damaged files: cut off, with bytes changed, taken out or doubled. Each is an error in words or a number, or the panel takes it; nothing
//! panics. The damage comes from a fixed seed; STORKVANITY_SEED and STORKVANITY_DAMAGED set another and how many of each file.
use std::path::Path;
use std::process::Command;
use storkvanity::{check, refused, spell, texts, Drawing, Tree};

/// Numbers that look random, from a seed.
struct Random(u64);

impl Random {
    fn below(&mut self, most: usize) -> usize {
        self.0 = self.0.wrapping_mul(6364136223846793005).wrapping_add(1442695040888963407);
        ((self.0 >> 33) as usize) % most.max(1)
    }
}

/// Everything that the crate does with a file. True if the panel takes it.
fn see(file: &[u8]) -> bool {
    let drawing = match Drawing::from_bytes(file) {
        Ok(drawing) => drawing,
        Err(fault) => {
            assert!(fault.line > 0 && fault.column > 0 && !fault.words.is_empty());
            return false;
        }
    };
    let refused = refused::refused(drawing.script(), drawing.characters());
    assert_eq!(check(drawing.script(), drawing.characters()).err(), refused.map(|refused| refused.0));
    assert_eq!(spell::read(&spell::spell(drawing.script(), drawing.characters())), Ok(drawing.clone()));
    let mut tree = match Tree::build(drawing) {
        Ok(tree) => tree,
        Err(refusal) => {
            assert!(refusal.to_string().len() > 10);
            return false;
        }
    };
    for node in 0..tree.len() {
        tree.entries(node).for_each(|entry| drop(tree.entry(entry)));
        assert!(tree.kind(node) == storkvanity::Kind::Text || tree.string(node).is_empty());
    }
    assert_eq!(texts::sources(&tree).map(|sources| sources.len()), Ok(tree.len() as usize));
    let last = tree.len() - 1;
    assert!(tree.find_attribute(last, "fill").is_ok() && tree.attribute(last, "id").is_ok() && tree.element_by_id("a").is_ok());
    let count = texts::texts(tree.drawing()).len() as u32;
    if let Some(text) = texts::texts(tree.drawing()).last().cloned() {
        let answer = tree.exchange(text.number, vec![b'x'; text.place.len()]).map_err(|refusal| refusal.number());
        assert!(matches!(answer, Ok(()) | Err(31)));
        assert_eq!(tree.text(last), Tree::build(tree.drawing().clone()).unwrap().text(last));
    }
    assert_eq!(tree.exchange(count + 1, "").unwrap_err().number(), 30);
    true
}

/// A file with some damage.
fn damaged(whole: &[u8], random: &mut Random) -> Vec<u8> {
    let mut file = whole.to_vec();
    for _ in 0..1 + random.below(4) {
        let place = random.below(file.len());
        let end = (place + random.below(40)).min(file.len());
        match random.below(6) {
            0 => file.truncate(place),
            1 | 2 => {
                file.iter_mut().skip(place).take(1).for_each(|b| *b = b"<>/&;'\"#(){}:-!*=?[] \0a\x80\xc3"[random.below(25)])
            }
            3 => file.iter_mut().skip(place).take(1).for_each(|b| *b = random.below(256) as u8),
            4 => drop(file.drain(place..end)),
            _ => {
                let part = file[place..end].to_vec();
                let to = random.below(file.len());
                file.splice(to..to, part);
            }
        }
    }
    file
}

fn setting(name: &str, usual: usize) -> usize {
    std::env::var(name).ok().and_then(|value| value.parse().ok()).unwrap_or(usual)
}

fn examples() -> [Vec<u8>; 2] {
    let here = Path::new(env!("CARGO_MANIFEST_DIR"));
    ["tests/drawing.svg", "../examples/gripper.svg"].map(|file| std::fs::read(here.join(file)).unwrap())
}

#[test]
fn cut_off_anywhere() {
    for whole in examples() {
        assert!(see(&whole));
        let taken = (0..whole.len()).filter(|&length| see(&whole[..length])).count();
        assert!(taken < 3, "{taken}");
    }
}

#[test]
fn damaged_examples() {
    let mut random = Random(setting("STORKVANITY_SEED", 1) as u64);
    let mut taken = 0;
    for whole in examples() {
        for _ in 0..setting("STORKVANITY_DAMAGED", 1500) {
            taken += see(&damaged(&whole, &mut random)) as usize;
        }
    }
    assert!(taken > 0);
}

/// Scripts in words: a fault with its line, or a drawing that check answers for.
#[test]
fn damaged_scripts() {
    let mut random = Random(setting("STORKVANITY_SEED", 1) as u64);
    let (mut faults, mut taken) = (0, 0);
    for whole in examples() {
        let drawing = Drawing::from_bytes(&whole).unwrap();
        let words = spell::spell(drawing.script(), drawing.characters());
        for _ in 0..setting("STORKVANITY_DAMAGED", 1500) {
            match spell::read(&String::from_utf8_lossy(&damaged(words.as_bytes(), &mut random))) {
                Err(fault) => {
                    assert!(fault.line > 0 && fault.column > 0 && !fault.words.is_empty());
                    faults += 1;
                }
                Ok(drawing) => {
                    let refused = refused::refused(drawing.script(), drawing.characters());
                    assert_eq!(check(drawing.script(), drawing.characters()).err(), refused.map(|refused| refused.0));
                    taken += Tree::build(drawing).is_ok() as usize;
                }
            }
        }
    }
    assert!(faults > 0 && taken > 0);
}

/// The smaller of the SVG files of Debian's packages, where `host/build test` has put them.
#[test]
fn damaged_real_files() {
    let mut random = Random(setting("STORKVANITY_SEED", 1) as u64);
    let list = include_str!("files.txt").lines().filter_map(|line| line.split(' ').next());
    for name in list {
        let file = Path::new(env!("CARGO_MANIFEST_DIR")).join("../target/files/packages").join(name.replace("%20", " "));
        match std::fs::read(file) {
            Ok(whole) if whole.len() < 20_000 => {
                for _ in 0..setting("STORKVANITY_DAMAGED", 2) {
                    see(&damaged(&whole, &mut random));
                }
            }
            _ => {}
        }
    }
}

/// The program on damaged files: the status is 0 or 1, and what it cannot do it says in one line.
#[test]
fn the_program_on_damaged_files() {
    let mut random = Random(7);
    let file = format!("{}/damaged.svg", env!("CARGO_TARGET_TMPDIR"));
    for turn in 0..60 {
        std::fs::write(&file, damaged(&examples()[turn % 2], &mut random)).unwrap();
        for command in ["check", "tree", "texts", "script"] {
            let output = Command::new(env!("CARGO_BIN_EXE_storkvanity")).args([command, &file]).output().unwrap();
            let errors = String::from_utf8(output.stderr).unwrap();
            assert!(matches!(output.status.code(), Some(0 | 1)) && errors.lines().count() < 2, "{command}: {errors}");
        }
    }
}
