//! Times of the walks, by the static library of the crate `timing`. See bench/run. No test: it only prints.
use std::time::Instant;

extern "C" {
    fn timing_first_use(script: *const u8, script_len: usize, characters: *const u8, characters_len: usize) -> usize;
    fn timing_every_use(script: *const u8, script_len: usize, characters: *const u8, characters_len: usize) -> usize;
    fn timing_seek(script: *const u8, script_len: usize, characters: *const u8, characters_len: usize, n: usize) -> usize;
}

const SVG: u8 = 45;
const G: u8 = 31;
const USE: u8 = 52;
const D: u8 = 22;
const HREF: u8 = 64;
const ID: u8 = 65;

/// A drawing script with its characters, and the number of its commands.
#[derive(Default)]
struct Drawing {
    script: Vec<u8>,
    characters: Vec<u8>,
    commands: usize,
}

impl Drawing {
    fn open(&mut self, element: u8) {
        self.script.extend([1, element, 1]);
        self.commands += 1;
    }

    fn close(&mut self) {
        self.script.push(7);
        self.commands += 1;
    }

    fn attribute(&mut self, name: u8, value: &str) {
        self.script.extend([2, name, 0]);
        self.script.extend((value.len() as u32).to_le_bytes());
        self.characters.extend(value.bytes());
        self.commands += 1;
    }

    fn href(&mut self, id: &str) {
        self.attribute(HREF, &format!("#{id}"));
        self.script.extend([4, 1]);
        self.script.extend(1u32.to_le_bytes());
        self.script.extend((id.len() as u32).to_le_bytes());
        self.commands += 1;
    }

    fn first_use(&self) -> usize {
        // SAFETY: the slices are those of the two vectors.
        unsafe { timing_first_use(self.script.as_ptr(), self.script.len(), self.characters.as_ptr(), self.characters.len()) }
    }

    fn every_use(&self) -> usize {
        // SAFETY: the slices are those of the two vectors.
        unsafe { timing_every_use(self.script.as_ptr(), self.script.len(), self.characters.as_ptr(), self.characters.len()) }
    }

    fn seek(&self) -> usize {
        let (script, characters) = (&self.script, &self.characters);
        // SAFETY: the slices are those of the two vectors.
        unsafe { timing_seek(script.as_ptr(), script.len(), characters.as_ptr(), characters.len(), self.commands) }
    }
}

/// The least of many rounds, in microseconds. A walk that finds nothing is not the one to be measured.
fn time(name: String, walk: impl Fn() -> usize) {
    let mut least = f64::MAX;
    for _ in 0..15 {
        let start = Instant::now();
        assert_ne!(walk(), 0, "{name}");
        least = least.min(start.elapsed().as_secs_f64() * 1e6);
    }
    println!("{name:<64}{least:>12.1}");
}

/// One use of a group with n uses inside, none of which leads back.
fn group_of_uses(n: usize) -> Drawing {
    let mut d = Drawing::default();
    d.open(SVG);
    d.open(USE);
    d.attribute(ID, "u");
    d.href("g");
    d.close();
    d.open(G);
    d.attribute(ID, "g");
    for _ in 0..n {
        d.open(USE);
        d.href("x");
        d.close();
    }
    d.close();
    d.close();
    d
}

/// 1,000 uses of the last of 10,000 elements with ids.
fn uses_behind_ids() -> Drawing {
    let mut d = Drawing::default();
    d.open(SVG);
    for i in 0..10_000 {
        d.open(G);
        d.attribute(ID, &format!("i{i}"));
        d.close();
    }
    for _ in 0..1_000 {
        d.open(USE);
        d.href("i9999");
        d.close();
    }
    d.close();
    d
}

/// A script of nearly 1 MiB.
fn many_commands() -> Drawing {
    let mut d = Drawing::default();
    d.open(SVG);
    while d.script.len() + 40 < 1 << 20 {
        d.open(G);
        d.attribute(D, "0");
        d.href("a");
        d.close();
    }
    d.close();
    d
}

fn main() {
    println!("walks: microseconds for a call");
    for n in [1_000, 4_000] {
        let d = group_of_uses(n);
        time(format!("the target of one use, a group with {n} uses"), || d.first_use());
    }
    let d = uses_behind_ids();
    time("the targets of 1000 uses behind 10000 ids".to_string(), || d.every_use());
    let d = many_commands();
    time(format!("seek of {} commands in order", d.commands), || d.seek());
}
