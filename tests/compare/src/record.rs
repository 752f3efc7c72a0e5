//! The recorded list: drawings with hashes of the Rust's answers, so that they can be replayed where the Rust is not at hand.
//!
//! A line has: the drawing in one word (`commands::to_word`), the lengths of the three lent tables, build's number, the hash of its
//! answer, the hash of the answers to every question about the first nodes (or -), and with an exchange: the text's number, = and the new
//! bytes, the number, the hash.
use crate::commands::{Bytes, escaped, from_word, to_word, unescaped};
use crate::library;
use crate::questions::{self, Reply};
use host::built::{Built, Exchanged};

/// FNV-1a over words of four bytes.
pub struct Hash(u64);

impl Hash {
    pub fn new() -> Hash {
        Hash(0xcbf2_9ce4_8422_2325)
    }

    pub fn bytes(&mut self, bytes: &[u8]) {
        for &byte in bytes {
            self.0 = (self.0 ^ byte as u64).wrapping_mul(0x100_0000_01b3);
        }
    }

    pub fn words(&mut self, words: &[u32]) {
        words.iter().for_each(|w| self.bytes(&w.to_le_bytes()));
    }

    pub fn written(&self) -> String {
        format!("{:016x}", self.0)
    }
}

fn hash_into(h: &mut Hash, built: &Built) {
    h.words(&[built.number]);
    h.words(&built.counts);
    h.words(&built.nodes);
    h.words(&built.attributes);
    h.bytes(&built.text);
}

pub fn hash_built(built: &Built) -> String {
    let mut h = Hash::new();
    hash_into(&mut h, built);
    h.written()
}

pub fn hash_exchanged(exchanged: &Exchanged) -> String {
    let mut h = Hash::new();
    h.words(&[exchanged.number, exchanged.tables.is_some() as u32]);
    h.bytes(&exchanged.characters);
    exchanged.tables.iter().for_each(|t| hash_into(&mut h, t));
    h.written()
}

pub fn hash_replies(replies: &[Reply]) -> String {
    let mut h = Hash::new();
    replies.iter().for_each(|r| h.words(r));
    h.written()
}

pub struct Line {
    pub bytes: Bytes,
    pub words: [usize; 3],
    pub number: u32,
    pub hash: String,
    pub questions: String,
    pub exchange: Option<Exchange>,
}

pub struct Exchange {
    pub text: u32,
    pub bytes: Vec<u8>,
    pub number: u32,
    pub hash: String,
}

impl Line {
    pub fn written(&self) -> String {
        let [n, a, t] = self.words;
        let build = format!("{} {n} {a} {t} {} {} {}", to_word(&self.bytes), self.number, self.hash, self.questions);
        match &self.exchange {
            Some(e) => format!("{build} {} ={} {} {}", e.text, escaped(&e.bytes), e.number, e.hash),
            None => build,
        }
    }

    pub fn read(line: &str) -> Option<Line> {
        let fields: Vec<&str> = line.split(' ').collect();
        let (build, exchange) = match fields.len() {
            7 => (&fields[..], None),
            11 => (&fields[..7], Some(&fields[7..])),
            _ => return None,
        };
        let exchange = match exchange {
            Some(e) => Some(Exchange {
                text: e[0].parse().ok()?,
                bytes: unescaped(e[1].strip_prefix('=')?)?,
                number: e[2].parse().ok()?,
                hash: e[3].to_string(),
            }),
            None => None,
        };
        Some(Line {
            bytes: from_word(build[0])?,
            words: [build[1].parse().ok()?, build[2].parse().ok()?, build[3].parse().ok()?],
            number: build[4].parse().ok()?,
            hash: build[5].to_string(),
            questions: build[6].to_string(),
            exchange,
        })
    }

    /// What the Rust answers otherwise than is recorded.
    #[cfg(feature = "rust")]
    pub fn against_rust(&self) -> Option<String> {
        let line = recorded(&self.bytes, self.words, self.exchange.as_ref().map(|e| (e.text, &e.bytes[..])));
        self.against(&line.hash, line.number, Some(&line.questions), line.exchange.map(|e| (e.number, e.hash)))
    }

    /// What the library answers otherwise than is recorded, where it is linked.
    pub fn against_library(&self) -> Option<String> {
        let built = library::build(&self.bytes, self.words)?;
        let replies = if built.number == 0 {
            let t = built.tables(&self.bytes.characters);
            questions::linked(&t, &questions::all(built.counts[0])).map(|r| hash_replies(&r))
        } else {
            Some("-".to_string())
        };
        let exchanged = match &self.exchange {
            Some(e) => library::exchange(&self.bytes, e.text, &e.bytes, &library::lent(self.words))
                .map(|x| (x.number, hash_exchanged(&x))),
            None => None,
        };
        self.against(&hash_built(&built), built.number, replies.as_deref(), exchanged)
    }

    fn against(&self, hash: &str, number: u32, replies: Option<&str>, exchanged: Option<(u32, String)>) -> Option<String> {
        if number != self.number {
            return Some(format!("build: {} recorded, {number}", self.number));
        }
        if hash != self.hash {
            return Some(format!("build: another answer with number {number}"));
        }
        if replies.map_or(false, |r| r != self.questions) {
            return Some("questions: other answers".to_string());
        }
        match (&self.exchange, exchanged) {
            (Some(e), Some((number, _))) if number != e.number => Some(format!("exchange: {} recorded, {number}", e.number)),
            (Some(e), Some((number, hash))) if hash != e.hash => Some(format!("exchange: another answer with number {number}")),
            _ => None,
        }
    }
}

/// A line with the Rust's answers.
#[cfg(feature = "rust")]
pub fn recorded(bytes: &Bytes, words: [usize; 3], exchange: Option<(u32, &[u8])>) -> Line {
    let Bytes { script, characters } = bytes;
    let built = crate::rust::build(script, characters, words);
    let mut replies = "-".to_string();
    if built.number == 0 {
        let ask = |doc: &crate::svgtree::Document, tree: &crate::rust::Tree| {
            questions::rust(doc, tree, &questions::all(tree.nodes.len() as u32))
        };
        let (_, answers) = crate::rust::tree_asked(script, characters, ask);
        replies = hash_replies(&answers.unwrap());
    }
    let exchange = exchange.map(|(text, new)| {
        let exchanged = crate::rust::exchange(script, characters, text, new, words);
        Exchange { text, bytes: new.to_vec(), number: exchanged.number, hash: hash_exchanged(&exchanged) }
    });
    Line { bytes: bytes.clone(), words, number: built.number, hash: hash_built(&built), questions: replies, exchange }
}

/// Replays a list: how many lines agree and how many differ, and beside what.
pub fn replay(file: &str) -> Result<(u64, u64, Vec<&'static str>), String> {
    let content = std::fs::read_to_string(file).map_err(|e| format!("{file}: {e}"))?;
    let (mut agree, mut differ) = (0, 0);
    let mut beside = Vec::new();
    if cfg!(feature = "rust") {
        beside.push("the Rust");
    }
    if cfg!(feature = "library") {
        beside.push("the library");
    }
    for (k, text) in content.lines().enumerate().filter(|l| !l.1.starts_with('#')) {
        let line = Line::read(text).ok_or_else(|| format!("{file}, line {}: no line of the list", k + 1))?;
        let mut found = line.against_library().map(|d| format!("the library: {d}"));
        #[cfg(feature = "rust")]
        {
            found = found.or_else(|| line.against_rust().map(|d| format!("the Rust: {d}")));
        }
        match found.take() {
            None => agree += 1,
            Some(difference) => {
                differ += 1;
                if differ <= 5 {
                    println!("differs: line {}: {difference}\n{}", k + 1, crate::commands::shown(&line.bytes));
                }
            }
        }
    }
    Ok((agree, differ, beside))
}
