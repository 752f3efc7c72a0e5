//! Drawings: written command by command, at random by the grammar of document 01, section 2, and damaged.
use crate::check::{DEEPEST, LIMIT};
use crate::random::Random;
use crate::smaller;
use crate::texts::SVG;

/// A drawing, and where each command begins in the script and in the characters.
#[derive(Clone, Default)]
pub struct Drawing {
    pub script: Vec<u8>,
    pub characters: Vec<u8>,
    commands: Vec<(usize, usize)>,
}

impl Drawing {
    /// A drawing of these bytes, in order or not.
    pub fn of(script: &[u8], characters: &[u8]) -> Drawing {
        let commands = smaller::commands(script, characters).into_iter().map(|[c, s]| (c.start, s.start)).collect();
        Drawing { script: script.to_vec(), characters: characters.to_vec(), commands }
    }

    pub fn clear(&mut self) {
        self.script.clear();
        self.characters.clear();
        self.commands.clear();
    }

    fn command(&mut self, bytes: &[u8]) {
        self.commands.push((self.script.len(), self.characters.len()));
        self.script.extend(bytes);
    }

    fn word(&mut self, word: u32) {
        self.script.extend(word.to_le_bytes());
    }

    fn string(&mut self, bytes: &[u8]) {
        self.word(bytes.len() as u32);
        self.characters.extend(bytes);
    }

    pub fn open(&mut self, element: u8, namespace: u8) {
        self.command(&[1, element, namespace]);
    }

    pub fn attribute(&mut self, name: u8, namespace: u8, value: &[u8]) {
        self.command(&[2, name, namespace]);
        self.string(value);
    }

    pub fn declaration(&mut self, name: u8, important: u8, value: &[u8]) {
        self.command(&[3, name, important]);
        self.string(value);
    }

    pub fn reading(&mut self, kind: u8, offset: u32, length: u32) {
        self.command(&[4, kind]);
        self.word(offset);
        self.word(length);
    }

    pub fn text(&mut self, bytes: &[u8]) {
        self.command(&[5]);
        self.string(bytes);
    }

    pub fn comment(&mut self) {
        self.command(&[6]);
    }

    pub fn close(&mut self) {
        self.command(&[7]);
    }
}

/// A character of one to four bytes, often the first or the last of its width.
fn character(r: &mut Random) -> char {
    let code = match r.below(16) {
        0..=6 => r.from_to(b'a' as usize, b'z' as usize),
        7..=8 => r.pick(&[0, 9, 10, 13, 32, 0x7f]),
        9 => r.pick(&[0x80, 0xa0, 0xe9, 0x7ff]),
        10 => r.from_to(0x80, 0x7ff),
        11 => r.pick(&[0x800, 0xfff, 0x1000, 0xcfff, 0xd000, 0xd7ff, 0xe000, 0xffff]),
        12..=13 => r.from_to(0x800, 0xd7ff),
        14 => r.pick(&[0x1_0000, 0x3_ffff, 0x4_0000, 0xf_ffff, 0x10_0000, 0x10_ffff]),
        _ => r.from_to(0x1_0000, 0x10_ffff),
    };
    char::from_u32(code as u32).unwrap()
}

fn string(r: &mut Random) -> String {
    let length = match r.below(16) {
        0..=3 => 0,
        4..=14 => r.from_to(1, 6),
        _ => r.from_to(7, 40),
    };
    (0..length).map(|_| character(r)).collect()
}

/// A part of a value: mostly from one character's edge to another's, at times an empty one anywhere.
fn part(r: &mut Random, value: &str) -> (u32, u32) {
    if r.one_in(12) {
        return (r.from_to(0, value.len()) as u32, 0);
    }
    let mut edge = |from: usize| {
        let mut at = r.from_to(from, value.len());
        while !value.is_char_boundary(at) {
            at += 1;
        }
        at
    };
    let start = edge(0);
    let end = edge(start);
    (start as u32, (end - start) as u32)
}

/// Readings that one value may have, in any order.
fn readings(r: &mut Random, d: &mut Drawing, value: &str) {
    if !r.one_in(3) {
        return;
    }
    let mut kinds: Vec<u8> = (1..=3).filter(|_| r.one_in(3)).collect();
    kinds.extend((0..r.below(3)).map(|_| 4));
    if r.one_in(3) {
        kinds.extend((5..=10).filter(|&k| k > 8 || r.one_in(2)));
    }
    for i in (1..kinds.len()).rev() {
        kinds.swap(i, r.from_to(0, i));
    }
    for kind in kinds {
        let (offset, length) = part(r, value);
        d.reading(kind, offset, length);
    }
}

fn element_code(r: &mut Random) -> u8 {
    if r.one_in(12) { 255 } else { r.below(53) as u8 }
}

fn attribute_code(r: &mut Random) -> u8 {
    if r.one_in(12) { 255 } else { r.below(211) as u8 }
}

fn declaration_code(r: &mut Random) -> u8 {
    if r.one_in(12) { 254 } else { attribute_code(r) }
}

/// An element's beginning: open, attributes and declarations.
fn begin(r: &mut Random, d: &mut Drawing) {
    d.open(element_code(r), r.below(5) as u8);
    while r.one_in(2) {
        let value = string(r);
        d.attribute(attribute_code(r), r.below(5) as u8, value.as_bytes());
        readings(r, d, &value);
    }
    while r.one_in(3) {
        let value = string(r);
        d.declaration(declaration_code(r), r.below(2) as u8, value.as_bytes());
        readings(r, d, &value);
    }
}

fn comments(r: &mut Random, d: &mut Drawing) {
    while r.one_in(8) {
        d.comment();
    }
}

/// A drawing that check takes.
pub fn valid(r: &mut Random, d: &mut Drawing) {
    d.clear();
    comments(r, d);
    begin(r, d);
    let mut open = 1;
    let mut left = r.below(24);
    while open > 0 {
        match if left == 0 { 7 } else { r.below(8) } {
            0..=2 => {
                begin(r, d);
                open += 1;
            }
            3 | 4 => d.text(string(r).as_bytes()),
            5 => d.comment(),
            _ => {
                d.close();
                open -= 1;
            }
        }
        left = left.saturating_sub(1);
    }
    comments(r, d);
}

/// One command that is in order by itself, wherever it stands.
fn any_command(r: &mut Random, d: &mut Drawing) {
    let value = string(r);
    match r.from_to(1, 7) {
        1 => d.open(element_code(r), r.below(5) as u8),
        2 => d.attribute(attribute_code(r), r.below(5) as u8, value.as_bytes()),
        3 => d.declaration(declaration_code(r), r.below(2) as u8, value.as_bytes()),
        4 => d.reading(r.from_to(1, 10) as u8, r.below(4) as u32, r.below(4) as u32),
        5 => d.text(value.as_bytes()),
        6 => d.comment(),
        _ => d.close(),
    }
}

/// Commands in any order, after an open.
fn any_order(r: &mut Random, d: &mut Drawing) {
    d.clear();
    d.open(element_code(r), 1);
    for _ in 0..r.below(10) {
        any_command(r, d);
    }
}

/// A drawing at one of the limits, or one past it, or one short of it.
fn at_limit(r: &mut Random, d: &mut Drawing) {
    d.clear();
    d.open(45, 1);
    match r.below(3) {
        0 => {
            let length = LIMIT - 1 + r.below(3);
            (0..length - 4).for_each(|_| d.comment());
        }
        1 => {
            let text = character(r).to_string().repeat(LIMIT / 2);
            let length = LIMIT - 1 + r.below(3);
            let mut end = length.min(text.len());
            while !text.is_char_boundary(end) {
                end -= 1;
            }
            d.text(&text.as_bytes()[..end]);
            d.text(&b"x".repeat(length - end));
        }
        _ => {
            let deepest = DEEPEST - 1 + r.below(3);
            (1..deepest).for_each(|_| d.open(element_code(r), r.below(5) as u8));
            (1..deepest).for_each(|_| d.close());
        }
    }
    d.close();
}

/// A number that is likely to matter as a length or an offset.
fn edge(r: &mut Random, old: u32, left: u32) -> u32 {
    let near = [0, 1, old.wrapping_add(1), old.wrapping_sub(1), left, left.wrapping_add(1), left.wrapping_sub(1)];
    let far = [u32::MAX, u32::MAX - 1, u32::MAX - old, u32::MAX - left, 1 << 31, 1 << 20, (1 << 20) + 1];
    match r.below(8) {
        0..=4 => r.pick(&near),
        5..=6 => r.pick(&far),
        _ => r.word() as u32,
    }
}

const UTF8_EDGES: [u8; 25] = [
    0x00, 0x20, 0x7f, 0x80, 0x8f, 0x90, 0x9f, 0xa0, 0xbf, 0xc0, 0xc1, 0xc2, 0xdf, 0xe0, 0xe1, 0xec, 0xed, 0xee, 0xef, 0xf0, 0xf1,
    0xf3, 0xf4, 0xf5, 0xff,
];

/// Overwrites an operand of four bytes: a length, or a reading's offset.
fn change_word(r: &mut Random, d: &mut Drawing) {
    let (at, taken) = r.pick(&d.commands);
    let offset = match d.script.get(at) {
        Some(2 | 3) => 3,
        Some(4) => r.pick(&[2, 6]),
        Some(5) => 1,
        _ => return,
    };
    let left = d.characters.len().saturating_sub(taken) as u32;
    if let Some(place) = d.script.get_mut(at + offset..at + offset + 4) {
        let old = u32::from_le_bytes(place.try_into().unwrap());
        place.copy_from_slice(&edge(r, old, left).to_le_bytes());
    }
}

/// Damages a list of bytes: a bit or a byte changed, a part removed, repeated or put in, the end cut off.
fn damage_bytes(r: &mut Random, bytes: &mut Vec<u8>, likely: &[u8]) {
    let at = r.from_to(0, bytes.len());
    let end = (at + r.from_to(1, 4)).min(bytes.len());
    match r.below(8) {
        0 | 1 if at < end => bytes[at] ^= 1 << r.below(8),
        2 if at < end => bytes[at] = r.byte(),
        3 if at < end => bytes[at] = r.pick(likely),
        4 => bytes.truncate(at),
        5 => drop(bytes.drain(at..end)),
        6 => {
            let again = bytes[at..end].to_vec();
            bytes.splice(at..at, again);
        }
        _ => bytes.insert(at, if r.one_in(2) { r.byte() } else { r.pick(likely) }),
    }
}

/// Damages the list of commands: one removed, repeated elsewhere or put in, or all from one on cut off. Strings stay with
/// their commands or do not.
fn damage_commands(r: &mut Random, d: &mut Drawing) {
    let k = r.below(d.commands.len());
    let (at, taken) = d.commands[k];
    let (end, taken_end) = d.commands.get(k + 1).copied().unwrap_or((d.script.len(), d.characters.len()));
    if end > d.script.len() || taken_end > d.characters.len() || at > end || taken > taken_end {
        return;
    }
    let with_string = !r.one_in(4);
    match r.below(4) {
        0 => {
            d.script.drain(at..end);
            if with_string {
                d.characters.drain(taken..taken_end);
            }
        }
        1 => {
            let (to, string_to) = r.pick(&d.commands);
            let (to, string_to) = (to.min(d.script.len()), string_to.min(d.characters.len()));
            let (command, string) = (d.script[at..end].to_vec(), d.characters[taken..taken_end].to_vec());
            d.script.splice(to..to, command);
            if with_string {
                d.characters.splice(string_to..string_to, string);
            }
        }
        2 => {
            let mut other = Drawing::default();
            any_command(r, &mut other);
            d.script.splice(at..at, other.script);
            if with_string {
                d.characters.splice(taken..taken, other.characters);
            }
        }
        _ => {
            d.script.truncate(at);
            if with_string {
                d.characters.truncate(taken);
            }
        }
    }
}

fn damage(r: &mut Random, d: &mut Drawing) {
    match r.below(8) {
        0..=2 => damage_bytes(r, &mut d.script, &[0, 1, 2, 3, 4, 5, 6, 7, 8, 10, 11, 52, 53, 210, 211, 254, 255]),
        3 => damage_bytes(r, &mut d.characters, &UTF8_EDGES),
        4 | 5 => change_word(r, d),
        _ => damage_commands(r, d),
    }
}

/// A random drawing: in order, damaged once to three times, in any order, or at a limit.
pub fn random(r: &mut Random, d: &mut Drawing) {
    if r.one_in(10_000) {
        at_limit(r, d);
        if r.one_in(2) {
            damage(r, d);
        }
        return;
    }
    match r.below(20) {
        0..=4 => valid(r, d),
        5..=15 => {
            valid(r, d);
            (0..=r.below(3)).for_each(|_| damage(r, d));
        }
        _ => any_order(r, d),
    }
}

/// One to three damages, to a drawing that has commands.
pub fn damaged(r: &mut Random, d: &mut Drawing) {
    if !d.commands.is_empty() {
        (0..=r.below(3)).for_each(|_| damage(r, d));
    }
}

/// A drawing in order of which build makes more than of most random ones: the top element is an `svg`, and elements and attributes
/// often have the namespace in which they count.
pub fn lively(r: &mut Random, d: &mut Drawing) {
    valid(r, d);
    let mut first = true;
    for &(at, _) in &d.commands {
        match d.script[at] {
            1 if first => {
                first = false;
                d.script[at + 1] = SVG;
                d.script[at + 2] = 1;
            }
            1 if !r.one_in(4) => d.script[at + 2] = 1,
            2 if !r.one_in(4) => d.script[at + 2] = 0,
            _ => {}
        }
    }
}

/// Any bytes as script and characters, mostly ones that begin a command.
pub fn any_bytes(r: &mut Random) -> Drawing {
    let mut bytes = |most: usize, likely: usize| -> Vec<u8> {
        let length = r.below(most);
        (0..length).map(|_| if r.one_in(3) { r.byte() } else { r.below(likely) as u8 }).collect()
    };
    let (script, characters) = (bytes(60, 8), bytes(20, 128));
    let script = if r.one_in(2) { [&[1, SVG, 1][..], &script, &[7]].concat() } else { script };
    Drawing::of(&script, &characters)
}
