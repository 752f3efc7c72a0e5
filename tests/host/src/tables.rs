//! Tables for the questions: sound ones at random, and ones broken in a word or two.
use crate::built::Built;
use crate::names::AId::*;
use crate::questions::{Counts, Tables, records};
use crate::random::Random;

#[derive(Clone)]
pub struct Lent {
    pub nodes: Vec<u32>,
    pub attributes: Vec<u32>,
    pub text: Vec<u8>,
    pub characters: Vec<u8>,
    pub counts: Counts,
}

impl Lent {
    pub fn tables(&self) -> Tables<'_> {
        Tables {
            nodes: &self.nodes,
            attributes: &self.attributes,
            text: &self.text,
            characters: &self.characters,
            counts: self.counts,
        }
    }
}

/// Names of every class: the ten, inheritable and not, and others.
#[rustfmt::skip]
pub const POOL: [u32; 21] = [
    Id as u32, Mask as u32, MarkerStart as u32, MarkerMid as u32, MarkerEnd as u32, ClipPath as u32, Filter as u32,
    FontSizeAdjust as u32, TextDecoration as u32, Stroke as u32, StrokeDasharray as u32, Fill as u32, Opacity as u32,
    Transform as u32, FontFamily as u32, Href as u32, Space as u32, AlignmentBaseline as u32, WritingMode as u32, Z as u32,
    X as u32,
];

/// Values that matter, and ids.
pub const WORDS: [&str; 9] = ["none", "", "a", "b", "ab", "none ", "é", "start", "4"];

/// Random words past what counts, which nothing tests.
fn spare(r: &mut Random, table: &mut Vec<u32>) {
    for _ in 0..r.below(10) {
        table.push(if r.one_in(2) { 0 } else { r.word() as u32 });
    }
}

/// Two numbers up to n, in order.
fn range(r: &mut Random, n: u32) -> [u32; 2] {
    let from = r.from_to(0, n as usize);
    [from as u32, r.from_to(from, n as usize) as u32]
}

/// One entry; about one in five has a fixed value.
fn entry(r: &mut Random, names: &[u32], values: &[[u32; 2]]) -> [u32; 5] {
    let name = if r.one_in(8) { r.below(211) as u32 } else { r.pick(names) };
    let important = if r.one_in(16) { r.word() as u32 } else { r.below(2) as u32 };
    if r.one_in(5) {
        let number = if r.one_in(2) { 1 } else { r.from_to(1, 18) as u32 };
        [name, important, number, 0, 0]
    } else {
        let [start, length] = r.pick(values);
        [name, important, start, length, r.from_to(1, 40) as u32]
    }
}

/// A node, with links to any later node or with none.
fn loose(r: &mut Random, i: usize, counts: Counts) -> [u32; 8] {
    let n = counts.nodes as usize;
    let mut later = |often: usize| if i + 2 <= n && r.one_in(often) { r.from_to(i + 2, n) as u32 } else { 0 };
    let next = later(2);
    let first = later(2);
    let last = if first == 0 { 0 } else { later(1) };
    if i == 0 {
        return [1, 0, next, first, last, r.below(99) as u32, r.word() as u32, r.below(9) as u32];
    }
    let parent = r.from_to(1, i) as u32;
    if r.one_in(3) {
        let [from, to] = range(r, counts.text);
        [3, parent, next, first, last, if r.one_in(2) { 0 } else { r.word() as u32 }, from, to]
    } else {
        let [from, to] = range(r, counts.attributes);
        [2, parent, next, first, last, r.below(53) as u32, from, to]
    }
}

/// Nodes in the order of a tree, linked as build does; ranges follow one another.
fn grown(r: &mut Random, counts: Counts) -> Vec<[u32; 8]> {
    let mut nodes: Vec<[u32; 8]> = vec![[1, 0, 0, 0, 0, 0, 0, 0]];
    let mut path = vec![0];
    let (mut entries, mut bytes) = (0, 0);
    for i in 1..counts.nodes as usize {
        path.truncate(r.from_to(1, path.len()));
        let parent = path[path.len() - 1];
        let here = i as u32 + 1;
        match nodes[parent][4] {
            0 => nodes[parent][3] = here,
            last => nodes[last as usize - 1][2] = here,
        }
        nodes[parent][4] = here;
        let (kind, code, count, taken) = if i > 1 && r.one_in(3) {
            (3, 0, counts.text, &mut bytes)
        } else {
            path.push(i);
            (2, r.below(53) as u32, counts.attributes, &mut entries)
        };
        let from = *taken;
        *taken = count.min(from + r.below(4) as u32);
        nodes.push([kind, parent as u32 + 1, 0, 0, 0, code, from, *taken]);
    }
    nodes
}

/// Tables that pass the 40 test.
pub fn sound(r: &mut Random) -> Lent {
    let mut characters = Vec::new();
    let mut values = Vec::new();
    for _ in 0..r.from_to(1, 6) {
        let word = r.pick(&WORDS).as_bytes();
        values.push([characters.len() as u32, word.len() as u32]);
        characters.extend(word);
    }
    values.push([r.from_to(0, characters.len()) as u32, 0]);
    let counts = Counts { nodes: r.from_to(1, 10) as u32, attributes: r.below(12) as u32, text: r.below(9) as u32 };
    let nodes = if r.one_in(2) { grown(r, counts) } else { (0..counts.nodes as usize).map(|i| loose(r, i, counts)).collect() };
    let mut nodes = nodes.concat();
    spare(r, &mut nodes);
    let names = [Id as u32, r.pick(&POOL), r.pick(&POOL)];
    let entries: Vec<[u32; 5]> = (0..counts.attributes).map(|_| entry(r, &names, &values)).collect();
    let mut attributes = entries.concat();
    spare(r, &mut attributes);
    let text = (0..counts.text as usize + r.below(4)).map(|_| r.byte()).collect();
    Lent { nodes, attributes, text, characters, counts }
}

/// A word that is likely to matter in place of `old`.
fn word(r: &mut Random, lent: &Lent, record: u32, old: u32) -> u32 {
    let Counts { nodes, attributes, text } = lent.counts;
    let near = [0, 1, 2, 3, record, record.wrapping_add(1), record.wrapping_add(2), old.wrapping_add(1), old.wrapping_sub(1)];
    let ends = [nodes, nodes.wrapping_add(1), attributes.wrapping_add(1), text.wrapping_add(1), lent.characters.len() as u32 + 1];
    let lists = [4, 18, 19, 52, 53, 210, 211, 254, 255];
    let far = [1 << 31, u32::MAX - 1, u32::MAX, u32::MAX - old, (u32::MAX - old).wrapping_add(1)];
    match r.below(9) {
        0..=2 => r.pick(&near),
        3..=5 => r.pick(&ends),
        6 => r.pick(&lists),
        7 => r.pick(&far),
        _ => r.word() as u32,
    }
}

/// A count that is likely to matter: near the old one, near what the slice holds, or so large that a product of 32 bits
/// would come out small.
fn count(r: &mut Random, old: u32, length: usize, record: u32) -> u32 {
    let wraps = u32::MAX / record;
    let near = [0, old.wrapping_sub(1), old + 1, length as u32 / record, length as u32 / record + 1];
    let far = [wraps, wraps.wrapping_add(1), wraps.wrapping_add(1 + old), 1 << 31, u32::MAX, u32::MAX - 1];
    if r.one_in(2) { r.pick(&near) } else { r.pick(&far) }
}

/// Breaks one thing: a word of a record, a count, or the length of a slice.
pub fn damage(r: &mut Random, lent: &mut Lent) {
    match r.below(16) {
        0..=6 if !lent.nodes.is_empty() => {
            let at = r.below((lent.counts.nodes as usize).saturating_mul(8).clamp(1, lent.nodes.len()));
            lent.nodes[at] = word(r, lent, at as u32 / 8, lent.nodes[at]);
        }
        7..=11 if !lent.attributes.is_empty() => {
            let at = r.below((lent.counts.attributes as usize).saturating_mul(5).clamp(1, lent.attributes.len()));
            lent.attributes[at] = word(r, lent, at as u32 / 5, lent.attributes[at]);
        }
        12 => lent.counts.nodes = count(r, lent.counts.nodes.min(99), lent.nodes.len(), 8),
        13 => lent.counts.attributes = count(r, lent.counts.attributes.min(99), lent.attributes.len(), 5),
        14 => lent.counts.text = count(r, lent.counts.text.min(99), lent.text.len(), 1),
        _ => match r.below(4) {
            0 => lent.nodes.truncate(r.from_to(0, lent.nodes.len())),
            1 => lent.attributes.truncate(r.from_to(0, lent.attributes.len())),
            2 => lent.text.truncate(r.from_to(0, lent.text.len())),
            _ => lent.characters.truncate(r.from_to(0, lent.characters.len())),
        },
    }
}

/// Random tables: half of them sound, half broken once or twice.
pub fn random(r: &mut Random) -> Lent {
    let mut lent = sound(r);
    if r.one_in(2) {
        (0..=r.below(2)).for_each(|_| damage(r, &mut lent));
    }
    lent
}

/// A node to ask about, at times past the end.
pub fn node(r: &mut Random, lent: &Lent) -> u32 {
    let count = lent.counts.nodes;
    if r.one_in(12) {
        r.pick(&[count, count.saturating_add(1), u32::MAX])
    } else {
        r.below(count.clamp(1, 1 << 20) as usize) as u32
    }
}

/// A name to ask about: mostly one that the table has, at times one past the list.
pub fn name(r: &mut Random, lent: &Lent) -> u32 {
    match r.below(8) {
        0..=4 if lent.attributes.len() >= 5 => lent.attributes[r.below(lent.attributes.len() / 5) * 5],
        0..=5 => r.pick(&POOL),
        6 => r.below(214) as u32,
        _ => r.pick(&[210, 211, 212, 254, 255, u32::MAX]),
    }
}

/// An id to ask for: mostly a value that the table has, at times bytes that are no UTF-8.
pub fn id(r: &mut Random, lent: &Lent) -> Vec<u8> {
    let entries: &[[u32; 5]] = records(&lent.attributes);
    match r.below(8) {
        0..=5 if !entries.is_empty() => {
            let [_, _, start, length, _] = r.pick(entries);
            let part = lent.characters.get(start as usize..).and_then(|c| c.get(..length as usize));
            part.unwrap_or(b"none").to_vec()
        }
        6 => (0..r.below(4)).map(|_| r.byte()).collect(),
        _ => r.pick(&WORDS).as_bytes().to_vec(),
    }
}

/// Any words in tables that are to be lent: one word everywhere, or random ones.
pub fn fill(r: &mut Random, t: &mut Built) {
    let word = r.word() as u32;
    let mut next = || if word % 4 == 0 { word } else { r.word() as u32 };
    t.nodes.iter_mut().for_each(|w| *w = next());
    t.attributes.iter_mut().for_each(|w| *w = next());
    t.text.iter_mut().for_each(|w| *w = next() as u8);
}
