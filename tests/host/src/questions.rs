//! The questions over the three tables in plain Rust, written from document 01, sections 3, 6 and 7, READINGS.md and
//! the Rust's mod.rs alone.
use crate::names::{AId, FIXED, NAMES, is_inheritable, none_is_absent};

#[repr(C)]
#[derive(Clone, Copy, Debug, PartialEq)]
pub struct Counts {
    pub nodes: u32,
    pub attributes: u32,
    pub text: u32,
}

#[repr(C)]
#[derive(Clone, Copy, Debug, PartialEq)]
pub struct Answer {
    pub number: u32,
    pub found: u32,
    pub index: u32,
}

#[repr(C)]
#[derive(Clone, Copy, Debug, PartialEq)]
pub struct Part {
    pub start: u32,
    pub length: u32,
}

/// What a caller lends.
#[derive(Clone, Copy)]
pub struct Tables<'a> {
    pub nodes: &'a [u32],
    pub attributes: &'a [u32],
    pub text: &'a [u8],
    pub characters: &'a [u8],
    pub counts: Counts,
}

/// What the 40 test finds wrong.
#[derive(Clone, Copy, Debug, PartialEq, Eq, PartialOrd, Ord)]
pub enum Flaw {
    NodeCount,
    AttributeCount,
    TextCount,
    NoNode,
    Root,
    Kind,
    Parent,
    Sibling,
    Child,
    OneChildOnly,
    ElementCode,
    AttributeRange,
    TextRange,
    AttributeCode,
    FixedValue,
    Value,
}

const ELEMENTS: u32 = 53;
const ROOT: u32 = 1;
const ELEMENT: u32 = 2;
const TEXT: u32 = 3;
const ABSENT: Answer = Answer { number: 0, found: 0, index: 0 };
const NOTHING: Part = Part { start: 0, length: 0 };

fn refused(number: u32) -> Answer {
    Answer { number, ..ABSENT }
}

fn found(index: Option<usize>) -> Answer {
    index.map_or(ABSENT, |i| Answer { number: 0, found: 1, index: i as u32 })
}

fn test(holds: bool, flaw: Flaw) -> Result<(), Flaw> {
    if holds { Ok(()) } else { Err(flaw) }
}

/// The words of a table as records of N; words left over at the end are in none.
pub fn records<const N: usize>(words: &[u32]) -> &[[u32; N]] {
    // SAFETY: a record is N words one after another, and the records lie within the slice.
    unsafe { std::slice::from_raw_parts(words.as_ptr().cast(), words.len() / N) }
}

/// Tables that pass the 40 test.
struct Sound<'a> {
    nodes: &'a [[u32; 8]],
    attributes: &'a [[u32; 5]],
    characters: &'a [u8],
}

impl<'a> Tables<'a> {
    /// The 40 test.
    fn sound(&self) -> Result<Sound<'a>, Flaw> {
        let nodes = records(self.nodes).get(..self.counts.nodes as usize).ok_or(Flaw::NodeCount)?;
        let attributes = records(self.attributes).get(..self.counts.attributes as usize).ok_or(Flaw::AttributeCount)?;
        test(self.counts.text as usize <= self.text.len(), Flaw::TextCount)?;
        test(!nodes.is_empty(), Flaw::NoNode)?;
        for (i, record) in nodes.iter().enumerate() {
            self.node(i as u32, record)?;
        }
        for record in attributes {
            self.entry(record)?;
        }
        Ok(Sound { nodes, attributes, characters: self.characters })
    }

    fn node(&self, i: u32, record: &[u32; 8]) -> Result<(), Flaw> {
        let [kind, parent, next, first, last, code, from, to] = *record;
        let later = |link: u32| link == 0 || (link > i + 1 && link <= self.counts.nodes);
        if i == 0 {
            test(kind == ROOT && parent == 0, Flaw::Root)?;
        } else {
            test(kind == ELEMENT || kind == TEXT, Flaw::Kind)?;
            test(parent != 0 && parent <= i, Flaw::Parent)?;
        }
        test(later(next), Flaw::Sibling)?;
        test(later(first) && later(last), Flaw::Child)?;
        test((first == 0) == (last == 0), Flaw::OneChildOnly)?;
        match kind {
            ELEMENT => {
                test(code < ELEMENTS, Flaw::ElementCode)?;
                test(from <= to && to <= self.counts.attributes, Flaw::AttributeRange)
            }
            TEXT => test(from <= to && to <= self.counts.text, Flaw::TextRange),
            _ => Ok(()),
        }
    }

    fn entry(&self, record: &[u32; 5]) -> Result<(), Flaw> {
        let [name, _, start, length, command] = *record;
        test(name < NAMES as u32, Flaw::AttributeCode)?;
        if command == 0 {
            test((1..=FIXED.len() as u32).contains(&start) && length == 0, Flaw::FixedValue)
        } else {
            test(start as u64 + length as u64 <= self.characters.len() as u64, Flaw::Value)
        }
    }

    /// What the 40 test finds first, if anything.
    pub fn flaw(&self) -> Option<Flaw> {
        self.sound().err()
    }

    /// The tests before a question about a node and a name.
    fn asked(&self, node: u32, name: u32) -> Result<Sound<'a>, Answer> {
        let sound = self.sound().map_err(|_| refused(40))?;
        if node >= self.counts.nodes {
            Err(refused(41))
        } else if name >= NAMES as u32 {
            Err(refused(42))
        } else {
            Ok(sound)
        }
    }

    pub fn attribute(&self, node: u32, name: u32) -> Answer {
        match self.asked(node, name) {
            Ok(sound) => found(sound.attribute(node as usize, name)),
            Err(answer) => answer,
        }
    }

    pub fn find_attribute(&self, node: u32, name: u32) -> Answer {
        match self.asked(node, name) {
            Ok(sound) => found(sound.holder(node as usize, name).and_then(|n| sound.attribute(n, name))),
            Err(answer) => answer,
        }
    }

    pub fn element_by_id(&self, id: &[u8]) -> Answer {
        match self.sound() {
            Ok(sound) => found((0..sound.nodes.len()).rev().find(|&n| sound.id(n) == Some(id))),
            Err(_) => refused(40),
        }
    }

    pub fn text(&self, node: u32) -> Part {
        self.sound().map_or(NOTHING, |sound| sound.text(node as usize))
    }
}

impl<'a> Sound<'a> {
    /// The first entry of a name at a node, whatever its value.
    fn entry(&self, node: usize, name: u32) -> Option<usize> {
        let [kind, .., from, to] = self.nodes[node];
        if kind != ELEMENT {
            return None;
        }
        let range = from as usize..to as usize;
        self.attributes[range].iter().position(|a| a[0] == name).map(|k| from as usize + k)
    }

    fn value(&self, entry: usize) -> &'a [u8] {
        let [_, _, start, length, command] = self.attributes[entry];
        if command == 0 { FIXED[start as usize - 1].as_bytes() } else { &self.characters[start as usize..][..length as usize] }
    }

    fn attribute(&self, node: usize, name: u32) -> Option<usize> {
        self.entry(node, name).filter(|&e| !(none_is_absent(name) && self.value(e) == b"none"))
    }

    /// The nodes above a node, the nearest first.
    fn above(&self, node: usize) -> impl Iterator<Item = usize> + '_ {
        std::iter::successors(Some(node), |&n| (self.nodes[n][1] as usize).checked_sub(1)).skip(1)
    }

    /// The node whose attribute counts for a node.
    fn holder(&self, node: usize, name: u32) -> Option<usize> {
        let has = |n: &usize| self.entry(*n, name).is_some();
        if has(&node) {
            Some(node)
        } else if is_inheritable(name) {
            self.above(node).find(has)
        } else {
            self.above(node).find(|&n| self.nodes[n][0] == ELEMENT).filter(has)
        }
    }

    fn id(&self, node: usize) -> Option<&'a [u8]> {
        self.entry(node, AId::Id as u32).map(|e| self.value(e))
    }

    fn text(&self, node: usize) -> Part {
        let own = |record: &[u32; 8]| Part { start: record[6], length: record[7] - record[6] };
        match self.nodes.get(node) {
            Some(record) if record[0] == TEXT => own(record),
            Some(record) if record[0] == ELEMENT && record[3] != 0 => {
                let child = &self.nodes[record[3] as usize - 1];
                if child[0] == TEXT { own(child) } else { NOTHING }
            }
            _ => NOTHING,
        }
    }
}
