//! What build and exchange answer.
use crate::questions::{Counts, Tables};

/// The answer of build: its number, the counts, and what the three lent tables hold afterwards.
#[derive(Clone, Debug, PartialEq)]
pub struct Built {
    pub number: u32,
    pub counts: [u32; 3],
    pub nodes: Vec<u32>,
    pub attributes: Vec<u32>,
    pub text: Vec<u8>,
}

impl Built {
    /// The tables as the questions are lent them.
    pub fn tables<'a>(&'a self, characters: &'a [u8]) -> Tables<'a> {
        let [nodes, attributes, text] = self.counts;
        let counts = Counts { nodes, attributes, text };
        Tables { nodes: &self.nodes, attributes: &self.attributes, text: &self.text, characters, counts }
    }

    /// The lengths of the tables.
    pub fn words(&self) -> [usize; 3] {
        [self.nodes.len(), self.attributes.len(), self.text.len()]
    }

    /// The same answer with tables of other lengths, which are enough.
    pub fn with_words(&self, words: [usize; 3]) -> Built {
        let [nodes, attributes, text] = self.counts.map(|c| c as usize);
        let mut other = Built::refused(self.number, words);
        other.counts = self.counts;
        other.nodes[..8 * nodes].copy_from_slice(&self.nodes[..8 * nodes]);
        other.attributes[..5 * attributes].copy_from_slice(&self.attributes[..5 * attributes]);
        other.text[..text].copy_from_slice(&self.text[..text]);
        other
    }

    /// A refusal: counts of 0, and cleared tables of the lengths lent.
    pub fn refused(number: u32, words: [usize; 3]) -> Built {
        Built { number, counts: [0; 3], nodes: vec![0; words[0]], attributes: vec![0; words[1]], text: vec![0; words[2]] }
    }
}

/// The answer of exchange. None instead of the tables: they are as they were lent.
#[derive(Clone, Debug, PartialEq)]
pub struct Exchanged {
    pub number: u32,
    pub characters: Vec<u8>,
    pub tables: Option<Built>,
}

/// The first place in which two answers differ.
pub fn first_difference(a: &Built, b: &Built) -> Option<String> {
    let words = |table: &str, size: usize, a: &[u32], b: &[u32]| -> Option<String> {
        if a.len() != b.len() {
            return Some(format!("{table}: {} words and {}", a.len(), b.len()));
        }
        let at = (0..a.len()).find(|&k| a[k] != b[k])?;
        Some(format!("{table} record {} word {}: {} and {}", at / size, at % size, a[at], b[at]))
    };
    if a.number != b.number {
        return Some(format!("number: {} and {}", a.number, b.number));
    }
    if a.counts != b.counts {
        return Some(format!("counts: {:?} and {:?}", a.counts, b.counts));
    }
    let text = |t: &[u8]| t.iter().map(|&c| c as u32).collect::<Vec<_>>();
    words("nodes", 8, &a.nodes, &b.nodes)
        .or_else(|| words("attributes", 5, &a.attributes, &b.attributes))
        .or_else(|| words("text", 1, &text(&a.text), &text(&b.text)))
}
