//! The four questions, asked of the Rust's tree, of plain Rust (tests/host) over the tables, and of the library.
use crate::codes::a;
use crate::library;
#[cfg(feature = "rust")]
use crate::rust::Tree;
#[cfg(feature = "rust")]
use crate::svgtree::{Document, seen};
use host::questions::{Answer, Part, Tables};

#[derive(Clone, Debug)]
pub enum Question {
    Attribute(u32, u32),
    FindAttribute(u32, u32),
    Id(Vec<u8>),
    Text(u32),
}

/// An answer in one form for all questions: a number, found, an index; for a text: 0, its start, its length.
pub type Reply = [u32; 3];

fn reply(a: Answer) -> Reply {
    [a.number, a.found, a.index]
}

fn part(p: Part) -> Reply {
    [0, p.start, p.length]
}

const IDS: [&str; 7] = ["a", "b", "c", "", "url(#a)", "zz", "none"];

fn about(nodes: impl Iterator<Item = u32>, names: &[u32]) -> Vec<Question> {
    let mut asked = Vec::new();
    for node in nodes {
        for &name in names {
            asked.push(Question::Attribute(node, name));
            asked.push(Question::FindAttribute(node, name));
        }
        asked.push(Question::Text(node));
    }
    asked.extend(IDS.iter().map(|id| Question::Id(id.as_bytes().to_vec())));
    asked
}

/// Every name at every node of so many, or at the first of them.
pub fn all(count: u32) -> Vec<Question> {
    about(0..count.min(40), &(0..211).collect::<Vec<u32>>())
}

/// Some names at some nodes: those of the last entries, and a few of each class.
pub fn some(count: u32, entries: &[u32]) -> Vec<Question> {
    let mut names: Vec<u32> =
        [a::Id, a::Fill, a::Stroke, a::Opacity, a::FontSizeAdjust, a::ClipPath].iter().map(|&n| n as u32).collect();
    names.extend(entries.chunks_exact(5).rev().take(4).map(|e| e[0]));
    if count <= 12 {
        about(0..count, &names)
    } else {
        about((0..6).chain(count / 2..count / 2 + 2).chain(count - 4..count), &names)
    }
}

/// The Rust's own answers. A text is the bytes of a node; where they lie is told by the tables.
#[cfg(feature = "rust")]
pub fn rust(doc: &Document, tree: &Tree, asked: &[Question]) -> Vec<Reply> {
    let found = |index: Option<usize>| index.map_or([0; 3], |i| [0, 1, i as u32]);
    let own = |record: &[u32; 8]| [0, record[6], record[7] - record[6]];
    let answer = |question: &Question| match question {
        Question::Attribute(node, name) => found(seen::attribute(doc, *node, *name)),
        Question::FindAttribute(node, name) => found(seen::find_attribute(doc, *node, *name)),
        Question::Id(id) => found(std::str::from_utf8(id).ok().and_then(|id| seen::element_by_id(doc, id))),
        Question::Text(node) => {
            let record = &tree.nodes[*node as usize];
            let place = match *record {
                [3, ..] => own(record),
                [2, _, _, first, ..] if first != 0 && tree.nodes[first as usize - 1][0] == 3 => {
                    own(&tree.nodes[first as usize - 1])
                }
                _ => [0; 3],
            };
            let bytes = &tree.text[place[1] as usize..][..place[2] as usize];
            assert_eq!(seen::text(doc, *node).as_bytes(), bytes, "the text of node {node}");
            place
        }
    };
    asked.iter().map(answer).collect()
}

/// The answers of plain Rust.
pub fn plain(t: &Tables, asked: &[Question]) -> Vec<Reply> {
    let answer = |question: &Question| match question {
        Question::Attribute(node, name) => reply(t.attribute(*node, *name)),
        Question::FindAttribute(node, name) => reply(t.find_attribute(*node, *name)),
        Question::Id(id) => reply(t.element_by_id(id)),
        Question::Text(node) => part(t.text(*node)),
    };
    asked.iter().map(answer).collect()
}

/// The answers of the library, where it is linked.
pub fn linked(t: &Tables, asked: &[Question]) -> Option<Vec<Reply>> {
    let answer = |question: &Question| match question {
        Question::Attribute(node, name) => library::attribute(t, *node, *name).map(reply),
        Question::FindAttribute(node, name) => library::find_attribute(t, *node, *name).map(reply),
        Question::Id(id) => library::element_by_id(t, id).map(reply),
        Question::Text(node) => library::text(t, *node).map(part),
    };
    asked.iter().map(answer).collect()
}
