//! A tree by what stands in it: names, values and texts as strings, and how nodes hang together. It says nothing of where a value comes
//! from, so that a tree which was made from a script can be compared with one which was made from an XML document.
use crate::hash::Hash;

#[derive(Clone, Debug, PartialEq)]
pub struct Entry {
    pub name: String,
    pub value: String,
    pub important: bool,
}

#[derive(Clone, Debug, PartialEq)]
pub enum Kind {
    Root,
    Element { name: String, entries: Vec<Entry> },
    Text(String),
}

/// A node with its links: parent, next sibling, first and last child, each an index plus 1, or 0.
#[derive(Clone, Debug, PartialEq)]
pub struct Node {
    pub links: [u32; 4],
    pub kind: Kind,
}

/// What becomes of a file.
#[derive(Clone, Debug, PartialEq)]
pub enum Answer {
    /// It is no XML document, or it is not written in UTF-8.
    NoXml,
    /// Its drawing is refused with this number.
    Refused(u32),
    Tree(Vec<Node>),
    /// The host gives up, for the sake of time or stack.
    GivenUp(String),
}

impl Answer {
    /// The answer in one line: what happened, how many nodes there are, and the hash of all that stands in them.
    pub fn line(&self) -> String {
        match self {
            Answer::NoXml => "no-xml".to_string(),
            Answer::Refused(number) => format!("refused {number}"),
            Answer::GivenUp(words) => format!("given-up {words}"),
            Answer::Tree(nodes) => {
                let mut hash = Hash::new();
                nodes.iter().for_each(|node| hash_node(node, &mut hash));
                format!("tree {} {}", nodes.len(), hash.written())
            }
        }
    }

    /// Where two answers differ first, in words.
    pub fn difference(&self, other: &Answer) -> Option<String> {
        let (own, others) = match (self, other) {
            (Answer::Tree(own), Answer::Tree(others)) => (own, others),
            _ if self == other => return None,
            _ => return Some(format!("{} and {}", self.line(), other.line())),
        };
        let first = own.iter().zip(others).position(|(a, b)| a != b);
        match first {
            Some(k) => Some(format!("node {k}: {:?} and {:?}", own[k], others[k])),
            None if own.len() != others.len() => Some(format!("{} and {} nodes", own.len(), others.len())),
            None => None,
        }
    }
}

fn hash_node(node: &Node, hash: &mut Hash) {
    hash.words(&node.links);
    match &node.kind {
        Kind::Root => hash.words(&[1]),
        Kind::Element { name, entries } => {
            hash.words(&[2, entries.len() as u32]);
            hash.string(name);
            for entry in entries {
                hash.string(&entry.name);
                hash.string(&entry.value);
                hash.words(&[entry.important as u32]);
            }
        }
        Kind::Text(text) => {
            hash.words(&[3]);
            hash.string(text);
        }
    }
}
