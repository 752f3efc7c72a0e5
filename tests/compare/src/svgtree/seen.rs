//! Looks into the Rust's tree, makes one from tables, and asks the four questions.
use super::{AId, Attribute, Document, EId, NodeData, NodeId, NodeKind, ShortRange};
use crate::codes::{AIDS, EIDS};
use host::questions::{Tables, records};
use std::collections::HashMap;

/// A node of the tree: links are an index plus 1, or 0.
pub struct Node<'a> {
    pub parent: u32,
    pub next: u32,
    pub first: u32,
    pub last: u32,
    pub kind: Kind<'a>,
}

pub enum Kind<'a> {
    Root,
    Element { code: u32, from: u32, to: u32 },
    Text(&'a str),
}

fn link(id: Option<NodeId>) -> u32 {
    id.map_or(0, |id| id.get() + 1)
}

pub fn nodes<'a>(doc: &'a Document) -> impl Iterator<Item = Node<'a>> {
    doc.nodes.iter().map(|n| Node {
        parent: link(n.parent),
        next: link(n.next_sibling),
        first: link(n.children.map(|c| c.0)),
        last: link(n.children.map(|c| c.1)),
        kind: match &n.kind {
            NodeKind::Root => Kind::Root,
            NodeKind::Element { tag_name, attributes } => {
                Kind::Element { code: *tag_name as u32, from: attributes.start, to: attributes.end }
            }
            NodeKind::Text(text) => Kind::Text(text),
        },
    })
}

/// The entries: code, importance, value.
pub fn entries<'a>(doc: &'a Document) -> impl Iterator<Item = (u32, bool, &'a str)> {
    doc.attrs.iter().map(|a| (a.name as u32, a.important, a.value.as_str()))
}

/// The names of the codes, in their order.
pub fn names() -> drawing::Names {
    let elements: Vec<&str> = EIDS.iter().map(|e: &EId| e.to_str()).collect();
    let attributes: Vec<&str> = AIDS.iter().map(|a: &AId| a.to_str()).collect();
    assert!(EIDS.iter().enumerate().all(|(k, e)| *e as usize == k && EId::from_str(elements[k]) == Some(*e)));
    assert!(AIDS.iter().enumerate().all(|(k, a)| *a as usize == k && AId::from_str(attributes[k]) == Some(*a)));
    drawing::Names { elements, attributes }
}

/// A tree of the Rust from tables that pass the 40 test: None where a value or a text is not UTF-8. Ids count by index.
pub fn document<'a>(t: &Tables<'a>) -> Option<Document<'a>> {
    let id = |link: u32| if link == 0 { None } else { Some(NodeId::new(link - 1)) };
    let mut doc = Document { nodes: Vec::new(), attrs: Vec::new(), links: HashMap::new() };
    for &[name, important, start, length, command] in &records::<5>(t.attributes)[..t.counts.attributes as usize] {
        let value = if command == 0 {
            host::names::FIXED[start as usize - 1]
        } else {
            std::str::from_utf8(&t.characters[start as usize..][..length as usize]).ok()?
        };
        let value = roxmltree::StringStorage::Borrowed(value);
        doc.attrs.push(Attribute { name: AIDS[name as usize], value, important: important != 0 });
    }
    for &[kind, parent, next, first, last, code, from, to] in &records::<8>(t.nodes)[..t.counts.nodes as usize] {
        let kind = match kind {
            1 => NodeKind::Root,
            2 => NodeKind::Element { tag_name: EIDS[code as usize], attributes: ShortRange::new(from, to) },
            _ => NodeKind::Text(std::str::from_utf8(&t.text[from as usize..to as usize]).ok()?.to_string()),
        };
        let children = id(first).zip(id(last));
        doc.nodes.push(NodeData { parent: id(parent), next_sibling: id(next), children, kind });
    }
    for index in 0..doc.nodes.len() {
        let node = doc.get(NodeId::from(index));
        if let Some(name) = node.attribute::<&str>(AId::Id).map(str::to_string) {
            doc.links.insert(name, NodeId::from(index));
        }
    }
    Some(doc)
}

/// The entry that `attribute` reads, as an index.
pub fn attribute(doc: &Document, node: u32, code: u32) -> Option<usize> {
    let (node, name) = (doc.get(NodeId::new(node)), AIDS[code as usize]);
    node.attribute::<&str>(name).and_then(|_| node.attribute_id(name))
}

/// The entry that `find_attribute` reads, as an index.
pub fn find_attribute(doc: &Document, node: u32, code: u32) -> Option<usize> {
    let (node, name) = (doc.get(NodeId::new(node)), AIDS[code as usize]);
    node.find_attribute::<&str>(name)?;
    node.find_attribute_impl(name)?.attribute_id(name)
}

pub fn element_by_id(doc: &Document, id: &str) -> Option<usize> {
    doc.element_by_id(id).map(|n| n.id.get_usize())
}

pub fn text<'a>(doc: &'a Document, node: u32) -> &'a str {
    doc.get(NodeId::new(node)).text()
}
