//! Looks into the Rust's tree.
use super::{Document, NodeId, NodeKind};
use crate::tree::{Entry, Kind, Node};

fn link(id: Option<NodeId>) -> u32 {
    id.map_or(0, |id| id.get() + 1)
}

pub fn nodes(doc: &Document) -> Vec<Node> {
    let node = |n: &super::NodeData| {
        let kind = match &n.kind {
            NodeKind::Root => Kind::Root,
            NodeKind::Text(text) => Kind::Text(text.clone()),
            NodeKind::Element { tag_name, attributes } => {
                let entry = |a: &super::Attribute| Entry {
                    name: a.name.to_str().to_string(),
                    value: a.value.to_string(),
                    important: a.important,
                };
                let entries = doc.attrs[attributes.to_urange()].iter().map(entry).collect();
                Kind::Element { name: tag_name.to_str().to_string(), entries }
            }
        };
        let (first, last) = (n.children.map(|c| c.0), n.children.map(|c| c.1));
        Node { links: [n.parent, n.next_sibling, first, last].map(link), kind }
    };
    doc.nodes.iter().map(node).collect()
}
