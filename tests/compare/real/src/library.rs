//! What the host and the library make of a file: its drawing script, then tables.
use crate::tree::{Answer, Entry, Kind, Node};
use storkvanity::{Drawing, Tree};

pub fn answer(file: &[u8]) -> Answer {
    let drawing = match Drawing::from_bytes(file) {
        Ok(drawing) => drawing,
        Err(fault) if fault.is_no_xml => return Answer::NoXml,
        Err(fault) => return Answer::GivenUp(fault.words),
    };
    match Tree::build(drawing) {
        Ok(tree) => Answer::Tree((0..tree.len()).map(|node| set_out(&tree, node)).collect()),
        Err(refusal) => Answer::Refused(refusal.number()),
    }
}

fn set_out(tree: &Tree, node: u32) -> Node {
    let record = &tree.tables().nodes[8 * node as usize..][..8];
    let kind = match tree.kind(node) {
        storkvanity::Kind::Root => Kind::Root,
        storkvanity::Kind::Text => Kind::Text(tree.string(node).to_string()),
        storkvanity::Kind::Element(name) => {
            let entry = |index| {
                let entry = tree.entry(index);
                Entry { name: entry.name.to_string(), value: entry.value.to_string(), important: entry.important }
            };
            Kind::Element { name: name.to_string(), entries: tree.entries(node).map(entry).collect() }
        }
    };
    Node { links: [record[1], record[2], record[3], record[4]], kind }
}
