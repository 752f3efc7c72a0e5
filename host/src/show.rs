//! Trees, texts and changes in lines for people.
use crate::paint::Paint;
use storkvanity::{texts, Kind, Refusal, Tree};

/// The tree: a line for each node with its number, indented, and one for each attribute with where its value comes from.
pub fn tree(tree: &Tree, paint: Paint) -> String {
    let mut lines = String::new();
    let mut depths = vec![0usize];
    for node in 1..tree.len() {
        let depth = depths[tree.parent(node).unwrap_or(0) as usize];
        depths.push(depth + 1);
        let indent = "  ".repeat(depth);
        let what = match tree.kind(node) {
            Kind::Element(name) => paint.element(name),
            _ => paint.text(&format!("{:?}", tree.string(node))),
        };
        lines += &format!("{} {indent}{what}\n", paint.aside(&format!("{node:>4}")));
        for entry in tree.entries(node).map(|entry| tree.entry(entry)) {
            let name = paint.attribute(entry.name);
            let important = if entry.important { ", important" } else { "" };
            let origin = paint.aside(&format!("({}{important})", entry.origin.word()));
            lines += &format!("     {indent}    {name}={:?} {origin}\n", entry.value);
        }
    }
    lines
}

/// An attribute, where its value comes from, and the node that has it.
pub fn entry(tree: &Tree, index: u32) -> String {
    let entry = tree.entry(index);
    let important = if entry.important { ", important" } else { "" };
    let holder = tree.holder(index).map_or(String::new(), |node| format!(" of {}", place(tree, node)));
    format!("{}={:?} ({}{important}){holder}", entry.name, entry.value, entry.origin.word())
}

/// A node: its number, and the way to it from the top element.
pub fn place(tree: &Tree, node: u32) -> String {
    let mut path: Vec<String> = Vec::new();
    let mut next = Some(node);
    while let Some(node) = next {
        match tree.kind(node) {
            Kind::Root => {}
            Kind::Text => path.push("text node".to_string()),
            Kind::Element(name) => path.push(format!("{name}{}", id(tree, node))),
        }
        next = tree.parent(node);
    }
    path.reverse();
    format!("node {node}, {}", path.join(" > "))
}

/// The id of an element behind `#`.
fn id(tree: &Tree, node: u32) -> String {
    let id = tree.entries(node).map(|entry| tree.entry(entry)).find(|entry| entry.name == "id");
    id.map_or(String::new(), |entry| format!("#{}", entry.value))
}

/// Each text of the drawing: its number, its length, where it stands, and the text elements of the tree that hold or quote it.
pub fn texts(tree: &Tree) -> Result<String, Refusal> {
    let all = texts::texts(tree.drawing());
    let mut elements = vec![Vec::new(); all.len() + 1];
    for (node, numbers) in texts::sources(tree)?.iter().enumerate() {
        for number in numbers {
            elements[*number as usize].extend(text_element(tree, node as u32));
        }
    }
    let mut lines = String::new();
    for text in all {
        let bytes = String::from_utf8_lossy(&tree.drawing().characters()[text.place.clone()]).into_owned();
        let plural = if text.place.len() == 1 { "" } else { "s" };
        lines += &format!("{}: {} byte{plural} in {}: {bytes:?}\n", text.number, text.place.len(), text.path.join(" > "));
        let elements = &mut elements[text.number as usize];
        elements.dedup();
        for element in elements {
            lines += &format!("   {}\n", place(tree, *element));
        }
    }
    Ok(lines)
}

/// The text element that a text node stands in.
fn text_element(tree: &Tree, node: u32) -> Option<u32> {
    std::iter::successors(Some(node), |&node| tree.parent(node)).find(|&node| tree.kind(node) == Kind::Element("text"))
}

/// The text nodes in which two trees of one shape differ.
pub fn changes(before: &Tree, after: &Tree, paint: Paint) -> String {
    let mut lines = String::new();
    for node in (0..after.len()).filter(|&node| before.string(node) != after.string(node)) {
        let (old, new) = (format!("{:?}", before.string(node)), format!("{:?}", after.string(node)));
        lines += &format!("{}: {} becomes {}\n", place(after, node), paint.text(&old), paint.text(&new));
    }
    if lines.is_empty() {
        lines += "Nothing in the tree is changed.\n";
    }
    lines
}
