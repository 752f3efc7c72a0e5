//! The tree of a drawing: tables that are large enough, and what stands in them by names.
use crate::commands::{Command, Commands};
use crate::library::{self, Counts, Lent, Tables};
use crate::{names, Drawing, Refusal};
use std::ops::Range;

/// A table of a tree has at most so many bytes, 64 MB: room for 2 million nodes or 3 million attributes.
const LARGEST: usize = 1 << 26;

/// The tree that the panel holds for a drawing. Nodes are numbered in the order of the tree; number 0 is the root, which stands above the
/// top element.
///
/// ```
/// use storkvanity::{Drawing, Tree};
///
/// let drawing = Drawing::from_xml("<svg xmlns='http://www.w3.org/2000/svg'><text id='load'>12 kg</text></svg>")?;
/// let mut tree = Tree::build(drawing)?;
/// let load = tree.element_by_id("load")?.unwrap();
/// assert_eq!(tree.text(load), "12 kg");
/// tree.exchange(1, "15 kg")?;
/// assert_eq!(tree.text(load), "15 kg");
/// assert_eq!(tree.exchange(1, "9 kg").unwrap_err().number(), 32);
/// # Ok::<(), Box<dyn std::error::Error>>(())
/// ```
#[derive(Clone, Debug, PartialEq, Eq)]
pub struct Tree {
    drawing: Drawing,
    /// For each command whether it is a declaration.
    is_declaration: Vec<bool>,
    nodes: Vec<u32>,
    attributes: Vec<u32>,
    text: Vec<u8>,
    counts: Counts,
}

/// What a node is.
#[derive(Clone, Copy, Debug, PartialEq, Eq)]
pub enum Kind {
    /// What stands above the top element.
    Root,
    /// An element with this name.
    Element(&'static str),
    /// A text.
    Text,
}

/// Where a value comes from.
#[derive(Clone, Copy, Debug, PartialEq, Eq)]
pub enum Origin {
    /// An attribute of the drawing.
    Attribute,
    /// A declaration: of a rule that matches, or of a style attribute.
    Rule,
    /// One of the panel's own fixed values.
    Fixed,
}

impl Origin {
    /// The origin in one word.
    pub fn word(self) -> &'static str {
        match self {
            Origin::Attribute => "attribute",
            Origin::Rule => "rule",
            Origin::Fixed => "fixed",
        }
    }
}

/// An attribute of a node.
#[derive(Clone, Debug, PartialEq, Eq)]
pub struct Entry<'a> {
    /// Its name.
    pub name: &'static str,
    /// Its value.
    pub value: &'a str,
    /// Whether it comes from an important declaration.
    pub important: bool,
    /// Where its value comes from.
    pub origin: Origin,
}

impl Tree {
    /// The tree of a drawing. The tables grow until the tree has room, or one of them is as large as a table may be.
    pub fn build(drawing: Drawing) -> Result<Tree, Refusal> {
        let [nodes, attributes, text] = room(&drawing);
        let commands = Commands::new(drawing.script(), drawing.characters());
        let mut tree = Tree {
            is_declaration: commands.map(|command| matches!(command, Command::Declaration { .. })).collect(),
            nodes: vec![0; 8 * nodes],
            attributes: vec![0; 5 * attributes],
            text: vec![0; text],
            counts: Counts::default(),
            drawing,
        };
        loop {
            match tree.try_build() {
                Ok(counts) => {
                    tree.counts = counts;
                    return Ok(tree);
                }
                Err(refusal) if tree.grow(refusal) => {}
                Err(refusal) => return Err(refusal),
            }
        }
    }

    fn try_build(&mut self) -> Result<Counts, Refusal> {
        let Tree { drawing, nodes, attributes, text, .. } = self;
        library::build(drawing.script(), drawing.characters(), Lent { nodes, attributes, text })
    }

    /// Makes the table larger that a refusal names. False if none is named, or it may not be larger.
    fn grow(&mut self, refusal: Refusal) -> bool {
        match refusal.number() {
            22 => double(&mut self.nodes, 8),
            23 => double(&mut self.attributes, 5),
            24 => double(&mut self.text, 1),
            _ => false,
        }
    }

    /// The text with this number becomes another one of equal length, in the drawing and in the tree. A refusal changes nothing.
    pub fn exchange(&mut self, number: u32, new: impl AsRef<[u8]>) -> Result<(), Refusal> {
        let Tree { drawing, nodes, attributes, text, counts, .. } = self;
        let (script, characters) = drawing.parts_mut();
        *counts = library::exchange(script, characters, number, new.as_ref(), Lent { nodes, attributes, text })?;
        Ok(())
    }

    /// The drawing, as it is after the last exchange.
    pub fn drawing(&self) -> &Drawing {
        &self.drawing
    }

    /// The tables.
    pub fn tables(&self) -> Tables<'_> {
        let (nodes, attributes, text) = (&self.nodes, &self.attributes, &self.text);
        Tables { nodes, attributes, text, characters: self.drawing.characters(), counts: self.counts }
    }

    /// How many nodes there are, with the root.
    pub fn len(&self) -> u32 {
        self.counts.nodes
    }

    /// Always false: there is a root.
    pub fn is_empty(&self) -> bool {
        self.len() == 0
    }

    /// The entry that a node has for the attribute of this name: an index for [`Tree::entry`].
    pub fn attribute(&self, node: u32, name: &str) -> Result<Option<u32>, Refusal> {
        self.tables().attribute(node, names::attribute(name) as u32)
    }

    /// The same where the attribute may stand on an ancestor.
    pub fn find_attribute(&self, node: u32, name: &str) -> Result<Option<u32>, Refusal> {
        self.tables().find_attribute(node, names::attribute(name) as u32)
    }

    /// The last element with this id.
    pub fn element_by_id(&self, id: &str) -> Result<Option<u32>, Refusal> {
        self.tables().element_by_id(id.as_bytes())
    }

    /// The text of a node, empty where it has none. A question looks at all of the tables: [`Tree::string`] is quicker for many texts.
    pub fn text(&self, node: u32) -> &str {
        utf8(self.tables().text(node))
    }

    /// What a node is. Panics where there is no such node, as the functions below do.
    pub fn kind(&self, node: u32) -> Kind {
        match self.record(node) {
            [1, ..] => Kind::Root,
            [2, _, _, _, _, code, ..] => Kind::Element(names::ELEMENTS[*code as usize]),
            _ => Kind::Text,
        }
    }

    /// The node above.
    pub fn parent(&self, node: u32) -> Option<u32> {
        self.record(node)[1].checked_sub(1)
    }

    /// How many nodes stand above.
    pub fn depth(&self, node: u32) -> usize {
        std::iter::successors(self.parent(node), |&above| self.parent(above)).count()
    }

    /// The string of a text node; that of other nodes is empty.
    pub fn string(&self, node: u32) -> &str {
        match self.record(node) {
            [3, .., from, to] => utf8(&self.text[*from as usize..*to as usize]),
            _ => "",
        }
    }

    /// Where the attributes of an element stand: indexes for [`Tree::entry`].
    pub fn entries(&self, node: u32) -> Range<u32> {
        match self.record(node) {
            [2, .., from, to] => *from..*to,
            _ => 0..0,
        }
    }

    /// An attribute by its index.
    pub fn entry(&self, index: u32) -> Entry<'_> {
        let at = 5 * index as usize;
        let (name, important) = (names::ATTRIBUTES[self.attributes[at] as usize], self.attributes[at + 1] != 0);
        let (start, length, command) = (self.attributes[at + 2], self.attributes[at + 3], self.attributes[at + 4]);
        if command == 0 {
            return Entry { name, value: names::FIXED[start as usize - 1], important, origin: Origin::Fixed };
        }
        let value = utf8(&self.drawing.characters()[start as usize..][..length as usize]);
        let origin = if self.is_declaration[command as usize - 1] { Origin::Rule } else { Origin::Attribute };
        Entry { name, value, important, origin }
    }

    /// The node that has an attribute.
    pub fn holder(&self, entry: u32) -> Option<u32> {
        (0..self.len()).find(|&node| self.entries(node).contains(&entry))
    }

    /// A node's record, of eight words.
    fn record(&self, node: u32) -> &[u32] {
        assert!(node < self.len(), "there is no node {node}");
        &self.nodes[8 * node as usize..][..8]
    }
}

/// Strings of drawings that were built and texts of their trees are UTF-8.
fn utf8(bytes: &[u8]) -> &str {
    std::str::from_utf8(bytes).unwrap_or("")
}

/// How many node records, attribute entries and bytes of text a drawing takes if nothing in it is used or quoted elsewhere.
fn room(drawing: &Drawing) -> [usize; 3] {
    let (mut nodes, mut attributes, mut text) = (1, 0, 0);
    for command in Commands::new(drawing.script(), drawing.characters()) {
        match command {
            Command::Open { .. } => nodes += 1,
            Command::Attribute { .. } => attributes += 1,
            Command::Declaration { name: names::MARKER, .. } => attributes += 3,
            Command::Declaration { name: names::FONT, .. } => attributes += 14,
            Command::Declaration { .. } => attributes += 1,
            Command::Text(bytes) => {
                nodes += 1;
                text += bytes.len();
            }
            Command::Reading { .. } | Command::Other | Command::Close => {}
        }
    }
    [nodes, attributes, text]
}

/// Twice as much room, at least for 16 records.
fn double<T: Clone + Default>(table: &mut Vec<T>, record: usize) -> bool {
    let length = (2 * table.len()).max(16 * record);
    let fits = length * std::mem::size_of::<T>() <= LARGEST;
    if fits {
        table.resize(length, T::default());
    }
    fits
}

#[cfg(test)]
mod tests {
    use super::*;

    fn tree(xml: &str) -> Result<Tree, u32> {
        Tree::build(Drawing::from_xml(xml).unwrap()).map_err(Refusal::number)
    }

    #[test]
    fn nodes_and_entries_by_name() {
        let tree = tree(
            "<svg xmlns='http://www.w3.org/2000/svg'><style>g { fill: red !important }</style>\
             <g id='a' stroke='inherit'><text>b</text></g></svg>",
        )
        .unwrap();
        let kinds: Vec<Kind> = (0..tree.len()).map(|node| tree.kind(node)).collect();
        assert_eq!(kinds, [Kind::Root, Kind::Element("svg"), Kind::Element("g"), Kind::Element("text"), Kind::Text]);
        assert_eq!([0, 1, 4].map(|node| (tree.parent(node), tree.depth(node))), [(None, 0), (Some(0), 1), (Some(3), 4)]);
        let entries: Vec<Entry> = tree.entries(2).map(|entry| tree.entry(entry)).collect();
        let entry = |name, value, important, origin| Entry { name, value, important, origin };
        assert_eq!(entries[0], entry("id", "a", false, Origin::Attribute));
        assert_eq!(entries[1], entry("stroke", "none", false, Origin::Fixed));
        assert_eq!(entries[2], entry("fill", "red", true, Origin::Rule));
        assert_eq!((entries.len(), tree.entries(4), tree.entries(0)), (3, 0..0, 0..0));
        let fill = tree.find_attribute(3, "fill").unwrap().unwrap();
        assert_eq!((tree.holder(fill), tree.attribute(3, "fill")), (Some(2), Ok(None)));
        assert_eq!(tree.attribute(3, "unknown").map_err(Refusal::number), Err(42));
        assert_eq!(tree.attribute(5, "fill").map_err(Refusal::number), Err(41));
    }

    /// Thirteen levels of two uses each: each table must grow several times.
    #[test]
    fn tables_grow() {
        let mut xml = "<svg xmlns='http://www.w3.org/2000/svg'><text id='a0' x='1' y='2'>abc</text>".to_string();
        for level in 1..14 {
            xml += &format!("<g id='a{level}'><use href='#a{0}'/><use href='#a{0}'/></g>", level - 1);
        }
        let tree = tree(&(xml + "</svg>")).unwrap();
        assert!(tree.len() > 50_000 && tree.counts.attributes > 32_000 && tree.counts.text > 48_000);
        assert_eq!((0..tree.len()).filter(|&node| tree.string(node) == "abc").count(), (1 << 14) - 1);
    }

    #[test]
    fn tables_do_not_grow_for_ever() {
        let mut xml = "<svg xmlns='http://www.w3.org/2000/svg'><text id='a0'>".to_string() + &"a".repeat(900_000) + "</text>";
        for level in 1..9 {
            xml += &format!("<g id='a{level}'><use href='#a{0}'/><use href='#a{0}'/></g>", level - 1);
        }
        assert_eq!(tree(&(xml + "</svg>")).unwrap_err(), 24);
    }

    #[test]
    fn refusals_of_build() {
        assert_eq!(tree("<g xmlns='http://www.w3.org/2000/svg'/>").unwrap_err(), 21);
        let nested = |depth: usize| {
            "<svg xmlns='http://www.w3.org/2000/svg'>".to_string() + &"<g>".repeat(depth) + &"</g>".repeat(depth) + "</svg>"
        };
        assert_eq!([1024, 1025].map(|depth| tree(&nested(depth)).map(|tree| tree.len())), [Ok(1026), Err(20)]);
    }

    #[test]
    fn a_refused_exchange_changes_nothing() {
        let before = tree("<svg xmlns='http://www.w3.org/2000/svg'><style>a</style><text>b</text></svg>").unwrap();
        let mut after = before.clone();
        for (number, new, refused) in [(0, &b"c"[..], 30), (3, b"c", 30), (1, b"c", 31), (2, b"cd", 32), (2, b"\xff", 33)] {
            assert_eq!(after.exchange(number, new).map_err(Refusal::number), Err(refused));
            assert_eq!(after, before);
        }
        after.exchange(2, "c").unwrap();
        assert_eq!(after, Tree::build(after.drawing().clone()).unwrap());
    }
}
