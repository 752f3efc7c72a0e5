//! The library's operations, each as a safe function. This is the only module that calls the exports of include/svgtree.h.
#![allow(unsafe_code)]
use crate::Refusal;

/// How many records and bytes of the tables are taken.
#[derive(Clone, Copy, Debug, Default, PartialEq, Eq)]
#[repr(C)]
pub struct Counts {
    /// Node records.
    pub nodes: u32,
    /// Attribute entries.
    pub attributes: u32,
    /// Bytes of text.
    pub text: u32,
}

/// The answer to a question: a number, whether there is an index, and the index.
#[derive(Clone, Copy)]
#[repr(C)]
struct Answer {
    number: u32,
    found: u32,
    index: u32,
}

/// What build and exchange answer: a number, and how much of the tables is taken.
#[derive(Clone, Copy)]
#[repr(C)]
struct Built {
    number: u32,
    counts: Counts,
}

/// A part of the text table.
#[derive(Clone, Copy)]
#[repr(C)]
struct Part {
    start: u32,
    size: u32,
}

#[link(name = "svgtree", kind = "static")]
#[rustfmt::skip]
extern "C" {
    fn svgtree_check(script: *const u8, script_len: usize, characters: *const u8, characters_len: usize) -> u32;
    fn svgtree_build(
        script: *const u8, script_len: usize, characters: *const u8, characters_len: usize,
        nodes: *mut u32, nodes_len: usize, attributes: *mut u32, attributes_len: usize, text: *mut u8, text_len: usize) -> Built;
    fn svgtree_exchange(
        script: *const u8, script_len: usize, characters: *mut u8, characters_len: usize, number: u32, new: *const u8, new_len: usize,
        nodes: *mut u32, nodes_len: usize, attributes: *mut u32, attributes_len: usize, text: *mut u8, text_len: usize) -> Built;
    fn svgtree_attribute(
        nodes: *const u32, nodes_len: usize, attributes: *const u32, attributes_len: usize, text: *const u8, text_len: usize,
        characters: *const u8, characters_len: usize, counts: Counts, node: u32, name: u32) -> Answer;
    fn svgtree_find_attribute(
        nodes: *const u32, nodes_len: usize, attributes: *const u32, attributes_len: usize, text: *const u8, text_len: usize,
        characters: *const u8, characters_len: usize, counts: Counts, node: u32, name: u32) -> Answer;
    fn svgtree_element_by_id(
        nodes: *const u32, nodes_len: usize, attributes: *const u32, attributes_len: usize, text: *const u8, text_len: usize,
        characters: *const u8, characters_len: usize, counts: Counts, id: *const u8, id_len: usize) -> Answer;
    fn svgtree_text(
        nodes: *const u32, nodes_len: usize, attributes: *const u32, attributes_len: usize, text: *const u8, text_len: usize,
        characters: *const u8, characters_len: usize, counts: Counts, node: u32) -> Part;
}

// SAFETY, for every call below: each pointer and length are those of one slice that lives through the call. What the library writes to is
// borrowed for writing, so no other slice overlaps it.

/// Whether the panel takes a drawing of these commands and strings.
pub fn check(script: &[u8], characters: &[u8]) -> Result<(), Refusal> {
    match unsafe { svgtree_check(script.as_ptr(), script.len(), characters.as_ptr(), characters.len()) } {
        0 => Ok(()),
        number => Err(Refusal::new(number)),
    }
}

/// Tables that are lent to [`build`] and [`exchange`]. What they hold before does not matter.
#[derive(Debug)]
pub struct Lent<'a> {
    /// Room for node records of eight words.
    pub nodes: &'a mut [u32],
    /// Room for attribute entries of five words.
    pub attributes: &'a mut [u32],
    /// Room for texts.
    pub text: &'a mut [u8],
}

/// The tree of a drawing, in the tables. A refusal clears them.
#[rustfmt::skip]
pub fn build(script: &[u8], characters: &[u8], lent: Lent) -> Result<Counts, Refusal> {
    let Lent { nodes, attributes, text } = lent;
    built(with_stack(|| unsafe { svgtree_build(
        script.as_ptr(), script.len(), characters.as_ptr(), characters.len(), nodes.as_mut_ptr(), nodes.len(),
        attributes.as_mut_ptr(), attributes.len(), text.as_mut_ptr(), text.len()) }))
}

/// The text with that number, counted from 1, becomes `new`, and the tables are those of the changed drawing. Refusals 1 to 9 and 30 to 33
/// touch nothing; 20 to 24 leave the characters and clear the tables.
#[rustfmt::skip]
pub fn exchange(script: &[u8], characters: &mut [u8], number: u32, new: &[u8], lent: Lent) -> Result<Counts, Refusal> {
    let Lent { nodes, attributes, text } = lent;
    built(with_stack(|| unsafe { svgtree_exchange(
        script.as_ptr(), script.len(), characters.as_mut_ptr(), characters.len(), number, new.as_ptr(), new.len(),
        nodes.as_mut_ptr(), nodes.len(), attributes.as_mut_ptr(), attributes.len(), text.as_mut_ptr(), text.len()) }))
}

/// The stack of a thread that builds: twice what docs/MANUAL.md asks for.
const STACK: usize = 512 << 10;

/// Runs a call that takes more stack the deeper a drawing nests, in a thread that has enough for every drawing.
fn with_stack<T: Send>(call: impl FnOnce() -> T + Send) -> T {
    std::thread::scope(|scope| {
        let thread = std::thread::Builder::new().stack_size(STACK).spawn_scoped(scope, call);
        thread.expect("the system starts a thread").join().expect("the library does not panic")
    })
}

/// The tables of a tree, and the characters of its drawing: what the four questions are asked of. Any content gets an answer.
#[derive(Clone, Copy, Debug)]
pub struct Tables<'a> {
    /// Node records of eight words.
    pub nodes: &'a [u32],
    /// Attribute entries of five words.
    pub attributes: &'a [u32],
    /// The texts of text nodes.
    pub text: &'a [u8],
    /// The strings of the drawing's commands.
    pub characters: &'a [u8],
    /// How much of the tables is taken.
    pub counts: Counts,
}

#[rustfmt::skip]
impl<'a> Tables<'a> {
    /// The entry that a node has for an attribute: an index of the attribute table.
    pub fn attribute(&self, node: u32, name: u32) -> Result<Option<u32>, Refusal> {
        answered(unsafe { svgtree_attribute(
            self.nodes.as_ptr(), self.nodes.len(), self.attributes.as_ptr(), self.attributes.len(), self.text.as_ptr(), self.text.len(),
            self.characters.as_ptr(), self.characters.len(), self.counts, node, name) })
    }

    /// The same where the attribute may stand on an ancestor.
    pub fn find_attribute(&self, node: u32, name: u32) -> Result<Option<u32>, Refusal> {
        answered(unsafe { svgtree_find_attribute(
            self.nodes.as_ptr(), self.nodes.len(), self.attributes.as_ptr(), self.attributes.len(), self.text.as_ptr(), self.text.len(),
            self.characters.as_ptr(), self.characters.len(), self.counts, node, name) })
    }

    /// The last element with that id: an index of the node table.
    pub fn element_by_id(&self, id: &[u8]) -> Result<Option<u32>, Refusal> {
        answered(unsafe { svgtree_element_by_id(
            self.nodes.as_ptr(), self.nodes.len(), self.attributes.as_ptr(), self.attributes.len(), self.text.as_ptr(), self.text.len(),
            self.characters.as_ptr(), self.characters.len(), self.counts, id.as_ptr(), id.len()) })
    }

    /// The text of a node, empty where it has none.
    pub fn text(&self, node: u32) -> &'a [u8] {
        let part = unsafe { svgtree_text(
            self.nodes.as_ptr(), self.nodes.len(), self.attributes.as_ptr(), self.attributes.len(), self.text.as_ptr(), self.text.len(),
            self.characters.as_ptr(), self.characters.len(), self.counts, node) };
        &self.text[part.start as usize..][..part.size as usize]
    }
}

fn built(built: Built) -> Result<Counts, Refusal> {
    match built.number {
        0 => Ok(built.counts),
        number => Err(Refusal::new(number)),
    }
}

fn answered(answer: Answer) -> Result<Option<u32>, Refusal> {
    match answer.number {
        0 => Ok(Some(answer.index).filter(|_| answer.found != 0)),
        number => Err(Refusal::new(number)),
    }
}

#[cfg(test)]
mod tests {
    use super::*;
    use crate::names::attribute;

    /// `<svg id="a"><text>bc</text></svg>` as tables.
    #[rustfmt::skip]
    static NODES: [u32; 32] = [
        1, 0, 0, 2, 2, 0, 0, 0,
        2, 1, 0, 3, 3, 45, 0, 1,
        2, 2, 0, 4, 4, 48, 1, 1,
        3, 3, 0, 0, 0, 0, 0, 2,
    ];

    fn tables(attributes: &[u32]) -> Tables<'_> {
        let counts = Counts { nodes: 4, attributes: 1, text: 2 };
        Tables { nodes: &NODES, attributes, text: b"bc", characters: b"abc", counts }
    }

    /// The script of that drawing.
    #[rustfmt::skip]
    static SCRIPT: [u8; 21] = [1, 45, 1, 2, 65, 0, 1, 0, 0, 0, 1, 48, 1, 5, 2, 0, 0, 0, 7, 7, 6];

    #[test]
    fn build_and_exchange() {
        let mut characters = *b"abc";
        let (mut nodes, mut attributes, mut text) = ([9; 40], [9; 6], [9; 3]);
        let lent = Lent { nodes: &mut nodes, attributes: &mut attributes, text: &mut text };
        let counts = Counts { nodes: 4, attributes: 1, text: 2 };
        assert_eq!(build(&SCRIPT, &characters, lent), Ok(counts));
        assert_eq!((&nodes[..32], nodes[32..].to_vec()), (&NODES[..], vec![0; 8]));
        assert_eq!((attributes, text), ([65, 0, 0, 1, 2, 0], *b"bc\0"));

        let lent = Lent { nodes: &mut nodes, attributes: &mut attributes, text: &mut text };
        assert_eq!(exchange(&SCRIPT, &mut characters, 1, b"de", lent), Ok(counts));
        assert_eq!((characters, text), (*b"ade", *b"de\0"));
        for (number, new, refused) in [(0, &b"fg"[..], 30), (2, b"fg", 30), (1, b"fgh", 32), (1, b"\xc3\x28", 33)] {
            let lent = Lent { nodes: &mut nodes, attributes: &mut attributes, text: &mut text };
            assert_eq!(exchange(&SCRIPT, &mut characters, number, new, lent).map_err(Refusal::number), Err(refused));
            assert_eq!((characters, text, &nodes[..32]), (*b"ade", *b"de\0", &NODES[..]));
        }
    }

    #[test]
    fn a_refused_build_clears_the_tables() {
        for (room, number) in [([31, 5, 2], 22), ([32, 4, 2], 23), ([32, 5, 1], 24)] {
            let (mut nodes, mut attributes, mut text) = (vec![9; room[0]], vec![9; room[1]], vec![9; room[2]]);
            let lent = Lent { nodes: &mut nodes, attributes: &mut attributes, text: &mut text };
            assert_eq!(build(&SCRIPT, b"abc", lent).map_err(Refusal::number), Err(number));
            assert!(nodes.iter().chain(&attributes).all(|&word| word == 0) && text.iter().all(|&byte| byte == 0));
        }
    }

    #[test]
    fn questions() {
        let id = attribute("id") as u32;
        let entries = [id, 0, 0, 1, 2];
        let tables = tables(&entries);
        assert_eq!(tables.attribute(1, id), Ok(Some(0)));
        assert_eq!(tables.attribute(2, id), Ok(None));
        assert_eq!(tables.attribute(4, id).map_err(Refusal::number), Err(41));
        assert_eq!(tables.find_attribute(2, 255).map_err(Refusal::number), Err(42));
        assert_eq!(tables.find_attribute(2, attribute("fill") as u32), Ok(None));
        assert_eq!(tables.element_by_id(b"a"), Ok(Some(1)));
        assert_eq!(tables.element_by_id(b"b"), Ok(None));
        assert_eq!([1, 2, 3, 4].map(|node| tables.text(node)), [&b""[..], b"bc", b"bc", b""]);
    }

    #[test]
    fn tables_that_are_not_sound() {
        let entries = [attribute("id") as u32, 0, 3, 1, 2];
        assert_eq!(tables(&entries).element_by_id(b"a").map_err(Refusal::number), Err(40));
        assert_eq!(tables(&entries).text(3), b"");
    }
}
